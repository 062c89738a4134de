//! Every refusal, at every place where it can be drawn. What must be answered is known from how
//! each case is put together.

use belfrychest::raw::{self, Question, Ticket};
use outside::asking::{self, raw_pages, raw_verdict};
use outside::making::books::parts;
use outside::making::hundredths::FAULTY;
use outside::making::marks::FIGURE;
use outside::making::tickets::FRESH;
use outside::model::answers::Answer::{self, *};
use outside::model::answers::{Verdict, ANCESTORS, DESCENDANTS};
use outside::model::books::{bytes, contents_end, numbers, Tagged, MOST_LISTS, NUMBER_BYTES};
use outside::model::links::{LINK_WORDS, NONE};
use outside::model::lists::MOST_LEVEL;
use outside::model::marks::{CLOSE, ROW_WORDS, TEXT};
use outside::model::nodes::{words, Node, NODE_WORDS};
use outside::model::sheets::{NO_HUNDREDTHS, SUBTOTAL_WORDS};
use outside::model::MOST;
use outside::paint::hold;

/// The nodes of the lists that get a fault at every index.
const NODES: usize = 40;
/// The words of an output that stays as it was; no multiple of a pair's or a link's.
const ROOM: usize = 29;

/// Returns a zone, and inside it, side by side, the other nodes, with space between them and
/// between their levels.
fn sound(count: usize) -> Vec<Node> {
    let inner =
        |place: u32| Node { document: 5, start: 10 * place + 10, end: 10 * place + 15, level: 4 };
    let zone = Node { document: 5, start: 10, end: 10 * count as u32 + 10, level: 2 };
    [zone].into_iter().chain((1..count as u32).map(inner)).collect()
}

/// An answer, and an edit of the node at an index of the list above that draws it there and nowhere
/// before.
type Fault = (Answer, fn(&mut [Node], usize));

/// The faults that any node can have.
const ANYWHERE: [Fault; 5] = [
    (Level, |list, index| list[index].level = 0),
    (Level, |list, index| list[index].level = MOST_LEVEL + 1),
    (Level, |list, index| list[index].level = u32::MAX),
    (Span, |list, index| list[index].end = list[index].start - 1),
    (Span, |list, index| list[index].end = 0),
];

/// The faults that a node can have that isn't the first.
const AFTER_THE_FIRST: [Fault; 8] = [
    (Order, |list, index| list[index].start = list[index - 1].start),
    (Order, |list, index| list[index].document = list[index - 1].document - 1),
    (Cross, |list, index| list[index].end = list[0].end + 1),
    (Cross, |list, index| list[index].end = u32::MAX),
    (Cross, |list, index| {
        list[index].start = list[index - 1].end;
        list[index].end = list[index].end.max(list[index].start + 1);
    }),
    (Depth, |list, index| list[index].level = list[0].level),
    (Depth, |list, index| list[index].level = 1),
    (Depth, |list, index| {
        list[index].end = list[0].end;
        list[index].level = list[0].level;
    }),
];

/// Runs the test on each list of `count` nodes that has a fault at this index, with the fault's
/// answer.
fn each_fault(count: usize, index: usize, test: impl Fn(&[Node], Answer)) {
    let faults = ANYWHERE.iter().chain(AFTER_THE_FIRST.iter().filter(|_| index > 0));
    for (answer, put) in faults {
        let mut list = sound(count);
        put(&mut list, index);
        test(&list, *answer);
    }
}

/// Does the same for each index of a list of forty nodes, and for the first and the last of the
/// longest list.
fn each_fault_anywhere(test: impl Fn(&[Node], Answer, usize)) {
    for index in 0..NODES {
        each_fault(NODES, index, |list, answer| test(list, answer, index));
    }
    for index in [0, MOST - 1] {
        each_fault(MOST, index, |list, answer| test(list, answer, index));
    }
}

/// Returns words that may be lent as links of a list: none, what the archive writes if it does, and
/// others, as many as the list needs and one more.
fn any_links(list: &[u32]) -> [Vec<u32>; 4] {
    let needed = LINK_WORDS * (list.len() / NODE_WORDS);
    let mut written = vec![NONE; needed];
    raw::links(list, &mut written);
    [vec![], written, vec![0; needed], vec![NONE; needed + 1]]
}

/// Fails unless all calls of two lists refuse these with this verdict, show the part at the faulty
/// node, give the ticket back and write nothing. There are too few words for a sheet, which is
/// checked later. So are links, right ones and wrong ones.
fn refuses_two(ancestors: &[Node], descendants: &[Node], verdict: Verdict, part: [usize; 2]) {
    let (ancestors, descendants) = (words(ancestors), words(descendants));
    let links = any_links(&ancestors);
    let expected = raw_verdict(verdict);
    assert_eq!(raw::check_two(&ancestors, &descendants), expected);
    assert_eq!(
        raw::faulty(&ancestors, &descendants),
        raw::Part { verdict: expected, from: part[0], words: part[1] }
    );
    let odd =
        Ticket { relation: 7, order: u32::MAX, placed: 3, document: 5, first: 20, second: 10 };
    for ticket in [FRESH, odd, Ticket { order: 1, ..FRESH }, Ticket { placed: 1, ..FRESH }] {
        let page = raw::Page { verdict: expected, done: 0, count: 0, ticket };
        hold(&verdict, &mut [0; ROOM], &[], page, |out| {
            raw::list(&ancestors, &descendants, ticket, out)
        });
        for links in &links {
            hold(&verdict, &mut [0; ROOM], &[], page, |out| {
                raw::list_linked(&ancestors, &descendants, links, ticket, out)
            });
        }
    }
    let refused = raw::Written { verdict: expected, count: 0 };
    hold(&verdict, &mut [0; ROOM], &[], refused, |out| {
        raw::sheet(&ancestors, &descendants, &[], out)
    });
}

#[test]
fn one_list() {
    each_fault_anywhere(|list, answer, index| {
        let list = words(list);
        let verdict = raw::Verdict { answer: answer as u32, list: 0, index: index as u32 };
        assert_eq!(raw::check(&list), verdict);
        let refused = raw::Written { verdict, count: 0 };
        hold(&refused, &mut [0; ROOM], &[], refused, |out| raw::links(&list, out));
        for links in any_links(&list) {
            assert_eq!(raw::links_check(&list, &links), verdict);
        }
    });
}

#[test]
fn either_of_two_lists() {
    each_fault_anywhere(|list, answer, index| {
        let part = [NODE_WORDS * index, NODE_WORDS * (list.len() - index)];
        let verdict = |list| Verdict { answer, list, index: index as u32 };
        refuses_two(list, &sound(list.len()), verdict(ANCESTORS), part);
        refuses_two(&sound(list.len()), list, verdict(DESCENDANTS), part);
        refuses_two(list, list, verdict(ANCESTORS), part);
    });
}

#[test]
fn any_list_of_a_book() {
    const LISTS: u32 = 3;
    each_fault_anywhere(|list, answer, index| {
        for faulty in 0..LISTS {
            let nodes = |place| if place == faulty { list.to_vec() } else { sound(NODES) };
            let lists: Vec<Tagged> = (0..LISTS).map(|place| (place, nodes(place))).collect();
            refuses_book(&lists, Verdict { answer, list: faulty, index: index as u32 });
        }
    });
}

/// Tries every list of a book that has as many as it may have. Either that list alone is faulty, or
/// all from it on are: the first is told.
#[test]
fn any_list_of_a_book_with_the_most_lists() {
    const LAST: u32 = MOST_LISTS as u32 - 1;
    const EACH: usize = 2;
    for (first, index) in (0..=LAST).flat_map(|list| (0..EACH).map(move |index| (list, index))) {
        each_fault(EACH, index, |list, answer| {
            for last in [first, LAST] {
                let is_faulty = |place| (first..=last).contains(&place);
                let nodes = |place| if is_faulty(place) { list.to_vec() } else { sound(EACH) };
                let lists: Vec<Tagged> = (0..=LAST).map(|place| (place, nodes(place))).collect();
                refuses_book(&lists, Verdict { answer, list: first, index: index as u32 });
            }
        });
    }
}

/// Fails unless a book of these lists is refused with this verdict. It is opened, each tag is
/// looked for in it, it is asked several questions, and it is to be written.
fn refuses_book(lists: &[Tagged], verdict: Verdict) {
    let book = bytes(lists);
    let expected = raw_verdict(verdict);
    assert_eq!(raw::book_check(&book), raw::Book { verdict: expected, lists: 0 });
    for tag in 0..=lists.len() as u32 {
        assert_eq!(raw::book_body(&book, tag), raw::Body { verdict: expected, from: 0, bytes: 0 });
    }
    refuses_questions(&book, expected);
    let (entries, nodes) = parts(lists);
    let refused = raw::Written { verdict: expected, count: 0 };
    hold(&verdict, &mut vec![0; book.len()], &[], refused, |out| {
        raw::book_write(&entries, &nodes, out)
    });
}

/// Fails unless each of several questions to a book is refused with this verdict, whatever its
/// tags, keeps its ticket and writes nothing.
fn refuses_questions(book: &[u8], verdict: raw::Verdict) {
    let ticket = |place| Ticket { relation: place, placed: 1, second: 7 * place, ..FRESH };
    let question =
        |place: u32| Question { ancestors: place / 2, descendants: 1, ticket: ticket(place) };
    let questions = [0, 1, 2, 3, 4, 5, 6, 7].map(question);
    let pages =
        questions.map(|Question { ticket, .. }| raw::Page { verdict, done: 0, count: 0, ticket });
    let expected = raw_pages(Taken, &pages);
    hold(&verdict, &mut [0; ROOM], &[], expected, |out| {
        raw::ask(book, raw::words(&questions), out)
    });
}

/// Tries lists that differ in one word of one node, so that the node is at odds with the one that
/// it was.
#[test]
fn two_lists_at_odds() {
    let edits: [fn(&mut Node); 5] = [
        |node| node.start -= 1,
        |node| node.start += 1,
        |node| node.end -= 1,
        |node| node.end += 1,
        |node| node.level += 1,
    ];
    let places = (0..NODES).map(|index| (NODES, index)).chain([(MOST, MOST - 1)]);
    for ((count, index), edit) in places.flat_map(|place| edits.map(|edit| (place, edit))) {
        let mut edited = sound(count);
        edit(&mut edited[index]);
        assert_eq!(raw::check(&words(&edited)).answer, Taken as u32);
        refuses_two(&sound(count), &edited, Verdict::of(Joint), [0, 0]);
        refuses_two(&edited, &sound(count), Verdict::of(Joint), [0, 0]);
    }
}

/// Fails unless a sheet of `count` samples refuses each faulty word at this index, whatever comes
/// after it.
fn refuses_word(count: usize, index: usize) {
    let list = words(&sound(count));
    let verdict = Verdict { index: index as u32, ..Verdict::of(Reading) };
    let refused = raw::Written { verdict: raw_verdict(verdict), count: 0 };
    for word in FAULTY {
        for after in [NO_HUNDREDTHS, word] {
            let mut hundredths = vec![NO_HUNDREDTHS; count];
            hundredths[index..].fill(after);
            hundredths[index] = word;
            hold(&(index, word), &mut vec![0; SUBTOTAL_WORDS * count], &[], refused, |out| {
                raw::sheet(&list, &list, &hundredths, out)
            });
        }
    }
}

#[test]
fn any_word_of_a_sheet() {
    for index in 0..NODES {
        refuses_word(NODES, index);
    }
    for index in [0, MOST - 1] {
        refuses_word(MOST, index);
    }
}

/// Fails unless the marks draw this answer, whatever the room.
fn draws(marks: &[u32], answer: Answer) {
    let refused = raw::Written { verdict: raw_verdict(Verdict::of(answer)), count: 0 };
    for room in [0, 1_000] {
        hold(&marks, &mut vec![0; room], &[], refused, |out| raw::number(5, marks, out));
    }
}

#[test]
fn any_mark() {
    let sound: Vec<u32> = [vec![1], vec![TEXT; NODES - 2], vec![CLOSE]].concat();
    for place in 0..NODES {
        let with = |mark| [&sound[..place], &[mark], &sound[place + 1..]].concat();
        draws(&with(TEXT + 1), Mark);
        draws(&with(u32::MAX), Mark);
        draws(&sound[..place], Unclosed);
        draws(&[&sound[..place], &[CLOSE], &sound[place..]].concat(), Stray);
        draws(&[&sound[..], &sound[..=place]].concat(), Stray);
    }
}

#[test]
fn any_mark_too_deep() {
    let deepest = MOST_LEVEL as usize;
    let sound: Vec<u32> =
        [vec![1; deepest - 1], vec![TEXT; NODES], vec![CLOSE; deepest - 1]].concat();
    for place in deepest - 1..deepest - 1 + NODES {
        for mark in [1, TEXT] {
            draws(&[&sound[..place], &[1, mark, CLOSE, CLOSE], &sound[place..]].concat(), Deep);
        }
    }
}

#[test]
fn any_word_of_a_table() {
    let mut table = [0; 6 * ROW_WORDS];
    assert_eq!(asking::number(5, &FIGURE, &mut table), Taken);
    for place in 0..table.len() {
        let was = table[place];
        let is_element_tag = place % ROW_WORDS == NODE_WORDS && was != TEXT;
        for word in [0, was - 1, was + 1, was ^ 1 << 31, u32::MAX] {
            table[place] = word;
            let answer = if is_element_tag && (1..TEXT).contains(&word) { Taken } else { Table };
            assert_eq!(asking::unnumber(&table, &mut [0; ROOM]), answer, "word {place} is {word}");
        }
        table[place] = was;
    }
}

#[test]
fn any_number_of_the_contents() {
    let lists: Vec<Tagged> = (1..=MOST_LISTS as u32).map(|tag| (tag, sound(2))).collect();
    let book = bytes(&lists);
    assert_eq!(asking::book_check(&book), Taken);
    let (first_tag, last_tag) = (contents_end(0), contents_end(MOST_LISTS - 1));
    for place in (0..contents_end(MOST_LISTS)).step_by(NUMBER_BYTES) {
        let was = numbers(&book[place..])[0];
        for number in [was - 1, was + 1, was ^ 1 << 28, was ^ 1 << 31] {
            let mut damaged = book.clone();
            damaged[place..place + NUMBER_BYTES].copy_from_slice(&number.to_le_bytes());
            let tags_ascend =
                (place == first_tag && number < was) || (place == last_tag && number > was);
            let answer = if tags_ascend { Taken } else { Contents };
            assert_eq!(
                asking::book_check(&damaged),
                answer,
                "the number at byte {place} is {number}"
            );
            if answer == Contents {
                refuses_questions(&damaged, raw_verdict(Verdict::of(Contents)));
            }
        }
    }
}
