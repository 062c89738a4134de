//! Both sides of every limit. What is too large for the model, which tries all pairs, is known from
//! how the case is put together.

use belfrychest::raw::{self, Question, Ticket};
use outside::asking::{self, raw_verdict, TAKEN};
use outside::making::books::{parts, zones_and_texts};
use outside::making::lists::{nest, nest_with_one_end, texts};
use outside::making::marks::FIGURE;
use outside::making::tickets::FRESH;
use outside::model::answers::Answer::{self, *};
use outside::model::answers::{Verdict, ANCESTORS, DESCENDANTS};
use outside::model::books::{bytes, contents_end, Tagged, MOST_LISTS, NODE_BYTES, NUMBER_BYTES};
use outside::model::links::{links_of, LINK_WORDS, NONE};
use outside::model::lists::MOST_LEVEL;
use outside::model::marks::{CLOSE, ROW_WORDS, TEXT};
use outside::model::nodes::{words, Node, NODE_WORDS};
use outside::model::pages::PAIR_WORDS;
use outside::model::sheets::{MOST_HUNDREDTHS, NO_HUNDREDTHS, SUBTOTAL_WORDS};
use outside::model::{links, marks, MOST};
use outside::paint::hold;
use outside::tally::Tally;

/// The greatest level, as a number of nodes.
const DEEPEST: usize = MOST_LEVEL as usize;

/// Returns a document of `marks` marks: a root with texts.
fn document(marks: usize) -> Vec<u32> {
    [vec![1], vec![TEXT; marks - 2], vec![CLOSE]].concat()
}

/// Returns `words` words, which make neither nodes nor marks of a sound list.
fn fives(words: usize) -> Vec<u32> {
    vec![5; words]
}

fn refused(answer: Answer) -> raw::Written {
    raw::Written { verdict: raw_verdict(Verdict::of(answer)), count: 0 }
}

/// Fails unless every call refuses these words as a list, alone and as either of two.
fn draws(list: &[u32], answer: Answer) {
    let other = words(&texts(1));
    let verdict = |number| raw::Verdict { answer: answer as u32, list: number, index: 0 };
    let links = |list: &[u32]| vec![NONE; LINK_WORDS * (list.len() / NODE_WORDS)];
    assert_eq!(raw::check(list), verdict(0));
    assert_eq!(raw::links_check(list, &links(list)), verdict(0));
    assert_eq!(raw::links_check(list, &[]), verdict(0));
    hold(&answer, &mut [0; 12], &[], refused(answer), |out| raw::links(list, out));
    for (ancestors, descendants, number) in
        [(list, &other[..], ANCESTORS), (&other, list, DESCENDANTS), (list, list, ANCESTORS)]
    {
        assert_eq!(raw::check_two(ancestors, descendants), verdict(number));
        let part = raw::Part { verdict: verdict(number), from: 0, words: 0 };
        assert_eq!(raw::faulty(ancestors, descendants), part);
        let page = raw::Page { verdict: verdict(number), done: 0, count: 0, ticket: FRESH };
        hold(&answer, &mut [0; 12], &[], page, |out| raw::list(ancestors, descendants, FRESH, out));
        for links in [links(ancestors), vec![]] {
            hold(&answer, &mut [0; 12], &[], page, |out| {
                raw::list_linked(ancestors, descendants, &links, FRESH, out)
            });
        }
        let sheet = raw::Written { verdict: verdict(number), count: 0 };
        hold(&answer, &mut [0; 12], &[], sheet, |out| raw::sheet(ancestors, descendants, &[], out));
    }
}

#[test]
fn nodes_of_a_list() {
    let longest = words(&texts(MOST));
    assert_eq!(raw::check(&longest), TAKEN);
    assert_eq!(raw::check_two(&longest, &longest), TAKEN);
    draws(&words(&texts(MOST + 1)), Long);
    draws(&fives(NODE_WORDS * (MOST + 1)), Long);
    draws(&fives(NODE_WORDS * MOST + 1), Ragged);
    draws(&fives(NODE_WORDS * (MOST + 1) + 1), Ragged);
    draws(&fives(1 << 20), Long);
    draws(&fives(1), Ragged);
}

#[test]
fn links_of_the_longest_list() {
    let list = words(&texts(MOST));
    let next = |index: u32| if index + 1 < MOST as u32 { index + 1 } else { NONE };
    let expected: Vec<u32> = (0..MOST as u32).flat_map(|index| [NONE, NONE, next(index)]).collect();
    let taken = raw::Written { count: MOST, ..refused(Taken) };
    for longer in 0..=LINK_WORDS {
        hold(&longer, &mut vec![0; expected.len() + longer], &expected, taken, |out| {
            raw::links(&list, out)
        });
    }
    hold(&"one word less", &mut vec![0; expected.len() - 1], &[], refused(Room), |out| {
        raw::links(&list, out)
    });
    let wrong = raw_verdict(Verdict::of(Links));
    assert_eq!(raw::links_check(&list, &expected), TAKEN);
    assert_eq!(raw::links_check(&list, &expected[1..]), wrong);
    assert_eq!(raw::links_check(&list, &expected[LINK_WORDS..]), wrong);
    assert_eq!(raw::links_check(&list, &[&expected[..], &[NONE]].concat()), wrong);
    assert_eq!(raw::links_check(&list, &[&expected[..], &[NONE; LINK_WORDS]].concat()), wrong);
}

/// Returns the words of all pairs of a nest and of the texts in it, in descendant order or in
/// ancestor order.
fn all_pairs(zones: &[Node], texts: &[Node], order: u32) -> Vec<u32> {
    let pair = |zone: &Node, text: &Node| [zone.words(), text.words()].concat();
    match order {
        0 => texts
            .iter()
            .flat_map(|text| zones.iter().flat_map(move |zone| pair(zone, text)))
            .collect(),
        _ => zones
            .iter()
            .flat_map(|zone| texts.iter().flat_map(move |text| pair(zone, text)))
            .collect(),
    }
}

/// Returns the longest list of texts, of which the last stands where the zones of a nest end that
/// all end at one position.
fn texts_up_to_the_end(zones: &[Node]) -> Vec<Node> {
    let mut texts = texts(MOST);
    let last = &mut texts[MOST - 1];
    last.start = zones[0].end;
    last.end = zones[0].end;
    texts
}

#[test]
fn pairs_of_the_deepest_nest_with_the_longest_list() {
    let (zones, one_end) = (nest(DEEPEST - 1), nest_with_one_end(DEEPEST - 1));
    all_pairs_are_listed(&zones, &texts(MOST));
    all_pairs_are_listed(&one_end, &texts(MOST));
    all_pairs_are_listed(&one_end, &texts_up_to_the_end(&one_end));
}

/// Fails unless every zone is listed with every text, in both orders, with room for all of them and
/// for one less.
fn all_pairs_are_listed(zones: &[Node], texts: &[Node]) {
    let (ancestors, descendants) = (words(zones), words(texts));
    let count = zones.len() * texts.len();
    let [zone, text] = [zones, texts].map(|list| list[list.len() - 1].start);
    for (order, first, second) in [(0, text, zone), (1, zone, text)] {
        let expected = all_pairs(zones, texts, order);
        let given = Ticket { order, ..FRESH };
        let ticket = Ticket { placed: 1, document: 5, first, second, ..given };
        let page = raw::Page { verdict: TAKEN, done: 1, count, ticket };
        hold(&order, &mut vec![0; expected.len()], &expected, page, |out| {
            raw::list(&ancestors, &descendants, given, out)
        });
        hold(&order, &mut vec![0; expected.len()], &expected, page, |out| {
            raw::list_linked(&ancestors, &descendants, &links_of(zones), given, out)
        });
        let mut one_less = vec![0; expected.len() - 1];
        let page = raw::list(&ancestors, &descendants, given, &mut one_less);
        assert_eq!((page.done, page.count), (0, count - 1));
        assert_eq!(one_less[..PAIR_WORDS * (count - 1)], expected[..PAIR_WORDS * (count - 1)]);
    }
}

#[test]
fn levels() {
    for (level, answer) in [
        (0, Level),
        (1, Taken),
        (63, Taken),
        (64, Taken),
        (65, Level),
        (1 << 31, Level),
        (u32::MAX, Level),
    ] {
        assert_eq!(asking::check(&[5, 1, 1, level]), answer);
        assert_eq!(asking::links(&[5, 1, 9, level], &mut [0; 3]), answer);
    }
}

#[test]
fn the_deepest_nest() {
    for nest in [nest, nest_with_one_end] {
        let zones = words(&nest(DEEPEST));
        assert_eq!(asking::check(&zones), Taken);
        assert_eq!(asking::links(&zones, &mut [0; LINK_WORDS * DEEPEST]), Taken);
        assert_eq!(asking::links_check(&zones, &links_of(&nest(DEEPEST))), Taken);
        assert_eq!(asking::links_check(&zones, &links_of(&nest(DEEPEST - 1))), Links);
        for (relation, order) in [(0, 0), (0, 1), (1, 0), (1, 1)] {
            let ticket = Ticket { relation, order, ..FRESH };
            assert_eq!(asking::list(&zones, &zones, ticket, &mut [0; 20_000]), Taken);
        }
        let most = [MOST_HUNDREDTHS; DEEPEST];
        assert_eq!(asking::sheet(&zones, &zones, &most, &mut [0; SUBTOTAL_WORDS * DEEPEST]), Taken);
        let deeper = words(&nest(DEEPEST + 1));
        assert_eq!(asking::check(&deeper), Level);
        assert_eq!(raw::check(&deeper).index, MOST_LEVEL);
        assert_eq!(asking::links_check(&deeper, &links_of(&nest(DEEPEST + 1))), Level);
    }
}

/// Fails unless the marks are numbered into just as much room as their table needs, and back.
fn numbers_both_ways(marks: &[u32]) {
    let table = marks::number(7, marks, usize::MAX).words;
    assert_eq!(asking::number(7, marks, &mut vec![0; table.len()]), Taken);
    assert_eq!(asking::number(7, marks, &mut vec![0; table.len() - 1]), Room);
    assert_eq!(asking::unnumber(&table, &mut vec![0; marks.len()]), Taken);
    assert_eq!(asking::unnumber(&table, &mut vec![0; marks.len() - 1]), Room);
}

#[test]
fn marks_of_a_document() {
    numbers_both_ways(&[1, 0]);
    numbers_both_ways(&document(MOST - 1));
    numbers_both_ways(&document(MOST));
    for marks in [document(MOST + 1), fives(MOST + 1), fives(1 << 20)] {
        assert_eq!(asking::number(7, &marks, &mut [0; 10]), Long);
    }
    assert_eq!(asking::number(7, &fives(MOST), &mut [0; 10]), Deep);
}

#[test]
fn depth_of_a_document() {
    let chain =
        |depth: usize, within: &[u32]| [&vec![1; depth], within, &vec![CLOSE; depth]].concat();
    numbers_both_ways(&chain(DEEPEST, &[]));
    numbers_both_ways(&chain(DEEPEST - 1, &[TEXT]));
    numbers_both_ways(&chain(1, &chain(DEEPEST - 1, &[]).repeat(32)));
    for marks in [chain(DEEPEST + 1, &[]), chain(DEEPEST, &[TEXT])] {
        assert_eq!(asking::number(7, &marks, &mut [0; 1_000]), Deep);
    }
}

#[test]
fn tags_of_marks() {
    for (tag, answer) in [
        (1, Taken),
        (TEXT - 1, Taken),
        (TEXT, Stray),
        (TEXT + 1, Mark),
        (1 << 31, Mark),
        (u32::MAX, Mark),
    ] {
        assert_eq!(asking::number(7, &[tag, CLOSE], &mut [0; 5]), answer);
    }
    for (tag, answer) in [
        (0, Table),
        (1, Taken),
        (TEXT - 1, Taken),
        (TEXT, Table),
        (TEXT + 1, Table),
        (u32::MAX, Table),
    ] {
        assert_eq!(asking::unnumber(&[7, 1, 2, 1, tag], &mut [0; 2]), answer);
    }
}

#[test]
fn rows_of_a_table() {
    let table = |rows: usize| {
        let text = |row: u32| [7, row, row, 2, TEXT];
        let root = [7, 1, rows as u32 + 1, 1, 1];
        [root].into_iter().chain((2..=rows as u32).map(text)).flatten().collect::<Vec<u32>>()
    };
    let mut out = vec![0; MOST + 1];
    assert_eq!(asking::unnumber(&table(MOST - 1), &mut out), Taken);
    assert_eq!(asking::unnumber(&table(MOST), &mut out), Table);
    assert_eq!(asking::unnumber(&table(MOST + 1), &mut out), Long);
    assert_eq!(asking::unnumber(&fives(ROW_WORDS * MOST + 1), &mut out), Ragged);
    assert_eq!(asking::unnumber(&fives(ROW_WORDS * (MOST + 1) + 1), &mut out), Ragged);
    assert_eq!(asking::unnumber(&[], &mut out), Table);
    for (rows, answer) in [(MOST, Taken), (MOST + 1, Long)] {
        assert_eq!(asking::pick(&table(rows), TEXT, &mut vec![0; NODE_WORDS * (rows - 1)]), answer);
        assert_eq!(
            asking::pick(&fives(ROW_WORDS * rows), 5, &mut vec![0; NODE_WORDS * rows]),
            answer
        );
    }
    assert_eq!(asking::pick(&table(MOST), TEXT, &mut vec![0; NODE_WORDS * (MOST - 1) - 1]), Room);
    assert_eq!(asking::pick(&fives(ROW_WORDS * (MOST + 1) + 1), 5, &mut out), Ragged);
}

/// Makes a call with each room from none up to some words more than a result of this length needs.
/// It must answer ROOM as long as the result doesn't fit.
fn fits_from(needed: usize, call: impl Fn(usize) -> Answer) {
    for room in 0..needed + 10 {
        assert_eq!(
            call(room),
            if room < needed { Room } else { Taken },
            "room {room} where {needed} are needed"
        );
    }
}

#[test]
fn rooms_of_results() {
    let table = marks::number(5, &FIGURE, usize::MAX).words;
    fits_from(6 * ROW_WORDS, |room| asking::number(5, &FIGURE, &mut vec![0; room]));
    fits_from(FIGURE.len(), |room| asking::unnumber(&table, &mut vec![0; room]));
    fits_from(2 * NODE_WORDS, |room| asking::pick(&table, 2, &mut vec![0; room]));
    fits_from(0, |room| asking::pick(&table, 9, &mut vec![0; room]));
    let zones = words(&nest(7));
    fits_from(links::links(&zones, usize::MAX).words.len(), |room| {
        asking::links(&zones, &mut vec![0; room])
    });
    fits_from(7 * SUBTOTAL_WORDS, |room| {
        asking::sheet(&zones, &words(&texts(2)), &[450, NO_HUNDREDTHS], &mut vec![0; room])
    });
    fits_from(0, |room| asking::sheet(&[], &words(&texts(1)), &[450], &mut vec![0; room]));
    fits_from(contents_end(2) + 7 * NODE_BYTES, |room| {
        asking::book_write(&[1, 3, 2, 4], &zones, &mut vec![0; room])
    });
    fits_from(contents_end(0), |room| asking::book_write(&[], &[], &mut vec![0; room]));
}

#[test]
fn rooms_of_pages() {
    let texts = words(&texts(4));
    for zones in [nest(3), nest_with_one_end(3)].map(|nest| words(&nest)) {
        for (room, order) in (0..13 * PAIR_WORDS).flat_map(|room| [(room, 0), (room, 1)]) {
            let ticket = Ticket { order, ..FRESH };
            assert_eq!(asking::list(&zones, &texts, ticket, &mut vec![0; room]), Taken);
        }
    }
}

/// Numbers of lists, on both sides of the limit and of that of earlier programs, and what a book of
/// as many answers.
const NUMBERS_OF_LISTS: [(u32, Answer); 11] = [
    (0, Taken),
    (1, Taken),
    (2, Taken),
    (15, Taken),
    (16, Taken),
    (17, Taken),
    (63, Taken),
    (64, Taken),
    (65, Contents),
    (66, Contents),
    (300, Contents),
];

#[test]
fn lists_of_a_book() {
    for (count, answer) in NUMBERS_OF_LISTS {
        let lists: Vec<Tagged> = (0..count).map(|tag| (tag, texts(tag as usize % 3))).collect();
        let book = bytes(&lists);
        assert_eq!(asking::book_check(&book), answer, "{count} lists");
        for tag in 0..=count {
            let held = if tag < count { Taken } else { Absent };
            assert_eq!(asking::book_body(&book, tag), if answer == Taken { held } else { answer });
        }
        let (entries, nodes) = parts(&lists);
        let mut out = vec![0; book.len()];
        assert_eq!(asking::book_write(&entries, &nodes, &mut out), answer, "{count} lists");
        assert_eq!(out == book, answer == Taken, "{count} lists");
    }
}

/// Asks about the first list, which has zones, and about the last, which has texts in them.
#[test]
fn questions_about_the_first_and_the_last_list() {
    for (count, answer) in NUMBERS_OF_LISTS.into_iter().filter(|&(count, _)| count >= 2) {
        let last = count - 1;
        let questions = [[0, last], [last, 0], [last, last], [0, 0], [0, count]]
            .map(|[ancestors, descendants]| Question { ancestors, descendants, ticket: FRESH });
        let book = bytes(&zones_and_texts(count));
        let asked = asking::ask(&book, raw::words(&questions), &mut [0; 100]);
        let found = asked.pages.iter().map(|page| (page.verdict.answer, page.pairs.len()));
        let expected = match answer {
            Taken => [(Taken, 6), (Taken, 0), (Taken, 0), (Taken, 3), (Absent, 0)],
            _ => [(answer, 0); 5],
        };
        assert_eq!(found.collect::<Vec<_>>(), expected, "{count} lists");
    }
}

#[test]
fn tags_of_a_book() {
    let some = texts(2);
    for (tags, answer) in [
        ([0, u32::MAX], Taken),
        ([0, 1], Taken),
        ([1, 1], Contents),
        ([u32::MAX, 0], Contents),
        ([1 << 31, (1 << 31) - 1], Contents),
    ] {
        let book = bytes(&tags.map(|tag| (tag, some.clone())));
        assert_eq!(asking::book_check(&book), answer);
        for tag in [0, 1, 2, 1 << 31, u32::MAX] {
            let held = if tags.contains(&tag) { Taken } else { Absent };
            assert_eq!(asking::book_body(&book, tag), if answer == Taken { held } else { answer });
        }
        assert_eq!(
            asking::book_write(
                &[tags[0], 2, tags[1], 2],
                &words(&[some.clone(), some.clone()].concat()),
                &mut [0; 100]
            ),
            answer
        );
    }
}

/// The bytes of the largest book of all: 64 lists of the greatest length.
const LARGEST: usize = 4_195_076;

/// Returns the lists of the largest book, each in a document of its own.
fn lists_of_the_largest() -> Vec<Tagged> {
    let of = |document: u32| texts(MOST).into_iter().map(move |node| Node { document, ..node });
    (0..MOST_LISTS as u32).map(|tag| (tag, of(tag).collect())).collect()
}

/// Returns of each list of the largest book its tag, where it begins, and how many bytes it has.
fn bodies_of_the_largest() -> impl Iterator<Item = (u32, usize, usize)> {
    let of_one = MOST * NODE_BYTES;
    (0..64).map(move |tag| (tag, contents_end(64) + of_one * tag as usize, of_one))
}

#[test]
fn the_largest_book() {
    let lists = lists_of_the_largest();
    let book = bytes(&lists);
    assert_eq!(book.len(), LARGEST);
    assert_eq!(raw::book_check(&book), raw::Book { verdict: TAKEN, lists: 64 });
    for (tag, from, bytes) in bodies_of_the_largest() {
        assert_eq!(raw::book_body(&book, tag), raw::Body { verdict: TAKEN, from, bytes });
    }
    let absent = raw::Body { verdict: raw_verdict(Verdict::of(Absent)), from: 0, bytes: 0 };
    assert_eq!(raw::book_body(&book, 64), absent);
    let (entries, nodes) = parts(&lists);
    let taken = raw::Written { count: LARGEST, ..refused(Taken) };
    hold(&"all", &mut vec![0; LARGEST], &book, taken, |out| raw::book_write(&entries, &nodes, out));
    hold(&"one byte less", &mut vec![0; LARGEST - 1], &[], refused(Room), |out| {
        raw::book_write(&entries, &nodes, out)
    });
    assert_eq!(raw::book_check(&book[1..]).verdict.answer, Contents as u32);
    assert_eq!(raw::book_check(&book[..LARGEST - 1]).verdict.answer, Contents as u32);
}

#[test]
fn the_largest_book_by_the_functions_of_the_rust_package() {
    let lists = lists_of_the_largest();
    let (entries, nodes) = parts(&lists);
    let (entries, nodes) = (raw::items(&entries).unwrap(), raw::items(&nodes).unwrap());
    let book = belfrychest::book_write(entries, nodes).expect("a book that is written");
    assert_eq!((book.len(), belfrychest::book_bytes(64, 64 * MOST)), (LARGEST, LARGEST));
    assert!(book == bytes(&lists), "the book isn't the model's");
    assert_eq!(belfrychest::book_check(&book), Ok(64));
    for (tag, from, bytes) in bodies_of_the_largest() {
        let body = belfrychest::book_body(&book, tag).expect("a list of the book");
        assert!(body == &book[from..from + bytes], "the list of tag {tag} lies elsewhere");
    }
    let absent = belfrychest::book_body(&book, 64).expect_err("a tag that isn't there");
    assert_eq!(absent.answer, belfrychest::Answer::Absent);
    let mut short = vec![0xA5; LARGEST - 1];
    let room = belfrychest::book_write_into(entries, nodes, &mut short).expect_err("too little");
    assert_eq!(room.answer, belfrychest::Answer::Room);
    assert!(short.iter().all(|&byte| byte == 0xA5), "the output is altered");
}

#[test]
fn counts_of_a_book() {
    let too_many = bytes(&[(1, texts(MOST + 1))]);
    assert_eq!(asking::book_check(&too_many), Contents);
    assert_eq!(
        asking::book_write(
            &[1, MOST as u32 + 1],
            &words(&texts(MOST + 1)),
            &mut vec![0; too_many.len()]
        ),
        Contents
    );
    let one = bytes(&[(1, texts(1))]);
    let count_of_the_first = contents_end(1) - NUMBER_BYTES;
    for more in [0, 1 << 28, 1 << 29, 15 << 28] {
        let mut book = one.clone();
        book[count_of_the_first..contents_end(1)].copy_from_slice(&(1_u32 + more).to_le_bytes());
        let answer = if more == 0 { Taken } else { Contents };
        assert_eq!(asking::book_check(&book), answer);
        assert_eq!(asking::book_write(&[1, 1 + more], &words(&texts(1)), &mut [0; 100]), answer);
    }
}

/// Tries counts that add up to the nodes only where sums wrap at 32 bits.
#[test]
fn counts_that_wrap() {
    for counts in [
        [u32::MAX, 2],
        [1 << 31, 1 + (1 << 31)],
        [2, u32::MAX],
        [u32::MAX - MOST as u32 + 2, MOST as u32],
    ] {
        assert_eq!(
            asking::book_write(&[1, counts[0], 2, counts[1]], &words(&texts(1)), &mut [0; 100]),
            Contents
        );
    }
}

#[test]
fn greatest_and_least_numbers() {
    let mut tally = Tally::default();
    let edges = [0, 1, 1 << 31, u32::MAX - 1, u32::MAX];
    let spans: Vec<[u32; 2]> =
        edges.iter().flat_map(|&start| edges.map(|end| [start, end])).collect();
    for (x, y) in spans.iter().flat_map(|x| spans.iter().map(move |y| (x, y))) {
        for documents in [[0, 0], [u32::MAX, u32::MAX], [0, u32::MAX], [1 << 31, 0]] {
            let outer = [documents[0], x[0], x[1], 1];
            let inner = [documents[1], y[0], y[1], 2];
            tally.count(asking::check(&[outer, inner].concat()));
            asking::links(&[outer, inner].concat(), &mut [0; 6]);
            for links in [[NONE, 1, NONE, 0, NONE, NONE], [NONE, NONE, 1, NONE, NONE, NONE]] {
                asking::links_check(&[outer, inner].concat(), &links);
            }
            for ticket in [FRESH, Ticket { relation: 1, order: 1, ..FRESH }] {
                asking::list(&outer, &inner, ticket, &mut [0; 9]);
            }
            asking::sheet(&outer, &inner, &[450], &mut [0; 4]);
        }
    }
    tally.hold(&[Taken, Span, Order, Cross]);
}
