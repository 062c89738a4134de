//! Several questions to one book: both sides of every limit, every room, the order of the checks,
//! and what questions do to each other. What must be answered is known from how each case is put
//! together, or follows from other calls. The model is held to it too, except where that would take
//! long.

use belfrychest::raw::{self, Page, Pages, Question, Ticket};
use outside::asking::{self, asked_in, raw_pages, raw_verdict, TAKEN};
use outside::cases::{self, Asking};
use outside::earlier::books::MOST_LISTS as FEW_LISTS;
use outside::ground::Ground;
use outside::making::books::tags;
use outside::making::lists::{nest, node, texts};
use outside::making::tickets::FRESH;
use outside::model::answers::Answer::{self, *};
use outside::model::answers::Verdict;
use outside::model::books::{bytes, check, numbers, Tagged, MOST_LISTS};
use outside::model::nodes::{words, Node};
use outside::model::pages::{self as model, PAIR_WORDS};
use outside::model::questions::{MOST_QUESTIONS, QUESTION_WORDS};
use outside::model::MOST;
use outside::paint::{hold, Word};
use outside::random::each_case;
use outside::tally::Tally;
use std::mem::{size_of, size_of_val};
use std::slice;

/// The book of the scope's figure, the tags of its zones and its samples, and one that it hasn't.
const FIGURE: &[u8] = include_bytes!("../../examples/figure.book");
const ZONES: u32 = 2;
const SAMPLES: u32 = 3;
const NEITHER: u32 = 4;

fn ask(ancestors: u32, descendants: u32, ticket: Ticket) -> Question {
    Question { ancestors, descendants, ticket }
}

/// Returns the page of a question that is refused so.
fn refusal(verdict: raw::Verdict, question: &Question) -> Page {
    Page { verdict, done: 0, count: 0, ticket: question.ticket }
}

fn taken(pages: &[Page]) -> Pages {
    raw_pages(Taken, pages)
}

/// Returns what a call answers that is refused as a whole.
fn refused(answer: Answer, questions: &[Question]) -> Pages {
    let verdict = raw_verdict(Verdict::of(answer));
    let pages: Vec<Page> =
        questions.iter().take(MOST_QUESTIONS).map(|question| refusal(verdict, question)).collect();
    raw_pages(answer, &pages)
}

/// Fails unless the library answers so into an output of this many words, writes these, and leaves
/// those after them as they were.
fn answers_unmodelled(book: &[u8], asked: &[u32], room: usize, expected: &Pages, written: &[u32]) {
    hold(&("ask", asked.len(), room), &mut vec![0; room], written, *expected, |out| {
        raw::ask(book, asked, out)
    });
}

/// Does the same with the library and the model.
fn answers(book: &[u8], asked: &[u32], room: usize, expected: &Pages, written: &[u32]) {
    asking::ask(book, asked, &mut vec![0; room]);
    answers_unmodelled(book, asked, room, expected, written);
}

/// A question to the figure's book, and the starts of all pairs that it asks for, if the book has
/// its tags.
type Known = (Question, Option<&'static [[u32; 2]]>);

const INSIDE: Known = (
    Question { ancestors: ZONES, descendants: SAMPLES, ticket: FRESH },
    Some(&[[2, 4], [3, 4], [2, 8]]),
);
const BY_ANCESTOR: Known = (
    Question { ticket: Ticket { order: 1, ..FRESH }, ..INSIDE.0 },
    Some(&[[2, 4], [2, 8], [3, 4]]),
);
const DIRECTLY: Known =
    (Question { ticket: Ticket { relation: 1, ..FRESH }, ..INSIDE.0 }, Some(&[[3, 4], [2, 8]]));
const DIRECTLY_BY_ANCESTOR: Known = (
    Question { ticket: Ticket { relation: 1, order: 1, ..FRESH }, ..INSIDE.0 },
    Some(&[[2, 8], [3, 4]]),
);
const ZONES_IN_ZONES: Known = (Question { descendants: ZONES, ..INSIDE.0 }, Some(&[[2, 3]]));
const ZONES_IN_SAMPLES: Known =
    (Question { ancestors: SAMPLES, descendants: ZONES, ticket: FRESH }, Some(&[]));
const NO_ANCESTORS: Known = (Question { ancestors: NEITHER, ..INSIDE.0 }, None);
const NO_DESCENDANTS: Known = (Question { descendants: NEITHER, ..BY_ANCESTOR.0 }, None);

/// Returns the figure's zone or sample that starts there.
fn starting_at(start: u32) -> Node {
    let nodes = [[2, 10, 2], [3, 7, 3], [4, 6, 4], [8, 9, 3]].map(node);
    nodes.into_iter().find(|node| node.start == start).expect("a node of the figure")
}

/// Returns the page of one of these questions into an output of `room` words, and the words that it
/// writes.
fn known_page((question, pairs): &Known, room: usize) -> (Page, Vec<u32>) {
    let pairs = match pairs {
        None => return (refusal(raw_verdict(Verdict::of(Absent)), question), Vec::new()),
        Some(pairs) => pairs,
    };
    let handed_out = &pairs[..pairs.len().min(room / PAIR_WORDS)];
    let place_after = |&[outer, inner]: &[u32; 2]| {
        let [first, second] =
            if question.ticket.order == 0 { [inner, outer] } else { [outer, inner] };
        Ticket { placed: 1, document: 5, first, second, ..question.ticket }
    };
    let ticket = handed_out.last().map_or(question.ticket, place_after);
    let (count, done) = (handed_out.len(), u32::from(handed_out.len() == pairs.len()));
    let nodes: Vec<Node> = handed_out.concat().into_iter().map(starting_at).collect();
    (Page { verdict: TAKEN, done, count, ticket }, words(&nodes))
}

/// Returns the pages of these questions in turn, and the words that they write.
fn known_pages(questions: &[Known], room: usize) -> (Vec<Page>, Vec<u32>) {
    let (mut pages, mut written) = (Vec::new(), Vec::new());
    for known in questions {
        let (page, words) = known_page(known, room - written.len());
        pages.push(page);
        written.extend(words);
    }
    (pages, written)
}

/// Fails unless these questions to the figure's book, wherever it lies, are answered so. Every room
/// is tried, from none up to more than enough.
fn known_answers_of(book: &[u8], questions: &[Known]) {
    let asked: Vec<Question> = questions.iter().map(|known| known.0).collect();
    let needed: usize = questions.iter().map(|known| known.1.map_or(0, <[_]>::len)).sum();
    for room in 0..PAIR_WORDS * (needed + 2) {
        let (pages, written) = known_pages(questions, room);
        answers(book, raw::words(&asked), room, &taken(&pages), &written);
    }
}

fn known_answers(questions: &[Known]) {
    known_answers_of(FIGURE, questions);
}

#[test]
fn the_figures_questions() {
    known_answers(&[]);
    known_answers(&[INSIDE, BY_ANCESTOR, DIRECTLY, DIRECTLY_BY_ANCESTOR]);
    known_answers(&[ZONES_IN_SAMPLES, ZONES_IN_ZONES, INSIDE]);
    for known in [INSIDE, ZONES_IN_ZONES, ZONES_IN_SAMPLES, NO_ANCESTORS, NO_DESCENDANTS] {
        known_answers(&[known]);
    }
}

#[test]
fn a_refused_question_before_between_and_after() {
    known_answers(&[NO_ANCESTORS, INSIDE, NO_DESCENDANTS, NO_ANCESTORS, DIRECTLY, NO_DESCENDANTS]);
    known_answers(&[NO_DESCENDANTS, NO_ANCESTORS]);
    known_answers(&[DIRECTLY, NO_ANCESTORS, BY_ANCESTOR]);
}

#[test]
fn the_same_question_twice() {
    known_answers(&[INSIDE, INSIDE]);
    known_answers(&[DIRECTLY, BY_ANCESTOR, DIRECTLY]);
    known_answers(&[ZONES_IN_ZONES; 3]);
    known_answers(&[NO_ANCESTORS, ZONES_IN_ZONES, NO_ANCESTORS]);
}

/// Asks the book at eight addresses, each a byte further than the one before.
#[test]
fn a_book_may_lie_anywhere() {
    const SHIFTS: usize = 8;
    let questions = [INSIDE, NO_DESCENDANTS, DIRECTLY_BY_ANCESTOR, ZONES_IN_ZONES];
    let mut ground = [0; FIGURE.len() + SHIFTS];
    for shift in 0..SHIFTS {
        let book = &mut ground[shift..shift + FIGURE.len()];
        book.copy_from_slice(FIGURE);
        known_answers_of(book, &questions);
    }
}

/// Asks with the tickets that came back: first each goes on, and then nothing is left.
#[test]
fn pages_go_on_from_their_tickets() {
    let mut questions = [INSIDE, BY_ANCESTOR, ZONES_IN_ZONES].map(|known| known.0);
    let counts = [([2, 0, 0], [0, 0, 0]), ([1, 1, 0], [1, 0, 0]), ([0, 2, 0], [1, 1, 0])];
    let last = [([0, 0, 1], [1, 1, 1]), ([0, 0, 0], [1, 1, 1])];
    for (expected, done) in counts.into_iter().chain(last) {
        asking::ask(FIGURE, raw::words(&questions), &mut [0; 2 * PAIR_WORDS]);
        let given = raw::ask(FIGURE, raw::words(&questions), &mut [0; 2 * PAIR_WORDS]);
        assert_eq!([0, 1, 2].map(|place| given.pages[place].count), expected);
        assert_eq!([0, 1, 2].map(|place| given.pages[place].done), done);
        (0..3).for_each(|place| questions[place].ticket = given.pages[place].ticket);
    }
}

/// Makes single calls one after the other. Each looks its two lists up in the book, and makes a
/// page call on them into what those before it have left of the output.
fn in_turn(book: &[u8], questions: &[Question], room: usize) -> (Vec<Page>, Vec<u32>) {
    let (mut out, mut from) = (vec![0; room], 0);
    let mut pages = Vec::with_capacity(questions.len());
    for question in questions {
        let page = single(book, question, &mut out[from..]);
        from += PAIR_WORDS * page.count;
        pages.push(page);
    }
    out.truncate(from);
    (pages, out)
}

fn single(book: &[u8], question: &Question, out: &mut [u32]) -> Page {
    let bodies = [question.ancestors, question.descendants].map(|tag| raw::book_body(book, tag));
    if let Some(refused) = bodies.iter().find(|body| body.verdict != TAKEN) {
        return refusal(refused.verdict, question);
    }
    let [ancestors, descendants] =
        bodies.map(|body| numbers(&book[body.from..body.from + body.bytes]));
    raw::list(&ancestors, &descendants, question.ticket, out)
}

/// Returns questions that all have another ticket, to the figure's book or one with its tags.
fn different(count: usize) -> Vec<Question> {
    let ticket = |place: u32| Ticket {
        relation: place % 2,
        order: place / 2 % 2 * u32::MAX,
        placed: place % 3,
        document: 5,
        first: place,
        second: u32::MAX - place,
    };
    let tags = [ZONES, SAMPLES, NEITHER];
    let tag = |place: u32| tags[place as usize % tags.len()];
    (0..count as u32).map(|place| ask(tag(place / 4), tag(place / 3), ticket(place))).collect()
}

/// Returns a book that is accepted, one with a faulty list, and one with faulty contents.
fn sound_and_damaged() -> [Vec<u8>; 3] {
    let mut faulty = FIGURE.to_vec();
    let level_of_the_last = faulty.len() - size_of::<u32>();
    faulty[level_of_the_last] = 0;
    assert_eq!(check(&faulty).verdict, Verdict { answer: Level, list: 1, index: 1 });
    [FIGURE.to_vec(), faulty, FIGURE[1..].to_vec()]
}

/// Tries each number of questions up to more than a call may have, some greater ones, and each with
/// words that make no whole question.
#[test]
fn numbers_of_questions_and_words() {
    const ROOM: usize = 100;
    for book in sound_and_damaged() {
        for count in (0..=2 * MOST_QUESTIONS + 1).chain([1_000, MOST, MOST + 1]) {
            let questions = different(count);
            let (expected, written) = if count <= MOST_QUESTIONS {
                let (pages, written) = in_turn(&book, &questions, ROOM);
                (taken(&pages), written)
            } else {
                (refused(Long, &questions), Vec::new())
            };
            let mut asked = raw::words(&questions).to_vec();
            answers(&book, &asked, ROOM, &expected, &written);
            for _ in 1..QUESTION_WORDS {
                asked.push(ZONES);
                answers(&book, &asked, ROOM, &refused(Ragged, &questions), &[]);
            }
        }
    }
}

/// Returns the bytes of pages, which have no others between their fields.
fn bytes_of(pages: &[Page]) -> &[u8] {
    assert_eq!(size_of::<Page>(), 10 * size_of::<u32>() + size_of::<usize>());
    unsafe { slice::from_raw_parts(pages.as_ptr().cast(), size_of_val(pages)) }
}

#[test]
fn pages_after_the_last_question_are_zero_in_every_byte() {
    let none = |pages: &[Page]| bytes_of(pages).iter().all(|&byte| byte == 0);
    for book in sound_and_damaged() {
        for count in 0..=MOST_QUESTIONS {
            let questions = different(count);
            let mut asked = raw::words(&questions).to_vec();
            for _ in 0..QUESTION_WORDS {
                let given = raw::ask(&book, &asked, &mut [0; 50]);
                assert!(none(&given.pages[count..]), "{count} questions, {} words", asked.len());
                asked.push(u32::MAX);
            }
        }
    }
    assert_eq!(size_of::<Pages>(), 2 * size_of::<u32>() + MOST_QUESTIONS * size_of::<Page>());
}

/// Tries a book whose second and third list are at odds, and whose last is empty.
#[test]
fn checks_come_in_their_order() {
    let lists: [Tagged; 4] = [
        (0, vec![node([1, 100, 1])]),
        (7, vec![node([10, 20, 2])]),
        (1 << 31, vec![node([15, 25, 2])]),
        (u32::MAX, vec![]),
    ];
    let cases = [
        (0, 7, Taken, 1),
        (7, 1 << 31, Joint, 0),
        (0, 1 << 31, Taken, 1),
        (1 << 31, 7, Joint, 0),
        (1, 7, Absent, 0),
        (7, 1, Absent, 0),
        (u32::MAX - 1, 6, Absent, 0),
        (0, u32::MAX, Taken, 0),
        (u32::MAX, 1 << 31, Taken, 0),
        (1 << 31, 1 << 31, Taken, 0),
    ];
    let questions = cases.map(|(ancestors, descendants, ..)| ask(ancestors, descendants, FRESH));
    let asked = raw::words(&questions);
    asking::ask(&bytes(&lists), asked, &mut [0; 20]);
    let given = raw::ask(&bytes(&lists), asked, &mut [0; 20]).pages;
    for (page, (_, _, answer, count)) in given.iter().zip(cases) {
        assert_eq!((page.verdict, page.count), (raw_verdict(Verdict::of(answer)), count));
        assert_eq!(page.done, u32::from(answer == Taken));
    }
    let mut faulty = lists;
    faulty[3].1 = vec![node([1, 2, 1]), node([3, 2, 1])];
    let span = raw::Verdict { answer: Span as u32, list: 3, index: 1 };
    let pages = questions.map(|question| refusal(span, &question));
    answers(&bytes(&faulty), asked, 20, &taken(&pages), &[]);
}

/// Returns a zone and as many texts in it as the longest list has then.
fn longest_field() -> Vec<Node> {
    [nest(1), texts(MOST - 1)].concat()
}

/// Asks the largest book of all as many questions as a call may have. Every other list has a zone
/// around all texts of any list. Each of these is asked about, with a list of the second half.
#[test]
fn the_longest_lists() {
    let list = |tag: u32| if tag % 2 == 0 { longest_field() } else { texts(MOST) };
    let lists: Vec<Tagged> = (0..MOST_LISTS as u32).map(|tag| (tag, list(tag))).collect();
    let tags = |place: u32| [2 * place, MOST_LISTS as u32 - 1 - place];
    let questions: Vec<Question> = (0..MOST_QUESTIONS as u32)
        .map(|place| ask(tags(place)[0], tags(place)[1], Ticket { order: place / 16, ..FRESH }))
        .collect();
    let book = bytes(&lists);
    let counts = |place: u32| MOST - 1 + tags(place)[1] as usize % 2;
    let needed: usize = (0..MOST_QUESTIONS as u32).map(counts).sum();
    for room in [PAIR_WORDS * needed, PAIR_WORDS * needed - 1, PAIR_WORDS * MOST + 9] {
        let (pages, written) = in_turn(&book, &questions, room);
        assert_eq!(written.len(), room / PAIR_WORDS * PAIR_WORDS);
        assert_eq!(pages[0].count, counts(0));
        assert_eq!(pages[31].done == 1, room == PAIR_WORDS * needed);
        answers_unmodelled(&book, raw::words(&questions), room, &taken(&pages), &written);
    }
}

/// Seeds that no other test has, for each test here that draws.
const SEEDS: [u64; 3] = [1 << 55, 1 << 56, 1 << 57];
/// The random cases of each test.
const CASES: u64 = 30_000;
/// Fewer cases than this that say something are too few.
const LEAST: u64 = 50;

/// Runs the test on random calls that aren't refused as a whole, with their questions.
fn each_taken(first_seed: u64, test: impl Fn(&Asking, &[Question]) -> bool) {
    let (mut telling, mut tally) = (0, Tally::default());
    each_case(first_seed, CASES, |random| {
        let case = cases::ask(random, Ground::Heap, &mut tally);
        if case.asked.answer == Taken {
            telling += u64::from(test(&case, asked_in(&case.words)));
        }
    });
    assert!(telling > LEAST, "{telling} of {CASES} cases say something");
}

fn wrote(page: &model::Page) -> bool {
    !page.pairs.is_empty()
}

fn is_refused(page: &model::Page) -> bool {
    page.verdict.answer != Taken
}

/// Tells whether a page like this one stands between two that wrote something.
fn is_between(pages: &[model::Page], is_one: impl Fn(&model::Page) -> bool) -> bool {
    let writers: Vec<usize> = (0..pages.len()).filter(|&place| wrote(&pages[place])).collect();
    let between = writers.first().zip(writers.last());
    between.map_or(false, |(&first, &last)| pages[first..=last].iter().any(is_one))
}

#[test]
fn questions_are_single_calls_in_turn() {
    each_taken(SEEDS[0], |case, questions| {
        let (pages, written) = in_turn(&case.book, questions, case.room);
        answers_unmodelled(&case.book, &case.words, case.room, &taken(&pages), &written);
        pages.iter().filter(|page| page.count > 0).count() >= 2
    });
}

/// Asks again without the refused questions. The others have the same pages, and the output is as
/// before.
#[test]
fn refused_questions_take_no_room() {
    each_taken(SEEDS[1], |case, questions| {
        let [coat, _] = u32::COATS;
        let [mut out, mut without] = [vec![coat; case.room], vec![coat; case.room]];
        let given = raw::ask(&case.book, &case.words, &mut out);
        let is_taken = |place: &usize| given.pages[*place].verdict == TAKEN;
        let places: Vec<usize> = (0..questions.len()).filter(is_taken).collect();
        let kept: Vec<Question> = places.iter().map(|&place| questions[place]).collect();
        let pages: Vec<Page> = places.iter().map(|&place| given.pages[place]).collect();
        assert_eq!(raw::ask(&case.book, raw::words(&kept), &mut without), taken(&pages));
        assert_eq!(out, without);
        is_between(&case.asked.pages, is_refused)
    });
}

/// What random cases must show often: in words, and whether a case shows it.
type Feature = (&'static str, fn(&Asking, &[Question], &[model::Page]) -> bool);

/// Tells whether the whole call has this answer, and as many questions as the test says.
fn whole(case: &Asking, answer: Answer, is_number: impl Fn(usize) -> bool) -> bool {
    case.asked.answer == answer && is_number(asked_in(&case.words).len())
}

const WHOLE_CALLS: [Feature; 7] = [
    ("no question", |case, _, _| whole(case, Taken, |count| count == 0)),
    ("as many as a call may have", |case, _, _| {
        whole(case, Taken, |count| count == MOST_QUESTIONS)
    }),
    ("one too many", |case, _, _| whole(case, Long, |count| count == MOST_QUESTIONS + 1)),
    ("words that aren't whole", |case, _, _| {
        whole(case, Ragged, |count| (1..=MOST_QUESTIONS).contains(&count))
    }),
    ("words that aren't whole, and too many", |case, _, _| {
        whole(case, Ragged, |count| count > MOST_QUESTIONS)
    }),
    ("too many, to a damaged book", |case, _, _| {
        case.asked.answer == Long && check(&case.book).verdict.answer != Taken
    }),
    ("words that aren't whole, to a damaged book", |case, _, _| {
        case.asked.answer == Ragged && check(&case.book).verdict.answer != Taken
    }),
];

const ROOMS: [Feature; 6] = [
    ("a page with pairs that is done", |_, _, pages| {
        pages.iter().any(|page| page.done && wrote(page))
    }),
    ("a page without pairs that is done", |_, _, pages| {
        pages.iter().any(|page| page.done && !wrote(page))
    }),
    ("a page that ends where the output ends", |case, _, pages| {
        case.room % PAIR_WORDS == 0 && pages.iter().any(|page| is_cut(page) && wrote(page))
    }),
    ("a page that ends before some words of the output", |case, _, pages| {
        case.room % PAIR_WORDS != 0 && pages.iter().any(|page| is_cut(page) && wrote(page))
    }),
    ("a second page that isn't done", |_, _, pages| {
        pages.iter().filter(|page| wrote(page)).skip(1).any(is_cut)
    }),
    ("a page that finds the output full", |_, _, pages| {
        pages.iter().any(|page| is_cut(page) && !wrote(page)) && pages.iter().any(wrote)
    }),
];

/// Tells whether a page is taken and isn't done.
fn is_cut(page: &model::Page) -> bool {
    !page.done && !is_refused(page)
}

/// Tells whether a question is ABSENT of whose two tags the book has just these.
fn is_absent(case: &Asking, has: [bool; 2]) -> bool {
    let tags = tags(&case.book);
    let lies = |question: &Question| {
        [question.ancestors, question.descendants].map(|tag| tags.contains(&tag)) == has
    };
    let answered = asked_in(&case.words).iter().zip(&case.asked.pages);
    answered.filter(|(question, _)| lies(question)).any(|(_, page)| page.verdict.answer == Absent)
}

/// Tells whether the list at this place of a book comes after those that earlier programs take.
fn is_late(place: usize) -> bool {
    place >= FEW_LISTS
}

const TAGS: [Feature; 10] = [
    ("ABSENT for the ancestors", |case, _, _| is_absent(case, [false, true])),
    ("ABSENT for the descendants", |case, _, _| is_absent(case, [true, false])),
    ("ABSENT for both", |case, _, _| is_absent(case, [false, false])),
    ("ABSENT between two that write", |_, _, pages| {
        is_between(pages, |page| page.verdict.answer == Absent)
    }),
    ("JOINT between two that write", |_, _, pages| {
        is_between(pages, |page| page.verdict.answer == Joint)
    }),
    ("one tag twice, with pairs", |_, questions, pages| {
        let is_one = |question: &Question| question.ancestors == question.descendants;
        questions.iter().zip(pages).any(|(question, page)| is_one(question) && wrote(page))
    }),
    ("pairs of one of the first lists and of one after the sixteenth", |case, _, _| {
        case.has_pairs_of(|[outer, inner]| is_late(outer) != is_late(inner))
    }),
    ("pairs of two lists after the sixteenth", |case, _, _| {
        case.has_pairs_of(|[outer, inner]| is_late(outer) && is_late(inner))
    }),
    ("one question twice, with pairs of both", |_, questions, pages| {
        let is_again = |place: usize| {
            (0..place).any(|before| questions[before] == questions[place] && wrote(&pages[before]))
        };
        (1..pages.len()).any(|place| wrote(&pages[place]) && is_again(place))
    }),
    ("a fault in a list that no question is about", |case, questions, pages| {
        let is_asked_for = |tag: u32| {
            questions
                .iter()
                .any(|question| [question.ancestors, question.descendants].contains(&tag))
        };
        let is_fault = |page: &model::Page| {
            (Level as u32..=Depth as u32).contains(&(page.verdict.answer as u32))
        };
        pages.iter().any(|page| {
            is_fault(page) && !is_asked_for(tags(&case.book)[page.verdict.list as usize])
        })
    }),
];

/// Tells whether some page has this answer, not of the first list and not of its first node.
fn is_later(pages: &[model::Page], answer: Answer) -> bool {
    let is_one =
        |verdict: Verdict| verdict.answer == answer && verdict.list > 0 && verdict.index > 0;
    pages.iter().any(|page| is_one(page.verdict))
}

const FAULTS: [Feature; 7] = [
    ("a fault in a list after the sixteenth", |_, _, pages| {
        pages.iter().any(|page| is_late(page.verdict.list as usize))
    }),
    ("CONTENTS", |_, _, pages| pages.iter().any(|page| page.verdict.answer == Contents)),
    ("LEVEL", |_, _, pages| is_later(pages, Level)),
    ("SPAN", |_, _, pages| is_later(pages, Span)),
    ("ORDER", |_, _, pages| is_later(pages, Order)),
    ("CROSS", |_, _, pages| is_later(pages, Cross)),
    ("DEPTH", |_, _, pages| is_later(pages, Depth)),
];

#[test]
fn each_feature_comes_often() {
    let features: Vec<&Feature> =
        WHOLE_CALLS.iter().chain(&ROOMS).chain(&TAGS).chain(&FAULTS).collect();
    let (mut seen, mut tally) = (vec![0; features.len()], Tally::default());
    each_case(SEEDS[2], CASES, |random| {
        let case = cases::ask(random, Ground::Heap, &mut tally);
        for ((_, is_shown), times) in features.iter().zip(&mut seen) {
            *times += u64::from(is_shown(&case, asked_in(&case.words), &case.asked.pages));
        }
    });
    for ((name, _), times) in features.iter().zip(seen) {
        assert!(times > LEAST, "{name}: {times} of {CASES} cases");
    }
}
