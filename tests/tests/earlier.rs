//! This library beside programs that take at most 16 lists, which are still in the field.
//! `outside::earlier` has what they answer, write and print. docs/SCOPE.md, "The field book", says
//! what has to hold between a lower limit and a higher one.

use belfrychest::raw::{self, Question};
use outside::asking::{self, raw_body, raw_book, raw_written, TAKEN};
use outside::earlier::books::{self as earlier, body_nodes, numbers, MOST_LISTS as FEW_LISTS};
use outside::earlier::printing::{printed as printed_earlier, MOST_BYTES};
use outside::earlier::questions::pages as pages_earlier;
use outside::making::books::{
    book_of, empty_lists, lists_of, parts, shared_out, sound_lists, tags, wanted_of,
};
use outside::making::questions::question;
use outside::model::answers::Answer::*;
use outside::model::answers::{Verdict, Written};
use outside::model::books::{
    bytes, contents_end, Body, Opened, Tagged, MOST_LISTS, NODE_BYTES, NUMBER_BYTES, WANTED_WORDS,
};
use outside::model::nodes::NODE_WORDS;
use outside::model::pages::{Page, PAIR_WORDS};
use outside::model::printing::printed;
use outside::model::questions::Asked;
use outside::model::MOST;
use outside::paint::hold;
use outside::process::print;
use outside::random::{each_case, Random};
use outside::stored::each_book;
use outside::tally::Tally;

/// The cases that are made for each test, and those of them that the program is started for.
const CASES: u64 = 20_000;
const STARTS: u64 = 300;
/// Seeds that no other test has.
const SEEDS: u64 = 1 << 63;
/// Fewer cases of a kind say too little. Where the program is started, and of the stored books,
/// there are fewer.
const LEAST: u64 = 200;
const LEAST_STARTS: u64 = 20;
const LEAST_STORED: u64 = 2;

/// Returns a number of lists that an earlier program takes too. Every other one is its most, one
/// less or two less.
fn few(random: &mut Random) -> usize {
    let less = if random.one_in(2) { random.below(3) } else { random.below(FEW_LISTS + 1) };
    FEW_LISTS - less
}

/// Returns a number of lists that this library takes and an earlier program doesn't. Every other
/// one is the least of these or the greatest.
fn many(random: &mut Random) -> usize {
    match random.below(4) {
        0 => FEW_LISTS + 1,
        1 => MOST_LISTS,
        _ => FEW_LISTS + 1 + random.below(MOST_LISTS - FEW_LISTS),
    }
}

/// Returns how many lists a book says that it has.
fn lists_said(book: &[u8]) -> usize {
    let first = numbers(&book[..book.len().min(NUMBER_BYTES)]);
    first.first().map_or(0, |&lists| lists as usize)
}

/// How many cases of each kind came.
#[derive(Debug, Default)]
struct Seen {
    /// Those that both take, those of them that have as many lists as an earlier program takes, and
    /// those that both refuse.
    both: u64,
    full: u64,
    neither: u64,
    /// Those of more lists: what this library takes, and what it refuses too.
    larger: u64,
    larger_refused: u64,
}

impl Seen {
    /// Counts a case of this many lists.
    fn count(&mut self, lists: usize, is_taken: bool) {
        let is_larger = lists > FEW_LISTS;
        self.both += u64::from(is_taken && !is_larger);
        self.full += u64::from(is_taken && lists == FEW_LISTS);
        self.neither += u64::from(!is_taken && !is_larger);
        self.larger += u64::from(is_taken && is_larger);
        self.larger_refused += u64::from(!is_taken && is_larger);
    }

    /// Fails unless this many came of each kind with few lists.
    fn hold_few(&self, least: u64) {
        assert!(
            [self.both, self.full, self.neither].iter().all(|&count| count >= least),
            "{self:?}"
        );
    }

    /// Fails unless this many came of each kind with more lists.
    fn hold_many(&self, least: u64) {
        assert!([self.larger, self.larger_refused].iter().all(|&count| count >= least), "{self:?}");
    }

    /// Holds what the library reads in a book against what an earlier program reads. Up to 16 lists
    /// it is the same. Of more an earlier program shows none, and the library is held against the
    /// model.
    fn hold_book(&mut self, book: &[u8]) {
        let given = raw::book_check(book);
        let lists = lists_said(book);
        if lists > FEW_LISTS {
            hold_no_lists(book);
            asking::book_check(book);
            for tag in tags_tried(book) {
                asking::book_body(book, tag);
            }
        } else {
            let expected = raw_book(&earlier::check(book));
            assert_eq!(given, expected, "given and expected: check of {book:?}");
            tags_tried(book).for_each(|tag| hold_body(book, tag));
        }
        self.count(lists, given.verdict == TAKEN);
    }

    /// Holds what the library writes against what an earlier program writes. Up to 16 entries it is
    /// the same. From more an earlier program writes nothing, and the library is held against the
    /// model.
    fn hold_write(&mut self, entries: &[u32], nodes: &[u32], room: usize) {
        let expected = earlier::write(entries, nodes, room);
        let mut out = vec![0; room];
        let given = raw::book_write(entries, nodes, &mut out);
        if entries.len() > WANTED_WORDS * FEW_LISTS {
            let is_whole = entries.len() % WANTED_WORDS == 0 && nodes.len() % NODE_WORDS == 0;
            let refusal = Verdict::of(if is_whole { Contents } else { Ragged });
            assert_eq!(expected, Written::refused(refusal), "an earlier program from {entries:?}");
            asking::book_write(entries, nodes, &mut out);
        } else {
            let question = ("write", entries, nodes);
            hold(&question, &mut out, &expected.words, raw_written(&expected), |out| {
                raw::book_write(entries, nodes, out)
            });
        }
        self.count(entries.len() / WANTED_WORDS, given.verdict == TAKEN);
    }

    /// Holds what the program prints of a book against the model, and against what an earlier one
    /// prints. Up to 16 lists it is the same, and of more an earlier program prints a refusal.
    fn hold_printed(&mut self, book: &[u8]) {
        let given = print(book);
        assert_eq!(given, printed(book), "given and expected: printed of {book:?}");
        if lists_said(book) > FEW_LISTS {
            hold_refusal(book);
        } else {
            let expected = printed_earlier(book);
            assert_eq!(given, expected, "given and expected: printed of {book:?}");
        }
        self.count(lists_said(book), given.contains("pairs"));
    }
}

/// Returns the tags of a book, and some that it may lack.
fn tags_tried(book: &[u8]) -> impl Iterator<Item = u32> {
    tags(book).into_iter().chain([0, 1, u32::MAX])
}

/// Fails unless an earlier program reads and finds no list of a larger book, and prints a refusal.
fn hold_no_lists(book: &[u8]) {
    let verdict = Verdict::of(Contents);
    let nothing = Opened { verdict, entries: Vec::new() };
    assert_eq!(earlier::check(book), nothing, "an earlier program's check of {book:?}");
    for tag in tags_tried(book) {
        let nowhere = Body { verdict, from: 0, bytes: 0 };
        let found = earlier::body(book, tag);
        assert_eq!(found, nowhere, "an earlier program's tag {tag} in {book:?}");
    }
    hold_refusal(book);
}

/// Holds what an earlier program prints of a larger book: one line, by the size or else by the
/// number of lists.
fn hold_refusal(book: &[u8]) {
    let is_long = book.len() > MOST_BYTES;
    let refusal = if is_long { "refused 2 LONG\n" } else { "refused 15 CONTENTS\n" };
    assert_eq!(printed_earlier(book), refusal, "an earlier program prints of {book:?}");
}

/// Holds where the library finds a tag against where an earlier program does.
fn hold_body(book: &[u8], tag: u32) {
    let (given, expected) = (raw::book_body(book, tag), raw_body(&earlier::body(book, tag)));
    assert_eq!(given, expected, "given and expected: tag {tag} in {book:?}");
}

/// Tells whether a page is refused as CONTENTS and has no pairs.
fn is_contents(page: &Page) -> bool {
    page.verdict == Verdict::of(Contents) && page.pairs.is_empty()
}

/// Tells whether some page has pairs.
fn has_pairs(pages: &[Page]) -> bool {
    pages.iter().any(|page| !page.pairs.is_empty())
}

#[test]
fn books_of_few_lists_read_the_same() {
    let (mut seen, mut tally) = (Seen::default(), Tally::default());
    each_case(SEEDS, CASES, |random| {
        let count = few(random);
        let lists = lists_of(random, count);
        let book = book_of(random, &lists);
        seen.hold_book(&book);
        tally.count(earlier::check(&book).verdict.answer);
    });
    tally.hold(&[Taken, Level, Span, Order, Cross, Depth, Contents]);
    seen.hold_few(LEAST);
}

#[test]
fn few_lists_are_written_the_same() {
    let (mut seen, mut tally) = (Seen::default(), Tally::default());
    each_case(SEEDS + CASES, CASES, |random| {
        let count = few(random);
        let lists = lists_of(random, count);
        let (entries, nodes) = wanted_of(random, &lists);
        let room = random.around(bytes(&lists).len());
        seen.hold_write(&entries, &nodes, room);
        tally.count(earlier::write(&entries, &nodes, room).verdict.answer);
    });
    tally.hold(&[Taken, Ragged, Level, Span, Order, Cross, Depth, Room, Contents]);
    seen.hold_few(LEAST);
}

/// Asks books of few lists and of more some questions. Of a larger book each question is CONTENTS
/// for an earlier program, and the model's for the library. All others have the pages and pairs of
/// that program.
#[test]
fn questions_are_answered_the_same() {
    let (mut seen, mut tally) = (Seen::default(), Tally::default());
    let (mut with_pairs, mut larger_with_pairs) = (0, 0);
    each_case(SEEDS + 6 * CASES, CASES, |random| {
        let count = if random.one_in(8) { many(random) } else { few(random) };
        let lists = lists_of(random, count);
        let book = book_of(random, &lists);
        let asked: Vec<Question> = (0..random.below(5)).map(|_| question(random, &book)).collect();
        let words = raw::words(&asked);
        let room = PAIR_WORDS * random.below(9) + random.below(PAIR_WORDS);
        let (pages, mut out) = (pages_earlier(&book, words, room), vec![0; room]);
        let lists = lists_said(&book);
        if lists > FEW_LISTS {
            assert!(pages.iter().all(is_contents), "an earlier program: {pages:?}");
            larger_with_pairs += u64::from(has_pairs(&asking::ask(&book, words, &mut out).pages));
        } else {
            pages.iter().for_each(|page| tally.count(page.verdict.answer));
            with_pairs += u64::from(has_pairs(&pages));
            asking::hold_asked(&book, words, &mut out, &Asked { answer: Taken, pages });
        }
        seen.count(lists, raw::book_check(&book).verdict == TAKEN);
    });
    tally.hold(&[Taken, Level, Span, Order, Cross, Depth, Joint, Contents, Absent]);
    seen.hold_few(LEAST);
    seen.hold_many(LEAST);
    assert!(
        with_pairs > LEAST && larger_with_pairs > LEAST,
        "{with_pairs} calls with pairs of few lists, {larger_with_pairs} of more"
    );
}

/// Reads and writes again what an earlier program writes. That program reads what the library
/// writes: each tag, and under it the nodes that were given.
#[test]
fn each_reads_what_the_other_writes() {
    let (mut with_nodes, mut full) = (0, 0);
    each_case(SEEDS + 2 * CASES, CASES, |random| {
        let count = few(random);
        let lists = sound_lists(random, count);
        let (entries, nodes) = parts(&lists);
        let theirs = earlier::write(&entries, &nodes, usize::MAX).words;
        let mut ours = vec![0; theirs.len()];
        assert_eq!(raw::book_write(&entries, &nodes, &mut ours).count, theirs.len());
        let opened = raw::Book { verdict: TAKEN, lists: count as u32 };
        assert_eq!(raw::book_check(&theirs), opened, "written by an earlier program: {lists:?}");
        asking::comes_back(&theirs, &earlier::check(&theirs).entries);
        let read = earlier::check(&ours).entries;
        let again: Vec<Tagged> =
            read.iter().map(|entry| (entry.tag, body_nodes(&ours, entry))).collect();
        assert_eq!(again, lists, "read by an earlier program, and written");
        with_nodes += u64::from(!nodes.is_empty());
        full += u64::from(count == FEW_LISTS);
    });
    assert!(with_nodes > LEAST && full > LEAST, "{with_nodes} with nodes, {full} of 16 lists");
}

/// Tries sound books of more lists. The library takes each of them, finds each of its lists and
/// writes it, and an earlier program shows and writes nothing.
#[test]
fn larger_books_are_taken_and_show_nothing_to_an_earlier_program() {
    let (mut seen, mut later) = (Seen::default(), 0);
    each_case(SEEDS + 3 * CASES, CASES / 4, |random| {
        let count = many(random);
        let lists = sound_lists(random, count);
        let book = bytes(&lists);
        assert_eq!(raw::book_check(&book), raw::Book { verdict: TAKEN, lists: count as u32 });
        let mut from = contents_end(count);
        for (tag, nodes) in &lists {
            let bytes = NODE_BYTES * nodes.len();
            assert_eq!(raw::book_body(&book, *tag), raw::Body { verdict: TAKEN, from, bytes });
            from += bytes;
        }
        let (entries, nodes) = parts(&lists);
        let taken = raw::Written { verdict: TAKEN, count: book.len() };
        hold(&lists, &mut vec![0; book.len()], &book, taken, |out| {
            raw::book_write(&entries, &nodes, out)
        });
        seen.hold_book(&book);
        seen.hold_write(&entries, &nodes, book.len());
        later += u64::from(lists[FEW_LISTS..].iter().any(|(_, nodes)| !nodes.is_empty()));
    });
    assert_eq!((seen.larger, seen.larger_refused), (2 * CASES / 4, 0));
    assert!(later > LEAST, "{later} books with nodes in a later list");
}

#[test]
fn larger_books_that_are_damaged_show_nothing_to_an_earlier_program() {
    let (mut read, mut written) = (Seen::default(), Seen::default());
    each_case(SEEDS + 4 * CASES, CASES / 4, |random| {
        let count = if random.one_in(8) { MOST_LISTS + 1 } else { many(random) };
        let lists = lists_of(random, count);
        read.hold_book(&book_of(random, &lists));
        let (entries, nodes) = wanted_of(random, &lists);
        written.hold_write(&entries, &nodes, bytes(&lists).len());
    });
    read.hold_many(LEAST);
    written.hold_many(LEAST);
}

/// Starts the program with books of few lists and of more.
#[test]
fn what_the_program_prints() {
    let mut seen = Seen::default();
    each_case(SEEDS + 5 * CASES, STARTS, |random| {
        let count = if random.one_in(3) { many(random) } else { few(random) };
        let lists = lists_of(random, count);
        seen.hold_printed(&book_of(random, &lists));
    });
    seen.hold_few(LEAST_STARTS);
    seen.hold_many(LEAST_STARTS);
}

/// Tries the largest book of all, which is too large for the model. `limits.rs` has what the
/// library finds in it and writes from its lists.
#[test]
fn the_largest_book_shows_nothing_to_an_earlier_program() {
    let book = bytes(&shared_out(MOST_LISTS, MOST_LISTS * MOST));
    assert_eq!(book.len(), 4_195_076);
    assert_eq!(raw::book_check(&book), raw::Book { verdict: TAKEN, lists: 64 });
    hold_no_lists(&book);
    assert_eq!([print(&book), printed_earlier(&book)], ["refused 2 LONG\n"; 2]);
}

/// Tries empty lists: what an earlier program reads and writes. `figures.rs` has the same for the
/// library.
#[test]
fn books_with_many_lists_under_the_limit_of_16() {
    for (count, answer) in [(16, Taken), (17, Contents), (64, Contents), (65, Contents)] {
        let (entries, book) = empty_lists(count);
        let written = earlier::write(&entries, &[], book.len());
        assert_eq!(earlier::check(&book).verdict, Verdict::of(answer));
        assert_eq!(written.verdict, Verdict::of(answer));
        assert_eq!(written.words, if answer == Taken { book } else { vec![] });
    }
}

/// Tries books at the program's limit of 61,440 bytes, with 16 lists and with more.
#[test]
fn sizes_that_the_program_takes() {
    let sizes = [
        (16, 3_827, 61_428),
        (16, 3_828, 61_444),
        (17, 3_827, 61_440),
        (17, 3_828, 61_456),
        (61, 3_794, 61_440),
        (64, 3_791, 61_428),
        (64, 3_792, 61_444),
    ];
    let (mut read, mut put_out) = (Seen::default(), Seen::default());
    for (lists, nodes, size) in sizes {
        let book = bytes(&shared_out(lists, nodes));
        assert_eq!(book.len(), size);
        read.hold_book(&book);
        put_out.hold_printed(&book);
    }
    for (seen, expected) in [(read, [2, 0, 5, 0]), (put_out, [1, 1, 3, 2])] {
        let Seen { both, neither, larger, larger_refused, .. } = seen;
        assert_eq!([both, neither, larger, larger_refused], expected);
    }
}

#[test]
fn stored_books() {
    let (mut read, mut put_out) = (Seen::default(), Seen::default());
    each_book(|book| {
        read.hold_book(book);
        put_out.hold_printed(book);
    });
    for seen in [read, put_out] {
        seen.hold_few(LEAST_STORED);
        seen.hold_many(LEAST_STORED);
    }
}
