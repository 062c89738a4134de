//! All books that differ from the scope's in one byte, against the model.

use belfrychest::raw;
use outside::asking::{self, TAKEN};
use outside::making::tickets::FRESH;
use outside::model::answers::Answer::{self, *};
use outside::model::books::check;
use outside::model::pages::PAIR_WORDS;
use outside::tally::Tally;

const BOOK: &[u8] = include_bytes!("../../examples/figure.book");

/// The tags of several questions. The book has some of them, and changed books have others.
const QUESTIONS: [[u32; 2]; 5] = [[2, 3], [3, 2], [2, 2], [3, 3], [6, 3]];

/// Asks for the book, for each tag that it has or had, and for some that it hasn't. Several
/// questions are asked in one call too.
fn ask(book: &[u8]) -> Answer {
    let questions = QUESTIONS.map(|[ancestors, descendants]| raw::Question {
        ancestors,
        descendants,
        ticket: FRESH,
    });
    asking::ask(book, raw::words(&questions), &mut [0; 3 * PAIR_WORDS + 1]);
    let entries = check(book).entries;
    for tag in entries.iter().map(|entry| entry.tag).chain([0, 1, 2, 3, 4, u32::MAX]) {
        asking::book_body(book, tag);
    }
    if !entries.is_empty() {
        asking::comes_back(book, &entries);
    }
    asking::book_check(book)
}

#[test]
fn every_change_of_one_byte() {
    let mut tally = Tally::default();
    let mut books = 0;
    for place in 0..BOOK.len() {
        for change in 1..=u8::MAX {
            let mut book = BOOK.to_vec();
            book[place] ^= change;
            tally.count(ask(&book));
            books += 1;
        }
    }
    assert_eq!(books, 23_460);
    tally.hold(&[Taken, Level, Span, Order, Cross, Depth, Contents]);
}

#[test]
fn every_length() {
    for length in 0..BOOK.len() {
        assert_eq!(ask(&BOOK[..length]), Contents);
    }
    for more in 1..100 {
        assert_eq!(ask(&[BOOK, &vec![0; more]].concat()), Contents);
    }
    assert_eq!(raw::book_check(BOOK), raw::Book { verdict: TAKEN, lists: 2 });
}
