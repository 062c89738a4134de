//! Every function with each of its buffers right before memory that can't be touched, and then
//! right after it. Inputs can't be written either. A word too far would end the process. The
//! answers are held against the model as everywhere.

use belfrychest::raw::{self, Question};
use outside::asking;
use outside::cases::{self, Function};
use outside::ground::{Ground, Lent};
use outside::making::books::{parts, zones_and_texts};
use outside::making::tickets::FRESH;
use outside::model::answers::Answer::{Absent, Contents, Room, Taken};
use outside::model::books::{bytes, contents_end, MOST_LISTS};
use outside::model::pages::PAIR_WORDS;
use outside::random::each_case;
use std::io::{Read, Write};
use std::os::unix::net::UnixStream;
use std::slice;

/// The cases of each function on either side of a guard.
const CASES: u64 = 2_500;
/// Seeds that no other test has.
const SEEDS: u64 = 1 << 40;

const FUNCTIONS: [Function; 16] = [
    cases::CHECK,
    cases::CHECK_TWO,
    cases::FAULTY,
    cases::LIST,
    cases::NUMBER,
    cases::UNNUMBER,
    cases::PICK,
    cases::LINKS,
    cases::BOOK_CHECK,
    cases::BOOK_BODY,
    cases::BOOK_WRITE,
    cases::ZONE_RANGE,
    cases::SHEET,
    cases::ASK,
    cases::LINKS_CHECK,
    cases::LIST_LINKED,
];

fn hold(ground: Ground, first_seed: u64) {
    for (seeds, function) in (1..).zip(&FUNCTIONS) {
        function.hold(first_seed + seeds * CASES, CASES, ground);
    }
    each_case(first_seed, CASES, |random| cases::name(random, ground));
}

#[test]
fn right_before_a_guard() {
    hold(Ground::BeforeGuard, SEEDS);
}

#[test]
fn right_after_a_guard() {
    hold(Ground::AfterGuard, 2 * SEEDS);
}

/// Tries a book of as many lists as it may have. It is read whole and after a cut at each byte of
/// its contents, and asked about its first and its last list.
#[test]
fn reading_the_most_lists() {
    let (count, last) = (MOST_LISTS as u32, MOST_LISTS as u32 - 1);
    let book = bytes(&zones_and_texts(count));
    let questions = [[0, last], [last, 0], [count, last]]
        .map(|[ancestors, descendants]| Question { ancestors, descendants, ticket: FRESH });
    for ground in [Ground::BeforeGuard, Ground::AfterGuard] {
        assert_eq!(asking::book_check(&ground.lend(&book)), Taken);
        for (tag, answer) in [(0, Taken), (last, Taken), (count, Absent)] {
            assert_eq!(asking::book_body(&ground.lend(&book), tag), answer);
        }
        for length in 0..contents_end(MOST_LISTS) {
            assert_eq!(asking::book_check(&ground.lend(&book[..length])), Contents);
        }
        let (lent, asked) = (ground.lend(&book), ground.lend(raw::words(&questions)));
        let pages = asking::ask(&lent, &asked, &mut ground.room(6 * PAIR_WORDS)).pages;
        let found = pages.iter().map(|page| (page.verdict.answer, page.pairs.len()));
        assert!(found.eq([(Taken, 6), (Taken, 0), (Absent, 0)]), "{pages:?}");
    }
}

/// Writes such a book into as much room as it needs and into a byte less, and one with a list more.
#[test]
fn writing_the_most_lists() {
    let most = MOST_LISTS as u32;
    for (count, less, answer) in [(most, 0, Taken), (most, 1, Room), (most + 1, 0, Contents)] {
        let lists = zones_and_texts(count);
        let (book, (entries, nodes)) = (bytes(&lists), parts(&lists));
        for ground in [Ground::BeforeGuard, Ground::AfterGuard] {
            let (entries, nodes) = (ground.lend(&entries), ground.lend(&nodes));
            let mut out = ground.room(book.len() - less);
            assert_eq!(asking::book_write(&entries, &nodes, &mut out), answer);
        }
    }
}

/// The system's number for memory that it can't read or write on behalf of the process.
const BAD_ADDRESS: Option<i32> = Some(14);

/// Returns a byte beside a buffer. Nobody but the system is asked to read it.
fn beside(buffer: &Lent<u8>, places: isize) -> &[u8] {
    unsafe { slice::from_raw_parts(buffer.as_ptr().offset(places), 1) }
}

#[test]
fn guards_guard() {
    let (mut near, mut far) = UnixStream::pair().expect("a pair of sockets");
    let before = Ground::BeforeGuard.lend(&[1_u8, 2, 3]);
    let mut after = Ground::AfterGuard.lend(&[1_u8, 2, 3]);
    assert_eq!(near.write(&before).expect("three bytes are sent"), 3);
    assert_eq!(
        near.write(beside(&before, 3)).expect_err("a guard is read").raw_os_error(),
        BAD_ADDRESS
    );
    assert_eq!(
        near.write(beside(&after, -1)).expect_err("a guard is read").raw_os_error(),
        BAD_ADDRESS
    );
    assert_eq!(far.read(&mut after).expect_err("an input is written").raw_os_error(), BAD_ADDRESS);
    let mut out = Ground::BeforeGuard.room(3);
    assert_eq!(far.read(&mut out).expect("three bytes are received"), 3);
    assert_eq!(out[..], [1, 2, 3]);
}
