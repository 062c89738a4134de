//! The printing program as a process, on a thousand books: its whole standard output and its exit
//! status against the model's text.

use outside::earlier::books::MOST_LISTS as FEW_LISTS;
use outside::ends::most_around;
use outside::making::books::{book, shared_out};
use outside::making::lists::{nest, nest_with_one_end, texts};
use outside::model::answers::Answer::{self, *};
use outside::model::books::{bytes, check, numbers};
use outside::model::nodes::Node;
use outside::model::pages::Pair;
use outside::model::printing::{joined, printed, MOST_BYTES};
use outside::model::MOST;
use outside::process::print_in_pieces;
use outside::random::each_case;

/// Seeds that no other test has.
const SEEDS: u64 = 1 << 43;

/// Fails unless the program prints of these bytes what the model prints. They are handed over in
/// pieces of this length.
fn hold_in_pieces(book: &[u8], piece: usize) {
    let (given, expected) = (print_in_pieces(book, piece), printed(book));
    assert!(given == expected, "given {given}, and expected {expected}, of {book:?}");
}

fn hold(book: &[u8]) {
    hold_in_pieces(book, book.len().max(1));
}

/// Runs the program on `books` random books whose pairs, or whose refusal, are as wanted.
fn hold_random(first_seed: u64, books: u64, wanted: impl Fn(Result<Vec<Pair>, Answer>) -> bool) {
    hold_random_book(first_seed, books, |book| wanted(joined(book)));
}

/// Runs the program on `books` random books that are themselves as wanted.
fn hold_random_book(first_seed: u64, books: u64, wanted: impl Fn(&[u8]) -> bool) {
    each_case(SEEDS + first_seed, books, |random| {
        let mut drawn = book(random);
        while !wanted(&drawn) {
            drawn = book(random);
        }
        hold(&drawn);
    });
}

#[test]
fn books_with_pairs() {
    hold_random(0, 200, |pairs| pairs.map_or(false, |pairs| !pairs.is_empty()));
    hold_random(1_000, 50, |pairs| pairs.map_or(false, |pairs| pairs.is_empty()));
}

#[test]
fn books_with_three_ancestors_that_end_at_one_position() {
    hold_random(30_000, 100, |pairs| pairs.map_or(false, |pairs| most_around(&pairs) >= 3));
}

/// Tries books with more lists than earlier programs take: with pairs, without, and with a fault in
/// one of the later lists.
#[test]
fn books_with_many_lists() {
    let is_many = |book: &[u8]| numbers(book).first() > Some(&(FEW_LISTS as u32));
    hold_random_book(40_000, 60, |book| {
        is_many(book) && joined(book).map_or(false, |pairs| !pairs.is_empty())
    });
    hold_random_book(41_000, 20, |book| is_many(book) && joined(book).is_err());
    hold_random_book(42_000, 20, |book| check(book).verdict.list >= FEW_LISTS as u32);
}

#[test]
fn books_with_a_faulty_list() {
    for (kind, answer) in [Level, Span, Order, Cross, Depth].into_iter().enumerate() {
        hold_random(2_000 + 1_000 * kind as u64, 60, |pairs| pairs == Err(answer));
    }
}

#[test]
fn books_at_odds() {
    hold_random(10_000, 200, |pairs| pairs == Err(Joint));
}

#[test]
fn books_that_are_none_or_have_few_lists() {
    hold_random(20_000, 120, |pairs| pairs == Err(Contents));
    hold_random(21_000, 120, |pairs| pairs == Err(Absent));
}

#[test]
fn the_books_of_the_examples() {
    let figure = (
        &include_bytes!("../../examples/figure.book")[..],
        include_str!("../../examples/figure.out"),
    );
    let farm =
        (&include_bytes!("../../examples/farm.book")[..], include_str!("../../examples/farm.out"));
    for (book, text) in [figure, farm] {
        assert_eq!(printed(book), text);
        hold(book);
        hold_in_pieces(book, 1);
        for missing in 1..10 {
            hold(&book[..book.len() - missing]);
        }
    }
    hold(b"");
}

/// Tries books of one pair fewer than a page, one page, one pair more, two pages, one pair more,
/// and 55 pages. A page has 4,096 pairs. All but the last are tried as well with zones that end at
/// one position, so that pages stop between them.
#[test]
fn books_of_many_pages() {
    let sizes = [(63, 65), (32, 128), (17, 241), (32, 256), (3, 2_731), (60, 3_700)];
    let nests = sizes.map(|(zones, samples)| (nest(zones), samples));
    let with_one_end = sizes.map(|(zones, samples)| (nest_with_one_end(zones), samples));
    for (zones, samples) in nests.iter().chain(&with_one_end[..5]) {
        let book = bytes(&[(2, zones.clone()), (3, texts(*samples))]);
        assert_eq!(joined(&book).map(|pairs| pairs.len()), Ok(zones.len() * samples));
        hold(&book);
    }
}

#[test]
fn books_as_long_as_may_be() {
    let few = [(2, nest(1)), (3, texts(3_835)), (4, vec![]), (5, vec![]), (6, vec![])];
    for longest in [bytes(&few), bytes(&shared_out(61, 3_794))] {
        assert_eq!(longest.len(), MOST_BYTES);
        for length in
            [MOST_BYTES - 1, MOST_BYTES, MOST_BYTES + 1, MOST_BYTES + 2, 1 << 16, 1 << 17, 1 << 20]
        {
            let mut book = longest.clone();
            book.resize(length, 0);
            hold(&book);
            hold_in_pieces(&book, 4_000);
        }
    }
}

/// Tries books of 64 lists, the longest that is printed and some longer ones.
#[test]
fn books_of_the_most_lists_as_long_as_may_be() {
    let longest = bytes(&shared_out(64, 3_791));
    assert_eq!(longest.len(), 61_428);
    let with = |more: usize| [&longest[..], &vec![0; more]].concat();
    for (book, expected) in [
        (with(0), Ok(60)),
        (with(1), Err(Contents)),
        (with(12), Err(Contents)),
        (with(13), Err(Long)),
        (bytes(&shared_out(64, 3_792)), Err(Long)),
        (bytes(&shared_out(64, 64 * MOST)), Err(Long)),
    ] {
        assert_eq!(joined(&book).map(|pairs| pairs.len()), expected, "{} bytes", book.len());
        hold(&book);
        hold_in_pieces(&book, 4_000);
    }
}

#[test]
fn numbers_of_one_digit_and_of_ten() {
    for (first, last) in
        [(0, 9), (9, 100), (99, 1_000), (999_999_999, 1_000_000_010), (u32::MAX - 5, u32::MAX)]
    {
        let zone = Node { document: last, start: first, end: last, level: 1 };
        let within: Vec<Node> = (first + 1..first + 4)
            .map(|start| Node { document: last, start, end: start, level: 2 })
            .collect();
        let book = bytes(&[(0, vec![zone]), (u32::MAX, within)]);
        assert_eq!(joined(&book).map(|pairs| pairs.len()), Ok(3));
        hold(&book);
    }
}
