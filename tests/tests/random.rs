//! More than a million random cases of the seventeen functions, sound and damaged, against the
//! model. An answer that a function can give and that never came is a failure too.

use outside::cases::{self, Function};
use outside::ground::Ground;
use outside::random::each_case;

/// The cases of each function.
const CASES: u64 = 84_000;

fn hold(function: &Function, seeds: u64) {
    function.hold(seeds * CASES, CASES, Ground::Heap);
}

#[test]
fn check() {
    hold(&cases::CHECK, 0);
}

#[test]
fn check_two() {
    hold(&cases::CHECK_TWO, 1);
}

#[test]
fn faulty() {
    hold(&cases::FAULTY, 2);
}

#[test]
fn list() {
    hold(&cases::LIST, 3);
}

#[test]
fn number() {
    hold(&cases::NUMBER, 4);
}

#[test]
fn unnumber() {
    hold(&cases::UNNUMBER, 5);
}

#[test]
fn pick() {
    hold(&cases::PICK, 6);
}

#[test]
fn links() {
    hold(&cases::LINKS, 7);
}

#[test]
fn book_check() {
    hold(&cases::BOOK_CHECK, 8);
}

#[test]
fn book_body() {
    hold(&cases::BOOK_BODY, 9);
}

#[test]
fn book_write() {
    hold(&cases::BOOK_WRITE, 10);
}

#[test]
fn zone_range() {
    hold(&cases::ZONE_RANGE, 12);
}

#[test]
fn sheet() {
    hold(&cases::SHEET, 13);
}

#[test]
fn ask() {
    hold(&cases::ASK, 14);
}

#[test]
fn links_check() {
    hold(&cases::LINKS_CHECK, 15);
}

#[test]
fn list_linked() {
    hold(&cases::LIST_LINKED, 16);
}

#[test]
fn name() {
    each_case(11 * CASES, CASES, |random| cases::name(random, Ground::Heap));
}
