//! The structs of the C interface lie in Rust as they lie in C: sizes and places are those that
//! tests/c/layout.c fixes and prints.

use belfrychest::raw::{
    Body, Book, Page, Pages, Part, Range, Ticket, Unnumbered, Verdict, Written,
};
use belfrychest::MOST_QUESTIONS;
use std::mem::size_of;

/// The lines of a struct: its size, and the place of each field or field of a field.
macro_rules! places {
    ($name:literal, $value:expr, $type:ty, $($($field:ident).+),+) => {{
        let value: $type = $value;
        let start = &value as *const $type as usize;
        let mut lines = vec![format!("{} {}", $name, size_of::<$type>())];
        $(
            let field = [$(stringify!($field)),+].join(".");
            let place = &value.$($field).+ as *const _ as usize - start;
            lines.push(format!("{}.{field} {place}", $name));
        )+
        lines
    }};
}

/// The lines of a struct, given as a value of it.
macro_rules! lines {
    ($name:literal, $type:ident { $($field:ident: $value:expr),+ }) => {
        places!($name, $type { $($field: $value),+ }, $type, $($field),+)
    };
}

/// The lines of a struct that holds a verdict first, given without it.
macro_rules! lines_with_verdict {
    ($name:literal, $type:ident { $($field:ident: $value:expr),+ }) => {
        places!(
            $name,
            $type { verdict: Verdict { answer: 0, list: 0, index: 0 }, $($field: $value),+ },
            $type, verdict.answer, verdict.list, verdict.index, $($field),+
        )
    };
}

const TICKET: Ticket =
    Ticket { relation: 0, order: 0, placed: 0, document: 0, first: 0, second: 0 };
const PAGE: Page =
    Page { verdict: Verdict { answer: 0, list: 0, index: 0 }, done: 0, count: 0, ticket: TICKET };

#[test]
fn structs_lie_as_in_c() {
    let found = [
        lines!("belfry_verdict", Verdict { answer: 0, list: 0, index: 0 }),
        lines_with_verdict!("belfry_part", Part { from: 0, words: 0 }),
        places!("belfry_ticket", TICKET, Ticket, relation, order, placed, document, first, second),
        lines_with_verdict!("belfry_page", Page { done: 0, count: 0, ticket: TICKET }),
        lines!("belfry_pages", Pages { answer: 0, questions: 0, pages: [PAGE; MOST_QUESTIONS] }),
        lines_with_verdict!("belfry_range", Range { present: 0, low: 0.0, high: 0.0 }),
        lines_with_verdict!("belfry_result", Written { count: 0 }),
        lines!("belfry_unnumbered", Unnumbered { answer: 0, document: 0, count: 0 }),
        lines_with_verdict!("belfry_book", Book { lists: 0 }),
        lines_with_verdict!("belfry_body", Body { from: 0, bytes: 0 }),
    ];
    let fixed: Vec<&str> = include_str!("../../../tests/c/layout.out").lines().collect();
    assert_eq!(found.concat(), fixed);
}
