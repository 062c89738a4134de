//! What a printing program that takes at most 16 lists prints of a book. It is a copy of
//! `model/printing.rs`, and isn't to be changed with it: `books.rs` says why.

use super::books::{body_nodes, check};
use crate::model::answers::{Answer, NAMES};
use crate::model::books::Opened;
use crate::model::nodes::words;
use crate::model::pages::{page, Order, Pair, Relation, Ticket};

/// The most bytes that the program reads.
pub const MOST_BYTES: usize = 61_440;

/// Returns the pairs of a book's first list with its second, in the order in which the program
/// prints them, or the refusal.
fn joined(book: &[u8]) -> Result<Vec<Pair>, Answer> {
    if book.len() > MOST_BYTES {
        return Err(Answer::Long);
    }
    let Opened { verdict, entries } = check(book);
    if verdict.answer != Answer::Taken {
        return Err(verdict.answer);
    }
    if entries.len() < 2 {
        return Err(Answer::Absent);
    }
    let list = |place: usize| words(&body_nodes(book, &entries[place]));
    let fresh = Ticket { relation: Relation::Inside, order: Order::Descendant, place: None };
    let all = page(&list(0), &list(1), &fresh, usize::MAX);
    match all.verdict.answer {
        Answer::Taken => Ok(all.pairs),
        refusal => Err(refusal),
    }
}

/// Returns the program's whole output.
pub fn printed(book: &[u8]) -> String {
    let line = |pair: &Pair| {
        format!("{} {} {}\n", pair.ancestor.document, pair.ancestor.start, pair.descendant.start)
    };
    match joined(book) {
        Ok(pairs) => pairs.iter().map(line).chain([format!("pairs {}\n", pairs.len())]).collect(),
        Err(answer) => format!("refused {} {}\n", answer as u32, NAMES[answer as usize]),
    }
}
