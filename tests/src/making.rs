//! Makers of random questions: small ones, so that every answer comes often, sound ones and damaged
//! ones.

pub mod books;
pub mod edits;
pub mod hundredths;
pub mod links;
pub mod lists;
pub mod marks;
pub mod questions;
pub mod readings;
pub mod tickets;
pub mod trees;

use crate::model::MOST;
use crate::random::Random;

/// Returns the words as they are, which make whole items of this size. Now and then they don't:
/// there are a few too many or too few, or more items than any list may have.
fn misfit(random: &mut Random, mut words: Vec<u32>, size: usize) -> Vec<u32> {
    match random.below(1_000) {
        0..=5 => words.resize(
            size * (MOST + 1 + random.below(3)) + usize::from(random.one_in(4)),
            random.word(),
        ),
        6..=40 => words.resize(words.len() + 1 + random.below(size), random.word()),
        41..=80 => words.truncate(words.len().saturating_sub(1 + random.below(size))),
        _ => (),
    }
    words
}
