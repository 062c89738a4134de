//! How often each answer came, and how often cases of some kinds, as those in which nodes ended at
//! one position.

use crate::model::answers::{Answer, NAMES};

/// Fewer than this many of an answer, or of a kind, say too little.
const LEAST: u64 = 5;

/// A kind of case that random ones have to be now and then. In the first four, nodes end at one
/// position. In the others a book has more lists than earlier programs take.
#[derive(Clone, Copy, Debug, PartialEq, Eq)]
pub enum Kind {
    /// It is accepted, and a node ends where a node around it ends.
    Shared,
    /// It is accepted, and three nodes of a list end at one position, or three ancestors of one
    /// descendant.
    Three,
    /// It is JOINT by two nodes that end at one position.
    AtOdds,
    /// It is a page that stops between two ancestors that end at one position.
    Between,
    /// It is accepted. A list that has nodes and comes after the sixteenth of its book is read,
    /// found, asked about or written.
    Later,
    /// It is refused for a node of such a list.
    LaterFault,
}

/// The number of kinds.
const KINDS: usize = Kind::LaterFault as usize + 1;

#[derive(Default)]
pub struct Tally {
    counts: [u64; NAMES.len()],
    kinds: [u64; KINDS],
}

impl Tally {
    pub fn count(&mut self, answer: Answer) {
        self.counts[answer as usize] += 1;
    }

    /// Counts a case that is of this kind, if it is.
    pub fn see(&mut self, kind: Kind, is_of_kind: bool) {
        self.kinds[kind as usize] += u64::from(is_of_kind);
    }

    /// Fails unless each of these answers came often enough, and no other came.
    pub fn hold(&self, answers: &[Answer]) {
        let expected: Vec<usize> = answers.iter().map(|&answer| answer as usize).collect();
        for (number, &count) in self.counts.iter().enumerate() {
            let right = if expected.contains(&number) { count >= LEAST } else { count == 0 };
            assert!(right, "{} came {count} times; all answers: {:?}", NAMES[number], self.counts);
        }
    }

    /// Fails unless cases of each of these kinds came often enough.
    pub fn hold_kinds(&self, kinds: &[Kind]) {
        for &kind in kinds {
            let count = self.kinds[kind as usize];
            assert!(count >= LEAST, "{kind:?} came {count} times; all kinds: {:?}", self.kinds);
        }
    }
}
