//! The answers' numbers, names and hints, and what a refused call says.

use crate::raw;
use crate::table::{Answer, ROWS};
use std::error::Error;
use std::fmt;

/// The hint of an answer that the table doesn't have.
const UNKNOWN_HINT: &str =
    "Link the archive that this crate was made for: it gives no such answer.";

/// Returns the answers of the table.
const fn known() -> [Answer; ROWS.len()] {
    let mut answers = [Answer::Taken; ROWS.len()];
    let mut number = 0;
    while number < ROWS.len() {
        answers[number] = ROWS[number].0;
        number += 1;
    }
    answers
}

impl Answer {
    /// All known answers, each at the place of its number.
    pub const ALL: &'static [Answer] = &known();

    /// Returns the answer's number.
    pub fn number(self) -> u32 {
        let place = || Self::ALL.iter().position(|&known| known == self);
        match self {
            Answer::Unknown(number) => number,
            _ => place().expect("every answer but an unknown one is in the table") as u32,
        }
    }

    /// Returns the answer of a number.
    pub fn from_number(number: u32) -> Answer {
        Self::ALL.get(number as usize).copied().unwrap_or(Answer::Unknown(number))
    }

    /// Returns the answer's name in the library's own table, without its filling blanks, or
    /// UNKNOWN where the library has no name for it.
    pub fn name(self) -> String {
        match String::from_utf8_lossy(&raw::name(self.number())).trim_end() {
            "" => "UNKNOWN".to_string(),
            name => name.to_string(),
        }
    }

    /// Returns what to do about it.
    pub fn hint(self) -> &'static str {
        let row = ROWS.iter().find(|&&(answer, _)| answer == self);
        row.map_or(UNKNOWN_HINT, |&(_, hint)| hint)
    }
}

/// Why and where a call was refused.
#[derive(Clone, Copy, Debug, PartialEq, Eq, Hash)]
pub struct Refusal {
    /// The answer, which is never [`Answer::Taken`].
    pub answer: Answer,
    /// The list at fault: [`crate::ANCESTORS`] or [`crate::DESCENDANTS`], or the list's place in a
    /// book. The answers from LEVEL to DEPTH have it, and so do RAGGED and LONG from a call that
    /// is lent two lists.
    pub list: Option<usize>,
    /// The index of the faulty node in that list. The answers from LEVEL to DEPTH have it. READING
    /// has the index of the sample and no list.
    pub index: Option<usize>,
}

impl Refusal {
    /// Returns the refusal by an answer that has no place.
    pub(crate) fn without_place(answer: Answer) -> Refusal {
        Refusal { answer, list: None, index: None }
    }
}

impl fmt::Display for Refusal {
    fn fmt(&self, f: &mut fmt::Formatter<'_>) -> fmt::Result {
        write!(f, "refused {} {}", self.answer.number(), self.answer.name())?;
        for (what, place) in [("list", self.list), ("index", self.index)] {
            place.map_or(Ok(()), |place| write!(f, " {what} {place}"))?;
        }
        write!(f, ": {}", self.answer.hint())
    }
}

impl Error for Refusal {}

/// Returns the refusal that a verdict tells, or nothing where the call was taken.
pub(crate) fn settle(verdict: raw::Verdict) -> Result<(), Refusal> {
    use Answer::{Cross, Depth, Level, Order, Span};
    let raw::Verdict { answer, list, index } = verdict;
    match Answer::from_number(answer) {
        Answer::Taken => Ok(()),
        answer @ (Level | Span | Order | Cross | Depth) => {
            Err(Refusal { answer, list: Some(list as usize), index: Some(index as usize) })
        }
        Answer::Reading => {
            Err(Refusal { index: Some(index as usize), ..Refusal::without_place(Answer::Reading) })
        }
        answer => Err(Refusal::without_place(answer)),
    }
}

/// Does what [`settle`] does for a call that is lent two lists.
pub(crate) fn settle_two(verdict: raw::Verdict) -> Result<(), Refusal> {
    settle(verdict).map_err(|refusal| match refusal.answer {
        Answer::Ragged | Answer::Long => Refusal { list: Some(verdict.list as usize), ..refusal },
        _ => refusal,
    })
}

/// Does what [`settle_two`] does for a call that is lent readings or hundredths too. A RAGGED is of
/// these and names no list: slices of nodes are never ragged.
pub(crate) fn settle_read(verdict: raw::Verdict) -> Result<(), Refusal> {
    settle_two(verdict).map_err(|refusal| match refusal.answer {
        Answer::Ragged => Refusal::without_place(Answer::Ragged),
        _ => refusal,
    })
}

/// Does what [`settle`] does for an answer that has no place.
pub(crate) fn settle_answer(answer: u32) -> Result<(), Refusal> {
    settle(raw::Verdict { answer, list: 0, index: 0 })
}

#[cfg(test)]
mod tests {
    use super::*;

    #[test]
    fn an_unknown_number_is_a_refusal() {
        let unknown = Refusal { answer: Answer::Unknown(99), list: None, index: None };
        let verdict = raw::Verdict { answer: 99, list: 1, index: 3 };
        assert_eq!(settle(verdict), Err(unknown));
        assert_eq!(settle_two(verdict), Err(unknown));
        assert_eq!(settle_answer(99), Err(unknown));
        assert_eq!(unknown.to_string(), format!("refused 99 UNKNOWN: {UNKNOWN_HINT}"));
    }

    #[test]
    fn a_ragged_list_is_named_where_there_are_two() {
        let verdict = raw::Verdict { answer: Answer::Ragged.number(), list: 1, index: 0 };
        let ragged = Refusal::without_place(Answer::Ragged);
        assert_eq!(settle(verdict), Err(ragged));
        assert_eq!(settle_two(verdict), Err(Refusal { list: Some(1), ..ragged }));
        assert_eq!(settle_read(verdict), Err(ragged));
    }
}
