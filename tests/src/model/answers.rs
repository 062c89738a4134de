//! The answer numbers of docs/SCOPE.md, and what an answer carries.

/// The answers in the order of their numbers.
#[derive(Clone, Copy, Debug, PartialEq, Eq)]
pub enum Answer {
    Taken,
    Ragged,
    Long,
    Level,
    Span,
    Order,
    Cross,
    Depth,
    Joint,
    Room,
    Mark,
    Stray,
    Deep,
    Unclosed,
    Table,
    Contents,
    Absent,
    Reading,
    Links,
}

/// The names in the order of their numbers.
pub const NAMES: [&str; 19] = [
    "TAKEN", "RAGGED", "LONG", "LEVEL", "SPAN", "ORDER", "CROSS", "DEPTH", "JOINT", "ROOM", "MARK",
    "STRAY", "DEEP", "UNCLOSED", "TABLE", "CONTENTS", "ABSENT", "READING", "LINKS",
];

/// The bytes of a name's row.
pub const NAME_BYTES: usize = 8;

/// Returns the row of a number in the table of names: the name filled up with blanks, or blanks
/// alone for a number that no answer has.
pub fn row(number: u32) -> [u8; NAME_BYTES] {
    let name = NAMES.get(number as usize).unwrap_or(&"");
    let mut row = [b' '; NAME_BYTES];
    row[..name.len()].copy_from_slice(name.as_bytes());
    row
}

/// The number of the ancestors, and of an answer that is no list's own.
pub const ANCESTORS: u32 = 0;
/// The number of the descendants.
pub const DESCENDANTS: u32 = 1;

/// An answer with the list that it names and the index of the faulty node.
#[derive(Clone, Copy, Debug, PartialEq, Eq)]
pub struct Verdict {
    pub answer: Answer,
    pub list: u32,
    pub index: u32,
}

impl Verdict {
    /// Returns an answer that no list and no node draws.
    pub fn of(answer: Answer) -> Verdict {
        Verdict { answer, list: ANCESTORS, index: 0 }
    }
}

/// What a call leaves that writes: its verdict, how many items it wrote, and their words or bytes.
/// On refusal there are none.
#[derive(Clone, Debug, PartialEq, Eq)]
pub struct Written<T> {
    pub verdict: Verdict,
    pub count: usize,
    pub words: Vec<T>,
}

impl<T> Written<T> {
    /// Returns what a refused call leaves.
    pub fn refused(verdict: Verdict) -> Written<T> {
        Written { verdict, count: 0, words: Vec::new() }
    }

    /// Returns the result of `count` items where its words fit into the room, and ROOM where they
    /// don't.
    pub fn within(room: usize, count: usize, words: Vec<T>) -> Written<T> {
        if words.len() > room {
            Written::refused(Verdict::of(Answer::Room))
        } else {
            Written { verdict: Verdict::of(Answer::Taken), count, words }
        }
    }
}
