//! Tickets: what is listed, in which order, and how far it has been handed out.

use crate::limits::{NUMBER_BYTES, TICKET_BYTES, TICKET_FORM, TICKET_WORDS};
use crate::raw;
use std::error::Error;
use std::fmt;

/// Which pairs are listed.
#[derive(Clone, Copy, Debug, PartialEq, Eq, Hash)]
pub enum Relation {
    /// The descendant lies inside the ancestor, however deep.
    Inside,
    /// It lies inside and its level is one higher.
    Directly,
}

/// In which order the pairs come.
#[derive(Clone, Copy, Debug, PartialEq, Eq, Hash)]
pub enum Order {
    /// By document, the descendant's start and the ancestor's start.
    Descendant,
    /// By document, the ancestor's start and the descendant's start.
    Ancestor,
}

/// How far a listing has been handed out.
#[derive(Clone, Copy, Debug, PartialEq, Eq, Hash)]
pub enum Place {
    /// Nothing was handed out.
    Fresh,
    /// All pairs were up to the one with this key ([`crate::Pair::key`]).
    After {
        /// The pair's document.
        document: u32,
        /// The start of the node that the order sorts by first.
        first: u32,
        /// The start of the other node.
        second: u32,
    },
}

/// What is kept between two pages. Every ticket is usable, also with lists that were edited, so it
/// can be stored and read back.
#[derive(Clone, Copy, Debug, PartialEq, Eq, Hash)]
pub struct Ticket {
    /// Which pairs are listed.
    pub relation: Relation,
    /// In which order they come.
    pub order: Order,
    /// How far they have been handed out.
    pub place: Place,
}

impl Ticket {
    /// Returns the ticket that starts a listing.
    pub fn fresh(relation: Relation, order: Order) -> Ticket {
        Ticket { relation, order, place: Place::Fresh }
    }

    /// Returns the ticket as six words: relation, order, whether it is placed, and the key, which
    /// is zeros in a fresh ticket.
    pub fn to_words(self) -> [u32; TICKET_WORDS] {
        let (placed, document, first, second) = match self.place {
            Place::Fresh => (0, 0, 0, 0),
            Place::After { document, first, second } => (1, document, first, second),
        };
        [self.relation as u32, self.order as u32, placed, document, first, second]
    }

    /// Returns the ticket of six words. Any words make one: every number but 0 is read as directly,
    /// as ancestor order and as placed.
    pub fn from_words(words: [u32; TICKET_WORDS]) -> Ticket {
        let [relation, order, placed, document, first, second] = words;
        let after = Place::After { document, first, second };
        Ticket {
            relation: if relation == 0 { Relation::Inside } else { Relation::Directly },
            order: if order == 0 { Order::Descendant } else { Order::Ancestor },
            place: if placed == 0 { Place::Fresh } else { after },
        }
    }

    /// Returns the ticket as bytes to be stored: the form's number and the six words, the lowest
    /// byte of each first. C and Python store the same bytes.
    pub fn to_bytes(self) -> [u8; TICKET_BYTES] {
        let mut bytes = [0; TICKET_BYTES];
        let numbers = [TICKET_FORM].into_iter().chain(self.to_words());
        for (place, number) in bytes.chunks_exact_mut(NUMBER_BYTES).zip(numbers) {
            place.copy_from_slice(&number.to_le_bytes());
        }
        bytes
    }

    /// Returns the ticket of stored bytes. Refused unless they have a stored ticket's length and
    /// this crate's form.
    pub fn from_bytes(stored: &[u8]) -> Result<Ticket, StoredTicketError> {
        if stored.len() != TICKET_BYTES {
            return Err(StoredTicketError::Length(stored.len()));
        }
        let mut numbers = [0; 1 + TICKET_WORDS];
        for (number, b) in numbers.iter_mut().zip(stored.chunks_exact(NUMBER_BYTES)) {
            *number = u32::from_le_bytes([b[0], b[1], b[2], b[3]]);
        }
        let [form, words @ ..] = numbers;
        if form != TICKET_FORM {
            return Err(StoredTicketError::Form(form));
        }
        Ok(Ticket::from_words(words))
    }
}

/// Why bytes are no stored ticket.
#[derive(Clone, Copy, Debug, PartialEq, Eq, Hash)]
#[non_exhaustive]
pub enum StoredTicketError {
    /// There are this many bytes.
    Length(usize),
    /// They have this form, which another version of the library wrote.
    Form(u32),
}

impl fmt::Display for StoredTicketError {
    fn fmt(&self, f: &mut fmt::Formatter<'_>) -> fmt::Result {
        match self {
            StoredTicketError::Length(bytes) => {
                write!(f, "a stored ticket has {TICKET_BYTES} bytes, and these are {bytes}")
            }
            StoredTicketError::Form(form) => {
                write!(f, "the ticket was stored in form {form}, and this is form {TICKET_FORM}")
            }
        }
    }
}

impl Error for StoredTicketError {}

impl From<Ticket> for raw::Ticket {
    fn from(ticket: Ticket) -> raw::Ticket {
        let [relation, order, placed, document, first, second] = ticket.to_words();
        raw::Ticket { relation, order, placed, document, first, second }
    }
}

impl From<raw::Ticket> for Ticket {
    fn from(t: raw::Ticket) -> Ticket {
        Ticket::from_words([t.relation, t.order, t.placed, t.document, t.first, t.second])
    }
}
