//! Pairs every zone with the samples inside it, and loses none: the Belfrychest library for Rust.
//!
//! A [`Node`] has a document, a start, an end and a level. A list is a slice of nodes; the lists
//! that are joined are the ancestors (zones) and the descendants (samples).
//!
//! Any nodes are taken, and no check is expected before a call: each call makes its own and
//! answers, or refuses with a [`Refusal`] that says why and where. A call whose name ends in
//! `_into` writes into a lent output, from its first place on, and allocates nothing; a refused one
//! leaves the output as it was. The call without `_into` returns the result.
//!
//! ```
//! use belfrychest::{listing, Node, Order, Relation};
//!
//! let node = |start, end, level| Node { document: 5, start, end, level };
//!
//! let zones = [node(2, 10, 2), node(3, 7, 3)];
//! let samples = [node(4, 6, 4), node(8, 9, 3)];
//!
//! let pairs = listing(&zones, &samples, Relation::Inside, Order::Descendant)?;
//! let starts: Vec<_> = pairs.iter().map(|p| (p.ancestor.start, p.descendant.start)).collect();
//!
//! assert_eq!(starts, [(2, 4), (3, 4), (2, 8)]);
//! # Ok::<(), belfrychest::Refusal>(())
//! ```
//!
//! [`listing()`] and [`Listing`] go through all pairs of two lists that stay as they are. Where
//! lists are edited between the pages, [`next_page`] hands out a page at a time and a [`Ticket`] to
//! go on with. [`Pieces`] does all this for lists of any length.
//!
//! The zones' [`links`] may be lent too. [`next_linked_page`] and [`Listing::linked`] find the same
//! pairs, and pass over a zone without samples with all that is inside it. On every farm
//! that was measured, checking the links cost more than it saved.
//!
//! [`zone_range`] returns the low and the high of the lab readings in a zone. Where the lab has
//! read none of its samples it returns `None`, and never 0. [`sheet()`] adds up the readings of
//! every zone at once, in whole numbers, and counts the samples that have one.
//!
//! [`ask`] asks a book several questions in one call, each with its own [`Ticket`]. A question that
//! is refused doesn't stop the others.
//!
//! Lists that come as words, four for each node, are lent as they lie: [`nodes`] takes words, and
//! [`words`] gives them. All that is unsafe is in [`raw`], the C interface as it is. Every call
//! panics where the archive that was linked has another version than [`VERSION`].

#![deny(unsafe_code)]
#![deny(missing_docs)]

mod answer;
mod book;
mod limits;
mod list;
mod listing;
mod marks;
mod node;
mod page;
mod pieces;
mod question;
#[allow(unsafe_code, missing_docs)]
pub mod raw;
mod reading;
mod sheet;
mod table;
mod ticket;

pub use answer::Refusal;
pub use book::{body_nodes, book_body, book_bytes, book_check, book_write, book_write_into};
pub use limits::*;
pub use list::{check, check_links, check_two, faulty, links, links_into, Fault};
pub use listing::{listing, Listing};
pub use marks::{number, number_into, pick, pick_into, unnumber, unnumber_into};
pub use node::{node_links, nodes, rows, Entry, Link, Node, Pair, Row};
pub use page::{next_linked_page, next_page, Page};
pub use pieces::Pieces;
pub use question::{ask, Found, Question, Replies, Reply};
pub use raw::{version, words};
pub use reading::{zone_range, Range, Reading};
pub use sheet::{sheet, sheet_into, Hundredths, Subtotal};
pub use table::{Answer, VERSION};
pub use ticket::{Order, Place, Relation, StoredTicketError, Ticket};
