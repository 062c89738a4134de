//! The limits, and how many words or bytes each thing takes. The names are those of the C header.

/// The most nodes of a list, rows of a table and marks of a document. [`crate::Pieces`] takes lists
/// of any length.
pub const MOST_NODES: usize = 4096;
/// The highest level of a node. The lowest is 1.
pub const MOST_LEVELS: usize = 64;
/// The most nodes of a list that contain one node, since levels rise on the way in.
pub const MOST_CONTAINING: usize = MOST_LEVELS - 1;
/// The most lists of a book. A library of version 5 or earlier takes 16, and answers CONTENTS to a
/// book with more.
pub const MOST_LISTS: usize = 64;
/// The most questions of one call.
pub const MOST_QUESTIONS: usize = 32;
/// The most bytes of a book that the printing program takes. The calls have no such limit.
pub const PRINTED_BYTES: usize = 61440;
/// The pairs of a page for those who have no reason to choose another number. Every page checks
/// both lists anew, so a listing in pages of 4 pairs costs hundreds of times as much.
pub const PAGE_PAIRS: usize = 4096;

/// The words of a node: document, start, end, level.
pub const NODE_WORDS: usize = 4;
/// The words of a pair: the ancestor's and then the descendant's.
pub const PAIR_WORDS: usize = 2 * NODE_WORDS;
/// The words of a table's row: a node's and its tag.
pub const ROW_WORDS: usize = NODE_WORDS + 1;
/// The words of a link: the index of the parent, of the first child and of the next sibling.
pub const LINK_WORDS: usize = 3;
/// The words of an entry for a book that is to be written: a tag and a number of nodes.
pub const ENTRY_WORDS: usize = 2;
/// The words of a lab reading: its kind and the bits of its value.
pub const READING_WORDS: usize = 2;
/// The words of a subtotal of a sheet: the samples, how many of them have a reading, and the sum of
/// those readings.
pub const SUBTOTAL_WORDS: usize = 3;
/// The words of a ticket: its relation, its order, whether it is placed, and the three numbers of
/// its key.
pub const TICKET_WORDS: usize = 6;
/// The words of a question: two tags and a ticket.
pub const QUESTION_WORDS: usize = 2 + TICKET_WORDS;
/// The form in which tickets are stored. It changes when a ticket's words do.
pub const TICKET_FORM: u32 = 1;
/// The bytes of a number in a book or in a stored ticket, the lowest first.
pub const NUMBER_BYTES: usize = 4;
/// The bytes of a stored ticket: the form's number and the ticket's words.
pub const TICKET_BYTES: usize = NUMBER_BYTES * (1 + TICKET_WORDS);
/// The numbers that a list takes in a book's contents: tag, offset, count of nodes.
pub const CONTENTS_NUMBERS: usize = 3;
/// The bytes of an answer's name, filled up with blanks.
pub const NAME_BYTES: usize = 8;

/// The mark that closes an element.
pub const CLOSE: u32 = 0;
/// The mark of a text. Any number between opens an element of that tag.
pub const TEXT: u32 = 65536;
/// The kind of a lab reading that is missing.
pub const MISSING: u32 = 0;
/// The kind of a lab reading in percent.
pub const PERCENT: u32 = 1;
/// The kind of a lab reading in grams per kilogram.
pub const GRAMS: u32 = 2;
/// The greatest lab reading in percent. The least is 0.
pub const MOST_PERCENT: f32 = 100.0;
/// The greatest lab reading in grams per kilogram. The least is 0.
pub const MOST_GRAMS: f32 = 1000.0;
/// The greatest lab reading in hundredths of a percent, for a sheet. The least is 0.
pub const MOST_HUNDREDTHS: u32 = 10000;
/// The word that says in a sheet that a lab reading is missing.
pub const NO_HUNDREDTHS: u32 = 65535;
/// A link's word that says there is no such node.
pub const NONE: u32 = u32::MAX;

/// The list that a refusal names when the ancestors are at fault.
pub const ANCESTORS: usize = 0;
/// The list that a refusal names when the descendants are at fault.
pub const DESCENDANTS: usize = 1;
