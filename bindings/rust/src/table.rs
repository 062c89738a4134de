//! The version, the answers and their hints. Written by bin/tables.

/// The version of the library that this crate is made for.
pub const VERSION: u32 = 6;

/// What a call can answer, by the numbers of docs/SCOPE.md, Answer numbers.
#[derive(Clone, Copy, Debug, PartialEq, Eq, Hash)]
#[non_exhaustive]
pub enum Answer {
    /// Nothing below applies.
    Taken,
    /// The words don't divide evenly into nodes, rows, entries or questions, or there aren't as
    /// many readings or hundredths as samples.
    Ragged,
    /// There are more than 4,096 nodes, rows or marks, or more than 32 questions. For the program:
    /// more than 61,440 bytes.
    Long,
    /// A node's level is 0 or above 64.
    Level,
    /// A node's end is below its start.
    Span,
    /// A node doesn't come after the one before it, by document and start.
    Order,
    /// A node starts no later than an earlier node of its document ends, and isn't inside it.
    Cross,
    /// A node is inside an earlier one whose level isn't lower.
    Depth,
    /// Each list passes alone, but two nodes of one document, one of each list, overlap. They
    /// aren't identical, and neither is inside the other with a higher level.
    Joint,
    /// The result is longer than the output.
    Room,
    /// A mark is above 65,536.
    Mark,
    /// A close or a text has nothing open around it, or something opens after the root has closed.
    Stray,
    /// An element or a text would have a level above 64.
    Deep,
    /// An element is still open after the last mark, or there isn't any mark.
    Unclosed,
    /// No accepted marks have this table.
    Table,
    /// A book's contents are wrong: the number of lists, the order of the tags, an offset, a count,
    /// or where the book ends.
    Contents,
    /// No list of the book has that tag, the book has fewer lists than asked for, or no zone has
    /// that index.
    Absent,
    /// A sample's reading has an unknown kind, or is missing and yet has bits. Or its value is
    /// infinite, a NaN or below zero. Or it exceeds 100 percent or 1,000 grams per kilogram. In a
    /// sheet: a sample's word is above 10,000 and isn't 65,535.
    Reading,
    /// The links lent aren't exactly those of the list. In a page call that is the ancestors' list.
    Links,
    /// An answer that this crate doesn't know, by its number.
    Unknown(u32),
}

/// The known answers with their hints, each at the place of its number.
pub(crate) const ROWS: &[(Answer, &str)] = &[
    (Answer::Taken, "Nothing: the call did what it says."),
    (
        Answer::Ragged,
        "Give whole nodes of 4 words, rows of 5, entries of 2 or questions of 8. For each sample \
        give one reading of 2 words, or one word of hundredths for a sheet. A length is cut off, \
        or counts bytes, nodes or questions instead of words.",
    ),
    (
        Answer::Long,
        "Join longer lists with Pieces (Python, Rust). Or cut them yourself: check each piece \
        alone, and every two pieces of a list together. The first node of each piece must come \
        after the last node of the piece before it, by document and start. Then join every piece \
        of one list with every piece of the other. One call takes at most 4,096 marks or rows, \
        and the program a book of at most 61,440 bytes. Spread more than 32 questions over \
        several calls.",
    ),
    (Answer::Level, "Give the node a level from 1 to 64."),
    (
        Answer::Span,
        "Let the node end where it starts, or later: start and end are swapped, or one of them is \
        wrong.",
    ),
    (
        Answer::Order,
        "Sort the list by document and start, and let no two nodes have the same document and \
        start.",
    ),
    (
        Answer::Cross,
        "Let the node end no later than that earlier node ends, or start after it ends.",
    ),
    (
        Answer::Depth,
        "Give the node a higher level than every node that it is inside, by one or by more.",
    ),
    (
        Answer::Joint,
        "Find the two nodes, one of each list, that overlap. Make them identical or apart, or put \
        one inside the other and give the inner one the higher level.",
    ),
    (Answer::Room, "Give a longer output; nothing was written."),
    (Answer::Mark, "Give marks from 0, a close, to 65,536, a text; the numbers between are tags."),
    (
        Answer::Stray,
        "Let the first mark open the root, and let no mark follow the one that closes it.",
    ),
    (Answer::Deep, "Nest elements and texts at most 64 levels deep."),
    (Answer::Unclosed, "Close every element that is opened; there must be a root."),
    (
        Answer::Table,
        "Give the whole table of one document as numbering wrote it: a row is missing, altered or \
        out of place.",
    ),
    (
        Answer::Contents,
        "Write the book again: it is no book, or cut off, or damaged. In writing, let each tag be \
        above the one before it, and the counts add up to the nodes. There are at most 64 lists \
        of at most 4,096 nodes.",
    ),
    (
        Answer::Absent,
        "Ask for a tag that the book has, or for the index of a zone, counted from 0. The program \
        needs a book with at least two lists.",
    ),
    (
        Answer::Reading,
        "Repair the reading of the sample at that index. Give a percentage from 0 to 100, grams \
        per kilogram from 0 to 1,000, or a missing one, whose bits are 0. For a sheet, give \
        hundredths of a percent from 0 to 10,000, or 65,535 for a missing one. Never give 0 for \
        a sample that the lab didn't read.",
    ),
    (
        Answer::Links,
        "Write the links of that list anew: these are of another list, are older than its last \
        edit, or are cut off. A page call without links gives the same page.",
    ),
];
