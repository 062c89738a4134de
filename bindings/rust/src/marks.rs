//! A document's marks and its table.

use crate::answer::{settle, settle_answer, Refusal};
use crate::limits::MOST_NODES;
use crate::node::{Node, Row};
use crate::raw::{self, words, words_mut};

/// Returns a row for each element and text that the marks make, in start order. Refused with LONG,
/// then MARK, STRAY or DEEP for the first faulty mark, then UNCLOSED.
pub fn number(document: u32, marks: &[u32]) -> Result<Vec<Row>, Refusal> {
    let mut out = vec![Row::default(); marks.len().min(MOST_NODES)];
    let count = number_into(document, marks, &mut out)?;
    out.truncate(count);
    Ok(out)
}

/// Writes what [`number`] returns, and returns how many rows. Refused as [`number`] is, then with
/// ROOM; a row for each mark is always room enough.
pub fn number_into(document: u32, marks: &[u32], out: &mut [Row]) -> Result<usize, Refusal> {
    let written = raw::number(document, marks, words_mut(out));
    settle(written.verdict)?;
    Ok(written.count)
}

/// Returns the document's number and the marks of a table. Refused with LONG, then TABLE.
pub fn unnumber(table: &[Row]) -> Result<(u32, Vec<u32>), Refusal> {
    let mut out = vec![0; MOST_NODES];
    let (document, count) = unnumber_into(table, &mut out)?;
    out.truncate(count);
    Ok((document, out))
}

/// Writes the marks of a table, and returns the document's number and how many marks. Refused as
/// [`unnumber`] is, then with ROOM; [`MOST_NODES`] marks are always room enough.
pub fn unnumber_into(table: &[Row], out: &mut [u32]) -> Result<(u32, usize), Refusal> {
    let back = raw::unnumber(words(table), out);
    settle_answer(back.answer)?;
    Ok((back.document, back.count))
}

/// Returns the node of every row that has the tag, in the order of the rows. Nothing else of the
/// table is judged. Refused with LONG.
pub fn pick(table: &[Row], tag: u32) -> Result<Vec<Node>, Refusal> {
    let mut out = vec![Node::default(); table.len().min(MOST_NODES)];
    let count = pick_into(table, tag, &mut out)?;
    out.truncate(count);
    Ok(out)
}

/// Writes what [`pick`] returns, and returns how many nodes. Refused as [`pick`] is, then with
/// ROOM.
pub fn pick_into(table: &[Row], tag: u32, out: &mut [Node]) -> Result<usize, Refusal> {
    let picked = raw::pick(words(table), tag, words_mut(out));
    settle(picked.verdict)?;
    Ok(picked.count)
}
