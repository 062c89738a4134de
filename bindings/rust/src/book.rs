//! Field books: lists in bytes, each under a tag.

use crate::answer::{settle, Refusal};
use crate::limits::{CONTENTS_NUMBERS, NODE_WORDS, NUMBER_BYTES};
use crate::node::{Entry, Node};
use crate::raw::{self, words};

/// Checks a book and returns how many lists it has. Refused with CONTENTS, then LEVEL to DEPTH for
/// the first list at fault, with its place in the book and the node's index in that list.
pub fn book_check(book: &[u8]) -> Result<usize, Refusal> {
    let opened = raw::book_check(book);
    settle(opened.verdict)?;
    Ok(opened.lists as usize)
}

/// Returns the body of a tag's list, which is a part of the lent book itself. Refused as
/// [`book_check`] is, then with ABSENT.
pub fn book_body(book: &[u8], tag: u32) -> Result<&[u8], Refusal> {
    let body = raw::book_body(book, tag);
    settle(body.verdict)?;
    Ok(&book[body.from..body.from + body.bytes])
}

/// Returns the nodes of a list's body.
pub fn body_nodes(body: &[u8]) -> Vec<Node> {
    body.chunks_exact(NUMBER_BYTES * NODE_WORDS).map(stored_node).collect()
}

fn stored_node(bytes: &[u8]) -> Node {
    let number = |place: usize| {
        let from = NUMBER_BYTES * place;
        u32::from_le_bytes([bytes[from], bytes[from + 1], bytes[from + 2], bytes[from + 3]])
    };
    Node { document: number(0), start: number(1), end: number(2), level: number(3) }
}

/// Returns how many bytes a book takes, from its number of lists and the number of nodes in all of
/// them.
pub fn book_bytes(lists: usize, nodes: usize) -> usize {
    NUMBER_BYTES * (1 + CONTENTS_NUMBERS * lists + NODE_WORDS * nodes)
}

/// Returns the book of the lists that the entries name, at most
/// [`MOST_LISTS`](crate::MOST_LISTS), and whose nodes are given one after the other. Refused with
/// CONTENTS, then LEVEL to DEPTH as [`book_check`] is.
pub fn book_write(entries: &[Entry], nodes: &[Node]) -> Result<Vec<u8>, Refusal> {
    let mut out = vec![0; book_bytes(entries.len(), nodes.len())];
    let count = book_write_into(entries, nodes, &mut out)?;
    out.truncate(count);
    Ok(out)
}

/// Writes what [`book_write`] returns, and returns how many bytes. Refused as [`book_write`] is,
/// then with ROOM.
pub fn book_write_into(
    entries: &[Entry],
    nodes: &[Node],
    out: &mut [u8],
) -> Result<usize, Refusal> {
    let written = raw::book_write(words(entries), words(nodes), out);
    settle(written.verdict)?;
    Ok(written.count)
}
