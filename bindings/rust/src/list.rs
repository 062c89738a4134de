//! The checks of one list and of two, the part to repair, and the links of a list with their check.

use crate::answer::{settle, settle_two, Refusal};
use crate::limits::{DESCENDANTS, MOST_NODES, NODE_WORDS};
use crate::node::{Link, Node};
use crate::raw::{self, words, words_mut};

/// Checks one list. Refused with LONG, then LEVEL to DEPTH for the first node at which one applies,
/// with its index.
pub fn check(list: &[Node]) -> Result<(), Refusal> {
    settle(raw::check(words(list)))
}

/// Checks two lists that are to be joined. Refused as [`check`] refuses the ancestors, then the
/// descendants, then with JOINT.
pub fn check_two(ancestors: &[Node], descendants: &[Node]) -> Result<(), Refusal> {
    settle_two(raw::check_two(words(ancestors), words(descendants)))
}

/// What is wrong with two lists, and where.
#[derive(Clone, Copy, Debug, PartialEq, Eq)]
pub struct Fault<'a> {
    /// What [`check_two`] says of the lists.
    pub refusal: Refusal,
    /// The part of the list at fault from its faulty node up to its end; empty unless the answer
    /// is LEVEL to DEPTH.
    pub part: &'a [Node],
}

/// Checks two lists as [`check_two`] does and returns the part to repair, which is a part of the
/// lent list itself, or none where both are taken.
pub fn faulty<'a>(ancestors: &'a [Node], descendants: &'a [Node]) -> Option<Fault<'a>> {
    let part = raw::faulty(words(ancestors), words(descendants));
    let refusal = settle_two(part.verdict).err()?;
    let list = if refusal.list == Some(DESCENDANTS) { descendants } else { ancestors };
    let (from, count) = (part.from / NODE_WORDS, part.words / NODE_WORDS);
    Some(Fault { refusal, part: &list[from..from + count] })
}

/// Returns a link for each node. Refused as [`check`] is.
pub fn links(list: &[Node]) -> Result<Vec<Link>, Refusal> {
    let mut out = vec![Link::default(); list.len().min(MOST_NODES)];
    let count = links_into(list, &mut out)?;
    out.truncate(count);
    Ok(out)
}

/// Writes a link for each node, and returns how many. Refused as [`check`] is, then with ROOM.
pub fn links_into(list: &[Node], out: &mut [Link]) -> Result<usize, Refusal> {
    let written = raw::links(words(list), words_mut(out));
    settle(written.verdict)?;
    Ok(written.count)
}

/// Checks links that may come from anyone. They are taken exactly when they are those that
/// [`links`] returns for the list. Refused as [`check`] is, then with LINKS.
pub fn check_links(list: &[Node], links: &[Link]) -> Result<(), Refusal> {
    settle(raw::links_check(words(list), words(links)))
}
