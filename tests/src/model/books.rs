//! The field book: its bytes, its rules, its lists by tag, and its writing.

use super::answers::{Answer, Verdict, Written};
use super::lists::first_fault;
use super::nodes::{node, nodes, words, Node, NODE_WORDS};
use super::MOST;

/// The most lists of a book.
pub const MOST_LISTS: usize = 64;
/// The bytes of a number.
pub const NUMBER_BYTES: usize = 4;
/// The bytes of a list's entry in the contents: its tag, its offset and its count.
pub const ENTRY_BYTES: usize = 3 * NUMBER_BYTES;
/// The bytes of a node.
pub const NODE_BYTES: usize = NODE_WORDS * NUMBER_BYTES;
/// The words of an entry that is to be written: its tag and its count.
pub const WANTED_WORDS: usize = 2;

/// A list of a book, with its tag.
pub type Tagged = (u32, Vec<Node>);

/// Where a list lies in a book: its tag, the offset of its body and its number of nodes.
#[derive(Clone, Copy, Debug, PartialEq, Eq)]
pub struct Entry {
    pub tag: u32,
    pub offset: usize,
    pub count: usize,
}

/// Returns where the contents of `lists` lists end.
pub fn contents_end(lists: usize) -> usize {
    NUMBER_BYTES + ENTRY_BYTES * lists
}

/// Returns the bytes of a book that holds these lists, whether it keeps the rules or not.
pub fn bytes(lists: &[Tagged]) -> Vec<u8> {
    let mut numbers = vec![lists.len() as u32];
    let mut offset = contents_end(lists.len());
    for (tag, nodes) in lists {
        numbers.extend([*tag, offset as u32, nodes.len() as u32]);
        offset += NODE_BYTES * nodes.len();
    }
    for (_, nodes) in lists {
        numbers.extend(words(nodes));
    }
    numbers.into_iter().map(u32::to_le_bytes).collect::<Vec<_>>().concat()
}

/// Returns the whole numbers that the bytes make.
pub fn numbers(bytes: &[u8]) -> Vec<u32> {
    bytes
        .chunks_exact(NUMBER_BYTES)
        .map(|number| u32::from_le_bytes(number.try_into().expect("four bytes")))
        .collect()
}

/// Returns the entries of a book whose contents break no rule.
pub(super) fn contents(book: &[u8]) -> Option<Vec<Entry>> {
    let numbers = numbers(book);
    let lists = *numbers.first()? as usize;
    if lists > MOST_LISTS || book.len() < contents_end(lists) {
        return None;
    }
    let read = |place: usize| Entry {
        tag: numbers[place],
        offset: numbers[place + 1] as usize,
        count: numbers[place + 2] as usize,
    };
    let entries: Vec<Entry> = (0..lists).map(|list| read(1 + 3 * list)).collect();
    let body_end = |lists_before: usize| {
        contents_end(lists)
            + entries[..lists_before].iter().map(|entry| NODE_BYTES * entry.count).sum::<usize>()
    };
    let tags_ascend = entries.windows(2).all(|two| two[0].tag < two[1].tag);
    let counts_fit = entries.iter().all(|entry| entry.count <= MOST);
    let laid = (0..lists).all(|list| entries[list].offset == body_end(list))
        && book.len() == body_end(lists);
    (tags_ascend && counts_fit && laid).then_some(entries)
}

/// Returns the nodes of a list that lies in a book.
pub fn body_nodes(book: &[u8], entry: &Entry) -> Vec<Node> {
    nodes(&numbers(&book[entry.offset..entry.offset + NODE_BYTES * entry.count]))
}

/// Returns the first fault in lists, the answer with the list's number and the node's index.
fn list_fault<'a>(lists: impl Iterator<Item = &'a Vec<Node>>) -> Option<Verdict> {
    let faults = lists.enumerate().map(|(list, nodes)| {
        first_fault(nodes).map(|(answer, index)| Verdict { answer, list: list as u32, index })
    });
    faults.flatten().next()
}

/// What opening a book answers, and where its lists lie; a refused one has none.
#[derive(Clone, Debug, PartialEq, Eq)]
pub struct Opened {
    pub verdict: Verdict,
    pub entries: Vec<Entry>,
}

pub fn check(book: &[u8]) -> Opened {
    let refused = |verdict| Opened { verdict, entries: Vec::new() };
    match contents(book) {
        None => refused(Verdict::of(Answer::Contents)),
        Some(entries) => {
            let bodies: Vec<Vec<Node>> =
                entries.iter().map(|entry| body_nodes(book, entry)).collect();
            let taken = Verdict::of(Answer::Taken);
            list_fault(bodies.iter()).map_or(Opened { verdict: taken, entries }, refused)
        }
    }
}

/// Where a tag's list lies in a book, in bytes; 0 and 0 on refusal.
#[derive(Clone, Copy, Debug, PartialEq, Eq)]
pub struct Body {
    pub verdict: Verdict,
    pub from: usize,
    pub bytes: usize,
}

pub fn body(book: &[u8], tag: u32) -> Body {
    let Opened { verdict, entries } = check(book);
    let refused = |verdict| Body { verdict, from: 0, bytes: 0 };
    if verdict.answer != Answer::Taken {
        return refused(verdict);
    }
    match entries.iter().find(|entry| entry.tag == tag) {
        None => refused(Verdict::of(Answer::Absent)),
        Some(entry) => Body { verdict, from: entry.offset, bytes: NODE_BYTES * entry.count },
    }
}

/// Returns the lists that (tag, count) entries make of the nodes, if the entries break no rule.
fn wanted(entries: &[u32], nodes: &[u32]) -> Option<Vec<Tagged>> {
    let entries: Vec<(u32, usize)> =
        entries.chunks(WANTED_WORDS).map(|entry| (entry[0], entry[1] as usize)).collect();
    let tags_ascend = entries.windows(2).all(|two| two[0].0 < two[1].0);
    let counts_fit = entries.iter().all(|&(_, count)| count <= MOST);
    let all: usize = entries.iter().map(|&(_, count)| count).sum();
    if entries.len() > MOST_LISTS || !tags_ascend || !counts_fit || NODE_WORDS * all != nodes.len()
    {
        return None;
    }
    let mut left = nodes.chunks(NODE_WORDS).map(node);
    Some(entries.iter().map(|&(tag, count)| (tag, left.by_ref().take(count).collect())).collect())
}

pub fn write(entries: &[u32], nodes: &[u32], room: usize) -> Written<u8> {
    if entries.len() % WANTED_WORDS != 0 || nodes.len() % NODE_WORDS != 0 {
        return Written::refused(Verdict::of(Answer::Ragged));
    }
    let lists = match wanted(entries, nodes) {
        None => return Written::refused(Verdict::of(Answer::Contents)),
        Some(lists) => lists,
    };
    if let Some(verdict) = list_fault(lists.iter().map(|(_, nodes)| nodes)) {
        return Written::refused(verdict);
    }
    let book = bytes(&lists);
    Written::within(room, book.len(), book)
}
