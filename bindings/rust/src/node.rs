//! Nodes, pairs, rows, links and entries. Each is made of words, and a slice of them is lent as the
//! words that it is, without a copy.

use crate::answer::Refusal;
use crate::limits::NONE;
use crate::raw::{items, OfWords};
use crate::table::Answer;
use crate::ticket::Order;

/// A zone, a sample, or whatever a list holds.
///
/// A node is inside another of its document that starts earlier, and ends at the same position or
/// later. In a list that is numbered by order and size, a node's start is its order, and its end is
/// order + size:
///
/// ```
/// use belfrychest::{listing, Node, Order, Relation};
///
/// let node = |[order, size, level]: [u32; 3]| Node {
///     document: 5,
///     start: order,
///     end: order + size,
///     level,
/// };
/// let zones = [[1, 8, 1], [4, 2, 2], [7, 2, 2]].map(node);
/// let samples = [[2, 0, 2], [5, 0, 3], [8, 0, 3]].map(node);
///
/// let pairs = listing(&zones, &samples, Relation::Inside, Order::Descendant)?;
/// let starts: Vec<_> = pairs.iter().map(|p| (p.ancestor.start, p.descendant.start)).collect();
///
/// assert_eq!(starts, [(1, 2), (1, 5), (4, 5), (1, 8), (7, 8)]);
/// # Ok::<(), belfrychest::Refusal>(())
/// ```
#[repr(C)]
#[derive(Clone, Copy, Debug, Default, PartialEq, Eq, Hash)]
pub struct Node {
    /// The number of its document. No node is inside one of another document.
    pub document: u32,
    /// Where it starts in its document.
    pub start: u32,
    /// Where it ends; a text ends at its start.
    pub end: u32,
    /// How deep it lies, 1 for the root.
    pub level: u32,
}

/// A node and one inside it.
#[repr(C)]
#[derive(Clone, Copy, Debug, Default, PartialEq, Eq, Hash)]
pub struct Pair {
    /// The outer node, a zone.
    pub ancestor: Node,
    /// The inner node, a sample.
    pub descendant: Node,
}

impl Pair {
    /// Returns the three numbers that an order sorts its pairs by: the document, the start of the
    /// node that leads, and the start of the other one.
    pub fn key(&self, order: Order) -> [u32; 3] {
        let Pair { ancestor, descendant } = self;
        match order {
            Order::Descendant => [ancestor.document, descendant.start, ancestor.start],
            Order::Ancestor => [ancestor.document, ancestor.start, descendant.start],
        }
    }
}

/// A row of a document's table.
#[repr(C)]
#[derive(Clone, Copy, Debug, Default, PartialEq, Eq, Hash)]
pub struct Row {
    /// The node of an element or a text.
    pub node: Node,
    /// The element's tag, or [`crate::TEXT`].
    pub tag: u32,
}

/// Where a node hangs in the containment forest of its list. Other nodes are given by their
/// indices in the list.
#[repr(C)]
#[derive(Clone, Copy, Debug, PartialEq, Eq, Hash)]
pub struct Link {
    parent: u32,
    first_child: u32,
    next_sibling: u32,
}

impl Link {
    /// Returns the index of the innermost node that contains this one.
    pub fn parent(&self) -> Option<usize> {
        linked(self.parent)
    }

    /// Returns the index of the first node whose parent is this one.
    pub fn first_child(&self) -> Option<usize> {
        linked(self.first_child)
    }

    /// Returns the index of the next node of the same document with the same parent.
    pub fn next_sibling(&self) -> Option<usize> {
        linked(self.next_sibling)
    }
}

/// The link of a node that stands alone.
impl Default for Link {
    fn default() -> Link {
        Link { parent: NONE, first_child: NONE, next_sibling: NONE }
    }
}

fn linked(word: u32) -> Option<usize> {
    (word != NONE).then_some(word as usize)
}

/// A list of a book that is to be written.
#[repr(C)]
#[derive(Clone, Copy, Debug, Default, PartialEq, Eq, Hash)]
pub struct Entry {
    /// The list's tag.
    pub tag: u32,
    /// How many nodes it has.
    pub count: u32,
}

/// Returns the words of a list as its nodes, without a copy. Refused with RAGGED where a word is
/// left over.
pub fn nodes(words: &[u32]) -> Result<&[Node], Refusal> {
    whole(words)
}

/// Returns the words of a table as its rows, without a copy. Refused with RAGGED where a word is
/// left over.
pub fn rows(words: &[u32]) -> Result<&[Row], Refusal> {
    whole(words)
}

/// Returns words as links, three for each node, without a copy. Refused with LINKS where a word is
/// left over, since no list has such links. Whether they are the links of a list is what
/// [`crate::check_links`] tells.
pub fn node_links(words: &[u32]) -> Result<&[Link], Refusal> {
    items(words).ok_or_else(|| Refusal::without_place(Answer::Links))
}

fn whole<T: OfWords>(words: &[u32]) -> Result<&[T], Refusal> {
    items(words).ok_or_else(|| Refusal::without_place(Answer::Ragged))
}
