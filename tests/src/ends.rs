//! Nodes that end at one position, as in lists that are numbered by order and size: whether a case
//! has some.

use crate::model::lists::at_odds;
use crate::model::nodes::{inside, Node};
use crate::model::pages::Pair;
use std::collections::HashMap;
use std::hash::Hash;

/// Returns how often the most frequent of these comes.
fn most_equal<T: Eq + Hash>(items: impl Iterator<Item = T>) -> usize {
    let mut counts = HashMap::new();
    for item in items {
        *counts.entry(item).or_insert(0) += 1;
    }
    counts.into_values().max().unwrap_or(0)
}

/// Returns the most nodes of one document that end at one position. In an accepted list each of
/// them is inside those before it.
pub fn most_at_one_end(nodes: &[Node]) -> usize {
    most_equal(nodes.iter().map(|node| [node.document, node.end]))
}

/// Returns the most ancestors of one descendant that end at one position.
pub fn most_around(pairs: &[Pair]) -> usize {
    most_equal(pairs.iter().map(|pair| (pair.descendant.words(), pair.ancestor.end)))
}

/// Tells whether two nodes of one document start at two positions and end at one. In accepted lists
/// that agree, one of them is inside the other.
fn share_an_end(x: &Node, y: &Node) -> bool {
    x.document == y.document && x.start != y.start && x.end == y.end
}

/// Tells whether a node of one list and a node of the other share an end.
pub fn meet(ancestors: &[Node], descendants: &[Node]) -> bool {
    ancestors.iter().any(|x| descendants.iter().any(|y| share_an_end(x, y)))
}

/// Tells whether a node of one list and a node of the other share an end, and are at odds.
pub fn clash(ancestors: &[Node], descendants: &[Node]) -> bool {
    let clash = |x: &Node, y: &Node| share_an_end(x, y) && at_odds(x, y);
    ancestors.iter().any(|x| descendants.iter().any(|y| clash(x, y)))
}

/// Tells whether a page with this last pair, and with this one still to come, stops between two
/// ancestors that end at one position.
pub fn is_between(last: &Pair, next: &Pair) -> bool {
    inside(&next.ancestor, &last.ancestor) && next.ancestor.end == last.ancestor.end
}
