//! Edits of lists between two calls.

use super::lists::damage;
use crate::model::nodes::Node;
use crate::random::Random;

/// Alters one of the lists, which may damage it. All nodes of the documents are there to be put in.
pub fn edit(random: &mut Random, lists: &mut [Vec<Node>], all: &[Node]) {
    let index = random.below(lists.len());
    let list = &mut lists[index];
    match random.below(8) {
        0 => damage(random, list),
        1 | 2 if !list.is_empty() => drop(list.remove(random.below(list.len()))),
        3..=5 if !list.is_empty() => alter(random, lists, index),
        _ if !all.is_empty() => put_in(list, random.pick(all)),
        _ => (),
    }
}

/// Alters a node of one list a little, wherever it stands, or lets it end where another ends.
fn alter(random: &mut Random, lists: &mut [Vec<Node>], index: usize) {
    let node = random.pick(&lists[index]);
    let altered = match random.below(5) {
        0 => Node { level: node.level.saturating_add(1), ..node },
        1 => Node { end: node.end.saturating_sub(1), ..node },
        2 => Node { end: node.end.saturating_add(1), ..node },
        3 => Node { end: random.pick(&lists[index]).end, ..node },
        _ => Node { start: node.start.saturating_add(1), ..node },
    };
    for same in lists.iter_mut().flatten().filter(|same| **same == node) {
        *same = altered;
    }
}

/// Puts a node where the order wants it.
fn put_in(list: &mut Vec<Node>, node: Node) {
    let place = list
        .partition_point(|earlier| (earlier.document, earlier.start) < (node.document, node.start));
    list.insert(place, node);
}
