//! The containment forest of one list, and the check of words that are lent as its links.

use super::answers::{Answer, Verdict, Written};
use super::lists::check;
use super::nodes::{inside, nodes, Node};

/// The words of a node's links.
pub const LINK_WORDS: usize = 3;
/// Says that there is no such node.
pub const NONE: u32 = u32::MAX;

/// Returns the index of the innermost node that contains the node of this index: one that contains
/// it, and has none inside that contains it too.
fn parent(nodes: &[Node], index: usize) -> Option<usize> {
    let containers: Vec<usize> =
        (0..nodes.len()).filter(|&other| inside(&nodes[index], &nodes[other])).collect();
    containers.iter().copied().find(|&candidate| {
        !containers.iter().any(|&other| inside(&nodes[other], &nodes[candidate]))
    })
}

/// Returns the links of an accepted list's nodes: the index of each node's parent, of its first
/// child and of its next sibling.
pub fn links_of(nodes: &[Node]) -> Vec<u32> {
    let parents: Vec<Option<usize>> = (0..nodes.len()).map(|index| parent(nodes, index)).collect();
    let first_child = |index: usize| parents.iter().position(|&other| other == Some(index));
    let is_next = |index: usize, other: usize| {
        parents[other] == parents[index] && nodes[other].document == nodes[index].document
    };
    let next = |index: usize| (index + 1..nodes.len()).find(|&other| is_next(index, other));
    let triple = |index: usize| [parents[index], first_child(index), next(index)];
    (0..nodes.len()).flat_map(triple).map(|link| link.map_or(NONE, |index| index as u32)).collect()
}

pub fn links(list: &[u32], room: usize) -> Written<u32> {
    let verdict = check(list);
    if verdict.answer != Answer::Taken {
        return Written::refused(verdict);
    }
    let nodes = nodes(list);
    Written::within(room, nodes.len(), links_of(&nodes))
}

/// Tells whether words are exactly the links of an accepted list.
pub fn are_links(list: &[u32], words: &[u32]) -> bool {
    words == links_of(&nodes(list))
}

/// Checks a list and words that are lent as its links.
pub fn check_links(list: &[u32], words: &[u32]) -> Verdict {
    let verdict = check(list);
    if verdict.answer == Answer::Taken && !are_links(list, words) {
        return Verdict::of(Answer::Links);
    }
    verdict
}
