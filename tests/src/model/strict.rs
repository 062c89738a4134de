//! The stricter rule of "Order and size", by which a node ends before any node around it ends: the
//! verdicts, the pairs and the links. Nothing here asks the rule of the library, `inside`.

use super::answers::Answer::{self, *};
use super::answers::{Verdict, ANCESTORS, DESCENDANTS};
use super::books::{body_nodes, contents, Entry};
use super::links::NONE;
use super::lists::MOST_LEVEL;
use super::nodes::{apart, Node};
use super::pages::{Pair, Relation, Ticket};

/// Tells whether y is strictly inside x.
fn is_inside(y: &Node, x: &Node) -> bool {
    y.document == x.document && x.start < y.start && y.end < x.end
}

/// Returns the first of the answers 3 to 7 that applies to y after the nodes before it.
fn fault(before: &[Node], y: &Node) -> Option<Answer> {
    let position = |node: &Node| (node.document, node.start);
    let is_open = |x: &Node| x.document == y.document && x.end >= y.start;
    let faults = [
        (Level, y.level == 0 || y.level > MOST_LEVEL),
        (Span, y.end < y.start),
        (Order, before.last().map_or(false, |x| position(y) <= position(x))),
        (Cross, before.iter().any(|x| is_open(x) && !is_inside(y, x))),
        (Depth, before.iter().any(|x| is_inside(y, x) && y.level <= x.level)),
    ];
    faults.iter().find(|(_, applies)| *applies).map(|(answer, _)| *answer)
}

/// Checks the list that has this number. It has no more nodes than a list may have.
pub fn check(number: u32, nodes: &[Node]) -> Verdict {
    let refusal = |index: usize| {
        let answer = fault(&nodes[..index], &nodes[index])?;
        Some(Verdict { answer, list: number, index: index as u32 })
    };
    (0..nodes.len()).find_map(refusal).unwrap_or(Verdict::of(Taken))
}

/// Tells whether two nodes may stand in lists that are accepted together.
fn agree(x: &Node, y: &Node) -> bool {
    let fits_into = |y: &Node, x: &Node| is_inside(y, x) && y.level > x.level;
    x == y || x.document != y.document || apart(x, y) || fits_into(y, x) || fits_into(x, y)
}

/// Returns the first of the verdicts that refuses, or else that all is accepted.
fn first_refusal(verdicts: impl IntoIterator<Item = Verdict>) -> Verdict {
    verdicts.into_iter().find(|one| one.answer != Taken).unwrap_or(Verdict::of(Taken))
}

pub fn check_two(ancestors: &[Node], descendants: &[Node]) -> Verdict {
    let all_agree = ancestors.iter().all(|x| descendants.iter().all(|y| agree(x, y)));
    let together = Verdict::of(if all_agree { Taken } else { Joint });
    first_refusal([check(ANCESTORS, ancestors), check(DESCENDANTS, descendants), together])
}

/// Checks the contents of a book, and each of its lists.
pub fn check_book(book: &[u8]) -> Verdict {
    let of_lists = |entries: Vec<Entry>| {
        let lists = (0..).zip(entries.iter().map(|entry| body_nodes(book, entry)));
        first_refusal(lists.map(|(number, nodes)| check(number, &nodes)))
    };
    contents(book).map_or(Verdict::of(Contents), of_lists)
}

/// Returns all pairs of the relation that the ticket asks for, in its order.
pub fn pairs(ticket: &Ticket, ancestors: &[Node], descendants: &[Node]) -> Vec<Pair> {
    let mut pairs = Vec::new();
    for &ancestor in ancestors {
        for &descendant in descendants.iter().filter(|y| is_inside(y, &ancestor)) {
            if ticket.relation == Relation::Inside || descendant.level == ancestor.level + 1 {
                pairs.push(Pair { ancestor, descendant });
            }
        }
    }
    pairs.sort_by_key(|pair| pair.key(ticket.order));
    pairs
}

/// Returns the links of an accepted list. A node's parent is the last that it is inside.
pub fn links(nodes: &[Node]) -> Vec<u32> {
    let parent = |y: usize| (0..y).rev().find(|&x| is_inside(&nodes[y], &nodes[x]));
    let parents: Vec<Option<usize>> = (0..nodes.len()).map(parent).collect();
    let around = |y: usize| (nodes[y].document, parents[y]);
    let of_node = |x: usize| {
        let mut later = x + 1..nodes.len();
        let child = later.clone().find(|&y| parents[y] == Some(x));
        [parents[x], child, later.find(|&y| around(y) == around(x))]
    };
    (0..nodes.len()).flat_map(of_node).map(|y| y.map_or(NONE, |y| y as u32)).collect()
}
