//! The checks of one list and of two, and the part at the faulty node.

use super::answers::{Answer, Verdict, ANCESTORS, DESCENDANTS};
use super::nodes::{apart, inside, nodes, Node, NODE_WORDS};
use super::MOST;

/// The greatest level.
pub const MOST_LEVEL: u32 = 64;

/// Returns the first of the answers 3 to 7 that applies to a node after those before it.
fn fault(before: &[Node], node: &Node) -> Option<Answer> {
    let crosses = |e: &Node| e.document == node.document && e.end >= node.start && !inside(node, e);
    let not_lower = |e: &Node| inside(node, e) && e.level >= node.level;
    if node.level == 0 || node.level > MOST_LEVEL {
        Some(Answer::Level)
    } else if node.end < node.start {
        Some(Answer::Span)
    } else if before
        .last()
        .map_or(false, |last| (node.document, node.start) <= (last.document, last.start))
    {
        Some(Answer::Order)
    } else if before.iter().any(crosses) {
        Some(Answer::Cross)
    } else if before.iter().any(not_lower) {
        Some(Answer::Depth)
    } else {
        None
    }
}

/// Returns the first faulty node's answer and index.
pub fn first_fault(nodes: &[Node]) -> Option<(Answer, u32)> {
    (0..nodes.len()).find_map(|index| {
        fault(&nodes[..index], &nodes[index]).map(|answer| (answer, index as u32))
    })
}

/// Checks the list that has this number.
pub fn check_as(list: u32, words: &[u32]) -> Verdict {
    if words.len() % NODE_WORDS != 0 {
        return Verdict { answer: Answer::Ragged, list, index: 0 };
    }
    if words.len() / NODE_WORDS > MOST {
        return Verdict { answer: Answer::Long, list, index: 0 };
    }
    first_fault(&nodes(words)).map_or(Verdict::of(Answer::Taken), |(answer, index)| Verdict {
        answer,
        list,
        index,
    })
}

pub fn check(words: &[u32]) -> Verdict {
    check_as(ANCESTORS, words)
}

/// Tells whether two nodes of one document are at odds: some of their words differ, they aren't
/// apart, and neither is inside the other with a higher level than it.
pub fn at_odds(x: &Node, y: &Node) -> bool {
    let fits_into = |inner: &Node, outer: &Node| inside(inner, outer) && inner.level > outer.level;
    x.document == y.document && x != y && !apart(x, y) && !fits_into(x, y) && !fits_into(y, x)
}

pub fn check_two(ancestors: &[u32], descendants: &[u32]) -> Verdict {
    let alone = [check_as(ANCESTORS, ancestors), check_as(DESCENDANTS, descendants)];
    if let Some(refused) = alone.iter().find(|verdict| verdict.answer != Answer::Taken) {
        return *refused;
    }
    let descendants = nodes(descendants);
    let joint = nodes(ancestors).iter().any(|x| descendants.iter().any(|y| at_odds(x, y)));
    Verdict::of(if joint { Answer::Joint } else { Answer::Taken })
}

/// A verdict on two lists, and the part at the faulty node: the place of its first word in the list
/// that the verdict names, and its length in words.
#[derive(Clone, Copy, Debug, PartialEq, Eq)]
pub struct Part {
    pub verdict: Verdict,
    pub from: usize,
    pub words: usize,
}

pub fn faulty(ancestors: &[u32], descendants: &[u32]) -> Part {
    let verdict = check_two(ancestors, descendants);
    match verdict.answer {
        Answer::Level | Answer::Span | Answer::Order | Answer::Cross | Answer::Depth => {
            let list = if verdict.list == ANCESTORS { ancestors } else { descendants };
            let from = NODE_WORDS * verdict.index as usize;
            Part { verdict, from, words: list.len() - from }
        }
        _ => Part { verdict, from: 0, words: 0 },
    }
}
