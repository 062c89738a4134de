//! Trees that are numbered by order and size (docs/SCOPE.md, "Order and size"). What contains what
//! is drawn first, as the parent of each node, and the numbers after it.

use super::lists::settle;
use crate::model::lists::MOST_LEVEL;
use crate::model::nodes::Node;
use crate::random::Random;

/// A tree of one document in preorder: the place of each node's parent, which the root hasn't, and
/// the nodes. A node starts at its order, and ends at its order and size together.
pub struct Tree {
    pub parents: Vec<Option<usize>>,
    pub nodes: Vec<Node>,
}

/// Returns a tree of at least one node and at most `size`. In every other tree each level is one
/// more than the parent's, and in the others it may be two more. Every other tree has no gaps: the
/// orders are consecutive, and a node's size is the number of its descendants.
pub fn tree(random: &mut Random, document: u32, size: usize) -> Tree {
    let (count, jumps, gaps) = (1 + random.below(size), random.one_in(2), random.one_in(2));
    let (parents, levels) = grown(random, count, jumps);
    let numbers = numbered(random, &parents, gaps);
    let node = |(&[order, size], &level): (&[u32; 2], &u32)| Node {
        document,
        start: order,
        end: order + size,
        level,
    };
    let mut nodes: Vec<Node> = numbers.iter().zip(&levels).map(node).collect();
    settle(random, document, &mut nodes);
    Tree { parents, nodes }
}

/// Returns the places of the parents of `count` nodes in preorder, and their levels. The parent of
/// a node is the one before it, or one of that node's ancestors. Some trees are broad, others deep.
fn grown(random: &mut Random, count: usize, jumps: bool) -> (Vec<Option<usize>>, Vec<u32>) {
    let (mut parents, mut levels) = (Vec::with_capacity(count), Vec::with_capacity(count));
    let (mut path, climbs): (Vec<usize>, usize) = (Vec::new(), random.pick(&[2, 4]));
    for place in 0..count {
        let is_deepest = |path: &[usize]| path.last().map_or(false, |&p| levels[p] == MOST_LEVEL);
        while path.len() > 1 && (random.one_in(climbs) || is_deepest(&path)) {
            path.pop();
        }
        let level = path.last().map_or(0, |&parent| levels[parent]) + 1;
        let jump = u32::from(jumps && level < MOST_LEVEL && random.one_in(4));
        parents.push(path.last().copied());
        levels.push(level + jump);
        path.push(place);
    }
    (parents, levels)
}

/// Returns the order and the size of each node. An order comes after all that was passed before it.
/// So does a node's end, which is that of its last descendant unless there is a gap.
fn numbered(random: &mut Random, parents: &[Option<usize>], gaps: bool) -> Vec<[u32; 2]> {
    let mut numbers: Vec<[u32; 2]> = Vec::with_capacity(parents.len());
    let (mut path, mut passed): (Vec<usize>, u32) = (Vec::new(), 0);
    let mut gap = || if gaps && random.one_in(3) { random.small(4) } else { 0 };
    for place in 0..=parents.len() {
        let parent = parents.get(place).copied().flatten();
        while path.last().copied() != parent {
            let left = path.pop().expect("a parent is on the path");
            passed += gap();
            numbers[left][1] = passed - numbers[left][0];
        }
        if place < parents.len() {
            passed += 1 + gap();
            numbers.push([passed, 0]);
            path.push(place);
        }
    }
    numbers
}
