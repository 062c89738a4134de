//! Lists of nodes.

use super::misfit;
use super::trees::tree;
use crate::model::lists::MOST_LEVEL;
use crate::model::nodes::{words, Node, NODE_WORDS};
use crate::random::Random;

/// Ascending numbers of documents, some of which differ high up only.
const DOCUMENTS: [u32; 6] = [0, 5, 5 + (1 << 16), 5 + (1 << 24), 5 + (1 << 31), u32::MAX];

/// A size of documents of which every answer comes often.
const SMALL: usize = 12;

/// A size of documents in which zones hold more samples than a search passes in one stride.
const LARGE: usize = 80;

/// Returns fewer than `size` nodes of one document that are nested or apart, with positions from 0
/// on. Levels may jump. In every other document a node may end where the last node inside it ends.
fn shape(random: &mut Random, size: usize) -> Vec<Node> {
    let mut nodes: Vec<Node> = Vec::with_capacity(size);
    let mut open: Vec<usize> = Vec::with_capacity(size);
    let mut position = 0;
    let shares_ends = random.one_in(2);
    for _ in 0..random.below(size) {
        let level =
            open.last().map_or(0, |&index| nodes[index].level) + 1 + u32::from(random.one_in(6));
        let text = Node { document: 0, start: position, end: position, level };
        let choice = random.below(5);
        match choice {
            0 | 1 => close(&mut nodes, open.pop(), position),
            2 => nodes.push(text),
            _ => {
                open.push(nodes.len());
                nodes.push(text);
            }
        }
        while shares_ends && choice <= 2 && !open.is_empty() && random.one_in(2) {
            close(&mut nodes, open.pop(), position);
        }
        position += 1 + if random.one_in(3) { random.small(3) } else { 0 };
    }
    while !open.is_empty() {
        close(&mut nodes, open.pop(), position);
        position += u32::from(!shares_ends || random.one_in(2));
    }
    nodes
}

/// Ends the open node of this index at this position, if there is one.
fn close(nodes: &mut [Node], index: Option<usize>, position: u32) {
    if let Some(index) = index {
        nodes[index].end = position;
    }
}

/// Puts nodes of one document somewhere among the 32-bit numbers: at the beginning, at the end, at
/// both, in the middle or all over. Their levels lie at the beginning or at the end.
pub(super) fn settle(random: &mut Random, document: u32, nodes: &mut [Node]) {
    let last = nodes.iter().map(|node| node.end).max().unwrap_or(0);
    let deepest = nodes.iter().map(|node| node.level).max().unwrap_or(0);
    let raised = if random.one_in(4) { MOST_LEVEL - deepest } else { 0 };
    let cut = random.small(last + 1);
    let layout = random.below(6);
    let place = |position: u32| match layout {
        0 => position,
        1 => position + 1,
        2 => u32::MAX - last + position,
        3 if position < cut => position,
        3 => u32::MAX - last + position,
        4 => (1 << 31) - cut + position,
        _ => position * (u32::MAX / (last + 1)),
    };
    for node in nodes {
        *node = Node {
            document,
            start: place(node.start),
            end: place(node.end),
            level: node.level + raised,
        };
    }
}

/// Returns the nodes of some whole documents, at most `size` of each. Any part of them is an
/// accepted list, and any two parts agree. Some documents are numbered by order and size.
pub fn family(random: &mut Random, size: usize) -> Vec<Node> {
    let mut nodes = Vec::new();
    for document in DOCUMENTS {
        match random.below(9) {
            0 => nodes.extend(tree(random, document, size).nodes),
            1 | 2 => {
                let mut document_nodes = shape(random, size);
                settle(random, document, &mut document_nodes);
                nodes.extend(document_nodes);
            }
            _ => (),
        }
    }
    nodes
}

/// Returns a nest of as many zones as there are levels, or a few less. Each ends before the one
/// around it ends, or three at a time or all of them end at one position. A text lies between any
/// two on the way in. Now and then there is one on the way out, at its zone's end or right before.
/// It is a family too.
fn deep_family(random: &mut Random) -> Vec<Node> {
    let zones = MOST_LEVEL - random.small(4);
    let together = random.pick(&[1, 1, 3, MOST_LEVEL + 1]);
    let text = |start: u32, level: u32| Node { document: 5, start, end: start, level };
    let end = |level: u32| 4 * zones - 2 * (level / together * together) + 3;
    let mut nodes = Vec::new();
    for level in 1..=zones {
        nodes.push(Node { document: 5, start: 2 * level, end: end(level), level });
        if level < MOST_LEVEL {
            nodes.push(text(2 * level + 1, level + 1));
        }
    }
    let has_room = |&level: &u32| level == zones || end(level + 1) < end(level);
    for level in (1..=zones.min(MOST_LEVEL - 1)).rev().filter(has_room) {
        if random.one_in(4) {
            nodes.push(text(end(level) - random.small(2), level + 1));
        }
    }
    nodes
}

/// Returns documents with one root each, at most `size` nodes in each. It is a family too.
fn rooted_family(random: &mut Random, size: usize) -> Vec<Node> {
    let mut nodes = Vec::new();
    for document in DOCUMENTS {
        if !random.one_in(3) {
            nodes.extend(tree(random, document, size).nodes);
        }
    }
    nodes
}

/// Returns a family, and of it zones and samples: many zones, and mostly few samples.
pub fn sparse_lists(random: &mut Random) -> [Vec<Node>; 2] {
    let all = match random.below(40) {
        0 => deep_family(random),
        1..=4 => family(random, LARGE),
        5..=14 => rooted_family(random, 2 * SMALL),
        15..=34 => shape_of_five(random, 4 * SMALL),
        _ => family(random, SMALL),
    };
    let [zones_in_8, samples_in_24] = [random.pick(&[5, 7, 8, 8]), random.pick(&[1, 1, 2, 4, 15])];
    let zones = all.iter().copied().filter(|_| random.below(8) < zones_in_8).collect();
    [zones, all.iter().copied().filter(|_| random.below(24) < samples_in_24).collect()]
}

/// Returns the nodes of one document.
fn shape_of_five(random: &mut Random, size: usize) -> Vec<Node> {
    let mut nodes = shape(random, size);
    settle(random, 5, &mut nodes);
    nodes
}

/// Returns mostly a small family, now and then a large or a deep one.
pub fn any_family(random: &mut Random) -> Vec<Node> {
    match random.below(200) {
        0 => deep_family(random),
        1..=8 => family(random, LARGE),
        _ => family(random, SMALL),
    }
}

/// Returns a node of document 5.
pub fn node([start, end, level]: [u32; 3]) -> Node {
    Node { document: 5, start, end, level }
}

/// Returns the words of such nodes.
pub fn words_of(nodes: &[[u32; 3]]) -> Vec<u32> {
    words(&nodes.iter().copied().map(node).collect::<Vec<Node>>())
}

/// Returns `count` zones of document 5, each inside the one before.
pub fn nest(count: usize) -> Vec<Node> {
    (0..count as u32)
        .map(|depth| Node { document: 5, start: depth, end: 10_000 - depth, level: 1 + depth })
        .collect()
}

/// Returns such zones that all end at one position.
pub fn nest_with_one_end(count: usize) -> Vec<Node> {
    nest(count).into_iter().map(|zone| Node { end: 10_000, ..zone }).collect()
}

/// Returns `count` texts of document 5, side by side inside all those zones.
pub fn texts(count: usize) -> Vec<Node> {
    (100..100 + count as u32)
        .map(|start| Node { document: 5, start, end: start, level: MOST_LEVEL })
        .collect()
}

/// Returns some of the nodes, in their order.
pub fn some_of(random: &mut Random, nodes: &[Node]) -> Vec<Node> {
    nodes.iter().copied().filter(|_| random.below(8) < 5).collect()
}

/// Returns nodes of small numbers, mostly in order, that may lie to each other in any way.
fn wild(random: &mut Random) -> Vec<Node> {
    let mut nodes = Vec::new();
    for _ in 0..random.below(5) {
        let (document, start) = (random.pick(&DOCUMENTS[1..3]), random.small(12));
        nodes.push(Node {
            document,
            start,
            end: start + random.small(6),
            level: 1 + random.small(3),
        });
    }
    if !random.one_in(6) {
        nodes.sort_by_key(|node| (node.document, node.start));
    }
    nodes
}

/// Alters one of the nodes, exchanges two, or repeats one.
pub fn damage(random: &mut Random, nodes: &mut Vec<Node>) {
    if nodes.is_empty() {
        return;
    }
    let other = random.pick(nodes);
    let index = random.below(nodes.len());
    let node = &mut nodes[index];
    match random.below(10) {
        0 => node.level = random.pick(&[0, 1, MOST_LEVEL, MOST_LEVEL + 1, u32::MAX]),
        1 => node.level = other.level,
        2 => node.level = random.other_than(node.level),
        3 => node.end = node.start.wrapping_sub(1),
        4 => node.end = random.pick(&[other.start, other.end]),
        5 => node.end = random.other_than(node.end),
        6 => node.start = random.other_than(node.start),
        7 => node.document = random.other_than(node.document),
        8 => nodes.swap(index, index.saturating_sub(1)),
        _ => nodes.insert(index, other),
    }
}

/// Returns nodes that are mostly an accepted list.
fn mostly_sound(random: &mut Random, mut nodes: Vec<Node>) -> Vec<u32> {
    while random.one_in(4) {
        damage(random, &mut nodes);
    }
    let made = words(&nodes);
    misfit(random, made, NODE_WORDS)
}

pub fn list(random: &mut Random) -> Vec<u32> {
    let nodes = if random.one_in(4) { wild(random) } else { any_family(random) };
    mostly_sound(random, nodes)
}

/// Gives a node the level of one of another list that ends where it ends, if there is such a node.
fn level_at_an_end(random: &mut Random, list: &mut [Node], other: &[Node]) {
    if list.is_empty() {
        return;
    }
    let index = random.below(list.len());
    let node = &mut list[index];
    let there =
        |x: &&Node| x.document == node.document && x.start != node.start && x.end == node.end;
    let ending: Vec<Node> = other.iter().filter(there).copied().collect();
    if !ending.is_empty() {
        node.level = random.pick(&ending).level;
    }
}

/// Returns ancestors and descendants that are mostly accepted and mostly agree. A node may stand in
/// both.
pub fn two_lists(random: &mut Random) -> (Vec<u32>, Vec<u32>) {
    let (mut ancestors, mut descendants) = if random.one_in(4) {
        (wild(random), wild(random))
    } else {
        let all = any_family(random);
        (some_of(random, &all), some_of(random, &all))
    };
    match random.below(12) {
        0 => level_at_an_end(random, &mut ancestors, &descendants),
        1 => level_at_an_end(random, &mut descendants, &ancestors),
        _ => (),
    }
    (mostly_sound(random, ancestors), mostly_sound(random, descendants))
}

/// Returns many zones and few samples, which are mostly accepted and mostly agree.
pub fn two_sparse_lists(random: &mut Random) -> (Vec<u32>, Vec<u32>) {
    let [ancestors, descendants] = sparse_lists(random);
    if random.one_in(3) {
        return (mostly_sound(random, ancestors), mostly_sound(random, descendants));
    }
    (misfit(random, words(&ancestors), NODE_WORDS), misfit(random, words(&descendants), NODE_WORDS))
}
