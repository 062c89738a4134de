//! Words that are lent as links.

use crate::model::links::{links_of, LINK_WORDS, NONE};
use crate::model::nodes::{nodes, NODE_WORDS};
use crate::model::MOST;
use crate::random::Random;

/// Returns what may stand in place of a word of the links of a list with `count` nodes: words of
/// other nodes near it, and words that are no index.
pub fn others(place: usize, was: u32, count: usize) -> [u32; 12] {
    let (index, count) = ((place / LINK_WORDS) as u32, count as u32);
    [
        NONE,
        0,
        index,
        index + 1,
        index.wrapping_sub(1),
        was.wrapping_add(1),
        was.wrapping_sub(1),
        was ^ 1 << 31,
        1 << 31,
        count.wrapping_sub(1),
        count,
        NONE - 1,
    ]
}

/// Alters the links of a list with `count` nodes: one word or two of them, or their number.
fn alter(random: &mut Random, links: &mut Vec<u32>, count: usize) {
    let place = random.below(links.len().max(1));
    match random.below(10) {
        0 => links.truncate(links.len().saturating_sub(1 + random.below(LINK_WORDS))),
        1 => links.resize(links.len() + 1 + random.below(LINK_WORDS), random.pick(&[NONE, 0])),
        _ if links.is_empty() => links.push(NONE),
        2 => links[place] = random.word(),
        3 | 4 => {
            let other = random.below(links.len());
            links.swap(place, other);
        }
        _ => links[place] = random.pick(&others(place, links[place], count)),
    }
}

/// Returns words that are mostly the links of the list. Otherwise some are altered, or they are
/// those of the other list or of the list with a node less. A list that is too long has links of
/// the right number, which say of each node that it stands alone.
pub fn links(random: &mut Random, list: &[u32], other: &[u32]) -> Vec<u32> {
    let mut nodes_of_list = nodes(list);
    if nodes_of_list.len() > MOST {
        return vec![NONE; LINK_WORDS * nodes_of_list.len()];
    }
    let mut made = links_of(&nodes_of_list);
    match random.below(20) {
        0 if other.len() <= NODE_WORDS * MOST => made = links_of(&nodes(other)),
        1 if !nodes_of_list.is_empty() => {
            nodes_of_list.remove(random.below(nodes_of_list.len()));
            made = links_of(&nodes_of_list);
        }
        2..=5 => alter(random, &mut made, nodes_of_list.len()),
        6 => (0..2).for_each(|_| alter(random, &mut made, nodes_of_list.len())),
        _ => (),
    }
    made
}
