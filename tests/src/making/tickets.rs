//! Tickets.

use crate::model::nodes::nodes;
use crate::model::pages::{Key, Order, Pair};
use crate::random::Random;
use belfrychest::raw::Ticket;

/// A ticket for all pairs that are inside, in descendant order.
pub const FRESH: Ticket =
    Ticket { relation: 0, order: 0, placed: 0, document: 0, first: 0, second: 0 };

/// Returns one of the words that mean the first of two choices, or the second.
fn choice(random: &mut Random, second: bool) -> u32 {
    if second {
        random.pick(&[1, 2, 1 << 31, u32::MAX])
    } else {
        0
    }
}

/// Returns the key that some two nodes of the lists would have, or one near it, or any.
fn key(random: &mut Random, ancestors: &[u32], descendants: &[u32], order: Order) -> Key {
    let (ancestors, descendants) = (nodes(ancestors), nodes(descendants));
    if ancestors.is_empty() || descendants.is_empty() || random.one_in(8) {
        return [random.word(), random.word(), random.word()];
    }
    let pair = Pair { ancestor: random.pick(&ancestors), descendant: random.pick(&descendants) };
    let mut key = pair.key(order);
    if random.one_in(3) {
        let number = random.below(key.len());
        key[number] = random.other_than(key[number]);
    }
    key
}

/// Returns a ticket with any place, made up for these lists.
pub fn made_up(random: &mut Random, ancestors: &[u32], descendants: &[u32]) -> Ticket {
    let (relation, by_ancestor, placed) = (random.one_in(3), random.one_in(2), !random.one_in(3));
    let order = if by_ancestor { Order::Ancestor } else { Order::Descendant };
    let [document, first, second] = key(random, ancestors, descendants, order);
    Ticket {
        relation: choice(random, relation),
        order: choice(random, by_ancestor),
        placed: choice(random, placed),
        document,
        first,
        second,
    }
}
