//! The full listing of two lists, tickets, and the pages of a listing.

use super::answers::{Answer, Verdict};
use super::links::are_links;
use super::lists::check_two;
use super::nodes::{directly_inside, inside, nodes, Node, NODE_WORDS};

/// The words of a pair: the ancestor's, then the descendant's.
pub const PAIR_WORDS: usize = 2 * NODE_WORDS;

#[derive(Clone, Copy, Debug, PartialEq, Eq)]
pub enum Relation {
    Inside,
    Directly,
}

#[derive(Clone, Copy, Debug, PartialEq, Eq)]
pub enum Order {
    Descendant,
    Ancestor,
}

/// The three numbers that a pair is sorted by.
pub type Key = [u32; 3];

#[derive(Clone, Copy, Debug, PartialEq, Eq)]
pub struct Pair {
    pub ancestor: Node,
    pub descendant: Node,
}

impl Pair {
    pub fn has(&self, relation: Relation) -> bool {
        match relation {
            Relation::Inside => inside(&self.descendant, &self.ancestor),
            Relation::Directly => directly_inside(&self.descendant, &self.ancestor),
        }
    }

    pub fn key(&self, order: Order) -> Key {
        let Pair { ancestor, descendant } = self;
        match order {
            Order::Descendant => [ancestor.document, descendant.start, ancestor.start],
            Order::Ancestor => [ancestor.document, ancestor.start, descendant.start],
        }
    }

    pub fn words(&self) -> [u32; PAIR_WORDS] {
        let [[a, b, c, d], [e, f, g, h]] =
            [self.ancestor, self.descendant].map(|node| node.words());
        [a, b, c, d, e, f, g, h]
    }
}

/// Returns every pair of an ancestor and a descendant that has the relation, in no particular
/// order.
pub fn pairs(relation: Relation, ancestors: &[Node], descendants: &[Node]) -> Vec<Pair> {
    let with_all =
        |&ancestor: &Node| descendants.iter().map(move |&descendant| Pair { ancestor, descendant });
    ancestors.iter().flat_map(with_all).filter(|pair| pair.has(relation)).collect()
}

/// A ticket: a fresh one has no place.
#[derive(Clone, Copy, Debug, PartialEq, Eq)]
pub struct Ticket {
    pub relation: Relation,
    pub order: Order,
    pub place: Option<Key>,
}

impl Ticket {
    /// Returns what the six words of a ticket mean.
    pub fn of([relation, order, placed, document, first, second]: [u32; 6]) -> Ticket {
        Ticket {
            relation: if relation == 0 { Relation::Inside } else { Relation::Directly },
            order: if order == 0 { Order::Descendant } else { Order::Ancestor },
            place: (placed != 0).then_some([document, first, second]),
        }
    }
}

/// What a page call answers and writes. The place is that of the ticket for the next call.
#[derive(Clone, Debug, PartialEq, Eq)]
pub struct Page {
    pub verdict: Verdict,
    pub done: bool,
    pub pairs: Vec<Pair>,
    pub place: Option<Key>,
}

impl Page {
    /// Returns what a refused call leaves.
    pub fn refused(verdict: Verdict, ticket: &Ticket) -> Page {
        Page { verdict, done: false, pairs: Vec::new(), place: ticket.place }
    }

    /// Returns the words that the call wrote.
    pub fn words(&self) -> Vec<u32> {
        self.pairs.iter().flat_map(Pair::words).collect()
    }
}

/// Returns the page of two lists past a ticket's place, into an output of `words` words.
pub fn page(ancestors: &[u32], descendants: &[u32], ticket: &Ticket, words: usize) -> Page {
    let verdict = check_two(ancestors, descendants);
    if verdict.answer != Answer::Taken {
        return Page::refused(verdict, ticket);
    }
    let mut remaining = pairs(ticket.relation, &nodes(ancestors), &nodes(descendants));
    remaining.sort_by_key(|pair| pair.key(ticket.order));
    remaining.retain(|pair| ticket.place.map_or(true, |place| pair.key(ticket.order) > place));
    let room = words / PAIR_WORDS;
    let done = remaining.len() <= room;
    remaining.truncate(room);
    let place = remaining.last().map(|pair| pair.key(ticket.order)).or(ticket.place);
    Page { verdict, done, pairs: remaining, place }
}

/// Returns the page of a call that is lent links of the ancestors too: the plain one, unless the
/// words aren't those links.
pub fn linked_page(
    ancestors: &[u32],
    descendants: &[u32],
    links: &[u32],
    ticket: &Ticket,
    words: usize,
) -> Page {
    let page = page(ancestors, descendants, ticket, words);
    if page.verdict.answer == Answer::Taken && !are_links(ancestors, links) {
        return Page::refused(Verdict::of(Answer::Links), ticket);
    }
    page
}
