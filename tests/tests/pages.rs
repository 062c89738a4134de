//! Listings of two lists that nobody alters, followed from a fresh ticket through pages of any
//! rooms, 0 among them. The pages one after the other are the full listing. A call is done exactly
//! when the rooms so far are enough for it, and a call after that writes nothing. Some calls are
//! lent the links of the ancestors, and some aren't.

use belfrychest::raw::{self, Ticket};
use outside::asking::{meaning, TAKEN};
use outside::ends::is_between;
use outside::making::lists::{any_family, some_of};
use outside::making::tickets::FRESH;
use outside::model::links::links_of;
use outside::model::nodes::{nodes, words, Node};
use outside::model::pages::{pairs, Pair, PAIR_WORDS};
use outside::random::{each_case, Random};

/// The listings that are followed, for each relation and each order.
const LISTINGS: u64 = 4_000;
/// The pairs that a call has room for.
const ROOMS: [usize; 8] = [0, 1, 1, 1, 2, 3, 5, 40];
/// Seeds that no other test has.
const SEEDS: u64 = 1 << 45;
/// Fewer listings of a kind say too little.
const LEAST: u64 = 100;

/// One listing, as far as it has been followed.
struct Listing {
    ancestors: Vec<u32>,
    descendants: Vec<u32>,
    /// The links of the ancestors.
    links: Vec<u32>,
    /// The words of the model's full listing, and those that were handed out so far.
    full: Vec<u32>,
    handed_out: Vec<u32>,
    /// The ticket for the next call.
    ticket: Ticket,
    /// The pairs that all calls so far had room for.
    rooms: usize,
    /// How many calls handed something out, how many had no room for what was left, and how many
    /// stopped between two ancestors that end at one position.
    pages: usize,
    without_room: usize,
    between: usize,
}

impl Listing {
    fn from(ticket: Ticket, ancestors: &[Node], descendants: &[Node]) -> Listing {
        Listing {
            ancestors: words(ancestors),
            descendants: words(descendants),
            links: links_of(ancestors),
            full: full_listing(&ticket, ancestors, descendants),
            handed_out: Vec::new(),
            ticket,
            rooms: 0,
            pages: 0,
            without_room: 0,
            between: 0,
        }
    }

    /// Tells whether the rooms of all calls so far are enough for the full listing.
    fn had_enough(&self) -> bool {
        self.full.len() <= PAIR_WORDS * self.rooms
    }

    /// Makes the next call, with room for `room` pairs and some words more, which make no pair. It
    /// may be lent the links. Fails unless it is done exactly when the rooms so far are enough.
    fn call(&mut self, room: usize, more: usize, is_linked: bool) {
        let Listing { ancestors, descendants, links, ticket, .. } = &*self;
        let mut out = vec![0; PAIR_WORDS * room + more];
        let page = if is_linked {
            raw::list_linked(ancestors, descendants, links, *ticket, &mut out)
        } else {
            raw::list(ancestors, descendants, *ticket, &mut out)
        };
        self.rooms += room;
        assert_eq!(
            (page.verdict, page.done),
            (TAKEN, u32::from(self.had_enough())),
            "given and expected: {} pairs in all, and room for {} so far",
            self.full.len() / PAIR_WORDS,
            self.rooms
        );
        self.handed_out.extend_from_slice(&out[..PAIR_WORDS * page.count]);
        self.ticket = page.ticket;
        self.pages += usize::from(page.count > 0);
        self.without_room += usize::from(room == 0 && !self.had_enough());
        self.between += usize::from(page.count > 0 && !self.had_enough() && self.is_between());
    }

    /// Tells whether the listing has come to a place between two ancestors that end at one
    /// position. Something was handed out, and something is left.
    fn is_between(&self) -> bool {
        let pair_at = |place: usize| {
            let two = nodes(&self.full[place..place + PAIR_WORDS]);
            Pair { ancestor: two[0], descendant: two[1] }
        };
        let place = self.handed_out.len();
        is_between(&pair_at(place - PAIR_WORDS), &pair_at(place))
    }
}

/// Returns the words of every pair that the ticket asks for, in its order.
fn full_listing(ticket: &Ticket, ancestors: &[Node], descendants: &[Node]) -> Vec<u32> {
    let asked = meaning(ticket);
    let mut pairs = pairs(asked.relation, ancestors, descendants);
    pairs.sort_by_key(|pair| pair.key(asked.order));
    pairs.iter().flat_map(Pair::words).collect()
}

/// Follows a listing until the rooms are enough, and one call further. Fails unless the pages one
/// after the other are the full listing.
fn follow(random: &mut Random, fresh: Ticket) -> Listing {
    let all = any_family(random);
    let mut listing = Listing::from(fresh, &some_of(random, &all), &some_of(random, &all));
    while !listing.had_enough() {
        listing.call(random.pick(&ROOMS), random.below(PAIR_WORDS), random.one_in(2));
    }
    listing.call(random.pick(&ROOMS), random.below(PAIR_WORDS), random.one_in(2));
    assert_eq!(listing.handed_out, listing.full, "handed out, and the full listing");
    listing
}

/// Follows listings of one relation and one order. Fails unless many had pairs, many had three
/// pages or more, and many had a call without room for what was left. Many must also have had a
/// page that stopped between two ancestors that end at one position.
fn hold(relation: u32, order: u32) {
    let fresh = Ticket { relation, order, ..FRESH };
    let mut seen = [0; 4];
    each_case(SEEDS + u64::from(2 * relation + order) * LISTINGS, LISTINGS, |random| {
        let listing = follow(random, fresh);
        let is_of_kind = [
            !listing.full.is_empty(),
            listing.pages >= 3,
            listing.without_room > 0,
            listing.between > 0,
        ];
        (0..seen.len()).for_each(|kind| seen[kind] += u64::from(is_of_kind[kind]));
    });
    assert!(
        seen.iter().all(|&times| times > LEAST),
        "listings with pairs, of three pages or more, with a call without room, with a page that \
         stopped between two ancestors: {seen:?}"
    );
}

#[test]
fn inside_in_descendant_order() {
    hold(0, 0);
}

#[test]
fn inside_in_ancestor_order() {
    hold(0, 1);
}

#[test]
fn directly_inside_in_descendant_order() {
    hold(1, 0);
}

#[test]
fn directly_inside_in_ancestor_order() {
    hold(1, 1);
}
