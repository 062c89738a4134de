//! Listings that are followed from page to page while both lists are edited, some calls are
//! refused, and other tickets are used in between. Some are also lent links, which come and go and
//! may be older than the last edit. Each is held against demand 3 (`outside::history`).

use belfrychest::raw::{Page, Ticket};
use outside::history::{History, Lists};
use outside::making::edits::edit;
use outside::making::lists::{family, some_of};
use outside::making::tickets::made_up;
use outside::model::answers::Answer::Links;
use outside::model::links::links_of;
use outside::model::nodes::{words, Node};
use outside::model::pages::PAIR_WORDS;
use outside::random::{each_case, Random};

/// The listings that are followed from a fresh ticket, for each relation and each order.
const FRESH: u64 = 25_000;
/// And those that are followed from a ticket that is made up.
const MADE_UP: u64 = 5_000;
/// Fewer than this many nodes of a document.
const SIZE: usize = 20;
/// Seeds that no other test has.
const SEEDS: u64 = 1 << 42;
/// Fewer histories of a kind say too little.
const LEAST: u64 = 100;

/// Returns a ticket that is made up for these lists.
fn ticket_for(lists: &Lists, random: &mut Random) -> Ticket {
    made_up(random, &words(&lists.ancestors), &words(&lists.descendants))
}

/// Makes a listing's next call on these lists, which is lent these links if there are any, and
/// returns its answer.
fn call(history: &mut History, lists: &Lists, links: Option<&[u32]>, room: usize) -> Page {
    history.call(&words(&lists.ancestors), &words(&lists.descendants), links, room)
}

/// Returns the links that a call on these lists is lent, if any. The links that were lent last are
/// kept, and are replaced where others are.
type Lend = fn(&mut Random, &Lists, &mut Vec<u32>) -> Option<Vec<u32>>;

/// Lends no links.
fn no_links(_: &mut Random, _: &Lists, _: &mut Vec<u32>) -> Option<Vec<u32>> {
    None
}

/// Lends mostly the links of the ancestors, and now and then those that were lent before, or none.
fn some_links(random: &mut Random, lists: &Lists, kept: &mut Vec<u32>) -> Option<Vec<u32>> {
    match random.below(8) {
        0 | 1 => return None,
        2 | 3 => (),
        _ => *kept = links_of(&lists.ancestors),
    }
    Some(kept.clone())
}

/// Returns the lists after no edit, one or two, which may damage them. All nodes of the documents
/// are there to be put in.
fn edited(random: &mut Random, lists: &Lists, all: &[Node]) -> Lists {
    let mut two = [lists.ancestors.clone(), lists.descendants.clone()];
    for _ in 0..random.pick(&[0, 0, 0, 1, 1, 2]) {
        edit(random, &mut two, all);
    }
    let [ancestors, descendants] = two;
    Lists { ancestors, descendants }
}

/// A history, and how many of its accepted calls handed something out without links, and with them.
struct Followed {
    history: History,
    plain: usize,
    linked: usize,
}

/// Follows a listing through edits until it is done, or further. The first lists are sound, an edit
/// is undone if the lists are refused, and the last call has room for all. Another ticket is used
/// now and then in between, on the same lists.
fn follow(random: &mut Random, first_ticket: impl Fn(Ticket) -> Ticket, lend: Lend) -> Followed {
    let all = family(random, SIZE);
    let mut lists = Lists { ancestors: some_of(random, &all), descendants: some_of(random, &all) };
    let mut history = History::from(first_ticket(ticket_for(&lists, random)));
    let (mut kept, mut plain, mut linked) = (Vec::new(), 0, 0);
    for _ in 0..random.pick(&[0, 1, 4, 14]) {
        let next = edited(random, &lists, &all);
        let room = PAIR_WORDS * random.pick(&[0, 1, 1, 1, 2, 4]) + random.below(PAIR_WORDS);
        let links = lend(random, &next, &mut kept);
        let page = call(&mut history, &next, links.as_deref(), room);
        let counted = if links.is_some() { &mut linked } else { &mut plain };
        *counted += usize::from(page.count > 0);
        if [0, Links as u32].contains(&page.verdict.answer) {
            lists = next;
        }
        if random.one_in(4) {
            let mut other = History::from(ticket_for(&lists, random));
            call(&mut other, &lists, None, random.below(9 * PAIR_WORDS));
        }
    }
    let enough = PAIR_WORDS * (lists.ancestors.len() * lists.descendants.len() + 1);
    let links = lend(random, &lists, &mut kept).map(|_| links_of(&lists.ancestors));
    let last = call(&mut history, &lists, links.as_deref(), enough);
    assert_eq!(
        (last.verdict.answer, last.done),
        (0, 1),
        "accepted lists, and room for all their pairs"
    );
    Followed { history, plain, linked }
}

/// Follows listings of one relation and one order from fresh tickets, and then from made-up ones.
/// Fails unless many had more than five pages, a refused call, a pair that was altered, and a page
/// that went on between two ancestors that end at one position.
fn hold(relation: u32, order: u32) {
    let fresh_seeds = SEEDS + u64::from(2 * relation + order) * (FRESH + MADE_UP);
    let mut seen = [0; 4];
    for (first_seed, listings, placed) in
        [(fresh_seeds, FRESH, 0), (fresh_seeds + FRESH, MADE_UP, 1)]
    {
        each_case(first_seed, listings, |random| {
            let ticket = |made_up| Ticket { relation, order, placed, ..made_up };
            let Followed { history, .. } = follow(random, ticket, no_links);
            let is_of_kind =
                [history.pages > 5, history.refused > 0, history.altered > 0, history.between > 0];
            (0..seen.len()).for_each(|kind| seen[kind] += u64::from(is_of_kind[kind]));
        });
    }
    assert!(
        seen.iter().all(|&times| times > LEAST),
        "histories of more than five pages, refused, altered, between two ancestors: {seen:?}"
    );
}

/// The listings that are lent links, for each relation and each order, from fresh tickets and from
/// made-up ones.
const LINKED: u64 = 12_000;
/// Their seeds, which no other test has.
const LINKED_SEEDS: u64 = 1 << 59;

/// Follows listings of one relation and one order that are lent links that come and go. Fails
/// unless many had more than five pages, a pair that was altered, a call refused with LINKS, one
/// refused with something else, and pages both with links and without.
fn hold_linked(relation: u32, order: u32) {
    let first_seed = LINKED_SEEDS + u64::from(2 * relation + order) * LINKED;
    let mut seen = [0; 5];
    each_case(first_seed, LINKED, |random| {
        let placed = u32::from(random.one_in(4));
        let ticket = |made_up| Ticket { relation, order, placed, ..made_up };
        let Followed { history, plain, linked } = follow(random, ticket, some_links);
        let is_of_kind = [
            history.pages > 5,
            history.altered > 0,
            history.unlinked > 0,
            history.refused > history.unlinked,
            plain > 0 && linked > 0,
        ];
        (0..seen.len()).for_each(|kind| seen[kind] += u64::from(is_of_kind[kind]));
    });
    assert!(
        seen.iter().all(|&times| times > LEAST),
        "histories of more than five pages, altered, refused with LINKS, refused otherwise, with \
         links and without: {seen:?}"
    );
}

#[test]
fn with_links_inside_in_descendant_order() {
    hold_linked(0, 0);
}

#[test]
fn with_links_inside_in_ancestor_order() {
    hold_linked(0, 1);
}

#[test]
fn with_links_directly_inside_in_descendant_order() {
    hold_linked(1, 0);
}

#[test]
fn with_links_directly_inside_in_ancestor_order() {
    hold_linked(1, 1);
}

#[test]
fn inside_in_descendant_order() {
    hold(0, 0);
}

#[test]
fn inside_in_ancestor_order() {
    hold(0, 1);
}

#[test]
fn directly_inside_in_descendant_order() {
    hold(1, 0);
}

#[test]
fn directly_inside_in_ancestor_order() {
    hold(1, 1);
}
