//! `Pieces` against the model, which knows nothing of pieces. The lists are cut so small that most
//! have many pieces. What is refused and where, each page and each listing must be those of the
//! whole lists.

use belfrychest::{nodes, words, Node, Page, Pair, Pieces, Place, Refusal, Ticket};
use outside::asking::meaning;
use outside::ends::{clash, is_between, meet};
use outside::making::lists::{damage, family, some_of, two_lists};
use outside::making::tickets::made_up;
use outside::model::answers::Answer::{self, *};
use outside::model::answers::Verdict;
use outside::model::lists::check_two;
use outside::model::nodes::{self as model, NODE_WORDS};
use outside::model::{pages, MOST};
use outside::random::{each_case, Random};
use outside::tally::{Kind, Tally};

/// Seeds that no other test has.
const SEEDS: u64 = 1 << 44;
/// The cases of checks and of single pages, and the listings that are followed through edits.
const CASES: u64 = 6_000;
const FOLLOWED: u64 = 1_500;
/// Fewer cases of a kind say too little.
const LEAST: u64 = 100;
/// Fewer than this many nodes of a document.
const DOCUMENT: usize = 30;
/// The nodes of a piece.
const SIZES: [usize; 6] = [1, 2, 3, 4, 7, 16];
/// What is in an output before a call.
const PAINTED: Node = Node { document: 9, start: 9, end: 9, level: 9 };
const PAINT: Pair = Pair { ancestor: PAINTED, descendant: PAINTED };

/// Two lists, and the size to which they are cut.
struct Cut {
    ancestors: Vec<Node>,
    descendants: Vec<Node>,
    size: usize,
}

impl Cut {
    /// Makes a cut of the lists of these words, as far as they make whole nodes that a call takes.
    fn new(random: &mut Random, ancestors: &[u32], descendants: &[u32]) -> Cut {
        let [ancestors, descendants] = [ancestors, descendants].map(|list| {
            let whole = (list.len() / NODE_WORDS).min(MOST);
            nodes(&list[..NODE_WORDS * whole]).expect("whole nodes").to_vec()
        });
        Cut { ancestors, descendants, size: random.pick(&SIZES) }
    }

    /// Makes small lists of every kind, or lists of some length with one fault at most.
    fn random(random: &mut Random) -> Cut {
        if random.one_in(2) {
            let (ancestors, descendants) = two_lists(random);
            return Cut::new(random, &ancestors, &descendants);
        }
        let all = family(random, DOCUMENT);
        let mut lists = [some_of(random, &all), some_of(random, &all)];
        let list = random.below(lists.len());
        match random.below(4) {
            0 => damage(random, &mut lists[list]),
            1 | 2 => set_at_odds(random, &mut lists[list]),
            _ => (),
        }
        let [ancestors, descendants] = lists.map(|list| model::words(&list));
        Cut::new(random, &ancestors, &descendants)
    }

    fn pieces(&self) -> Pieces<'_> {
        Pieces::of_size(&self.ancestors, &self.descendants, self.size)
    }

    /// Returns what the model says of the whole lists.
    fn verdict(&self) -> Verdict {
        check_two(words(&self.ancestors), words(&self.descendants))
    }

    /// Returns the model's page of the whole lists.
    fn page(&self, ticket: Ticket, room: usize) -> pages::Page {
        let (ancestors, descendants) = (words(&self.ancestors), words(&self.descendants));
        pages::page(ancestors, descendants, &meaning(&ticket.into()), pages::PAIR_WORDS * room)
    }

    fn made_up_ticket(&self, random: &mut Random) -> Ticket {
        made_up(random, words(&self.ancestors), words(&self.descendants)).into()
    }

    /// Holds a page against the model's, and returns what it gave.
    fn hold_page(&self, ticket: Ticket, room: usize) -> Result<Page, Refusal> {
        let pages::Page { verdict, done, pairs, place } = self.page(ticket, room);
        let mut out = vec![PAINT; room];
        let given = self.pieces().page(ticket, &mut out);
        let after =
            |[document, first, second]: pages::Key| Place::After { document, first, second };
        let ticket = Ticket { place: place.map_or(Place::Fresh, after), ..ticket };
        let expected = refused(verdict).map_or(Ok(Page { count: pairs.len(), done, ticket }), Err);
        assert_eq!(given, expected, "given and expected page");
        assert_eq!(words(&out[..pairs.len()]), pair_words(&pairs), "given and expected pairs");
        assert!(out[pairs.len()..].iter().all(|pair| *pair == PAINT), "altered after the pairs");
        given
    }
}

/// Lets a node end at the start of a later one, or gives the later one its level.
fn set_at_odds(random: &mut Random, list: &mut [model::Node]) {
    let [one, other] = [(); 2].map(|()| random.below(list.len().max(1)));
    if one == other {
        return;
    }
    let (earlier, later) = (one.min(other), one.max(other));
    if random.one_in(2) {
        list[earlier].end = list[later].start;
    } else {
        list[later].level = list[earlier].level;
    }
}

fn pair_words(pairs: &[pages::Pair]) -> Vec<u32> {
    pairs.iter().map(pages::Pair::words).collect::<Vec<_>>().concat()
}

/// Returns the refusal that a verdict of the model is in the binding.
fn refused(verdict: Verdict) -> Option<Refusal> {
    let answer = belfrychest::Answer::from_number(verdict.answer as u32);
    match verdict.answer {
        Taken => None,
        Joint => Some(Refusal { answer, list: None, index: None }),
        _ => {
            let (list, index) = (Some(verdict.list as usize), Some(verdict.index as usize));
            Some(Refusal { answer, list, index })
        }
    }
}

/// Tells whether no piece alone, and no node with the one right before it, shows the verdict's
/// fault.
fn is_hidden(cut: &Cut, verdict: Verdict) -> bool {
    let list = if verdict.list == 0 { &cut.ancestors } else { &cut.descendants };
    let alone = list.chunks(cut.size).all(|piece| belfrychest::check(piece).is_ok());
    let at_borders = list.windows(2).all(|two| belfrychest::check(two).is_ok());
    matches!(verdict.answer, Cross | Depth) && alone && at_borders
}

#[test]
fn refusals_are_those_of_the_whole() {
    let (mut tally, mut hidden) = (Tally::default(), 0);
    each_case(SEEDS, CASES, |random| {
        let cut = Cut::random(random);
        let verdict = cut.verdict();
        let expected = refused(verdict).map_or(Ok(()), Err);
        assert_eq!(cut.pieces().check(), expected, "given and expected, pieces of {}", cut.size);
        tally.count(verdict.answer);
        hidden += u64::from(is_hidden(&cut, verdict));
        let [outer, inner] =
            [&cut.ancestors, &cut.descendants].map(|list| model::nodes(words(list)));
        tally.see(Kind::Shared, verdict.answer == Taken && meet(&outer, &inner));
        tally.see(Kind::AtOdds, verdict.answer == Joint && clash(&outer, &inner));
    });
    const ANSWERS: [Answer; 7] = [Taken, Level, Span, Order, Cross, Depth, Joint];
    tally.hold(&ANSWERS);
    tally.hold_kinds(&[Kind::Shared, Kind::AtOdds]);
    assert!(hidden > LEAST, "{hidden} faults that only two pieces show");
}

#[test]
fn pages_are_those_of_the_whole() {
    let (mut full, mut tally) = (0, Tally::default());
    each_case(SEEDS + CASES, CASES, |random| {
        let cut = Cut::random(random);
        let ticket = cut.made_up_ticket(random);
        let left = cut.page(ticket, MOST).pairs;
        let room = 1 + random.below(left.len() + 2);
        full += u64::from(cut.hold_page(ticket, room).map_or(false, |page| !page.done));
        tally.see(Kind::Between, room < left.len() && is_between(&left[room - 1], &left[room]));
    });
    assert!(full > LEAST, "{full} pages that left something");
    tally.hold_kinds(&[Kind::Between]);
}

#[test]
fn listings_and_meeting_pieces_are_those_of_the_whole() {
    each_case(SEEDS + 2 * CASES, CASES / 4, |random| {
        let cut = Cut::random(random);
        for [relation, order] in [[0, 0], [0, 1], [1, 0], [1, 1]] {
            let fresh = Ticket::from_words([relation, order, 0, 0, 0, 0]);
            let page = cut.page(fresh, usize::MAX / pages::PAIR_WORDS);
            let all = refused(page.verdict).map_or(Ok(pair_words(&page.pairs)), Err);
            let listing = cut.pieces().listing(fresh.relation, fresh.order);
            assert_eq!(listing.map(|pairs| words(&pairs).to_vec()), all, "given and expected");
            let joined = cut.pieces().meeting().map(|meeting| joined(&meeting, fresh));
            assert_eq!(joined, all, "the pairs of meeting pieces, and all");
        }
    });
}

/// Returns the words of all pairs of some pieces, each two joined by themselves, in order.
fn joined(meeting: &[(&[Node], &[Node])], fresh: Ticket) -> Vec<u32> {
    let Ticket { relation, order, .. } = fresh;
    let list = |two: &(&[Node], &[Node])| belfrychest::listing(two.0, two.1, relation, order);
    let mut pairs: Vec<Pair> = meeting.iter().flat_map(|two| list(two).expect("taken")).collect();
    pairs.sort_by_key(|pair| pair.key(order));
    words(&pairs).to_vec()
}

/// Follows a listing through edits until it is done: nodes are put in and left out before each
/// page, and now and then a node is damaged. Returns how many calls wrote pairs, and how many were
/// refused.
fn follow(random: &mut Random) -> [u64; 2] {
    let all = family(random, DOCUMENT);
    let (mut written, mut refused) = (0, 0);
    let mut ticket: Ticket = made_up(random, &model::words(&all), &model::words(&all)).into();
    if random.one_in(2) {
        ticket.place = Place::Fresh;
    }
    loop {
        let [mut ancestors, descendants] = [some_of(random, &all), some_of(random, &all)];
        if random.one_in(6) {
            damage(random, &mut ancestors);
        }
        let cut = Cut::new(random, &model::words(&ancestors), &model::words(&descendants));
        match cut.hold_page(ticket, 1 + random.below(6)) {
            Err(_) => refused += 1,
            Ok(page) => {
                written += u64::from(page.count > 0);
                ticket = page.ticket;
                if page.done {
                    return [written, refused];
                }
            }
        }
    }
}

#[test]
fn pages_go_on_through_edits() {
    let mut seen = [0; 2];
    each_case(SEEDS + 3 * CASES, FOLLOWED, |random| {
        let [written, refused] = follow(random);
        seen = [seen[0] + written, seen[1] + refused];
    });
    assert!(seen.iter().all(|&calls| calls > LEAST), "calls that wrote, refused: {seen:?}");
}
