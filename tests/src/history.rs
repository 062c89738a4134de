//! A listing that is followed from page to page, and held against demand 3 alone. When an accepted
//! call says done, every pair that stood unaltered in every accepted call has been handed out,
//! once. No document and two starts come twice. Each pair stood in the lists of the call that
//! handed it out. A call that isn't done fills its room, and a refused call counts for nothing. The
//! pairs also come in the order that was asked for.
//!
//! There is no model of paging here: what a call handed out, and whether it was accepted and done,
//! is taken from the call. A listing from a made-up ticket is held against the same words, of the
//! pairs past that ticket's place.

use crate::asking::meaning;
use crate::ends::is_between;
use crate::model::answers::Answer;
use crate::model::nodes::{nodes, Node};
use crate::model::pages::{pairs, Pair, PAIR_WORDS};
use crate::paint::Word;
use belfrychest::raw::{self, Page, Ticket};

/// The two lists of a call.
#[derive(Clone)]
pub struct Lists {
    pub ancestors: Vec<Node>,
    pub descendants: Vec<Node>,
}

impl Lists {
    fn hold(&self, pair: &Pair) -> bool {
        self.ancestors.contains(&pair.ancestor) && self.descendants.contains(&pair.descendant)
    }

    /// Tells whether nodes of the pair's starts stand in the lists, be they these or others.
    fn hold_starts(&self, pair: &Pair) -> bool {
        let stands = |list: &[Node], node: &Node| {
            list.iter().any(|other| (other.document, other.start) == (node.document, node.start))
        };
        stands(&self.ancestors, &pair.ancestor) && stands(&self.descendants, &pair.descendant)
    }
}

/// One listing, as far as it has been followed.
pub struct History {
    /// The ticket that it began with.
    first_ticket: Ticket,
    /// The ticket for the next call.
    pub ticket: Ticket,
    /// The pairs of the listing that stood unaltered in every accepted call, if there was one.
    pub standing: Option<Vec<Pair>>,
    pub handed_out: Vec<Pair>,
    /// How many accepted calls said done, and how many handed something out.
    pub done: usize,
    pub pages: usize,
    pub refused: usize,
    /// How many calls were refused with LINKS.
    pub unlinked: usize,
    /// How often a pair that had stood was found altered.
    pub altered: usize,
    /// How often a page went on between two ancestors that end at one position.
    pub between: usize,
}

impl History {
    pub fn from(ticket: Ticket) -> History {
        History {
            first_ticket: ticket,
            ticket,
            standing: None,
            handed_out: Vec::new(),
            done: 0,
            pages: 0,
            refused: 0,
            unlinked: 0,
            altered: 0,
            between: 0,
        }
    }

    /// Makes the next call, with an output of `room` words, and returns its answer. If it was
    /// accepted, the last pairs of `handed_out` are those that it wrote. It may be lent words as
    /// links of the ancestors.
    pub fn call(
        &mut self,
        ancestors: &[u32],
        descendants: &[u32],
        links: Option<&[u32]>,
        room: usize,
    ) -> Page {
        let [coat, _] = u32::COATS;
        let mut out = vec![coat; room];
        let page = match links {
            Some(links) => raw::list_linked(ancestors, descendants, links, self.ticket, &mut out),
            None => raw::list(ancestors, descendants, self.ticket, &mut out),
        };
        assert!(
            out[PAIR_WORDS * page.count..].iter().all(|&word| word == coat),
            "altered after {} pairs",
            page.count
        );
        let lists = Lists { ancestors: nodes(ancestors), descendants: nodes(descendants) };
        self.follow(&page, &lists, &out);
        page
    }

    /// Follows the listing through a call on these lists that answered so, into this output.
    pub fn follow(&mut self, page: &Page, lists: &Lists, out: &[u32]) {
        if page.verdict.answer != 0 {
            assert_eq!((page.count, page.done, page.ticket), (0, 0, self.ticket), "a refused call");
            self.refused += 1;
            self.unlinked += usize::from(page.verdict.answer == Answer::Links as u32);
            return;
        }
        assert!(
            page.done == 1 || page.count == out.len() / PAIR_WORDS,
            "not done, and {} pairs in a room of {} words",
            page.count,
            out.len()
        );
        self.take(lists, &out[..PAIR_WORDS * page.count]);
        self.keep_standing(lists);
        self.ticket = page.ticket;
        if page.done == 1 {
            self.done += 1;
            self.hold_done();
        }
    }

    /// Tells whether a pair has the relation that the first ticket asks for, and lies past its
    /// place.
    fn is_asked_for(&self, pair: &Pair) -> bool {
        let asked = meaning(&self.first_ticket);
        pair.has(asked.relation) && asked.place.map_or(true, |place| pair.key(asked.order) > place)
    }

    /// Takes what a call handed out: pairs that stood in its own lists and were asked for, in
    /// order, and no document and two starts again.
    fn take(&mut self, lists: &Lists, words: &[u32]) {
        let order = meaning(&self.first_ticket).order;
        let starts =
            |pair: &Pair| (pair.ancestor.document, pair.ancestor.start, pair.descendant.start);
        let before = self.handed_out.len();
        for two in nodes(words).chunks(2) {
            let pair = Pair { ancestor: two[0], descendant: two[1] };
            assert!(lists.hold(&pair), "handed out, and not in the lists: {pair:?}");
            assert!(self.is_asked_for(&pair), "handed out, and not asked for: {pair:?}");
            assert!(
                self.handed_out.iter().all(|earlier| starts(earlier) != starts(&pair)),
                "twice: {pair:?}"
            );
            assert!(
                self.handed_out.last().map_or(true, |last| last.key(order) < pair.key(order)),
                "out of order: {pair:?}"
            );
            self.handed_out.push(pair);
        }
        self.pages += usize::from(!words.is_empty());
        if let (Some(last), Some(next)) =
            (self.handed_out[..before].last(), self.handed_out.get(before))
        {
            self.between += usize::from(is_between(last, next));
        }
    }

    /// Keeps of the pairs that stood so far those that stand in these lists too. At the first
    /// accepted call they are all that are asked for.
    fn keep_standing(&mut self, lists: &Lists) {
        let mut standing = self.standing.take().unwrap_or_else(|| {
            let all =
                pairs(meaning(&self.first_ticket).relation, &lists.ancestors, &lists.descendants);
            all.into_iter().filter(|pair| self.is_asked_for(pair)).collect()
        });
        self.altered +=
            standing.iter().filter(|pair| !lists.hold(pair) && lists.hold_starts(pair)).count();
        standing.retain(|pair| lists.hold(pair));
        self.standing = Some(standing);
    }

    /// Checks at a call that said done that every pair that stood unaltered has been handed out,
    /// once.
    fn hold_done(&self) {
        for pair in self.standing.iter().flatten() {
            let times = self.handed_out.iter().filter(|handed_out| *handed_out == pair).count();
            assert_eq!(times, 1, "done, and handed out {times} times: {pair:?}");
        }
    }
}
