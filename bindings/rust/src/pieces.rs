//! Lists of more nodes than a call takes, cut into pieces.
//!
//! The rule is a theorem (`crates/demands/proofs/Pieces.antt`). A whole list draws none of LEVEL to
//! DEPTH exactly when three things hold. Each piece draws none. The first node of each piece stands
//! after the last one of the piece before. The check of two takes every earlier piece with every
//! later one. The pairs of two whole lists are those of every ancestor piece with every descendant
//! piece. Two pieces without a common document need no call. The library is asked for all of this,
//! and nothing is judged anew.

use crate::answer::Refusal;
use crate::limits::{ANCESTORS, DESCENDANTS, MOST_NODES, PAGE_PAIRS};
use crate::list::{check, check_two};
use crate::node::{Node, Pair};
use crate::page::{hold_room, page_within, Page};
use crate::ticket::{Order, Place, Relation, Ticket};
use std::iter::from_fn;

/// Two lists of any number of nodes, cut into pieces of [`MOST_NODES`].
///
/// It does what the calls on two lists would do without that limit. It gives the same refusals,
/// with the index of the faulty node in the whole list, the same pages for the same tickets, and
/// the same listing. LONG is never given. The pieces are parts of the lent lists; only results are
/// copied.
///
/// The work grows with the number of pieces of one list times that of the other, as far as the
/// pieces have a document in common.
///
/// A `Pieces` borrows its lists and costs nothing to make. Where lists are edited between two
/// pages, make one for each page:
///
/// ```
/// use belfrychest::{Node, Order, Pair, Pieces, Relation, Ticket, PAGE_PAIRS};
///
/// let mut zones = vec![Node { document: 5, start: 0, end: 30_000, level: 1 }];
/// let samples: Vec<Node> =
///     (1..=9_000).map(|start| Node { document: 5, start, end: start, level: 2 }).collect();
/// let mut ticket = Ticket::fresh(Relation::Inside, Order::Descendant);
/// let mut out = vec![Pair::default(); PAGE_PAIRS];
/// let mut count = 0;
/// loop {
///     let page = Pieces::new(&zones, &samples).page(ticket, &mut out)?;
///     count += page.count;
///     if page.done {
///         break;
///     }
///     ticket = page.ticket;
///     zones[0].end -= 1;
/// }
/// assert_eq!(count, 9_000);
/// # Ok::<(), belfrychest::Refusal>(())
/// ```
#[derive(Clone, Copy, Debug)]
pub struct Pieces<'a> {
    ancestors: &'a [Node],
    descendants: &'a [Node],
    size: usize,
}

impl<'a> Pieces<'a> {
    /// Cuts two lists into pieces. Nothing is checked yet.
    pub fn new(ancestors: &'a [Node], descendants: &'a [Node]) -> Self {
        Pieces::of_size(ancestors, descendants, MOST_NODES)
    }

    /// Cuts two lists into smaller pieces than a call could take. It is there for tests.
    #[doc(hidden)]
    pub fn of_size(ancestors: &'a [Node], descendants: &'a [Node], size: usize) -> Self {
        Pieces { ancestors, descendants, size: size.clamp(1, MOST_NODES) }
    }

    /// Checks both lists, each as a whole, and then together. Refused as [`check_two`] is, but
    /// never with LONG. To check one list, give it an empty one as the other.
    pub fn check(&self) -> Result<(), Refusal> {
        self.check_whole(ANCESTORS, self.ancestors)?;
        self.check_whole(DESCENDANTS, self.descendants)?;
        self.meeting_pieces()
            .try_for_each(|(ancestors, descendants)| check_two(ancestors, descendants))
    }

    /// Checks both lists and writes the next page, as [`crate::next_page`] does. Refused with ROOM
    /// where the output has no place at all; else as [`Pieces::check`] is.
    pub fn page(&self, ticket: Ticket, out: &mut [Pair]) -> Result<Page, Refusal> {
        hold_room(out)?;
        self.check()?;
        self.page_of_taken(ticket, out)
    }

    /// Checks both lists and returns an iterator over all their pairs, which it fetches page by
    /// page. Refused as [`Pieces::check`] is.
    pub fn pairs(
        &self,
        relation: Relation,
        order: Order,
    ) -> Result<impl Iterator<Item = Pair> + 'a, Refusal> {
        self.check()?;
        let pieces = *self;
        let mut next = Some(Ticket::fresh(relation, order));
        let next_page = move || {
            let mut out = vec![Pair::default(); PAGE_PAIRS];
            let page = pieces
                .page_of_taken(next?, &mut out)
                .expect("lists that were taken, and lent since, are taken again");
            next = (!page.done).then_some(page.ticket);
            out.truncate(page.count);
            Some(out)
        };
        Ok(from_fn(next_page).flatten())
    }

    /// Returns all pairs. Refused as [`Pieces::check`] is.
    pub fn listing(&self, relation: Relation, order: Order) -> Result<Vec<Pair>, Refusal> {
        Ok(self.pairs(relation, order)?.collect())
    }

    /// Checks both lists and returns each ancestor piece with each descendant piece that it may
    /// have pairs with, since their documents overlap. Each two can be listed by a call of its own,
    /// in any order and on any machine: together these calls give every pair of the whole lists,
    /// once. [`Pair::key`] sorts them. Refused as [`Pieces::check`] is.
    pub fn meeting(&self) -> Result<Vec<(&'a [Node], &'a [Node])>, Refusal> {
        self.check()?;
        Ok(self.meeting_pieces().collect())
    }

    fn meeting_pieces(&self) -> impl Iterator<Item = (&'a [Node], &'a [Node])> {
        let Pieces { ancestors, descendants, size } = *self;
        let with_each = move |a| descendants.chunks(size).map(move |d| (a, d));
        ancestors.chunks(size).flat_map(with_each).filter(|(a, d)| meet(a, d))
    }

    /// Checks one list, piece after piece.
    fn check_whole(&self, number: usize, list: &[Node]) -> Result<(), Refusal> {
        for (place, piece) in list.chunks(self.size).enumerate() {
            let before = &list[..place * self.size];
            if !self.follows(before, piece) {
                let index = before.len() + self.taken_count(before, piece);
                let refusal = self.refusal_at(&list[..index], list[index]);
                let (list, index) = (refusal.list.map(|_| number), refusal.index.map(|_| index));
                return Err(Refusal { list, index, ..refusal });
            }
        }
        Ok(())
    }

    /// Tells whether a piece draws nothing after nodes that draw nothing: by itself, at the border,
    /// and with each of the pieces before it.
    fn follows(&self, before: &[Node], piece: &[Node]) -> bool {
        let border: Vec<Node> = before.last().into_iter().chain(piece.first()).copied().collect();
        let mut earlier = before.chunks(self.size).filter(|earlier| meet(earlier, piece));
        check(piece).is_ok()
            && check(&border).is_ok()
            && earlier.all(|earlier| check_two(earlier, piece).is_ok())
    }

    /// Returns how many nodes of a piece draw nothing, up to the first that draws something.
    fn taken_count(&self, before: &[Node], piece: &[Node]) -> usize {
        let counts: Vec<usize> = (1..=piece.len()).collect();
        counts.partition_point(|&count| self.follows(before, &piece[..count]))
    }

    /// Returns the refusal of a node after nodes that draw nothing. The check of one is asked with
    /// the node alone and with each part of those before it. Of its answers the lowest counts, as
    /// it does at a node of one list.
    fn refusal_at(&self, before: &[Node], node: Node) -> Refusal {
        let parts = before.chunks(self.size.max(2) - 1).chain([&[][..]]);
        let refusals = parts.filter_map(|part| check(&[part, &[node]].concat()).err());
        refusals.min_by_key(|refusal| refusal.answer.number()).expect("the node draws something")
    }

    /// Writes a page of lists that are taken. The pieces of the list that leads the order follow
    /// one another in the listing, so each is asked for the room that those before it left.
    fn page_of_taken(&self, ticket: Ticket, out: &mut [Pair]) -> Result<Page, Refusal> {
        let mut page = Page { count: 0, done: true, ticket };
        let mut lent = vec![Pair::default(); out.len()];
        let leading = match ticket.order {
            Order::Descendant => self.descendants,
            Order::Ancestor => self.ancestors,
        };
        for piece in leading.chunks(self.size).filter(|piece| !is_passed(piece, ticket.place)) {
            let room = &mut lent[page.count..];
            let (found, done) = self.page_of_leading(piece, ticket, room)?;
            out[page.count..page.count + found.len()].copy_from_slice(&found);
            page.count += found.len();
            page.done = done;
            if !done {
                break;
            }
        }
        if let Some(last) = out[..page.count].last() {
            let [document, first, second] = last.key(ticket.order);
            page.ticket.place = Place::After { document, first, second };
        }
        Ok(page)
    }

    /// Returns the first pairs of a leading piece with the whole of the other list, at most as many
    /// as there is room for, and whether these are all. The room is lent to each call in turn.
    fn page_of_leading(
        &self,
        leading: &[Node],
        ticket: Ticket,
        room: &mut [Pair],
    ) -> Result<(Vec<Pair>, bool), Refusal> {
        let (mut found, mut done) = (Vec::new(), true);
        let other = match ticket.order {
            Order::Descendant => self.ancestors,
            Order::Ancestor => self.descendants,
        };
        for piece in other.chunks(self.size).filter(|piece| meet(piece, leading)) {
            let page = match ticket.order {
                Order::Descendant => page_within(piece, leading, ticket, room)?,
                Order::Ancestor => page_within(leading, piece, ticket, room)?,
            };
            found.extend_from_slice(&room[..page.count]);
            found.sort_by_key(|pair: &Pair| pair.key(ticket.order));
            done = done && page.done && found.len() <= room.len();
            found.truncate(room.len());
        }
        Ok((found, done))
    }
}

/// Tells whether two pieces may have a document in common. Both are in order and have a node.
fn meet(x: &[Node], y: &[Node]) -> bool {
    let first = |piece: &[Node]| piece.first().map(|node| node.document);
    let last = |piece: &[Node]| piece.last().map(|node| node.document);
    first(x) <= last(y) && first(y) <= last(x)
}

/// Tells whether every pair that a leading piece has comes before the place.
fn is_passed(leading: &[Node], place: Place) -> bool {
    match (leading.last(), place) {
        (Some(last), Place::After { document, first, .. }) => {
            (last.document, last.start) < (document, first)
        }
        _ => false,
    }
}
