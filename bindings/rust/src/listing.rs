//! A whole listing, at once or pair by pair.

use crate::answer::Refusal;
use crate::limits::PAGE_PAIRS;
use crate::node::{Link, Node, Pair};
use crate::page::{next_linked_page, next_page, Page};
use crate::ticket::{Order, Relation, Ticket};
use std::iter::FusedIterator;

/// Returns all pairs of two lists. Refused as [`crate::check_two`] is.
pub fn listing(
    ancestors: &[Node],
    descendants: &[Node],
    relation: Relation,
    order: Order,
) -> Result<Vec<Pair>, Refusal> {
    let buffer = vec![Pair::default(); PAGE_PAIRS];
    Ok(Listing::new(ancestors, descendants, relation, order, buffer)?.collect())
}

/// What a listing borrows: its two lists, and the links of the ancestors where they are lent.
#[derive(Clone, Copy, Debug)]
struct Lent<'a> {
    ancestors: &'a [Node],
    descendants: &'a [Node],
    links: Option<&'a [Link]>,
}

impl Lent<'_> {
    fn page(self, ticket: Ticket, out: &mut [Pair]) -> Result<Page, Refusal> {
        let Lent { ancestors, descendants, links } = self;
        match links {
            Some(links) => next_linked_page(ancestors, descendants, links, ticket, out),
            None => next_page(ancestors, descendants, ticket, out),
        }
    }
}

/// All pairs of two lists, fetched page by page into a buffer. It borrows the lists, so they can't
/// change before it ends, and what was taken at the start is taken to the end. Lists that are
/// edited in between are paged by [`next_page`].
#[derive(Clone, Debug)]
pub struct Listing<'a, B> {
    lent: Lent<'a>,
    buffer: B,
    page: Page,
    shown: usize,
}

impl<'a, B: AsMut<[Pair]>> Listing<'a, B> {
    /// Checks both lists and fetches the first page. The buffer, an array, a `Vec` or a lent slice,
    /// holds a page; [`PAGE_PAIRS`] is a good length for it. Refused as [`next_page`] is.
    pub fn new(
        ancestors: &'a [Node],
        descendants: &'a [Node],
        relation: Relation,
        order: Order,
        buffer: B,
    ) -> Result<Self, Refusal> {
        let lent = Lent { ancestors, descendants, links: None };
        Listing::started(lent, Ticket::fresh(relation, order), buffer)
    }

    /// Does what [`Listing::new`] does, and uses the links of the ancestors to pass over zones that
    /// hold no descendant. The pairs are the same. Refused as [`next_linked_page`] is.
    pub fn linked(
        ancestors: &'a [Node],
        descendants: &'a [Node],
        links: &'a [Link],
        relation: Relation,
        order: Order,
        buffer: B,
    ) -> Result<Self, Refusal> {
        let lent = Lent { ancestors, descendants, links: Some(links) };
        Listing::started(lent, Ticket::fresh(relation, order), buffer)
    }

    fn started(lent: Lent<'a>, fresh: Ticket, mut buffer: B) -> Result<Self, Refusal> {
        let page = lent.page(fresh, buffer.as_mut())?;
        Ok(Listing { lent, buffer, page, shown: 0 })
    }

    fn turn_page(&mut self) {
        let Listing { lent, page, .. } = *self;
        self.page = lent
            .page(page.ticket, self.buffer.as_mut())
            .expect("what was taken, and lent since, is taken again");
        self.shown = 0;
    }
}

impl<B: AsMut<[Pair]>> Iterator for Listing<'_, B> {
    type Item = Pair;

    fn next(&mut self) -> Option<Pair> {
        if self.shown == self.page.count {
            if self.page.done {
                return None;
            }
            self.turn_page();
        }
        self.shown += 1;
        Some(self.buffer.as_mut()[self.shown - 1])
    }
}

impl<B: AsMut<[Pair]>> FusedIterator for Listing<'_, B> {}
