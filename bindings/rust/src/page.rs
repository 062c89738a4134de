//! A page of a listing.

use crate::answer::{settle_two, Refusal};
use crate::node::{Link, Node, Pair};
use crate::raw::{self, words, words_mut};
use crate::table::Answer;
use crate::ticket::Ticket;

/// What a page call hands out with its pairs.
#[derive(Clone, Copy, Debug, PartialEq, Eq)]
pub struct Page {
    /// How many pairs were written, from the output's first place on.
    pub count: usize,
    /// Whether nothing is left.
    pub done: bool,
    /// The ticket for the next page.
    pub ticket: Ticket,
}

/// Writes the first pairs that come after the ticket's place, as many as fit. Both lists may be
/// edited between two calls: when a page says done, each pair that stood unaltered in all accepted
/// calls was handed out, once.
///
/// Every page checks both lists anew, so take an output of [`crate::PAGE_PAIRS`] where nothing
/// speaks for another one.
///
/// Refused with ROOM where the output has no place at all, since a loop until done would never
/// end; else as [`crate::check_two`] is. The caller's ticket then goes on being the one to use.
pub fn next_page(
    ancestors: &[Node],
    descendants: &[Node],
    ticket: Ticket,
    out: &mut [Pair],
) -> Result<Page, Refusal> {
    hold_room(out)?;
    page_within(ancestors, descendants, ticket, out)
}

/// Does what [`next_page`] does, for a caller who lends the links of the ancestors too. The call
/// passes over a zone together with everything inside it, where no descendant lies in it. The page
/// is that of [`next_page`] for every ticket and output, so the pages of a listing may come from
/// both.
///
/// Every page checks the links too, so they may come from anyone. On every farm that was
/// measured, this cost more than it saved. After an edit of the ancestors they have to be made
/// anew:
///
/// ```
/// use belfrychest::{links, next_linked_page, next_page};
/// use belfrychest::{Answer, Node, Order, Pair, Relation, Ticket};
///
/// let node = |start, end, level| Node { document: 5, start, end, level };
///
/// // The second zone holds the third, and no sample.
/// let mut zones = vec![node(1, 40, 1), node(2, 9, 2), node(3, 8, 3), node(20, 29, 2)];
///
/// let samples = [node(21, 22, 3)];
/// let forest = links(&zones)?;
///
/// let ticket = Ticket::fresh(Relation::Inside, Order::Descendant);
/// let (mut out, mut plain) = ([Pair::default(); 4], [Pair::default(); 4]);
///
/// let page = next_linked_page(&zones, &samples, &forest, ticket, &mut out)?;
/// assert_eq!(page, next_page(&zones, &samples, ticket, &mut plain)?);
/// assert_eq!((page.count, out), (2, plain));
///
/// zones.remove(2);
/// let refused = next_linked_page(&zones, &samples, &forest, ticket, &mut out);
/// assert_eq!(refused.unwrap_err().answer, Answer::Links);
///
/// let page = next_linked_page(&zones, &samples, &links(&zones)?, ticket, &mut out)?;
/// assert_eq!((page.count, page.done), (2, true));
/// # Ok::<(), belfrychest::Refusal>(())
/// ```
///
/// Refused as [`next_page`] is, then with LINKS where the links aren't exactly those of the
/// ancestors.
pub fn next_linked_page(
    ancestors: &[Node],
    descendants: &[Node],
    links: &[Link],
    ticket: Ticket,
    out: &mut [Pair],
) -> Result<Page, Refusal> {
    hold_room(out)?;
    settled(raw::list_linked(
        words(ancestors),
        words(descendants),
        words(links),
        ticket.into(),
        words_mut(out),
    ))
}

/// Refuses an output with no place for a pair.
pub(crate) fn hold_room(out: &[Pair]) -> Result<(), Refusal> {
    if out.is_empty() {
        return Err(Refusal::without_place(Answer::Room));
    }
    Ok(())
}

/// Does what [`next_page`] does, also with an output that has no place: such a page tells whether
/// something is left.
pub(crate) fn page_within(
    ancestors: &[Node],
    descendants: &[Node],
    ticket: Ticket,
    out: &mut [Pair],
) -> Result<Page, Refusal> {
    settled(raw::list(words(ancestors), words(descendants), ticket.into(), words_mut(out)))
}

/// Returns the page that a call answered, or its refusal.
fn settled(page: raw::Page) -> Result<Page, Refusal> {
    settle_two(page.verdict)?;
    Ok(Page { count: page.count, done: page.done != 0, ticket: page.ticket.into() })
}
