//! Several questions to one book in one call.

use crate::answer::{settle, settle_answer, Refusal};
use crate::limits::MOST_QUESTIONS;
use crate::node::Pair;
use crate::page::hold_room;
use crate::raw::{self, words, words_mut};
use crate::ticket::{Order, Relation, Ticket};
use std::array;
use std::iter::{FusedIterator, Take};

/// A question to a book: two of its lists, by their tags, and a ticket.
#[derive(Clone, Copy, Debug, PartialEq, Eq, Hash)]
pub struct Question {
    /// The tag of the list of ancestors.
    pub ancestors: u32,
    /// The tag of the list of descendants.
    pub descendants: u32,
    /// What to list of them, in which order, and from where on.
    pub ticket: Ticket,
}

impl Question {
    /// Returns the question that starts a listing of two lists.
    pub fn fresh(ancestors: u32, descendants: u32, relation: Relation, order: Order) -> Question {
        Question { ancestors, descendants, ticket: Ticket::fresh(relation, order) }
    }
}

impl From<Question> for raw::Question {
    fn from(question: Question) -> raw::Question {
        let Question { ancestors, descendants, ticket } = question;
        raw::Question { ancestors, descendants, ticket: ticket.into() }
    }
}

/// What a question hands out.
#[derive(Clone, Copy, Debug, PartialEq, Eq)]
pub struct Found<'a> {
    /// Its pairs, which are a part of the output.
    pub pairs: &'a [Pair],
    /// Whether nothing is left.
    pub done: bool,
}

/// What a question is answered.
#[derive(Clone, Copy, Debug, PartialEq, Eq)]
pub struct Reply<'a> {
    /// What it hands out, or why it is refused.
    pub found: Result<Found<'a>, Refusal>,
    /// The ticket to ask with next. A refused question keeps the one that it was asked with.
    pub ticket: Ticket,
}

/// The replies to the questions of a call, one for each, in the order of the questions.
#[derive(Clone, Debug)]
pub struct Replies<'a> {
    pages: Take<array::IntoIter<raw::Page, MOST_QUESTIONS>>,
    /// The output from the next question's pairs on.
    rest: &'a [Pair],
}

impl<'a> Iterator for Replies<'a> {
    type Item = Reply<'a>;

    fn next(&mut self) -> Option<Reply<'a>> {
        let page = self.pages.next()?;
        let (pairs, rest) = self.rest.split_at(page.count);
        self.rest = rest;
        let found = settle(page.verdict).map(|()| Found { pairs, done: page.done != 0 });
        Some(Reply { found, ticket: page.ticket.into() })
    }

    fn size_hint(&self) -> (usize, Option<usize>) {
        self.pages.size_hint()
    }
}

impl ExactSizeIterator for Replies<'_> {}
impl FusedIterator for Replies<'_> {}

/// Asks a book several questions in one call, which checks the book once. Each in turn writes its
/// pairs into the output from where the one before stopped, and has all the room left. What a
/// question hands out is what [`crate::next_page`] hands out of the two lists with that room. A
/// question that is refused writes nothing, takes no room and doesn't stop the others.
///
/// ```
/// use belfrychest::{ask, book_write, Answer, Entry, Node, Order, Pair, Question, Relation};
///
/// let node = |start, end, level| Node { document: 5, start, end, level };
///
/// // Two zones, which have the tag 2, and two samples, which have the tag 3.
/// let nodes = [node(2, 10, 2), node(3, 7, 3), node(4, 6, 4), node(8, 9, 3)];
///
/// let lists = [2, 3].map(|tag| Entry { tag, count: 2 });
/// let book = book_write(&lists, &nodes)?;
///
/// let all = |ancestors, descendants| {
///     Question::fresh(ancestors, descendants, Relation::Inside, Order::Descendant)
/// };
/// let questions = [all(2, 3), all(2, 9), all(2, 2)];
/// let mut out = [Pair::default(); 100];
///
/// let counts: Vec<_> = ask(&book, &questions, &mut out)?
///     .map(|reply| reply.found.map(|found| found.pairs.len()).map_err(|refusal| refusal.answer))
///     .collect();
/// assert_eq!(counts, [Ok(3), Err(Answer::Absent), Ok(1)]);
/// # Ok::<(), belfrychest::Refusal>(())
/// ```
///
/// To go on, ask with the tickets of the replies. The book may be edited in between: when a
/// question is done, each pair that stood unaltered in all its accepted calls was handed out, once.
///
/// This call takes more than 128 KiB of stack. `belfrychest.h` says how much a thread needs for it.
///
/// The whole call is refused with ROOM where the output has no room for a pair, and with LONG
/// for more than [`MOST_QUESTIONS`] questions. A question is refused as [`crate::book_check`]
/// is, whichever list of the book is at fault. Then it is refused with ABSENT where the book
/// lacks one of its tags, and then with JOINT.
pub fn ask<'a>(
    book: &[u8],
    questions: &[Question],
    out: &'a mut [Pair],
) -> Result<Replies<'a>, Refusal> {
    hold_room(out)?;
    // One question more than a call takes is enough for the archive to refuse them.
    let asked = &questions[..questions.len().min(MOST_QUESTIONS + 1)];
    let blank = Question::fresh(0, 0, Relation::Inside, Order::Descendant);
    let mut lent = [raw::Question::from(blank); MOST_QUESTIONS + 1];
    for (place, question) in lent.iter_mut().zip(asked) {
        *place = (*question).into();
    }
    let answered = raw::ask(book, words(&lent[..asked.len()]), words_mut(out));
    settle_answer(answered.answer)?;
    let pages = answered.pages.into_iter().take(answered.questions as usize);
    Ok(Replies { pages, rest: out })
}
