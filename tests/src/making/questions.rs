//! Questions to a book.

use super::lists::{any_family, some_of};
use super::{books, misfit, tickets};
use crate::model::books::{body_nodes, bytes, check, Tagged};
use crate::model::lists::MOST_LEVEL;
use crate::model::nodes::words;
use crate::model::questions::{MOST_QUESTIONS, QUESTION_WORDS};
use crate::random::Random;
use belfrychest::raw::{self, Question};

/// Returns a book, mostly sound. In some books all lists but one agree, and a node of that one is
/// mostly at odds with them if they have it too.
pub fn book(random: &mut Random) -> Vec<u8> {
    if !random.one_in(3) {
        return books::book(random);
    }
    let all = any_family(random);
    let mut lists: Vec<Tagged> = (0..4).map(|tag| (tag, some_of(random, &all))).collect();
    let list = random.below(lists.len());
    let nodes = &mut lists[list].1;
    if !nodes.is_empty() {
        let place = random.below(nodes.len());
        let node = &mut nodes[place];
        if random.one_in(2) {
            node.level = (node.level + 1).min(MOST_LEVEL);
        } else {
            node.end = node.end.saturating_add(1);
        }
    }
    bytes(&lists)
}

/// Returns a question whose tags the book mostly has, with a ticket that is made up for their
/// lists.
pub fn question(random: &mut Random, book: &[u8]) -> Question {
    let entries = check(book).entries;
    let [ancestors, descendants] = [(); 2].map(|()| books::tag(random, book));
    let [outer, inner] = [ancestors, descendants].map(|tag| {
        let entry = entries.iter().find(|entry| entry.tag == tag);
        entry.map_or(Vec::new(), |entry| words(&body_nodes(book, entry)))
    });
    Question { ancestors, descendants, ticket: tickets::made_up(random, &outer, &inner) }
}

/// Returns the words of some questions to a book, mostly of a few. Now and then one comes twice,
/// there are as many as a call may have or a few more, or they aren't whole.
pub fn words_for(random: &mut Random, book: &[u8]) -> Vec<u32> {
    let count = if random.one_in(20) { MOST_QUESTIONS + random.below(3) } else { random.below(5) };
    let mut questions: Vec<Question> = Vec::with_capacity(count);
    for _ in 0..count {
        let repeated = !questions.is_empty() && random.one_in(6);
        let next = if repeated { random.pick(&questions) } else { question(random, book) };
        questions.push(next);
    }
    misfit(random, raw::words(&questions).to_vec(), QUESTION_WORDS)
}
