//! Several questions to a book, as a program that takes at most 16 lists answers them. It is a copy
//! of what looks into the book in `model/questions.rs`, and isn't to be changed with it: `books.rs`
//! says why.

use super::books::{body, numbers};
use crate::model::answers::{Answer, Verdict};
use crate::model::books::Body;
use crate::model::pages::{page, Page, PAIR_WORDS};
use crate::model::questions::{questions, Question};

/// Returns the pages of these words' questions, with an output of `room` words. There are as many
/// questions as a call may have, or fewer, and they are whole.
pub fn pages(book: &[u8], words: &[u32], room: usize) -> Vec<Page> {
    let mut pages: Vec<Page> = Vec::new();
    for question in questions(words) {
        let taken: usize = pages.iter().map(|page| PAIR_WORDS * page.pairs.len()).sum();
        pages.push(page_of(book, &question, room - taken));
    }
    pages
}

/// Returns the page of one question, with an output of `room` words.
fn page_of(book: &[u8], question: &Question, room: usize) -> Page {
    match [question.ancestors, question.descendants].map(|tag| list_under(book, tag)) {
        [Err(verdict), _] | [_, Err(verdict)] => Page::refused(verdict, &question.ticket),
        [Ok(ancestors), Ok(descendants)] => page(&ancestors, &descendants, &question.ticket, room),
    }
}

/// Returns the words of the list that a book has under a tag, or the refusal.
fn list_under(book: &[u8], tag: u32) -> Result<Vec<u32>, Verdict> {
    let Body { verdict, from, bytes } = body(book, tag);
    if verdict.answer == Answer::Taken {
        Ok(numbers(&book[from..from + bytes]))
    } else {
        Err(verdict)
    }
}
