//! Several questions to one book. Each in turn is a page call on its two lists, into what those
//! before it have left of the output.

use super::answers::{Answer, Verdict};
use super::books::{body, numbers, Body};
use super::pages::{page, Page, Ticket, PAIR_WORDS};

/// The words of a question: two tags, and the six of a ticket.
pub const QUESTION_WORDS: usize = 8;
/// The most questions of a call.
pub const MOST_QUESTIONS: usize = 32;

/// A question: the tags of its ancestors and of its descendants, and its ticket.
#[derive(Clone, Copy, Debug, PartialEq, Eq)]
pub struct Question {
    pub ancestors: u32,
    pub descendants: u32,
    pub ticket: Ticket,
}

/// Returns the whole questions that the words make.
pub fn questions(words: &[u32]) -> Vec<Question> {
    let read = |words: &[u32]| Question {
        ancestors: words[0],
        descendants: words[1],
        ticket: Ticket::of(words[2..].try_into().expect("six words")),
    };
    words.chunks_exact(QUESTION_WORDS).map(read).collect()
}

/// What a call answers as a whole, and the pages of its questions, at most 32 of them.
#[derive(Clone, Debug, PartialEq, Eq)]
pub struct Asked {
    pub answer: Answer,
    pub pages: Vec<Page>,
}

/// Asks a book these words' questions, with an output of `room` words.
pub fn ask(book: &[u8], words: &[u32], room: usize) -> Asked {
    let questions = questions(words);
    let answer = if words.len() % QUESTION_WORDS != 0 {
        Answer::Ragged
    } else if questions.len() > MOST_QUESTIONS {
        Answer::Long
    } else {
        Answer::Taken
    };
    let mut pages: Vec<Page> = Vec::new();
    for question in questions.iter().take(MOST_QUESTIONS) {
        let taken: usize = pages.iter().map(|page| PAIR_WORDS * page.pairs.len()).sum();
        pages.push(if answer == Answer::Taken {
            page_of(book, question, room - taken)
        } else {
            Page::refused(Verdict::of(answer), &question.ticket)
        });
    }
    Asked { answer, pages }
}

/// Returns the page of one question, with an output of `room` words.
fn page_of(book: &[u8], question: &Question, room: usize) -> Page {
    match [question.ancestors, question.descendants].map(|tag| list_under(book, tag)) {
        [Err(verdict), _] | [_, Err(verdict)] => Page::refused(verdict, &question.ticket),
        [Ok(ancestors), Ok(descendants)] => page(&ancestors, &descendants, &question.ticket, room),
    }
}

/// Returns the words of the list that a book has under a tag, or the refusal.
fn list_under(book: &[u8], tag: u32) -> Result<Vec<u32>, Verdict> {
    let Body { verdict, from, bytes } = body(book, tag);
    if verdict.answer == Answer::Taken {
        Ok(numbers(&book[from..from + bytes]))
    } else {
        Err(verdict)
    }
}
