//! Each call of the C interface, held against the model: all fields of what it answers and every
//! word of the output. A call's function returns the answer, unless its comment says otherwise.

use crate::making::tickets::FRESH;
use crate::model::answers::{row, Answer, Verdict, Written};
use crate::model::nodes::{nodes, words, NODE_WORDS};
use crate::model::pages::Ticket;
use crate::model::questions::{MOST_QUESTIONS, QUESTION_WORDS};
use crate::model::{books, links, lists, marks, pages, questions, readings, sheets};
use crate::paint::hold;
use belfrychest::raw;

/// The verdict of a call that is taken.
pub const TAKEN: raw::Verdict = raw::Verdict { answer: 0, list: 0, index: 0 };

/// Returns the verdict of the model in the numbers of the C interface.
pub fn raw_verdict(verdict: Verdict) -> raw::Verdict {
    raw::Verdict { answer: verdict.answer as u32, list: verdict.list, index: verdict.index }
}

/// Returns the same of what a call leaves that writes.
pub fn raw_written<T>(written: &Written<T>) -> raw::Written {
    raw::Written { verdict: raw_verdict(written.verdict), count: written.count }
}

/// Returns the same of a book that is opened.
pub fn raw_book(opened: &books::Opened) -> raw::Book {
    raw::Book { verdict: raw_verdict(opened.verdict), lists: opened.entries.len() as u32 }
}

/// Returns the same of a body.
pub fn raw_body(body: &books::Body) -> raw::Body {
    raw::Body { verdict: raw_verdict(body.verdict), from: body.from, bytes: body.bytes }
}

pub fn check(list: &[u32]) -> Answer {
    let expected = lists::check(list);
    assert_eq!(raw::check(list), raw_verdict(expected), "given and expected: check of {list:?}");
    expected.answer
}

pub fn check_two(ancestors: &[u32], descendants: &[u32]) -> Answer {
    let expected = lists::check_two(ancestors, descendants);
    assert_eq!(
        raw::check_two(ancestors, descendants),
        raw_verdict(expected),
        "given and expected: check of {ancestors:?} and {descendants:?}"
    );
    expected.answer
}

pub fn faulty(ancestors: &[u32], descendants: &[u32]) -> Answer {
    let lists::Part { verdict, from, words } = lists::faulty(ancestors, descendants);
    let expected = raw::Part { verdict: raw_verdict(verdict), from, words };
    assert_eq!(
        raw::faulty(ancestors, descendants),
        expected,
        "given and expected: faulty part of {ancestors:?} and {descendants:?}"
    );
    verdict.answer
}

/// Returns what the words of a ticket mean.
pub fn meaning(ticket: &raw::Ticket) -> Ticket {
    let &raw::Ticket { relation, order, placed, document, first, second } = ticket;
    Ticket::of([relation, order, placed, document, first, second])
}

/// Returns the ticket that comes back from this page: as it was, or with another place if something
/// was written.
fn ticket_after(ticket: raw::Ticket, page: &pages::Page) -> raw::Ticket {
    match page.place {
        Some([document, first, second]) if !page.pairs.is_empty() => {
            raw::Ticket { placed: 1, document, first, second, ..ticket }
        }
        _ => ticket,
    }
}

/// Returns the page of the model in the numbers of the C interface, for a call with this ticket.
fn raw_page(ticket: raw::Ticket, page: &pages::Page) -> raw::Page {
    raw::Page {
        verdict: raw_verdict(page.verdict),
        done: page.done.into(),
        count: page.pairs.len(),
        ticket: ticket_after(ticket, page),
    }
}

/// Makes a page call without links, and the same with those of the ancestors, which must answer and
/// write the same. A list that is refused has no links.
pub fn list(
    ancestors: &[u32],
    descendants: &[u32],
    ticket: raw::Ticket,
    out: &mut [u32],
) -> Answer {
    let page = pages::page(ancestors, descendants, &meaning(&ticket), out.len());
    let question = ("page", ancestors, descendants, ticket);
    hold(&question, out, &page.words(), raw_page(ticket, &page), |out| {
        raw::list(ancestors, descendants, ticket, out)
    });
    let links = links::links(ancestors, usize::MAX).words;
    let question = ("page with links", ancestors, descendants, ticket);
    hold(&question, out, &page.words(), raw_page(ticket, &page), |out| {
        raw::list_linked(ancestors, descendants, &links, ticket, out)
    });
    page.verdict.answer
}

/// Makes a page call that is lent these words as links, and returns what the model says of it.
pub fn list_linked(
    ancestors: &[u32],
    descendants: &[u32],
    links: &[u32],
    ticket: raw::Ticket,
    out: &mut [u32],
) -> pages::Page {
    let page = pages::linked_page(ancestors, descendants, links, &meaning(&ticket), out.len());
    let question = ("page", ancestors, descendants, "links", links, ticket);
    hold(&question, out, &page.words(), raw_page(ticket, &page), |out| {
        raw::list_linked(ancestors, descendants, links, ticket, out)
    });
    page
}

/// Returns all pairs that the archive lists for a ticket, of lists that it takes.
pub fn listed(ancestors: &[u32], descendants: &[u32], ticket: raw::Ticket) -> Vec<pages::Pair> {
    let [outer, inner] = [ancestors, descendants].map(|list| list.len() / NODE_WORDS);
    let mut out = vec![0; pages::PAIR_WORDS * outer * inner];
    let page = raw::list(ancestors, descendants, ticket, &mut out);
    assert_eq!((page.verdict, page.done), (TAKEN, 1), "lists that are taken, and room for all");
    let written = nodes(&out[..pages::PAIR_WORDS * page.count]);
    written.chunks(2).map(|two| pages::Pair { ancestor: two[0], descendant: two[1] }).collect()
}

/// Returns what the model says of a zone's readings. The low and the high are compared by their
/// bits, which are all 0 where there are none.
pub fn zone_range(zones: &[u32], samples: &[u32], readings: &[u32], zone: u32) -> readings::Range {
    let expected = readings::zone_range(zones, samples, readings, zone);
    let given = raw::zone_range(zones, samples, readings, zone);
    assert_eq!(
        (given.verdict, given.present, [given.low, given.high].map(f32::to_bits)),
        (
            raw_verdict(expected.verdict),
            u32::from(expected.bounds.is_some()),
            expected.bounds.unwrap_or_default().map(f32::to_bits)
        ),
        "given and expected: zone {zone} of {zones:?} with {samples:?} that read {readings:?}"
    );
    expected
}

pub fn sheet(zones: &[u32], samples: &[u32], hundredths: &[u32], out: &mut [u32]) -> Answer {
    let expected = sheets::sheet(zones, samples, hundredths, out.len());
    let question = ("sheet", zones, samples, hundredths);
    hold(&question, out, &expected.words, raw_written(&expected), |out| {
        raw::sheet(zones, samples, hundredths, out)
    });
    expected.verdict.answer
}

pub fn number(document: u32, marks: &[u32], out: &mut [u32]) -> Answer {
    let expected = marks::number(document, marks, out.len());
    hold(&("number", document, marks), out, &expected.words, raw_written(&expected), |out| {
        raw::number(document, marks, out)
    });
    expected.verdict.answer
}

pub fn unnumber(table: &[u32], out: &mut [u32]) -> Answer {
    let marks::Unnumbered { answer, document, marks } = marks::unnumber(table, out.len());
    let expected = raw::Unnumbered { answer: answer as u32, document, count: marks.len() };
    hold(&("unnumber", table), out, &marks, expected, |out| raw::unnumber(table, out));
    answer
}

pub fn pick(table: &[u32], tag: u32, out: &mut [u32]) -> Answer {
    let expected = marks::pick(table, tag, out.len());
    hold(&("pick", table, tag), out, &expected.words, raw_written(&expected), |out| {
        raw::pick(table, tag, out)
    });
    expected.verdict.answer
}

pub fn links(list: &[u32], out: &mut [u32]) -> Answer {
    let expected = links::links(list, out.len());
    hold(&("links", list), out, &expected.words, raw_written(&expected), |out| {
        raw::links(list, out)
    });
    expected.verdict.answer
}

pub fn links_check(list: &[u32], words: &[u32]) -> Answer {
    let expected = links::check_links(list, words);
    assert_eq!(
        raw::links_check(list, words),
        raw_verdict(expected),
        "given and expected: check of {list:?} with the links {words:?}"
    );
    expected.answer
}

pub fn book_check(book: &[u8]) -> Answer {
    let opened = books::check(book);
    let expected = raw_book(&opened);
    assert_eq!(raw::book_check(book), expected, "given and expected: check of the book {book:?}");
    opened.verdict.answer
}

pub fn book_body(book: &[u8], tag: u32) -> Answer {
    let body = books::body(book, tag);
    assert_eq!(
        raw::book_body(book, tag),
        raw_body(&body),
        "given and expected: tag {tag} in the book {book:?}"
    );
    body.verdict.answer
}

pub fn book_write(entries: &[u32], nodes: &[u32], out: &mut [u8]) -> Answer {
    let expected = books::write(entries, nodes, out.len());
    hold(&("write", entries, nodes), out, &expected.words, raw_written(&expected), |out| {
        raw::book_write(entries, nodes, out)
    });
    expected.verdict.answer
}

/// Fails unless the lists of an accepted book are written to the same bytes again.
pub fn comes_back(book: &[u8], entries: &[books::Entry]) {
    let wanted: Vec<u32> =
        entries.iter().flat_map(|entry| [entry.tag, entry.count as u32]).collect();
    let nodes: Vec<u32> =
        entries.iter().flat_map(|entry| words(&books::body_nodes(book, entry))).collect();
    let mut written = vec![0; book.len()];
    assert_eq!(book_write(&wanted, &nodes, &mut written), Answer::Taken);
    assert_eq!(written, book);
}

/// Returns what a call with several questions answers: these pages, and pages of zeros after them.
/// If it is refused as a whole, it has answered none.
pub fn raw_pages(answer: Answer, pages: &[raw::Page]) -> raw::Pages {
    let answered = if answer == Answer::Taken { pages.len() } else { 0 };
    let none = raw::Page { verdict: TAKEN, done: 0, count: 0, ticket: FRESH };
    let mut all = [none; MOST_QUESTIONS];
    all[..pages.len()].copy_from_slice(pages);
    raw::Pages { answer: answer as u32, questions: answered as u32, pages: all }
}

/// Returns what the model says of a call with several questions. All 32 pages are compared.
pub fn ask(book: &[u8], words: &[u32], out: &mut [u32]) -> questions::Asked {
    let asked = questions::ask(book, words, out.len());
    hold_asked(book, words, out, &asked);
    asked
}

/// Fails unless a call with several questions answers and writes this.
pub fn hold_asked(book: &[u8], words: &[u32], out: &mut [u32], asked: &questions::Asked) {
    let answered = asked_in(words).iter().zip(&asked.pages);
    let pages: Vec<raw::Page> =
        answered.map(|(question, page)| raw_page(question.ticket, page)).collect();
    let expected = raw_pages(asked.answer, &pages);
    let written: Vec<u32> = asked.pages.iter().flat_map(pages::Page::words).collect();
    hold(&("ask", book, words), out, &written, expected, |out| raw::ask(book, words, out));
}

/// Returns the whole questions that the words make.
pub fn asked_in(words: &[u32]) -> &[raw::Question] {
    let whole = words.len() / QUESTION_WORDS * QUESTION_WORDS;
    raw::items(&words[..whole]).expect("whole questions")
}

/// Checks the name of a number. The output has room for a name's bytes at least.
pub fn name(number: u32, out: &mut [u8]) {
    extern "C" {
        fn belfry_name(answer: u32, out: *mut u8);
    }
    assert_eq!(raw::name(number), row(number), "given and expected: name of {number}");
    hold(&("name", number), out, &row(number), (), |out| unsafe {
        belfry_name(number, out.as_mut_ptr())
    });
}
