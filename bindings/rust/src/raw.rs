//! The C interface as it is: its structs, and each of its functions over slices.
//! `bindings/c/belfrychest.h` says what each field holds and what each call reads, writes and
//! answers.
//!
//! All unsafe code of this crate is here, and it is sound for one reason throughout. A slice is
//! passed as its address and its length. The address is never null and is aligned, even for an
//! empty slice. The archive reads and writes no more than the length says and keeps no address. An
//! output that is lent mutably overlaps nothing else that is lent. A slice of items that are
//! [`OfWords`] is the slice of their words.
//!
//! Every call first holds the archive's version against [`VERSION`], and panics where they differ,
//! since the structs of another version may lie otherwise in memory.

use crate::limits::MOST_QUESTIONS;
use crate::node::{Entry, Link, Node, Pair, Row};
use crate::sheet::{Hundredths, Subtotal};
use crate::table::VERSION;
use std::mem::size_of;
use std::slice;

/// The answer of a check: its number, the list that it names, and the index of the faulty node in
/// that list, or 0.
#[repr(C)]
#[derive(Clone, Copy, Debug, PartialEq, Eq)]
pub struct Verdict {
    pub answer: u32,
    pub list: u32,
    pub index: u32,
}

/// The verdict on two lists, and the part of the list at fault that starts at the faulty node, in
/// words; 0 and 0 when it is empty.
#[repr(C)]
#[derive(Clone, Copy, Debug, PartialEq, Eq)]
pub struct Part {
    pub verdict: Verdict,
    pub from: usize,
    pub words: usize,
}

/// What is kept between two pages. Any words make a usable ticket.
#[repr(C)]
#[derive(Clone, Copy, Debug, PartialEq, Eq)]
pub struct Ticket {
    pub relation: u32,
    pub order: u32,
    pub placed: u32,
    pub document: u32,
    pub first: u32,
    pub second: u32,
}

/// What a page call answers: the verdict, whether nothing is left, how many pairs it wrote, and the
/// ticket for the next page.
#[repr(C)]
#[derive(Clone, Copy, Debug, PartialEq, Eq)]
pub struct Page {
    pub verdict: Verdict,
    pub done: u32,
    pub count: usize,
    pub ticket: Ticket,
}

/// A question to a book: the tags of its ancestors and of its descendants, and its ticket.
#[repr(C)]
#[derive(Clone, Copy, Debug, PartialEq, Eq)]
pub struct Question {
    pub ancestors: u32,
    pub descendants: u32,
    pub ticket: Ticket,
}

/// What a call with several questions answers: the answer of the whole call, how many questions it
/// answered, and the page of each. The pages after the last question are zero in all words.
#[repr(C)]
#[derive(Clone, Copy, Debug, PartialEq, Eq)]
pub struct Pages {
    pub answer: u32,
    pub questions: u32,
    pub pages: [Page; MOST_QUESTIONS],
}

/// What a range call answers: the verdict, whether a reading is present, and the low and the high.
/// They are no values unless `present` is 1.
#[repr(C)]
#[derive(Clone, Copy, Debug, PartialEq)]
pub struct Range {
    pub verdict: Verdict,
    pub present: u32,
    pub low: f32,
    pub high: f32,
}

/// The verdict of a call that writes, and how much it wrote.
#[repr(C)]
#[derive(Clone, Copy, Debug, PartialEq, Eq)]
pub struct Written {
    pub verdict: Verdict,
    pub count: usize,
}

/// What the way back from a table to marks answers.
#[repr(C)]
#[derive(Clone, Copy, Debug, PartialEq, Eq)]
pub struct Unnumbered {
    pub answer: u32,
    pub document: u32,
    pub count: usize,
}

/// The verdict on a book, and how many lists it has.
#[repr(C)]
#[derive(Clone, Copy, Debug, PartialEq, Eq)]
pub struct Book {
    pub verdict: Verdict,
    pub lists: u32,
}

/// The verdict on a book and a tag, and where the list's body lies, in bytes; 0 and 0 on refusal.
#[repr(C)]
#[derive(Clone, Copy, Debug, PartialEq, Eq)]
pub struct Body {
    pub verdict: Verdict,
    pub from: usize,
    pub bytes: usize,
}

extern "C" {
    fn belfry_check(list: *const u32, words: usize) -> Verdict;
    fn belfry_check_two(
        ancestors: *const u32,
        ancestor_words: usize,
        descendants: *const u32,
        descendant_words: usize,
    ) -> Verdict;
    fn belfry_faulty(
        ancestors: *const u32,
        ancestor_words: usize,
        descendants: *const u32,
        descendant_words: usize,
    ) -> Part;
    fn belfry_list(
        ancestors: *const u32,
        ancestor_words: usize,
        descendants: *const u32,
        descendant_words: usize,
        ticket: Ticket,
        out: *mut u32,
        out_words: usize,
    ) -> Page;
    fn belfry_list_linked(
        ancestors: *const u32,
        ancestor_words: usize,
        descendants: *const u32,
        descendant_words: usize,
        links: *const u32,
        link_words: usize,
        ticket: Ticket,
        out: *mut u32,
        out_words: usize,
    ) -> Page;
    fn belfry_zone_range(
        zones: *const u32,
        zone_words: usize,
        samples: *const u32,
        sample_words: usize,
        readings: *const u32,
        reading_words: usize,
        zone: u32,
    ) -> Range;
    fn belfry_sheet(
        zones: *const u32,
        zone_words: usize,
        samples: *const u32,
        sample_words: usize,
        hundredths: *const u32,
        hundredth_words: usize,
        out: *mut u32,
        out_words: usize,
    ) -> Written;
    fn belfry_number(
        document: u32,
        marks: *const u32,
        mark_words: usize,
        out: *mut u32,
        out_words: usize,
    ) -> Written;
    fn belfry_unnumber(
        table: *const u32,
        table_words: usize,
        out: *mut u32,
        out_words: usize,
    ) -> Unnumbered;
    fn belfry_pick(
        table: *const u32,
        table_words: usize,
        tag: u32,
        out: *mut u32,
        out_words: usize,
    ) -> Written;
    fn belfry_links(list: *const u32, words: usize, out: *mut u32, out_words: usize) -> Written;
    fn belfry_links_check(
        list: *const u32,
        words: usize,
        links: *const u32,
        link_words: usize,
    ) -> Verdict;
    fn belfry_book_check(book: *const u8, bytes: usize) -> Book;
    fn belfry_book_body(book: *const u8, bytes: usize, tag: u32) -> Body;
    fn belfry_book_write(
        entries: *const u32,
        entry_words: usize,
        nodes: *const u32,
        node_words: usize,
        out: *mut u8,
        out_bytes: usize,
    ) -> Written;
    fn belfry_ask(
        book: *const u8,
        bytes: usize,
        questions: *const u32,
        question_words: usize,
        out: *mut u32,
        out_words: usize,
    ) -> Pages;
    fn belfry_name(answer: u32, out: *mut u8);
    fn belfry_version() -> u32;
}

/// Returns the version of the archive that was linked. Every call needs it to be [`VERSION`].
pub fn version() -> u32 {
    unsafe { belfry_version() }
}

/// Panics unless the archive is of this crate's version.
fn hold_version() {
    let linked = version();
    assert!(
        linked == VERSION,
        "belfrychest {VERSION} is linked with an archive of version {linked}"
    );
}

/// Returns what `belfry_check` answers for a list.
pub fn check(list: &[u32]) -> Verdict {
    hold_version();
    unsafe { belfry_check(list.as_ptr(), list.len()) }
}

/// Returns what `belfry_check_two` answers for two lists.
pub fn check_two(ancestors: &[u32], descendants: &[u32]) -> Verdict {
    hold_version();
    unsafe {
        belfry_check_two(
            ancestors.as_ptr(),
            ancestors.len(),
            descendants.as_ptr(),
            descendants.len(),
        )
    }
}

/// Returns what `belfry_faulty` answers for two lists.
pub fn faulty(ancestors: &[u32], descendants: &[u32]) -> Part {
    hold_version();
    unsafe {
        belfry_faulty(ancestors.as_ptr(), ancestors.len(), descendants.as_ptr(), descendants.len())
    }
}

/// Returns the page that `belfry_list` writes and answers.
pub fn list(ancestors: &[u32], descendants: &[u32], ticket: Ticket, out: &mut [u32]) -> Page {
    hold_version();
    unsafe {
        belfry_list(
            ancestors.as_ptr(),
            ancestors.len(),
            descendants.as_ptr(),
            descendants.len(),
            ticket,
            out.as_mut_ptr(),
            out.len(),
        )
    }
}

/// Returns the page that `belfry_list_linked` writes and answers.
pub fn list_linked(
    ancestors: &[u32],
    descendants: &[u32],
    links: &[u32],
    ticket: Ticket,
    out: &mut [u32],
) -> Page {
    hold_version();
    unsafe {
        belfry_list_linked(
            ancestors.as_ptr(),
            ancestors.len(),
            descendants.as_ptr(),
            descendants.len(),
            links.as_ptr(),
            links.len(),
            ticket,
            out.as_mut_ptr(),
            out.len(),
        )
    }
}

/// Returns what `belfry_zone_range` answers for a zone.
pub fn zone_range(zones: &[u32], samples: &[u32], readings: &[u32], zone: u32) -> Range {
    hold_version();
    unsafe {
        belfry_zone_range(
            zones.as_ptr(),
            zones.len(),
            samples.as_ptr(),
            samples.len(),
            readings.as_ptr(),
            readings.len(),
            zone,
        )
    }
}

/// Returns the sheet that `belfry_sheet` writes and answers.
pub fn sheet(zones: &[u32], samples: &[u32], hundredths: &[u32], out: &mut [u32]) -> Written {
    hold_version();
    unsafe {
        belfry_sheet(
            zones.as_ptr(),
            zones.len(),
            samples.as_ptr(),
            samples.len(),
            hundredths.as_ptr(),
            hundredths.len(),
            out.as_mut_ptr(),
            out.len(),
        )
    }
}

/// Returns the table that `belfry_number` writes and answers.
pub fn number(document: u32, marks: &[u32], out: &mut [u32]) -> Written {
    hold_version();
    unsafe { belfry_number(document, marks.as_ptr(), marks.len(), out.as_mut_ptr(), out.len()) }
}

/// Returns the marks that `belfry_unnumber` writes and answers.
pub fn unnumber(table: &[u32], out: &mut [u32]) -> Unnumbered {
    hold_version();
    unsafe { belfry_unnumber(table.as_ptr(), table.len(), out.as_mut_ptr(), out.len()) }
}

/// Returns the nodes that `belfry_pick` writes and answers.
pub fn pick(table: &[u32], tag: u32, out: &mut [u32]) -> Written {
    hold_version();
    unsafe { belfry_pick(table.as_ptr(), table.len(), tag, out.as_mut_ptr(), out.len()) }
}

/// Returns the links that `belfry_links` writes and answers.
pub fn links(list: &[u32], out: &mut [u32]) -> Written {
    hold_version();
    unsafe { belfry_links(list.as_ptr(), list.len(), out.as_mut_ptr(), out.len()) }
}

/// Returns what `belfry_links_check` answers for a list and words that may be its links.
pub fn links_check(list: &[u32], links: &[u32]) -> Verdict {
    hold_version();
    unsafe { belfry_links_check(list.as_ptr(), list.len(), links.as_ptr(), links.len()) }
}

/// Returns what `belfry_book_check` answers for a book.
pub fn book_check(book: &[u8]) -> Book {
    hold_version();
    unsafe { belfry_book_check(book.as_ptr(), book.len()) }
}

/// Returns where `belfry_book_body` finds a tag's list.
pub fn book_body(book: &[u8], tag: u32) -> Body {
    hold_version();
    unsafe { belfry_book_body(book.as_ptr(), book.len(), tag) }
}

/// Returns the book that `belfry_book_write` writes and answers.
pub fn book_write(entries: &[u32], nodes: &[u32], out: &mut [u8]) -> Written {
    hold_version();
    unsafe {
        belfry_book_write(
            entries.as_ptr(),
            entries.len(),
            nodes.as_ptr(),
            nodes.len(),
            out.as_mut_ptr(),
            out.len(),
        )
    }
}

/// Returns the pages that `belfry_ask` writes and answers.
pub fn ask(book: &[u8], questions: &[u32], out: &mut [u32]) -> Pages {
    hold_version();
    unsafe {
        belfry_ask(
            book.as_ptr(),
            book.len(),
            questions.as_ptr(),
            questions.len(),
            out.as_mut_ptr(),
            out.len(),
        )
    }
}

/// Returns the eight bytes that `belfry_name` writes.
pub fn name(answer: u32) -> [u8; 8] {
    hold_version();
    let mut out = [0; 8];
    unsafe { belfry_name(answer, out.as_mut_ptr()) };
    out
}

/// What is made of words alone, so that a slice of it lies in memory as words do, item after item.
///
/// # Safety
///
/// The type is `repr(C)`, and each of its fields is a `u32` or is of such a type itself.
pub unsafe trait OfWords: Copy {}

unsafe impl OfWords for Node {}
unsafe impl OfWords for Pair {}
unsafe impl OfWords for Row {}
unsafe impl OfWords for Link {}
unsafe impl OfWords for Entry {}
unsafe impl OfWords for Hundredths {}
unsafe impl OfWords for Subtotal {}
unsafe impl OfWords for Question {}

/// Returns how many words an item has.
const fn words_of<T: OfWords>() -> usize {
    size_of::<T>() / size_of::<u32>()
}

/// Returns the words of nodes, pairs, rows, links, entries, hundredths, subtotals or this module's
/// questions, one item after the other, without a copy.
pub fn words<T: OfWords>(items: &[T]) -> &[u32] {
    unsafe { slice::from_raw_parts(items.as_ptr().cast(), items.len() * words_of::<T>()) }
}

/// Returns the words of such items, to be written.
pub fn words_mut<T: OfWords>(items: &mut [T]) -> &mut [u32] {
    unsafe { slice::from_raw_parts_mut(items.as_mut_ptr().cast(), items.len() * words_of::<T>()) }
}

/// Returns such items of their words, without a copy, or none where a word is left over.
pub fn items<T: OfWords>(words: &[u32]) -> Option<&[T]> {
    let count = words.len() / words_of::<T>();
    let whole = count * words_of::<T>() == words.len();
    whole.then(|| unsafe { slice::from_raw_parts(words.as_ptr().cast(), count) })
}
