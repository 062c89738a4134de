//! The cases of `tests/cases`, each with what it must answer stored below it: how they are read,
//! and how an answer is written there. Then the books that are stored.

use crate::telling::Telling;
use belfrychest::raw;
use std::fs;

/// A case of a file.
pub struct Case<'a> {
    /// The line that opens it, and what stands there before and after the first colon.
    pub line: &'a str,
    pub label: &'a str,
    pub given: &'a str,
    /// The lines below it that begin with ">", which are calls.
    pub calls: Vec<&'a str>,
    /// The lines below it that begin with a blank, which say what must be answered.
    pub answers: Vec<&'a str>,
}

/// Returns the cases of a file. Empty lines and those that begin with "#" are passed over.
fn cases(text: &str) -> Vec<Case<'_>> {
    let mut cases: Vec<Case> = Vec::new();
    for line in text.lines().filter(|line| !line.is_empty() && !line.starts_with('#')) {
        let opened = cases.last_mut();
        if let Some(call) = line.strip_prefix('>') {
            opened.expect("a call of a case").calls.push(call);
        } else if let Some(answer) = line.strip_prefix("  ") {
            opened.expect("an answer of a case").answers.push(answer);
        } else {
            let (label, given) = line.split_once(':').expect("a label and a colon");
            cases.push(Case { line, label, given, calls: Vec::new(), answers: Vec::new() });
        }
    }
    cases
}

/// Runs each case of a file, which must have `count` of them, and fails unless the lines that the
/// test returns are those stored.
pub fn each_case(text: &str, count: usize, test: impl Fn(&Case) -> Vec<String>) {
    let cases = cases(text);
    assert_eq!(cases.len(), count, "read and expected: cases of the file");
    for case in &cases {
        let _telling = Telling { kind: "case", case: case.line };
        assert_eq!(test(case), case.answers, "given and stored: {}", case.line);
    }
}

/// Runs the test on each book of the examples and of the figures.
pub fn each_book(mut test: impl FnMut(&[u8])) {
    let folders = ["../examples", "../crates/figures_books/data"];
    let files = folders.iter().flat_map(|folder| fs::read_dir(folder).expect("a folder of books"));
    for path in files.map(|file| file.expect("a file").path()) {
        if path.extension().map_or(false, |kind| kind == "book") {
            let _telling = Telling { kind: "book", case: path.display() };
            test(&fs::read(&path).expect("a book"));
        }
    }
}

/// Returns the numbers of a text, which blanks part.
pub fn numbers(text: &str) -> Vec<u32> {
    numbers_in(DECIMAL, text)
}

/// The radix of what isn't said to be hexadecimal.
const DECIMAL: u32 = 10;

fn numbers_in(radix: u32, text: &str) -> Vec<u32> {
    let number = |number| u32::from_str_radix(number, radix).expect("a 32-bit number");
    text.split_whitespace().map(number).collect()
}

/// Returns the one number of a text.
pub fn number(text: &str) -> usize {
    text.trim().parse().expect("one number")
}

/// Returns the words of a case: parts with commas between them, each of which is numbers or a run.
pub fn words(text: &str) -> Vec<u32> {
    words_in(DECIMAL, text)
}

/// Returns the words of a case whose words are hexadecimal.
pub fn hexadecimal_words(text: &str) -> Vec<u32> {
    words_in(16, text)
}

fn words_in(radix: u32, text: &str) -> Vec<u32> {
    text.split(',')
        .flat_map(|part| {
            part.split_once('*').map_or_else(
                || numbers_in(radix, part),
                |(count, item)| run(number(count), radix, item),
            )
        })
        .collect()
}

/// Returns the words of a run of `count` items: the first, and each next one with the words after a
/// "+" added to those of the item before. A sum that is too great wraps.
fn run(count: usize, radix: u32, text: &str) -> Vec<u32> {
    let (first, step) = text.split_once('+').unwrap_or((text, ""));
    let (mut item, step) = (numbers_in(radix, first), numbers_in(radix, step));
    assert!(
        step.is_empty() || step.len() == item.len(),
        "a step of other words than the item: {text}"
    );
    let mut words = Vec::with_capacity(count * item.len());
    for _ in 0..count {
        words.extend(&item);
        item.iter_mut().zip(&step).for_each(|(word, more)| *word = word.wrapping_add(*more));
    }
    words
}

/// Returns the two lists of a case, which a "/" parts, or nothing if there is one list.
pub fn two_lists(text: &str) -> Option<(Vec<u32>, Vec<u32>)> {
    text.split_once('/').map(|(ancestors, descendants)| (words(ancestors), words(descendants)))
}

/// Returns a verdict's answer, list and index.
pub fn verdict(given: raw::Verdict) -> String {
    format!("{} list {} index {}", answer(given.answer), given.list, given.index)
}

/// Returns an answer's number and name.
pub fn answer(number: u32) -> String {
    let name = String::from_utf8(raw::name(number).to_vec()).expect("names are ASCII");
    format!("{number} {}", name.trim_end())
}

/// Returns numbers, each after a blank.
pub fn listed(numbers: &[u32]) -> String {
    numbers.iter().map(|number| format!(" {number}")).collect()
}

/// The most words that are all shown, and how many of a longer result are, at either end.
const ALL_SHOWN: usize = 60;
const ENDS_SHOWN: usize = 10;

/// Returns the words of a result, and of many the first and the last.
pub fn shown(words: &[u32]) -> String {
    if words.len() <= ALL_SHOWN {
        return listed(words);
    }
    format!("{} to{}", listed(&words[..ENDS_SHOWN]), listed(&words[words.len() - ENDS_SHOWN..]))
}
