//! Numbering and its way back, picking and links, on the cases of `tests/cases/marks.txt`: against
//! what is stored there, and against the model. What is taken is turned back.

use belfrychest::raw;
use outside::asking;
use outside::model::answers::Answer::{Table, Taken};
use outside::model::links::LINK_WORDS;
use outside::model::marks::{ROW_WORDS, TEXT};
use outside::model::nodes::NODE_WORDS;
use outside::stored::{answer, each_case, shown, verdict, words, Case};

const CASES: &str = include_str!("../cases/marks.txt");

/// Returns the line of marks that are numbered. Taken, the rows turn back into the same marks.
fn number(document: u32, marks: &[u32], room: usize) -> String {
    let mut out = vec![0; room];
    asking::number(document, marks, &mut out);
    let written = raw::number(document, marks, &mut out);
    let rows = &out[..ROW_WORDS * written.count];
    if written.verdict.answer == Taken as u32 {
        let mut back = vec![0; marks.len()];
        assert_eq!(asking::unnumber(rows, &mut back), Taken, "the way back");
        assert_eq!(raw::unnumber(rows, &mut back).document, document, "the way back");
        assert_eq!(back, marks, "the way back");
    }
    format!("{}, rows {}:{}", answer(written.verdict.answer), written.count, shown(rows))
}

/// Returns the line of a table that is turned back. Taken, its marks number to the same table.
fn table(table: &[u32], room: usize) -> String {
    let mut out = vec![0; room];
    asking::unnumber(table, &mut out);
    let back = raw::unnumber(table, &mut out);
    let marks = &out[..back.count];
    if back.answer == Taken as u32 {
        let mut again = vec![0; table.len()];
        assert_eq!(asking::number(back.document, marks, &mut again), Taken, "numbered again");
        assert_eq!(again, table, "numbered again");
    }
    format!(
        "{}, document {}, marks {}:{}",
        answer(back.answer),
        back.document,
        back.count,
        shown(marks)
    )
}

fn pick(tag: u32, table: &[u32], room: usize) -> String {
    let mut out = vec![0; room];
    asking::pick(table, tag, &mut out);
    let written = raw::pick(table, tag, &mut out);
    format!(
        "{}, nodes {}:{}",
        answer(written.verdict.answer),
        written.count,
        shown(&out[..NODE_WORDS * written.count])
    )
}

fn links(list: &[u32], room: usize) -> String {
    let mut out = vec![0; room];
    asking::links(list, &mut out);
    let raw::Written { verdict: found, count } = raw::links(list, &mut out);
    format!("{}, links {count}:{}", verdict(found), shown(&out[..LINK_WORDS * count]))
}

/// Returns a letter for what a table with one word changed draws, or "=" if the change leaves it.
fn letter(table: &[u32], place: usize, word: u32, marks: usize) -> char {
    let mut changed = table.to_vec();
    changed[place] = word;
    match asking::unnumber(&changed, &mut vec![0; marks]) {
        _ if table == changed => '=',
        Taken => 'T',
        Table => '.',
        other => panic!("{other:?}, and the word at {place} is {word}"),
    }
}

/// Returns the lines of all changes of the table that the marks have: each word one more, one less,
/// 0, and the mark of a text.
fn changes(document: u32, marks: &[u32]) -> Vec<String> {
    let mut out = vec![0; ROW_WORDS * marks.len()];
    assert_eq!(asking::number(document, marks, &mut out), Taken);
    let count = raw::number(document, marks, &mut out).count;
    let table = &out[..ROW_WORDS * count];
    let tried = |place: usize| {
        let word = table[place];
        let letters = [word.wrapping_add(1), word.wrapping_sub(1), 0, TEXT]
            .map(|other| letter(table, place, other, marks.len()));
        format!(" {}", letters.iter().collect::<String>())
    };
    let row = |row: usize| {
        format!(
            "row {row}:{}",
            (ROW_WORDS * row..ROW_WORDS * (row + 1)).map(tried).collect::<String>()
        )
    };
    [format!("rows {count}")].into_iter().chain((0..count).map(row)).collect()
}

fn lines(case: &Case) -> Vec<String> {
    let given = words(case.given);
    let parts: Vec<&str> = case.label.split(' ').collect();
    let word = |place: usize| parts[place].parse::<u32>().expect("a number of the call");
    let room = |place: usize| word(place) as usize;
    match (parts[0], parts.len()) {
        ("number", 4) => vec![number(word(1), &given, room(3))],
        ("table", 3) => vec![table(&given, room(2))],
        ("pick", 4) => vec![pick(word(1), &given, room(3))],
        ("links", 3) => vec![links(&given, room(2))],
        ("changes", 2) => changes(word(1), &given),
        _ => panic!("no such call: {}", case.label),
    }
}

#[test]
fn marks() {
    each_case(CASES, 125, lines);
}
