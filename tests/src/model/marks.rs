//! Marks, the table of their numbers, the way back, and the picking of a tag.

use super::answers::{Answer, Verdict, Written};
use super::lists::MOST_LEVEL;
use super::nodes::NODE_WORDS;
use super::MOST;

/// The mark that closes.
pub const CLOSE: u32 = 0;
/// The mark of a text. Those between open an element of their tag, and there are none above.
pub const TEXT: u32 = 65_536;
/// The words of a row: a node's and the tag.
pub const ROW_WORDS: usize = NODE_WORDS + 1;

/// Returns how many elements are open before each mark, and after the last.
fn open_elements(marks: &[u32]) -> Vec<i64> {
    let mut open = Vec::with_capacity(marks.len() + 1);
    open.push(0);
    for (place, &mark) in marks.iter().enumerate() {
        let opened = match mark {
            CLOSE => -1,
            TEXT => 0,
            _ => 1,
        };
        open.push(open[place] + opened);
    }
    open
}

/// Returns the answer that a mark draws at this place of the marks, with `open` elements open.
/// Those before it draw none.
fn fault(mark: u32, place: usize, open: i64) -> Option<Answer> {
    let outside = open == 0;
    if mark > TEXT {
        Some(Answer::Mark)
    } else if outside && (mark == CLOSE || mark == TEXT || place > 0) {
        Some(Answer::Stray)
    } else if mark != CLOSE && open + 1 > i64::from(MOST_LEVEL) {
        Some(Answer::Deep)
    } else {
        None
    }
}

/// Checks marks, as far as ROOM.
fn check(marks: &[u32]) -> Answer {
    if marks.len() > MOST {
        return Answer::Long;
    }
    let open = open_elements(marks);
    let first = (0..marks.len()).find_map(|place| fault(marks[place], place, open[place]));
    let unclosed = marks.is_empty() || open[marks.len()] > 0;
    first.unwrap_or(if unclosed { Answer::Unclosed } else { Answer::Taken })
}

/// Returns the words of the table of accepted marks: a row for each opening and each text.
fn table(document: u32, marks: &[u32]) -> Vec<u32> {
    let open = open_elements(marks);
    let close_of = |place: usize| {
        (place..marks.len())
            .find(|&later| open[later + 1] == open[place])
            .expect("accepted marks close")
    };
    let row = |place: usize| {
        let end = if marks[place] == TEXT { place } else { close_of(place) };
        [document, place as u32 + 1, end as u32 + 1, open[place] as u32 + 1, marks[place]]
    };
    let mut rows = Vec::with_capacity(ROW_WORDS * marks.len());
    for place in (0..marks.len()).filter(|&place| marks[place] != CLOSE) {
        rows.extend(row(place));
    }
    rows
}

pub fn number(document: u32, marks: &[u32], room: usize) -> Written<u32> {
    let answer = check(marks);
    if answer != Answer::Taken {
        return Written::refused(Verdict::of(answer));
    }
    let rows = table(document, marks);
    Written::within(room, rows.len() / ROW_WORDS, rows)
}

/// Returns the answer of the words of a table that aren't whole rows, or too many.
fn row_fault(table: &[u32]) -> Option<Answer> {
    if table.len() % ROW_WORDS != 0 {
        Some(Answer::Ragged)
    } else if table.len() / ROW_WORDS > MOST {
        Some(Answer::Long)
    } else {
        None
    }
}

/// Returns the accepted marks that have this table, if there are any. No others than these can have
/// it: they end where the root, the first row, closes. Each row's tag stands at its start, and all
/// the rest are closes.
fn marks_of(rows: &[u32]) -> Option<Vec<u32>> {
    let document = *rows.first()?;
    let length = rows[2] as usize;
    if length > MOST {
        return None;
    }
    let mut marks = vec![CLOSE; length];
    for row in rows.chunks(ROW_WORDS) {
        let place = (row[1] as usize).checked_sub(1)?;
        *marks.get_mut(place)? = row[4];
    }
    (check(&marks) == Answer::Taken && table(document, &marks) == rows).then_some(marks)
}

/// What the way back answers: the document and the marks, 0 and none on refusal.
#[derive(Clone, Debug, PartialEq, Eq)]
pub struct Unnumbered {
    pub answer: Answer,
    pub document: u32,
    pub marks: Vec<u32>,
}

pub fn unnumber(table: &[u32], room: usize) -> Unnumbered {
    let refused = |answer| Unnumbered { answer, document: 0, marks: Vec::new() };
    if let Some(answer) = row_fault(table) {
        return refused(answer);
    }
    match marks_of(table) {
        None => refused(Answer::Table),
        Some(marks) if marks.len() > room => refused(Answer::Room),
        Some(marks) => Unnumbered { answer: Answer::Taken, document: table[0], marks },
    }
}

pub fn pick(table: &[u32], tag: u32, room: usize) -> Written<u32> {
    if let Some(answer) = row_fault(table) {
        return Written::refused(Verdict::of(answer));
    }
    let picked: Vec<u32> = table
        .chunks(ROW_WORDS)
        .filter(|row| row[NODE_WORDS] == tag)
        .flat_map(|row| &row[..NODE_WORDS])
        .copied()
        .collect();
    Written::within(room, picked.len() / NODE_WORDS, picked)
}
