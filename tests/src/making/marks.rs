//! Marks and tables.

use super::misfit;
use crate::model::marks::{number, CLOSE, ROW_WORDS, TEXT};
use crate::random::Random;

/// The marks of the scope's figure.
pub const FIGURE: [u32; 11] = [1, 2, 2, 3, TEXT, CLOSE, CLOSE, 3, CLOSE, CLOSE, CLOSE];

/// Tags of elements, the least and the greatest among them.
const TAGS: [u32; 4] = [1, 2, 3, TEXT - 1];

/// Returns accepted marks, unless they go deeper than any may. Now and then they go just about that
/// deep.
fn sound(random: &mut Random) -> Vec<u32> {
    let chain = if random.one_in(80) { 60 + random.below(6) } else { 1 };
    let within = random.below(12);
    let mut marks = Vec::with_capacity(2 * (chain + within));
    marks.resize(chain, random.pick(&TAGS));
    let mut open = chain;
    for _ in 0..within {
        match random.below(4) {
            0 if open > 1 => {
                marks.push(CLOSE);
                open -= 1;
            }
            0 | 1 => marks.push(TEXT),
            _ => {
                marks.push(random.pick(&TAGS));
                open += 1;
            }
        }
    }
    marks.resize(marks.len() + open, CLOSE);
    marks
}

/// Alters a mark, puts one in, takes one out or cuts the rest off.
fn damage(random: &mut Random, marks: &mut Vec<u32>) {
    if marks.is_empty() {
        return;
    }
    let place = random.below(marks.len());
    let mark = random.pick(&[CLOSE, CLOSE, 1, TEXT, TEXT + 1, 1 << 31, u32::MAX]);
    match random.below(4) {
        0 => marks[place] = mark,
        1 => marks.insert(place, mark),
        2 => drop(marks.remove(place)),
        _ => marks.truncate(place),
    }
}

pub fn marks(random: &mut Random) -> Vec<u32> {
    let mut marks = sound(random);
    while random.one_in(3) {
        damage(random, &mut marks);
    }
    misfit(random, marks, 1)
}

/// Alters a word of a table, exchanges two rows, repeats one or takes one out.
fn damage_table(random: &mut Random, table: &mut Vec<u32>) {
    if table.is_empty() {
        return;
    }
    let row = ROW_WORDS * random.below(table.len() / ROW_WORDS);
    let (word, other) = (random.below(table.len()), random.below(table.len()));
    match random.below(8) {
        0 => table.swap(word, other),
        1 => table.rotate_left(row),
        2 => table.extend_from_within(row..row + ROW_WORDS),
        3 => drop(table.drain(row..row + ROW_WORDS)),
        _ => table[word] = random.other_than(table[word]),
    }
}

/// Returns a table that accepted marks mostly have.
pub fn table(random: &mut Random) -> Vec<u32> {
    let document = random.word();
    let marks = sound(random);
    let mut table = number(document, &marks, usize::MAX).words;
    while random.one_in(3) {
        damage_table(random, &mut table);
    }
    misfit(random, table, ROW_WORDS)
}

/// Returns a tag that the table mostly has.
pub fn tag(random: &mut Random, table: &[u32]) -> u32 {
    let tags: Vec<u32> = table.chunks_exact(ROW_WORDS).map(|row| row[ROW_WORDS - 1]).collect();
    random.mostly_of(&tags)
}
