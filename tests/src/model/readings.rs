//! Lab readings, and the low and the high of a zone. Floats are Rust's own.

use super::answers::{Answer, Verdict};
use super::lists::check_two;
use super::nodes::{inside, nodes};

/// The words of a reading: its kind, and the bits of its value.
pub const READING_WORDS: usize = 2;
/// The kinds.
pub const MISSING: u32 = 0;
pub const PERCENT: u32 = 1;
pub const GRAMS: u32 = 2;

#[derive(Clone, Copy, Debug)]
enum Reading {
    Missing,
    Percent(f32),
    Grams(f32),
}

/// Returns the reading that two words make, or nothing if they make none.
fn reading(kind: u32, bits: u32) -> Option<Reading> {
    let value = f32::from_bits(bits);
    let is_up_to = |most: f32| value.is_finite() && !(value < 0.0) && !(value > most);
    match kind {
        MISSING if bits == 0 => Some(Reading::Missing),
        PERCENT if is_up_to(100.0) => Some(Reading::Percent(value)),
        GRAMS if is_up_to(1_000.0) => Some(Reading::Grams(value)),
        _ => None,
    }
}

/// Returns a present reading in percent.
fn in_percent(reading: Reading) -> Option<f32> {
    match reading {
        Reading::Missing => None,
        Reading::Percent(percent) => Some(percent),
        Reading::Grams(grams) => Some(grams / 10.0),
    }
}

/// The verdict on a zone's readings, and the low and the high, if there are any.
#[derive(Clone, Copy, Debug, PartialEq)]
pub struct Range {
    pub verdict: Verdict,
    pub bounds: Option<[f32; 2]>,
}

impl Range {
    fn refused(verdict: Verdict) -> Range {
        Range { verdict, bounds: None }
    }
}

/// Returns the low and the high: of each, the first value that no other is below, or above.
fn bounds(values: &[f32]) -> Option<[f32; 2]> {
    let low = values.iter().find(|&value| !values.iter().any(|other| other < value))?;
    let high = values.iter().find(|&value| !values.iter().any(|other| other > value))?;
    Some([*low, *high])
}

pub fn zone_range(zones: &[u32], samples: &[u32], readings: &[u32], zone: u32) -> Range {
    let verdict = check_two(zones, samples);
    if verdict.answer != Answer::Taken {
        return Range::refused(verdict);
    }
    let (zones, samples) = (nodes(zones), nodes(samples));
    if readings.len() != READING_WORDS * samples.len() {
        return Range::refused(Verdict::of(Answer::Ragged));
    }
    let made: Vec<Option<Reading>> =
        readings.chunks_exact(READING_WORDS).map(|words| reading(words[0], words[1])).collect();
    if let Some(index) = made.iter().position(Option::is_none) {
        let faulty = Verdict { index: index as u32, ..Verdict::of(Answer::Reading) };
        return Range::refused(faulty);
    }
    match zones.get(zone as usize) {
        None => Range::refused(Verdict::of(Answer::Absent)),
        Some(zone) => {
            let read = samples.iter().zip(made.iter().flatten());
            let values: Vec<f32> = read
                .filter(|(sample, _)| inside(sample, zone))
                .filter_map(|(_, &reading)| in_percent(reading))
                .collect();
            Range { verdict, bounds: bounds(&values) }
        }
    }
}
