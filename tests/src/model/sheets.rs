//! The zone sheet: for each zone, every sample is looked at.

use super::answers::{Answer, Verdict, Written};
use super::lists::check_two;
use super::nodes::{inside, nodes, Node};

/// The words of a subtotal: samples, present, sum.
pub const SUBTOTAL_WORDS: usize = 3;
/// The most hundredths of a percent.
pub const MOST_HUNDREDTHS: u32 = 10_000;
/// The word of a sample without a reading.
pub const NO_HUNDREDTHS: u32 = 65_535;

/// A subtotal as its words.
pub type Subtotal = [u32; SUBTOTAL_WORDS];

/// Returns the subtotal of samples that have these words.
pub fn subtotal_over(words: &[u32]) -> Subtotal {
    let present: Vec<u32> = words.iter().copied().filter(|&word| word != NO_HUNDREDTHS).collect();
    [words.len() as u32, present.len() as u32, present.iter().sum()]
}

/// Returns the words of the samples inside a zone.
fn words_inside(zone: &Node, samples: &[Node], hundredths: &[u32]) -> Vec<u32> {
    let read = samples.iter().zip(hundredths);
    read.filter(|(sample, _)| inside(sample, zone)).map(|(_, &word)| word).collect()
}

pub fn sheet(zones: &[u32], samples: &[u32], hundredths: &[u32], room: usize) -> Written<u32> {
    let verdict = check_two(zones, samples);
    if verdict.answer != Answer::Taken {
        return Written::refused(verdict);
    }
    let (zones, samples) = (nodes(zones), nodes(samples));
    if hundredths.len() != samples.len() {
        return Written::refused(Verdict::of(Answer::Ragged));
    }
    let is_faulty = |&word: &u32| word > MOST_HUNDREDTHS && word != NO_HUNDREDTHS;
    if let Some(index) = hundredths.iter().position(is_faulty) {
        return Written::refused(Verdict { index: index as u32, ..Verdict::of(Answer::Reading) });
    }
    let row = |zone: &Node| subtotal_over(&words_inside(zone, &samples, hundredths));
    let words = zones.iter().flat_map(row).collect();
    Written::within(room, zones.len(), words)
}
