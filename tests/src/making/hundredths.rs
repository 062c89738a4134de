//! The words of samples on a zone sheet.

use crate::model::sheets::{MOST_HUNDREDTHS, NO_HUNDREDTHS};
use crate::random::Random;

/// Words that are taken: both ends of the numbers and their neighbours, and the one for missing.
pub const SOUND: [u32; 6] = [0, 1, 5_000, MOST_HUNDREDTHS - 1, MOST_HUNDREDTHS, NO_HUNDREDTHS];

/// Words that are refused: the neighbours of those that are taken, and words whose low or high half
/// would be taken.
pub const FAULTY: [u32; 10] = [
    MOST_HUNDREDTHS + 1,
    32_767,
    32_768,
    NO_HUNDREDTHS - 1,
    NO_HUNDREDTHS + 1,
    NO_HUNDREDTHS + 1 + MOST_HUNDREDTHS,
    1 << 31,
    (1 << 31) + MOST_HUNDREDTHS,
    u32::MAX - 1,
    u32::MAX,
];

fn sound(random: &mut Random) -> u32 {
    match random.below(4) {
        0 => NO_HUNDREDTHS,
        1 => random.pick(&SOUND),
        _ => random.small(MOST_HUNDREDTHS + 1),
    }
}

/// Returns a word for each of some samples. Mostly all are taken, and there are as many.
pub fn hundredths(random: &mut Random, samples: usize) -> Vec<u32> {
    let only_missing = random.one_in(8);
    let mut words: Vec<u32> = Vec::with_capacity(samples);
    for _ in 0..samples {
        words.push(if only_missing { NO_HUNDREDTHS } else { sound(random) });
    }
    while samples > 0 && random.one_in(5) {
        let place = random.below(samples);
        words[place] = random.pick(&FAULTY);
    }
    match random.below(20) {
        0 => words.truncate(words.len().saturating_sub(1 + random.below(3))),
        1 => words.extend([0; 3].iter().take(1 + random.below(3))),
        _ => (),
    }
    words
}
