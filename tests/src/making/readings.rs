//! Lab readings.

use crate::model::nodes::{inside, nodes};
use crate::model::readings::{GRAMS, MISSING, PERCENT, READING_WORDS};
use crate::random::Random;

/// The bits of floats: the limits, minus zero, the least above zero, the greatest, and infinity.
pub const HUNDRED: u32 = 0x42c8_0000;
pub const THOUSAND: u32 = 0x447a_0000;
pub const MINUS_ZERO: u32 = 0x8000_0000;
pub const LEAST: u32 = 1;
pub const GREATEST: u32 = 0x7f7f_ffff;
pub const INFINITY: u32 = 0x7f80_0000;

/// Floats that a reading never has: infinities, what is no number, and what is below zero.
pub const FAULTY: [u32; 16] = [
    INFINITY,
    MINUS_ZERO | INFINITY,
    INFINITY + 1,
    INFINITY + 0x1234,
    0x7fbf_ffff,
    0x7fc0_0000,
    0x7fc0_0001,
    0x7fff_ffff,
    MINUS_ZERO | (INFINITY + 1),
    MINUS_ZERO | 0x7fc0_0000,
    MINUS_ZERO | 0x7fd5_5555,
    u32::MAX,
    MINUS_ZERO | LEAST,
    MINUS_ZERO | GREATEST,
    MINUS_ZERO | HUNDRED,
    GREATEST,
];

/// Floats that are taken in percent and in grams. Some are close together, and a tenth of most of
/// them is no float.
const SOUND: [u32; 12] = [
    0,
    MINUS_ZERO,
    LEAST,
    7,
    0x007f_ffff,
    0x0080_0000,
    0x3dcc_cccd,
    0x4090_0000,
    0x4218_0000,
    0x4218_0001,
    HUNDRED - 1,
    HUNDRED,
];

/// Floats that are above the limit in percent.
const OF_GRAMS: [u32; 5] = [HUNDRED + 1, 0x4316_8000, 0x43be_0001, THOUSAND - 1, THOUSAND];

/// Returns a float from zero to the one with these bits.
fn up_to(random: &mut Random, most: u32) -> u32 {
    random.small(most + 1)
}

/// Returns the two words of a reading that is taken.
fn sound(random: &mut Random) -> [u32; READING_WORDS] {
    match random.below(6) {
        0 | 1 => [MISSING, 0],
        2 => [random.pick(&[PERCENT, GRAMS]), random.pick(&SOUND)],
        3 => [PERCENT, up_to(random, HUNDRED)],
        4 => [GRAMS, random.pick(&OF_GRAMS)],
        _ => [GRAMS, up_to(random, THOUSAND)],
    }
}

/// Returns two words that are no reading.
fn faulty(random: &mut Random) -> [u32; READING_WORDS] {
    match random.below(6) {
        0 => [MISSING, random.pick(&[1, MINUS_ZERO, HUNDRED, u32::MAX])],
        1 => [random.pick(&[3, 4, 1 << 31, u32::MAX]), random.pick(&SOUND)],
        2 => [PERCENT, random.pick(&OF_GRAMS[..])],
        3 => [GRAMS, THOUSAND + 1 + random.small(9)],
        _ => [random.pick(&[PERCENT, GRAMS]), random.pick(&FAULTY)],
    }
}

/// Returns the words of readings for some samples. Mostly all are taken, and there are as many.
pub fn readings(random: &mut Random, samples: usize) -> Vec<u32> {
    let only_missing = random.one_in(8);
    let mut words: Vec<u32> = Vec::with_capacity(READING_WORDS * samples);
    for _ in 0..samples {
        words.extend(if only_missing { [MISSING, 0] } else { sound(random) });
    }
    while samples > 0 && random.one_in(5) {
        let place = READING_WORDS * random.below(samples);
        words[place..place + READING_WORDS].copy_from_slice(&faulty(random));
    }
    match random.below(20) {
        0 => words.truncate(words.len().saturating_sub(1 + random.below(3))),
        1 => words.extend([0; 3].iter().take(1 + random.below(3))),
        _ => (),
    }
    words
}

/// Returns the index of a zone. Mostly it is there and holds a sample; now and then it is the one
/// after the last, or any.
pub fn zone(random: &mut Random, zones: &[u32], samples: &[u32]) -> u32 {
    let (zones, samples) = (nodes(zones), nodes(samples));
    let holds = |&index: &usize| samples.iter().any(|sample| inside(sample, &zones[index]));
    match random.below(8) {
        0 => random.word(),
        1 => zones.len() as u32,
        2 => random.small(zones.len().max(1) as u32),
        _ => {
            let holders: Vec<u32> =
                (0..zones.len()).filter(holds).map(|index| index as u32).collect();
            random.mostly_of(&holders)
        }
    }
}
