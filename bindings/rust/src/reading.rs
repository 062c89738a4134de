//! Lab readings of organic matter, and their low and high in a zone.

use crate::answer::{settle_read, Refusal};
use crate::limits::{GRAMS, MISSING, PERCENT, READING_WORDS};
use crate::node::Node;
use crate::raw::{self, words};

/// What the lab found in a sample. A sample that it didn't read is [`Reading::Missing`], and never
/// a reading of 0.
#[derive(Clone, Copy, Debug, PartialEq)]
pub enum Reading {
    /// Organic matter in percent, from 0 to [`crate::MOST_PERCENT`].
    Percent(f32),
    /// Organic matter in grams per kilogram, from 0 to [`crate::MOST_GRAMS`].
    Grams(f32),
    /// No reading.
    Missing,
}

impl Reading {
    /// Returns the reading's words: its kind, and the bits of its value, which are 0 when it is
    /// missing.
    pub fn to_words(self) -> [u32; READING_WORDS] {
        match self {
            Reading::Percent(percent) => [PERCENT, percent.to_bits()],
            Reading::Grams(grams) => [GRAMS, grams.to_bits()],
            Reading::Missing => [MISSING, 0],
        }
    }
}

/// The lowest and the highest of some readings, in percent.
#[derive(Clone, Copy, Debug, PartialEq)]
pub struct Range {
    /// The lowest. Of equal ones it is the first sample's.
    pub low: f32,
    /// The highest. Of equal ones it is the first sample's.
    pub high: f32,
}

/// Returns the lowest and the highest reading, in percent, that the zone at index `zone` holds. A
/// sample counts if it is inside the zone, directly or not, and has a reading. The readings come in
/// the samples' order, one for each. Grams per kilogram are divided by ten, once.
///
/// Where no sample counts, there is no range:
///
/// ```
/// use belfrychest::{zone_range, Node, Range, Reading};
///
/// let node = |start, end, level| Node { document: 5, start, end, level };
///
/// // Two zones side by side. The lab read both samples of the first, and not that of the second.
/// let zones = [node(1, 6, 1), node(7, 10, 1)];
/// let samples = [node(2, 3, 2), node(4, 5, 2), node(8, 9, 2)];
///
/// let readings = [Reading::Percent(4.5), Reading::Grams(38.0), Reading::Missing];
///
/// let first = zone_range(&zones, &samples, &readings, 0)?;
/// assert_eq!(first, Some(Range { low: 3.8, high: 4.5 }));
///
/// let second = zone_range(&zones, &samples, &readings, 1)?;
/// assert_eq!(second, None);
/// # Ok::<(), belfrychest::Refusal>(())
/// ```
///
/// Refused as [`crate::check_two`] is, then with RAGGED where there aren't as many readings as
/// samples. Next comes READING with the sample's index, for the first faulty reading of any sample,
/// in the zone or not. Last comes ABSENT, where there is no zone with that index.
pub fn zone_range(
    zones: &[Node],
    samples: &[Node],
    readings: &[Reading],
    zone: usize,
) -> Result<Option<Range>, Refusal> {
    let readings: Vec<u32> = readings.iter().flat_map(|reading| reading.to_words()).collect();
    // The greatest word is no zone's index either.
    let index = u32::try_from(zone).unwrap_or(u32::MAX);
    let found = raw::zone_range(words(zones), words(samples), &readings, index);
    settle_read(found.verdict)?;
    Ok((found.present != 0).then_some(Range { low: found.low, high: found.high }))
}
