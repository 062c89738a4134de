//! The zone sheet: for each zone, how many samples it holds and what their readings add up to.

use crate::answer::{settle_read, Refusal};
use crate::limits::{MOST_NODES, NO_HUNDREDTHS};
use crate::node::Node;
use crate::raw::{self, words, words_mut};

/// The reading of a sample for a sheet, as a word. It has hundredths of a percent, from 0 to
/// [`crate::MOST_HUNDREDTHS`], or is [`Hundredths::MISSING`]. A slice of them is lent as it lies.
#[repr(C)]
#[derive(Clone, Copy, Debug, PartialEq, Eq, Hash)]
pub struct Hundredths(pub u32);

impl Hundredths {
    /// No reading. It is something else than a reading of 0.
    pub const MISSING: Hundredths = Hundredths(NO_HUNDREDTHS);
}

/// What a sheet says of a zone.
#[repr(C)]
#[derive(Clone, Copy, Debug, Default, PartialEq, Eq, Hash)]
pub struct Subtotal {
    /// How many samples are inside the zone, directly or not.
    pub samples: u32,
    /// How many of them have a reading.
    pub present: u32,
    /// The sum of those readings, in hundredths of a percent. Where `present` is 0, so is the sum,
    /// and it is no reading.
    pub sum: u32,
}

/// Returns the subtotal of each zone, in list order. The hundredths come in the samples' order, one
/// for each.
///
/// ```
/// use belfrychest::{sheet, Hundredths, Node, Subtotal};
///
/// let node = |start, end, level| Node { document: 5, start, end, level };
///
/// // The second zone is inside the first. The lab read the second sample, and not the one inside
/// // both zones.
/// let zones = [node(2, 10, 2), node(3, 7, 3)];
/// let samples = [node(4, 6, 4), node(8, 9, 3)];
/// let hundredths = [Hundredths::MISSING, Hundredths(450)];
///
/// let subtotals = sheet(&zones, &samples, &hundredths)?;
/// assert_eq!(subtotals[0], Subtotal { samples: 2, present: 1, sum: 450 });
/// assert_eq!(subtotals[1], Subtotal { samples: 1, present: 0, sum: 0 });
/// # Ok::<(), belfrychest::Refusal>(())
/// ```
///
/// Refused as [`crate::check_two`] is, then with RAGGED where there aren't as many hundredths as
/// samples. Last comes READING with the sample's index, for the first faulty word of any sample, in
/// a zone or not.
pub fn sheet(
    zones: &[Node],
    samples: &[Node],
    hundredths: &[Hundredths],
) -> Result<Vec<Subtotal>, Refusal> {
    let mut out = vec![Subtotal::default(); zones.len().min(MOST_NODES)];
    let count = sheet_into(zones, samples, hundredths, &mut out)?;
    out.truncate(count);
    Ok(out)
}

/// Writes the subtotal of each zone, and returns how many. Refused as [`sheet()`] is, then with
/// ROOM.
pub fn sheet_into(
    zones: &[Node],
    samples: &[Node],
    hundredths: &[Hundredths],
    out: &mut [Subtotal],
) -> Result<usize, Refusal> {
    let written = raw::sheet(words(zones), words(samples), words(hundredths), words_mut(out));
    settle_read(written.verdict)?;
    Ok(written.count)
}
