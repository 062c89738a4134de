//! The low and the high of a zone's readings: both sides of every limit by bits, the order of the
//! checks, and whose readings count. What must be answered is known from how each case is put
//! together, and the model is held to it too.

use belfrychest::raw;
use outside::asking::{self, raw_verdict, TAKEN};
use outside::cases;
use outside::ground::Ground;
use outside::making::lists::{nest, node, texts, words_of};
use outside::making::readings::{FAULTY, GREATEST, HUNDRED, LEAST, MINUS_ZERO, THOUSAND};
use outside::model::answers::Answer::{self, *};
use outside::model::answers::{Verdict, DESCENDANTS};
use outside::model::nodes::{words, Node};
use outside::model::readings::{GRAMS, MISSING, PERCENT, READING_WORDS};
use outside::model::MOST;
use outside::random::each_case;
use outside::tally::{Kind, Tally};

/// A reading as its words.
type Words = [u32; READING_WORDS];

const NO_READING: Words = [MISSING, 0];
/// 38 grams, the same in percent, and four and a half percent.
const THIRTY_EIGHT: Words = [GRAMS, 0x4218_0000];
const ITS_TENTH: u32 = 0x4073_3333;
const FOUR_AND_A_HALF: Words = [PERCENT, 0x4090_0000];

/// Fails unless the library and the model answer so: with the bits of the low and the high, with
/// none, or with a refusal.
fn answers(
    zones: &[u32],
    samples: &[u32],
    readings: &[u32],
    zone: u32,
    expected: Result<Option<[u32; 2]>, Verdict>,
) {
    asking::zone_range(zones, samples, readings, zone);
    let found = raw::zone_range(zones, samples, readings, zone);
    let bounds = expected.unwrap_or_default();
    assert_eq!(
        (found.verdict, found.present, [found.low, found.high].map(f32::to_bits)),
        (
            expected.map_or_else(raw_verdict, |_| TAKEN),
            u32::from(bounds.is_some()),
            bounds.unwrap_or_default()
        ),
        "given and expected: zone {zone} of {zones:?} with {samples:?} that read {readings:?}"
    );
}

fn refused(answer: Answer) -> Result<Option<[u32; 2]>, Verdict> {
    Err(Verdict::of(answer))
}

fn refused_at(index: u32) -> Result<Option<[u32; 2]>, Verdict> {
    Err(Verdict { index, ..Verdict::of(Reading) })
}

/// Does the same for one zone with as many samples side by side in it as there are readings.
fn read(readings: &[Words], expected: Result<Option<[u32; 2]>, Verdict>) {
    let zone = words(&nest(1));
    answers(&zone, &words(&texts(readings.len())), &readings.concat(), 0, expected);
}

/// Fails unless the reading is taken, alone and between others, and is this in percent.
fn is_taken(reading: Words, percent: u32) {
    read(&[reading], Ok(Some([percent; 2])));
    read(&[NO_READING, reading, NO_READING], Ok(Some([percent; 2])));
}

/// Fails unless the reading is refused, alone, after others and before one that is faulty too.
fn is_faulty(reading: Words) {
    read(&[reading], refused_at(0));
    read(&[FOUR_AND_A_HALF, NO_READING, reading], refused_at(2));
    read(&[THIRTY_EIGHT, reading, [3, 0]], refused_at(1));
}

#[test]
fn percent() {
    for bits in [0, MINUS_ZERO, LEAST, 0x0080_0000, HUNDRED - 1, HUNDRED] {
        is_taken([PERCENT, bits], bits);
    }
    for bits in [HUNDRED + 1, THOUSAND, GREATEST].into_iter().chain(FAULTY) {
        is_faulty([PERCENT, bits]);
    }
}

#[test]
fn grams() {
    let tenths = [
        (0, 0),
        (MINUS_ZERO, MINUS_ZERO),
        (HUNDRED, 0x4120_0000),
        (HUNDRED + 1, 0x4120_0001),
        (THOUSAND - 1, HUNDRED - 1),
        (THOUSAND, HUNDRED),
    ];
    for (bits, tenth) in tenths {
        is_taken([GRAMS, bits], tenth);
    }
    for bits in [THOUSAND + 1, GREATEST].into_iter().chain(FAULTY) {
        is_faulty([GRAMS, bits]);
    }
}

/// Tries grams whose tenth is no float. The nearest one was worked out with fractions; of two as
/// near it is the even one.
#[test]
fn a_tenth_is_rounded_once() {
    let tenths = [
        (0x4218_0000, ITS_TENTH),
        (0x4218_0001, 0x4073_3335),
        (0x3f80_0000, 0x3dcc_cccd),
        (0x40e0_0000, 0x3f33_3333),
        (0x3dcc_cccd, 0x3c23_d70a),
        (0x43be_0001, 0x4218_0001),
        (0x0080_0000, 0x000c_cccd),
        (LEAST, 0),
        (4, 0),
        (5, 0),
        (6, 1),
        (14, 1),
        (15, 2),
        (25, 2),
    ];
    for (bits, tenth) in tenths {
        is_taken([GRAMS, bits], tenth);
    }
}

#[test]
fn missing() {
    read(&[NO_READING], Ok(None));
    read(&[NO_READING; 9], Ok(None));
    for bits in [LEAST, MINUS_ZERO, HUNDRED, FAULTY[0], u32::MAX] {
        is_faulty([MISSING, bits]);
    }
}

#[test]
fn any_other_kind() {
    for kind in [3, 4, 1 << 8, 1 << 16, 1 << 31, (1 << 31) + 1, u32::MAX] {
        for bits in [0, HUNDRED, 0x4090_0000, u32::MAX] {
            is_faulty([kind, bits]);
        }
    }
}

#[test]
fn the_low_and_the_high() {
    let (low, high) = (ITS_TENTH, FOUR_AND_A_HALF[1]);
    for readings in [
        vec![THIRTY_EIGHT, FOUR_AND_A_HALF],
        vec![FOUR_AND_A_HALF, THIRTY_EIGHT],
        vec![NO_READING, FOUR_AND_A_HALF, NO_READING, THIRTY_EIGHT, NO_READING],
        vec![THIRTY_EIGHT, [PERCENT, 0x4080_0000], FOUR_AND_A_HALF, [PERCENT, 0x4080_0000]],
    ] {
        read(&readings, Ok(Some([low, high])));
    }
    read(&[[PERCENT, LEAST], [GRAMS, THOUSAND], [PERCENT, 0]], Ok(Some([0, HUNDRED])));
}

/// Gives zeros of both signs, which are equal, and a number that is the same in percent and as
/// grams.
#[test]
fn of_equal_readings_the_first_stays() {
    let zero = |kind, sign| [kind, sign];
    for (first, second) in [(0, MINUS_ZERO), (MINUS_ZERO, 0)] {
        for kinds in [[PERCENT; 2], [GRAMS; 2], [PERCENT, GRAMS], [GRAMS, PERCENT]] {
            let [one, other] = [zero(kinds[0], first), zero(kinds[1], second)];
            read(&[one, other], Ok(Some([first; 2])));
            read(&[NO_READING, one, other, other], Ok(Some([first; 2])));
            read(&[FOUR_AND_A_HALF, one, other], Ok(Some([first, FOUR_AND_A_HALF[1]])));
        }
    }
    read(&[[GRAMS, LEAST], [PERCENT, MINUS_ZERO]], Ok(Some([0; 2])));
    read(&[THIRTY_EIGHT, [PERCENT, ITS_TENTH]], Ok(Some([ITS_TENTH; 2])));
}

/// Tries zones in zones with a sample in each. The outermost has them all, also those that lie
/// deeper.
#[test]
fn zones_in_zones() {
    let zones = words_of(&[[1, 100, 1], [10, 50, 2], [20, 40, 3], [60, 90, 2]]);
    let samples = words_of(&[[5, 6, 2], [12, 13, 3], [30, 30, 9], [70, 71, 3], [200, 201, 1]]);
    let percent = |bits| [PERCENT, bits];
    let readings = [percent(40), percent(30), percent(10), percent(50), percent(5)].concat();
    let expected = [[10, 50], [10, 30], [10, 10], [50, 50]];
    for (zone, bounds) in expected.into_iter().enumerate() {
        answers(&zones, &samples, &readings, zone as u32, Ok(Some(bounds)));
    }
    let inner_missing = [&readings[..4], &NO_READING, &readings[6..]].concat();
    answers(&zones, &samples, &inner_missing, 0, Ok(Some([30, 50])));
    answers(&zones, &samples, &inner_missing, 1, Ok(Some([30, 30])));
    answers(&zones, &samples, &inner_missing, 2, Ok(None));
}

/// Tries zones that end at one position, and a sample that ends there too. All have that sample.
#[test]
fn zones_that_end_at_one_position() {
    let zones = words_of(&[[1, 100, 1], [10, 100, 2], [20, 100, 3]]);
    let samples = words_of(&[[5, 6, 2], [12, 13, 3], [30, 40, 4], [100, 100, 4]]);
    let percent = |bits| [PERCENT, bits];
    let readings = [percent(40), percent(30), percent(20), percent(10)].concat();
    for (zone, high) in [40, 30, 20].into_iter().enumerate() {
        answers(&zones, &samples, &readings, zone as u32, Ok(Some([10, high])));
    }
    let last_missing = [&readings[..6], &NO_READING].concat();
    answers(&zones, &samples, &last_missing, 2, Ok(Some([20, 20])));
    let of_one_level = words_of(&[[30, 100, 3]]);
    answers(&zones, &of_one_level, &percent(10), 0, refused(Joint));
}

/// Tries nodes that are zones and samples: none is inside itself.
#[test]
fn a_node_of_both_lists() {
    let both = words_of(&[[1, 100, 1], [10, 50, 2], [20, 40, 3]]);
    let readings = [[PERCENT, 7], [PERCENT, 9], [PERCENT, 8]].concat();
    answers(&both, &both, &readings, 0, Ok(Some([8, 9])));
    answers(&both, &both, &readings, 1, Ok(Some([8, 8])));
    answers(&both, &both, &readings, 2, Ok(None));
}

#[test]
fn samples_of_another_document_are_not_inside() {
    let of = |document| Node { document, ..node([3, 4, 2]) };
    let zones = words_of(&[[1, 9, 1]]);
    let samples = words(&[of(4), of(5), of(6)]);
    let readings = [[PERCENT, 1], [PERCENT, 2], [PERCENT, 3]].concat();
    answers(&zones, &samples, &readings, 0, Ok(Some([2, 2])));
}

#[test]
fn no_samples_and_no_zones() {
    let (zones, sample) = (words_of(&[[1, 9, 1], [12, 12, 1]]), words_of(&[[3, 4, 2]]));
    answers(&zones, &[], &[], 0, Ok(None));
    answers(&zones, &[], &[], 1, Ok(None));
    answers(&zones, &[], &[], 2, refused(Absent));
    answers(&zones, &sample, &FOUR_AND_A_HALF, 1, Ok(None));
    for zone in [0, 1, u32::MAX] {
        answers(&[], &[], &[], zone, refused(Absent));
        answers(&[], &sample, &FOUR_AND_A_HALF, zone, refused(Absent));
    }
}

#[test]
fn a_zone_that_is_absent() {
    let (zones, sample) = (words_of(&[[1, 9, 1], [12, 20, 1]]), words_of(&[[3, 4, 2]]));
    for zone in [2, 3, 4, 8, 1 << 16, 1 << 30, (1 << 30) + 1, 1 << 31, u32::MAX] {
        answers(&zones, &sample, &FOUR_AND_A_HALF, zone, refused(Absent));
    }
}

/// Tries every number of words up to many more than the readings have.
#[test]
fn not_as_many_readings_as_samples() {
    let zones = words(&nest(1));
    for samples in 0..4 {
        let list = words(&texts(samples));
        for given in (0..20).filter(|&given| given != READING_WORDS * samples) {
            answers(&zones, &list, &vec![0; given], 0, refused(Ragged));
        }
        answers(&zones, &list, &vec![0; 1 << 16], 0, refused(Ragged));
    }
}

/// Tries cases in which several checks fail: the first of these is told.
#[test]
fn checks_come_in_their_order() {
    let (zones, samples) =
        (words_of(&[[1, 9, 1], [12, 20, 1]]), words_of(&[[3, 4, 2], [14, 15, 2]]));
    let faulty = [FOUR_AND_A_HALF, [PERCENT, HUNDRED + 1]].concat();
    let odd = words_of(&[[3, 4, 2], [14, 25, 2]]);
    let turned = words_of(&[[14, 15, 2], [3, 4, 2]]);
    answers(&zones, &samples, &faulty, 0, refused_at(1));
    answers(&zones, &samples, &faulty, 1, refused_at(1));
    answers(&zones, &samples, &faulty, 2, refused_at(1));
    answers(&zones, &samples, &faulty[..3], 2, refused(Ragged));
    answers(&zones, &samples, &faulty[..2], 2, refused(Ragged));
    answers(&zones, &odd, &faulty[..3], 2, refused(Joint));
    let order = |list| Err(Verdict { answer: Order, list, index: 1 });
    answers(&zones, &turned, &faulty[..3], 2, order(DESCENDANTS));
    answers(&turned, &samples, &faulty[..3], 2, order(0));
    answers(
        &zones,
        &samples[1..],
        &faulty,
        2,
        Err(Verdict { list: DESCENDANTS, ..Verdict::of(Ragged) }),
    );
    answers(&zones[1..], &samples, &faulty, 2, refused(Ragged));
}

/// Tries as many samples as a list may have. A faulty reading is found wherever it is, and the
/// first is told.
#[test]
fn the_longest_list() {
    let (zones, samples) = (words(&nest(1)), words(&texts(MOST)));
    let mut readings: Vec<Words> = vec![THIRTY_EIGHT; MOST];
    readings[MOST - 1] = FOUR_AND_A_HALF;
    let expected = Ok(Some([ITS_TENTH, FOUR_AND_A_HALF[1]]));
    let ask = |readings: &[Words]| raw::zone_range(&zones, &samples, &readings.concat(), 0);
    let found = ask(&readings);
    assert_eq!(found.verdict, TAKEN);
    assert_eq!(Ok(Some([found.low, found.high].map(f32::to_bits))), expected.map_err(raw_verdict));
    for index in [MOST - 1, 1, 0] {
        readings[index] = [PERCENT, HUNDRED + 1];
        let expected = refused_at(index as u32).map_err(raw_verdict);
        assert_eq!(Err(ask(&readings).verdict), expected);
    }
    readings.pop();
    assert_eq!(ask(&readings).verdict, raw_verdict(Verdict::of(Ragged)));
}

/// Seeds that no other test has.
const SEEDS: u64 = 1 << 44;

#[test]
fn zones_with_a_reading_and_without_come_often() {
    let (mut seen, mut tally) = ([0; 2], Tally::default());
    each_case(SEEDS, 10_000, |random| {
        let range = cases::zone_range(random, Ground::Heap, &mut tally);
        let kind = usize::from(range.bounds.is_some());
        seen[kind] += u64::from(range.verdict.answer == Taken);
    });
    assert!(seen.iter().all(|&times| times > 500), "without a reading and with one: {seen:?}");
    tally.hold_kinds(&[Kind::Shared]);
}
