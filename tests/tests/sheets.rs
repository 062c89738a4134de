//! The zone sheet: both sides of every limit, the order of the checks, and which zones a sample
//! counts for. What must be answered is known from how each case is put together, or follows from
//! other calls. The model is held to it too, except where that would take long.

use belfrychest::raw::{self, Ticket};
use outside::asking::{self, listed, raw_verdict, TAKEN};
use outside::cases;
use outside::ground::Ground;
use outside::making::hundredths::{hundredths, FAULTY, SOUND};
use outside::making::lists::{any_family, nest, nest_with_one_end, node, some_of, texts, words_of};
use outside::making::tickets::FRESH;
use outside::model::answers::Answer::{self, *};
use outside::model::answers::{Verdict, DESCENDANTS};
use outside::model::links::{LINK_WORDS, NONE};
use outside::model::lists::MOST_LEVEL;
use outside::model::nodes::{inside, nodes, words, Node, NODE_WORDS};
use outside::model::sheets::{
    subtotal_over, Subtotal, MOST_HUNDREDTHS, NO_HUNDREDTHS, SUBTOTAL_WORDS,
};
use outside::model::MOST;
use outside::paint::hold;
use outside::random::{each_case, Random};
use outside::tally::Tally;

/// What a sheet must answer: its rows, or a refusal.
type Expected = Result<Vec<Subtotal>, Verdict>;

/// The greatest level, as a number of nodes.
const DEEPEST: usize = MOST_LEVEL as usize;

/// Fails unless the library answers so into an output of this many words, and leaves the words
/// after the result as they were.
fn answers_into(
    room: usize,
    zones: &[u32],
    samples: &[u32],
    hundredths: &[u32],
    expected: &Expected,
) {
    let rows = expected.as_deref().unwrap_or_default();
    let verdict = expected.as_ref().map_or_else(|&verdict| raw_verdict(verdict), |_| TAKEN);
    let written = raw::Written { verdict, count: rows.len() };
    let question = ("sheet", zones.len(), samples.len(), hundredths.len());
    hold(&question, &mut vec![0; room], &rows.concat(), written, |out| {
        raw::sheet(zones, samples, hundredths, out)
    });
}

/// Fails unless the library and the model answer so, into an output that is just long enough and
/// into longer ones. An output that is a word shorter must be refused where these are taken.
fn answers(zones: &[u32], samples: &[u32], hundredths: &[u32], expected: Expected) {
    let needed = SUBTOTAL_WORDS * (zones.len() / NODE_WORDS);
    for room in [needed, needed + 1, needed + SUBTOTAL_WORDS] {
        asking::sheet(zones, samples, hundredths, &mut vec![0; room]);
        answers_into(room, zones, samples, hundredths, &expected);
    }
    if needed > 0 {
        let short = expected.and(refused(Room));
        asking::sheet(zones, samples, hundredths, &mut vec![0; needed - 1]);
        answers_into(needed - 1, zones, samples, hundredths, &short);
    }
}

fn refused(answer: Answer) -> Expected {
    Err(Verdict::of(answer))
}

/// Returns the verdict on the sample whose word is faulty.
fn faulty_at(index: u32) -> Verdict {
    Verdict { index, ..Verdict::of(Reading) }
}

/// Does what [`answers`] does, for one zone with as many samples side by side in it as there are
/// words.
fn read(hundredths: &[u32], expected: Result<Subtotal, Verdict>) {
    let (zone, samples) = (words(&nest(1)), words(&texts(hundredths.len())));
    answers(&zone, &samples, hundredths, expected.map(|row| vec![row]));
}

#[test]
fn words_that_are_taken() {
    for word in SOUND {
        let [present, sum] = if word == NO_HUNDREDTHS { [0, 0] } else { [1, word] };
        read(&[word], Ok([1, present, sum]));
        read(&[NO_HUNDREDTHS, word, NO_HUNDREDTHS], Ok([3, present, sum]));
        read(&[MOST_HUNDREDTHS, word, 7], Ok([3, 2 + present, MOST_HUNDREDTHS + sum + 7]));
    }
}

#[test]
fn words_that_are_faulty() {
    for word in FAULTY {
        read(&[word], Err(faulty_at(0)));
        read(&[450, NO_HUNDREDTHS, word], Err(faulty_at(2)));
        read(&[MOST_HUNDREDTHS, word, u32::MAX], Err(faulty_at(1)));
    }
}

#[test]
fn a_zone_whose_samples_are_all_missing() {
    for samples in 0..9 {
        read(&vec![NO_HUNDREDTHS; samples], Ok([samples as u32, 0, 0]));
        read(&vec![0; samples], Ok([samples as u32, samples as u32, 0]));
    }
}

/// Gives each sample a power of two, so that a sum tells whose it is. There are samples before,
/// between and after the inner zones, and outside of all.
#[test]
fn zones_in_zones() {
    let zones = words_of(&[[10, 100, 1], [20, 50, 2], [30, 40, 3], [60, 90, 2], [110, 120, 1]]);
    let samples = words_of(&[
        [2, 3, 1],
        [15, 16, 2],
        [22, 23, 3],
        [35, 35, 9],
        [45, 46, 3],
        [55, 56, 2],
        [70, 71, 3],
        [95, 95, 2],
        [105, 106, 1],
        [115, 115, 2],
        [200, 201, 1],
    ]);
    let powers: Vec<u32> = (0..11).map(|power| 1 << power).collect();
    let rows = vec![[7, 7, 254], [3, 3, 28], [1, 1, 8], [1, 1, 64], [1, 1, 512]];
    answers(&zones, &samples, &powers, Ok(rows));
    let mut inner_missing = powers;
    inner_missing[3] = NO_HUNDREDTHS;
    let rows = vec![[7, 6, 246], [3, 2, 20], [1, 0, 0], [1, 1, 64], [1, 1, 512]];
    answers(&zones, &samples, &inner_missing, Ok(rows));
}

/// Tries zones that end at one position, and a sample that ends there too. All have that sample.
#[test]
fn zones_that_end_at_one_position() {
    let zones = words_of(&[[1, 100, 1], [10, 100, 2], [20, 100, 3]]);
    let samples = words_of(&[[5, 6, 2], [12, 13, 3], [30, 40, 4], [100, 100, 4]]);
    let rows = vec![[4, 4, 15], [3, 3, 14], [2, 2, 12]];
    answers(&zones, &samples, &[1, 2, 4, 8], Ok(rows));
    let last_missing = vec![[4, 3, 7], [3, 2, 6], [2, 1, 4]];
    answers(&zones, &samples, &[1, 2, 4, NO_HUNDREDTHS], Ok(last_missing));
    answers(&zones, &words_of(&[[30, 100, 3]]), &[1], refused(Joint));
}

/// Tries nodes that are zones and samples: each is inside those around it, and not inside itself.
#[test]
fn a_node_of_both_lists() {
    let both = words_of(&[[1, 100, 1], [10, 50, 2], [20, 40, 3], [60, 60, 2]]);
    let rows = vec![[3, 3, 14], [1, 1, 4], [0, 0, 0], [0, 0, 0]];
    answers(&both, &both, &[1, 2, 4, 8], Ok(rows));
    let one_end = words_of(&[[1, 50, 1], [10, 50, 2], [20, 50, 3]]);
    answers(&one_end, &one_end, &[1, 2, 4], Ok(vec![[2, 2, 6], [1, 1, 4], [0, 0, 0]]));
}

/// Tries a sample around all zones, one between two nested zones, one inside both, and one at the
/// end of the outer zone.
#[test]
fn a_sample_that_contains_zones() {
    let zones = words_of(&[[10, 90, 2], [30, 60, 4], [31, 32, 5]]);
    let samples = words_of(&[[1, 100, 1], [20, 70, 3], [40, 50, 5], [80, 90, 3]]);
    answers(&zones, &samples, &[1, 2, 4, 8], Ok(vec![[3, 3, 14], [1, 1, 4], [0, 0, 0]]));
    let around = words_of(&[[5, 95, 1]]);
    answers(&zones, &around, &[7], Ok(vec![[0, 0, 0]; 3]));
}

/// Tries zones of three documents, which lie at the same positions, and samples of five.
#[test]
fn several_documents() {
    let of = |documents: &[u32], nodes: &[[u32; 3]]| {
        let placed = |&document: &u32| {
            nodes.iter().map(move |&place| Node { document, ..node(place) }).collect::<Vec<_>>()
        };
        words(&documents.iter().flat_map(placed).collect::<Vec<Node>>())
    };
    let zones = of(&[3, 5, u32::MAX], &[[10, 100, 1], [20, 50, 2]]);
    let samples = of(&[0, 3, 4, 5, u32::MAX], &[[5, 6, 1], [30, 30, 3]]);
    let powers: Vec<u32> = (0..10).map(|power| 1 << power).collect();
    let of_both = |word| [[1, 1, word]; 2];
    answers(&zones, &samples, &powers, Ok([of_both(8), of_both(128), of_both(512)].concat()));
    let one_more = of(&[4], &[[10, 100, 1]]);
    let with_four = [&zones[..2 * NODE_WORDS], &one_more, &zones[2 * NODE_WORDS..]].concat();
    let rows = [&of_both(8)[..], &[[1, 1, 32]], &of_both(128), &of_both(512)].concat();
    answers(&with_four, &samples, &powers, Ok(rows));
}

#[test]
fn no_samples_and_no_zones() {
    let (zones, sample) = (words_of(&[[1, 9, 1], [12, 12, 1]]), words_of(&[[3, 4, 2]]));
    answers(&zones, &[], &[], Ok(vec![[0, 0, 0]; 2]));
    answers(&zones, &sample, &[450], Ok(vec![[1, 1, 450], [0, 0, 0]]));
    answers(&[], &[], &[], Ok(vec![]));
    answers(&[], &sample, &[450], Ok(vec![]));
    answers(&[], &sample, &[MOST_HUNDREDTHS + 1], Err(faulty_at(0)));
    answers(&[], &sample, &[], refused(Ragged));
    answers(&zones, &[], &[450], refused(Ragged));
}

/// Tries every number of words up to many more than there are samples.
#[test]
fn not_as_many_words_as_samples() {
    let zones = words(&nest(2));
    for samples in 0..5 {
        let list = words(&texts(samples));
        for given in (0..20).chain([MOST, 1 << 16]).filter(|&given| given != samples) {
            answers(&zones, &list, &vec![450; given], refused(Ragged));
            answers(&zones, &list, &vec![u32::MAX; given], refused(Ragged));
        }
    }
}

/// Tries cases in which several checks fail: the first of these is told, whatever the room.
#[test]
fn checks_come_in_their_order() {
    let (zones, samples) =
        (words_of(&[[1, 9, 1], [12, 20, 1]]), words_of(&[[3, 4, 2], [14, 15, 2]]));
    let faulty = [450, MOST_HUNDREDTHS + 1];
    let odd = words_of(&[[3, 4, 2], [14, 25, 2]]);
    let turned = words_of(&[[14, 15, 2], [3, 4, 2]]);
    let order = |list| Err(Verdict { answer: Order, list, index: 1 });
    for room in [0, 5, 6, 7] {
        let draws = |zones: &[u32], samples: &[u32], hundredths: &[u32], expected: Expected| {
            asking::sheet(zones, samples, hundredths, &mut vec![0; room]);
            answers_into(room, zones, samples, hundredths, &expected);
        };
        draws(&zones, &samples, &faulty, Err(faulty_at(1)));
        draws(&zones, &samples, &faulty[1..], refused(Ragged));
        draws(&zones, &odd, &faulty[1..], refused(Joint));
        draws(&zones, &turned, &faulty[1..], order(DESCENDANTS));
        draws(&turned, &turned, &faulty[1..], order(0));
        let of_samples = Verdict { list: DESCENDANTS, ..Verdict::of(Ragged) };
        draws(&zones, &samples[1..], &faulty, Err(of_samples));
        draws(&zones[1..], &samples[1..], &faulty, refused(Ragged));
    }
}

/// Tries as many zones as there are levels, one in the other, with a sample before and a sample
/// after each inner zone. The innermost is of the greatest level and can hold none.
#[test]
fn the_deepest_nest() {
    let zone = |depth: u32| node([10 * depth, 10_000 - 10 * depth, 1 + depth]);
    let text = |start, depth| node([start, start, 2 + depth]);
    let gaps = MOST_LEVEL - 1;
    let before = (0..gaps).map(|depth| text(10 * depth + 5, depth));
    let after = (0..gaps).rev().map(|depth| text(10_000 - 10 * depth - 5, depth));
    let samples = words(&before.chain(after).collect::<Vec<Node>>());
    let hundredths: Vec<u32> = (0..gaps).chain((0..gaps).rev()).map(|depth| 100 + depth).collect();
    let row = |depth: u32| {
        let deeper = 2 * (gaps - depth);
        [deeper, deeper, 2 * (depth..gaps).map(|depth| 100 + depth).sum::<u32>()]
    };
    let zones = words(&(0..MOST_LEVEL).map(zone).collect::<Vec<Node>>());
    answers(&zones, &samples, &hundredths, Ok((0..MOST_LEVEL).map(row).collect()));
    let deeper = words(&(0..=MOST_LEVEL).map(zone).collect::<Vec<Node>>());
    let level = Verdict { index: MOST_LEVEL, ..Verdict::of(Level) };
    answers(&deeper, &samples, &hundredths, Err(level));
}

/// Tries nests one level less deep, whose innermost zone holds the longest list of samples, each
/// with the most hundredths. All zones have the greatest sum.
#[test]
fn the_greatest_sum_at_every_depth() {
    let samples = words(&texts(MOST));
    let greatest = [MOST as u32, MOST as u32, 40_960_000];
    for zones in [nest(DEEPEST - 1), nest_with_one_end(DEEPEST - 1)] {
        let expected = Ok(vec![greatest; DEEPEST - 1]);
        let room = SUBTOTAL_WORDS * (DEEPEST - 1);
        answers_into(room, &words(&zones), &samples, &[MOST_HUNDREDTHS; MOST], &expected);
    }
}

/// Returns as many zones side by side, with space for a sample in each.
fn side_by_side(count: usize, level: u32) -> Vec<Node> {
    (0..count as u32).map(|place| node([10 + 4 * place, 12 + 4 * place, level])).collect()
}

/// Returns the sample in each of those zones.
fn inside_each(zones: &[Node]) -> Vec<Node> {
    zones.iter().map(|zone| node([zone.start + 1, zone.start + 1, zone.level + 1])).collect()
}

/// Tries the longest lists, into an output that is just long enough, longer, and a word shorter.
#[test]
fn the_longest_lists() {
    let most = [MOST_HUNDREDTHS; MOST];
    let one = [1, 1, MOST_HUNDREDTHS];
    let apart = side_by_side(MOST, 1);
    let around = node([1, u32::MAX, 1]);
    let within = side_by_side(MOST - 1, 2);
    let field = [vec![around], within.clone()].concat();
    let own = [inside_each(&within), vec![node([1 << 20, 1 << 20, 2])]].concat();
    let all = [MOST as u32, MOST as u32, 40_960_000];
    let cases = [
        (vec![around], texts(MOST), vec![all]),
        (apart.clone(), inside_each(&apart), vec![one; MOST]),
        (field, own, [vec![all], vec![one; MOST - 1]].concat()),
    ];
    for (zones, samples, rows) in cases {
        let (needed, zones, samples) =
            (SUBTOTAL_WORDS * rows.len(), words(&zones), words(&samples));
        answers_into(needed, &zones, &samples, &most, &Ok(rows.clone()));
        answers_into(needed + 4, &zones, &samples, &most, &Ok(rows));
        answers_into(needed - 1, &zones, &samples, &most, &refused(Room));
    }
}

/// Tries the longest list of samples with a faulty word, and with a word more and a word less.
#[test]
fn the_longest_list_with_other_words() {
    let (zones, samples) = (words(&nest(1)), words(&texts(MOST)));
    let mut hundredths = vec![MOST_HUNDREDTHS; MOST];
    let draws = |hundredths: &[u32], expected| {
        answers_into(SUBTOTAL_WORDS, &zones, &samples, hundredths, &expected);
    };
    draws(&hundredths[1..], refused(Ragged));
    draws(&[&hundredths[..], &[0]].concat(), refused(Ragged));
    for index in [MOST - 1, 1, 0] {
        hundredths[index] = MOST_HUNDREDTHS + 1;
        draws(&hundredths, Err(faulty_at(index as u32)));
    }
}

#[test]
fn one_node_too_many() {
    let (zones, samples) = (side_by_side(MOST + 1, 1), inside_each(&side_by_side(MOST + 1, 1)));
    let long = |list| Err(Verdict { list, ..Verdict::of(Long) });
    for (zone_count, sample_count, expected) in [
        (MOST + 1, MOST, long(0)),
        (MOST, MOST + 1, long(DESCENDANTS)),
        (MOST + 1, MOST + 1, long(0)),
    ] {
        let (zones, samples) = (words(&zones[..zone_count]), words(&samples[..sample_count]));
        let hundredths = vec![MOST_HUNDREDTHS; sample_count];
        answers_into(SUBTOTAL_WORDS * (MOST + 1), &zones, &samples, &hundredths, &expected);
    }
}

/// An accepted case of random lists: its nodes, its words, and the rows that the library writes.
struct Accepted {
    zones: Vec<Node>,
    samples: Vec<Node>,
    hundredths: Vec<u32>,
    rows: Vec<Subtotal>,
}

/// Returns the rows that the library writes of nodes that it takes.
fn rows_of(zones: &[Node], samples: &[Node], hundredths: &[u32]) -> Vec<Subtotal> {
    let mut out = vec![0; SUBTOTAL_WORDS * zones.len()];
    let written = raw::sheet(&words(zones), &words(samples), hundredths, &mut out);
    assert_eq!(written, raw::Written { verdict: TAKEN, count: zones.len() });
    out.chunks(SUBTOTAL_WORDS).map(|row| [row[0], row[1], row[2]]).collect()
}

impl Accepted {
    fn new(random: &mut Random) -> Accepted {
        let all = any_family(random);
        let (zones, samples) = (some_of(random, &all), some_of(random, &all));
        let mut hundredths = hundredths(random, samples.len());
        hundredths.resize(samples.len(), 450);
        for word in hundredths.iter_mut().filter(|word| FAULTY.contains(word)) {
            *word = NO_HUNDREDTHS;
        }
        let rows = rows_of(&zones, &samples, &hundredths);
        Accepted { zones, samples, hundredths, rows }
    }

    /// Returns the subtotal of the samples that this holds for.
    fn subtotal(&self, is_counted: impl Fn(&Node) -> bool) -> Subtotal {
        let read = self.samples.iter().zip(&self.hundredths);
        let counted: Vec<u32> =
            read.filter(|(sample, _)| is_counted(sample)).map(|(_, &word)| word).collect();
        subtotal_over(&counted)
    }

    /// Returns the index of each zone's parent, as the library links the zones.
    fn parents(&self) -> Vec<u32> {
        let mut out = vec![0; LINK_WORDS * self.zones.len()];
        assert_eq!(raw::links(&words(&self.zones), &mut out).verdict, TAKEN);
        out.chunks(LINK_WORDS).map(|links| links[0]).collect()
    }
}

/// Returns the sum of subtotals, column by column.
fn total<'a>(rows: impl IntoIterator<Item = &'a Subtotal>) -> Subtotal {
    rows.into_iter().fold([0; SUBTOTAL_WORDS], |sum, row| [0, 1, 2].map(|at| sum[at] + row[at]))
}

/// Seeds that no other test has, for each test here that draws.
const SEEDS: [u64; 5] = [1 << 49, 1 << 50, 1 << 51, 1 << 52, 1 << 53];
/// The random cases of each relation.
const CASES: u64 = 10_000;
/// Fewer cases than this in which a relation says something are too few.
const LEAST: u64 = 1_000;

/// Runs a relation on random cases. The relation panics where it doesn't hold, and returns whether
/// the case says something. Too few such cases are a failure too.
fn holds_often(first_seed: u64, relation: impl Fn(&Accepted) -> bool) {
    let mut telling = 0;
    each_case(first_seed, CASES, |random| telling += u64::from(relation(&Accepted::new(random))));
    assert!(telling > LEAST, "{telling} of {CASES} cases say something");
}

/// Lists all pairs in both orders: a row is over the descendants that its zone has there.
#[test]
fn each_row_is_over_the_pairs_of_its_zone() {
    holds_often(SEEDS[0], |case| {
        for order in [0, 1] {
            let ticket = Ticket { order, ..FRESH };
            let pairs = listed(&words(&case.zones), &words(&case.samples), ticket);
            for (zone, row) in case.zones.iter().zip(&case.rows) {
                let own: Vec<Node> =
                    pairs.iter().filter(|p| p.ancestor == *zone).map(|p| p.descendant).collect();
                assert_eq!(*row, case.subtotal(|sample| own.contains(sample)));
                assert_eq!(row[0] as usize, own.len());
            }
        }
        case.rows.iter().any(|row| row[0] > row[1] && row[1] > 1)
    });
}

/// Takes a zone's own samples as those inside it and inside no child of it.
#[test]
fn each_row_is_its_own_samples_and_its_children() {
    holds_often(SEEDS[1], |case| {
        let parents = case.parents();
        let mut has_two_kinds = false;
        for (index, (zone, row)) in case.zones.iter().zip(&case.rows).enumerate() {
            let children: Vec<usize> =
                (0..parents.len()).filter(|&child| parents[child] == index as u32).collect();
            let own = case.subtotal(|sample| {
                inside(sample, zone)
                    && !children.iter().any(|&child| inside(sample, &case.zones[child]))
            });
            let below = total(children.iter().map(|&child| &case.rows[child]));
            assert_eq!(*row, total([&own, &below]));
            has_two_kinds |= own[1] > 0 && below[1] > 0;
        }
        has_two_kinds
    });
}

/// Adds up the rows of the zones without a parent: a sample inside several zones counts once.
#[test]
fn the_outermost_rows_are_over_the_samples_inside_any_zone() {
    holds_often(SEEDS[2], |case| {
        let parents = case.parents();
        let outermost = case.rows.iter().zip(&parents).filter(|(_, &parent)| parent == NONE);
        let expected = case.subtotal(|sample| case.zones.iter().any(|zone| inside(sample, zone)));
        assert_eq!(total(outermost.map(|(row, _)| row)), expected);
        expected[1] > 0 && (expected[0] as usize) < case.samples.len()
    });
}

/// Takes the samples without a reading out: only the first column changes, to the second.
#[test]
fn missing_samples_count_in_the_first_column_only() {
    holds_often(SEEDS[3], |case| {
        let is_read = |(_, word): &(&Node, &u32)| **word != NO_HUNDREDTHS;
        let (samples, hundredths): (Vec<Node>, Vec<u32>) =
            case.samples.iter().zip(&case.hundredths).filter(is_read).unzip();
        let expected: Vec<Subtotal> =
            case.rows.iter().map(|&[_, present, sum]| [present, present, sum]).collect();
        assert_eq!(rows_of(&case.zones, &samples, &hundredths), expected);
        case.rows != expected && case.rows.iter().any(|row| row[2] > 0)
    });
}

/// What random cases must show often: in words, and whether a case shows it.
type Feature = (&'static str, fn(&cases::Sheet, &[Node], &[Node]) -> bool);

/// Tells whether a sample lies so to some zone.
fn any_pair(samples: &[Node], zones: &[Node], lies: impl Fn(&Node, &Node) -> bool) -> bool {
    samples.iter().any(|sample| zones.iter().any(|zone| lies(sample, zone)))
}

const FEATURES: [Feature; 7] = [
    ("words that aren't as many as the samples", |case, _, samples| {
        let are_whole = [&case.zones, &case.samples].map(|list| list.len() % NODE_WORDS) == [0; 2];
        case.answer == Ragged && are_whole && case.hundredths.len() != samples.len()
    }),
    ("a faulty word after the first", |case, _, _| {
        case.answer == Reading && !FAULTY.contains(&case.hundredths[0])
    }),
    ("an output that is too short", |case, _, _| case.answer == Room),
    ("a node of both lists inside a zone", |case, zones, samples| {
        case.answer == Taken
            && any_pair(samples, zones, |sample, zone| {
                inside(sample, zone) && zones.contains(sample)
            })
    }),
    ("a sample around a zone", |case, zones, samples| {
        case.answer == Taken && any_pair(samples, zones, |sample, zone| inside(zone, sample))
    }),
    ("a sample outside all zones", |case, zones, samples| {
        case.answer == Taken
            && !zones.is_empty()
            && samples.iter().any(|sample| !any_pair(&[*sample], zones, inside))
    }),
    ("zones of two documents with samples inside", |case, zones, samples| {
        let held = |zone: &&Node| any_pair(samples, &[**zone], inside);
        let documents: Vec<u32> = zones.iter().filter(held).map(|zone| zone.document).collect();
        case.answer == Taken && documents.first() != documents.last()
    }),
];

#[test]
fn each_feature_comes_often() {
    let (mut seen, mut tally) = ([0; FEATURES.len()], Tally::default());
    each_case(SEEDS[4], CASES, |random| {
        let case = cases::sheet(random, Ground::Heap, &mut tally);
        let (zones, samples) = (nodes(&case.zones), nodes(&case.samples));
        for ((_, is_shown), times) in FEATURES.iter().zip(&mut seen) {
            *times += u64::from(is_shown(&case, &zones, &samples));
        }
    });
    for ((name, _), times) in FEATURES.iter().zip(seen) {
        assert!(times > 100, "{name}: {times} of {CASES} cases");
    }
}
