//! Every function of the binding on the farm of docs/SCOPE.md, taken and refused; the iterator
//! against page calls; numbers against the C header.

use belfrychest::*;
use std::collections::BTreeMap;
use std::error::Error;

const fn node(start: u32, end: u32, level: u32) -> Node {
    Node { document: 5, start, end, level }
}

const fn row(node: Node, tag: u32) -> Row {
    Row { node, tag }
}

const MARKS: [u32; 11] = [1, 2, 2, 3, TEXT, CLOSE, CLOSE, 3, CLOSE, CLOSE, CLOSE];
const ZONES: [Node; 2] = [node(2, 10, 2), node(3, 7, 3)];
const SAMPLES: [Node; 2] = [node(4, 6, 4), node(8, 9, 3)];
const TABLE: [Row; 6] = [
    row(node(1, 11, 1), 1),
    row(ZONES[0], 2),
    row(ZONES[1], 2),
    row(SAMPLES[0], 3),
    row(node(5, 5, 5), TEXT),
    row(SAMPLES[1], 3),
];
/// The samples in the wrong order, and a text after them.
const TURNED: [Node; 3] = [SAMPLES[1], SAMPLES[0], node(5, 5, 5)];
/// A node that crosses the farm's first zone.
const CROSSING: [Node; 1] = [node(4, 12, 3)];

/// Returns the refusal by an answer that has no place.
fn refusal(answer: Answer) -> Refusal {
    Refusal { answer, list: None, index: None }
}

/// Returns the refusal of a node.
fn refusal_at(answer: Answer, list: usize, index: usize) -> Refusal {
    Refusal { answer, list: Some(list), index: Some(index) }
}

/// Returns an output that begins with these items and goes on with nines.
fn painted<T: raw::OfWords>(items: &[T], paint: T, length: usize) -> Vec<T> {
    let mut out = items.to_vec();
    out.resize(length, paint);
    out
}

const NODE_PAINT: Node = Node { document: 9, start: 9, end: 9, level: 9 };
const PAIR_PAINT: Pair = Pair { ancestor: NODE_PAINT, descendant: NODE_PAINT };
const ROW_PAINT: Row = row(NODE_PAINT, 9);

fn starts(pair: Pair) -> (u32, u32) {
    (pair.ancestor.start, pair.descendant.start)
}

/// Returns the name and the number of a line of the C header that defines a number, as a macro or
/// as an enumerator.
fn header_number(line: &str) -> Option<(String, u32)> {
    let defined = line.strip_prefix("#define ").unwrap_or(line).trim_start();
    let mut words = defined.strip_prefix("BELFRY_")?.split_whitespace().filter(|word| *word != "=");
    let name = words.next()?.to_string();
    let number = words.next()?.trim_end_matches(['u', ',']).parse().ok()?;
    Some((name, number))
}

/// Returns the numbers that the C header defines, by name without BELFRY_. Macros that are made of
/// others are not among them.
fn header_numbers() -> BTreeMap<String, u32> {
    include_str!("../../c/belfrychest.h").lines().filter_map(header_number).collect()
}

fn binding_numbers() -> BTreeMap<String, u32> {
    let answers = Answer::ALL.iter().map(|answer| (answer.name(), answer.number()));
    let ticket_words = |placed| Ticket::from_words([0, 0, placed, 0, 0, 0]).to_words();
    let words = [
        ("VERSION", VERSION as usize),
        ("MOST_NODES", MOST_NODES),
        ("MOST_LEVELS", MOST_LEVELS),
        ("MOST_LISTS", MOST_LISTS),
        ("MOST_QUESTIONS", MOST_QUESTIONS),
        ("PRINTED_BYTES", PRINTED_BYTES),
        ("PAGE_PAIRS", PAGE_PAIRS),
        ("NODE_WORDS", NODE_WORDS),
        ("LINK_WORDS", LINK_WORDS),
        ("ENTRY_WORDS", ENTRY_WORDS),
        ("READING_WORDS", READING_WORDS),
        ("SUBTOTAL_WORDS", SUBTOTAL_WORDS),
        ("TICKET_WORDS", TICKET_WORDS),
        ("TICKET_FORM", TICKET_FORM as usize),
        ("NUMBER_BYTES", NUMBER_BYTES),
        ("CONTENTS_NUMBERS", CONTENTS_NUMBERS),
        ("NAME_BYTES", NAME_BYTES),
        ("CLOSE", CLOSE as usize),
        ("TEXT", TEXT as usize),
        ("MISSING", MISSING as usize),
        ("PERCENT", PERCENT as usize),
        ("GRAMS", GRAMS as usize),
        ("MOST_PERCENT", MOST_PERCENT as usize),
        ("MOST_GRAMS", MOST_GRAMS as usize),
        ("MOST_HUNDREDTHS", MOST_HUNDREDTHS as usize),
        ("NO_HUNDREDTHS", NO_HUNDREDTHS as usize),
        ("NONE", NONE as usize),
        ("ANCESTORS", ANCESTORS),
        ("DESCENDANTS", DESCENDANTS),
        ("INSIDE", Relation::Inside as usize),
        ("DIRECTLY", Relation::Directly as usize),
        ("DESCENDANT_ORDER", Order::Descendant as usize),
        ("ANCESTOR_ORDER", Order::Ancestor as usize),
        ("FRESH", ticket_words(0)[2] as usize),
        ("PLACED", ticket_words(9)[2] as usize),
    ];
    answers.chain(words.map(|(name, number)| (name.to_string(), number as u32))).collect()
}

#[test]
fn numbers_are_those_of_the_header() {
    assert_eq!(binding_numbers(), header_numbers());
    assert_eq!((PAIR_WORDS, ROW_WORDS, QUESTION_WORDS, MOST_CONTAINING), (8, 5, 8, 63));
}

#[test]
fn the_archive_is_of_this_version() {
    assert_eq!(version(), VERSION);
}

/// Returns `count` nodes, side by side.
fn siblings(count: usize) -> Vec<Node> {
    (0..count as u32).map(|start| node(start, start, 1)).collect()
}

#[test]
fn limits_are_those_of_the_archive() {
    assert_eq!(check(&siblings(MOST_NODES)), Ok(()));
    assert_eq!(check(&siblings(MOST_NODES + 1)), Err(refusal(Answer::Long)));
    assert_eq!(check(&[node(2, 2, MOST_LEVELS as u32)]), Ok(()));
    let too_deep = [node(2, 2, MOST_LEVELS as u32 + 1)];
    assert_eq!(check(&too_deep), Err(refusal_at(Answer::Level, 0, 0)));
    let empty_lists =
        |lists: usize| (0..lists as u32).map(|tag| Entry { tag, count: 0 }).collect::<Vec<Entry>>();
    let written = book_write(&empty_lists(MOST_LISTS), &[]).map(|book| book.len());
    assert_eq!(written, Ok(book_bytes(MOST_LISTS, 0)));
    assert_eq!(book_write(&empty_lists(MOST_LISTS + 1), &[]), Err(refusal(Answer::Contents)));
}

#[test]
fn answers_have_their_numbers_and_other_numbers_are_unknown() {
    for (number, answer) in Answer::ALL.iter().enumerate() {
        assert_eq!(answer.number() as usize, number);
        assert_eq!(Answer::from_number(number as u32), *answer);
    }
    let after_the_last = Answer::ALL.len() as u32;
    assert_eq!(Answer::from_number(after_the_last), Answer::Unknown(after_the_last));
    assert_eq!(Answer::Unknown(u32::MAX).number(), u32::MAX);
    assert_eq!(Answer::Unknown(u32::MAX).name(), "UNKNOWN");
}

#[test]
fn a_refusal_is_an_error_that_says_its_name_its_place_and_what_to_do() {
    let said = |refused: Result<(), Refusal>| -> String {
        let error: Box<dyn Error> = refused.unwrap_err().into();
        error.to_string()
    };
    let [order, joint, long] = [Answer::Order, Answer::Joint, Answer::Long].map(Answer::hint);
    let turned = said(check_two(&ZONES, &TURNED));
    assert_eq!(turned, format!("refused 5 ORDER list 1 index 1: {order}"));
    assert_eq!(said(check_two(&ZONES, &CROSSING)), format!("refused 8 JOINT: {joint}"));
    let too_long = said(check_two(&ZONES, &siblings(MOST_NODES + 1)));
    assert_eq!(too_long, format!("refused 2 LONG list 1: {long}"));
}

#[test]
fn each_answer_has_its_own_hint() {
    let unknown = [Answer::Unknown(99)];
    let mut hints: Vec<_> =
        Answer::ALL.iter().chain(&unknown).map(|answer| answer.hint()).collect();
    hints.sort_unstable();
    hints.dedup();
    assert_eq!(hints.len(), Answer::ALL.len() + 1);
}

#[test]
fn checks() {
    assert_eq!(check(&ZONES), Ok(()));
    assert_eq!(check(&[]), Ok(()));
    assert_eq!(check(&TURNED), Err(refusal_at(Answer::Order, 0, 1)));
    assert_eq!(check_two(&ZONES, &SAMPLES), Ok(()));
    assert_eq!(check_two(&ZONES, &TURNED), Err(refusal_at(Answer::Order, DESCENDANTS, 1)));
    assert_eq!(check_two(&TURNED, &SAMPLES), Err(refusal_at(Answer::Order, ANCESTORS, 1)));
    assert_eq!(check_two(&ZONES, &CROSSING), Err(refusal(Answer::Joint)));
    let long = |list| Refusal { list: Some(list), ..refusal(Answer::Long) };
    assert_eq!(check_two(&siblings(MOST_NODES + 1), &[]), Err(long(ANCESTORS)));
    assert_eq!(check_two(&[], &siblings(MOST_NODES + 1)), Err(long(DESCENDANTS)));
}

/// Tries lists by order and size, of which the last zone ends where the first does.
#[test]
fn a_list_by_order_and_size() -> Result<(), Refusal> {
    let by_size = |[order, size, level]: [u32; 3]| node(order, order + size, level);
    let zones = [[1, 8, 1], [4, 2, 2], [7, 2, 2]].map(by_size);
    let samples = [[2, 0, 2], [5, 0, 3], [8, 0, 3]].map(by_size);
    let listed = |relation, order| -> Result<Vec<(u32, u32)>, Refusal> {
        Ok(listing(&zones, &samples, relation, order)?.into_iter().map(starts).collect())
    };
    let by_descendant = [(1, 2), (1, 5), (4, 5), (1, 8), (7, 8)];
    let by_ancestor = [(1, 2), (1, 5), (1, 8), (4, 5), (7, 8)];
    assert_eq!(listed(Relation::Inside, Order::Descendant)?, by_descendant);
    assert_eq!(listed(Relation::Inside, Order::Ancestor)?, by_ancestor);
    assert_eq!(listed(Relation::Directly, Order::Ancestor)?, [(1, 2), (4, 5), (7, 8)]);
    assert_eq!(check(&[node(1, 5, 1), node(5, 7, 2)]), Err(refusal_at(Answer::Cross, 0, 1)));
    assert_eq!(check_two(&zones, &[node(5, 9, 1)]), Err(refusal(Answer::Joint)));
    Ok(())
}

#[test]
fn the_faulty_part_is_a_part_of_the_list_itself() {
    assert_eq!(faulty(&ZONES, &SAMPLES), None);
    let below = faulty(&ZONES, &TURNED).expect("the samples are out of order");
    let at_fault = refusal_at(Answer::Order, DESCENDANTS, 1);
    assert_eq!(below, Fault { refusal: at_fault, part: &TURNED[1..] });
    let turned = TURNED;
    let above = faulty(&turned, &SAMPLES).expect("the ancestors are out of order");
    assert_eq!(above.refusal, refusal_at(Answer::Order, ANCESTORS, 1));
    assert_eq!(above.part.as_ptr_range(), turned[1..].as_ptr_range());
    let between = faulty(&ZONES, &CROSSING).expect("the lists are at odds");
    assert_eq!(between, Fault { refusal: refusal(Answer::Joint), part: &[] });
}

#[test]
fn pages_go_on_from_their_tickets() {
    let mut out = [PAIR_PAINT; 2];
    let fresh = Ticket::fresh(Relation::Inside, Order::Descendant);
    let first = next_page(&ZONES, &SAMPLES, fresh, &mut out).expect("the farm is taken");
    assert_eq!((first.count, first.done), (2, false));
    assert_eq!(first.ticket.place, Place::After { document: 5, first: 4, second: 3 });
    assert_eq!(out.map(starts), [(2, 4), (3, 4)]);
    let second = next_page(&ZONES, &SAMPLES, first.ticket, &mut out).expect("the farm is taken");
    assert_eq!((second.count, second.done), (1, true));
    assert_eq!(out.map(starts), [(2, 8), (3, 4)]);
}

#[test]
fn a_refused_page_leaves_the_output() {
    let mut out = [PAIR_PAINT; 2];
    let fresh = Ticket::fresh(Relation::Directly, Order::Ancestor);
    let refused = next_page(&ZONES, &TURNED, fresh, &mut out);
    assert_eq!(refused, Err(refusal_at(Answer::Order, DESCENDANTS, 1)));
    assert_eq!(out, [PAIR_PAINT; 2]);
}

#[test]
fn tickets_are_six_words() {
    let place = Place::After { document: 5, first: 0x0102_0304, second: u32::MAX };
    let ticket = Ticket { relation: Relation::Directly, order: Order::Ancestor, place };
    assert_eq!(ticket.to_words(), [1, 1, 1, 5, 0x0102_0304, u32::MAX]);
    assert_eq!(Ticket::from_words(ticket.to_words()), ticket);
    assert_eq!(Ticket::from_words([9, 9, 9, 5, 0x0102_0304, u32::MAX]), ticket);
    let fresh = Ticket::fresh(Relation::Inside, Order::Descendant);
    assert_eq!(Ticket::from_words([0, 0, 0, 7, 8, 9]), fresh);
}

/// Returns the lists of the sample farm in examples/farm.book: zones and samples.
fn sample_farm() -> (Vec<Node>, Vec<Node>) {
    let book = include_bytes!("../../../examples/farm.book");
    let list = |tag| body_nodes(book_body(book, tag).expect("the farm has the tag"));
    (list(2), list(3))
}

/// Returns all pairs by page calls with room for `room` pairs.
fn paged(lists: &(Vec<Node>, Vec<Node>), fresh: Ticket, room: usize) -> Vec<Pair> {
    let (zones, samples) = lists;
    let (mut out, mut found) = (vec![PAIR_PAINT; room], Vec::new());
    let mut ticket = fresh;
    loop {
        let page = next_page(zones, samples, ticket, &mut out).expect("the farm is taken");
        found.extend_from_slice(&out[..page.count]);
        if page.done {
            return found;
        }
        ticket = page.ticket;
    }
}

#[test]
fn the_sample_farm_has_the_pairs_that_the_program_prints() {
    let (zones, samples) = sample_farm();
    let pairs = listing(&zones, &samples, Relation::Inside, Order::Descendant);
    let line = |pair: Pair| {
        let (zone, sample) = starts(pair);
        format!("{} {zone} {sample}\n", pair.ancestor.document)
    };
    let printed: String = pairs.expect("the farm is taken").into_iter().map(line).collect();
    assert_eq!(printed + "pairs 21\n", include_str!("../../../examples/farm.out"));
}

#[test]
fn a_listing_shows_what_page_calls_show() {
    let farm = sample_farm();
    let (zones, samples) = &farm;
    for (relation, order) in [(0, 0), (0, 1), (1, 0), (1, 1)] {
        let fresh = Ticket::from_words([relation, order, 0, 0, 0, 0]);
        let Ticket { relation, order, .. } = fresh;
        let whole = listing(zones, samples, relation, order).expect("the farm is taken");
        for room in 1..=whole.len() + 1 {
            assert_eq!(paged(&farm, fresh, room), whole);
            let listing = Listing::new(zones, samples, relation, order, vec![PAIR_PAINT; room]);
            assert_eq!(listing.expect("the farm is taken").collect::<Vec<_>>(), whole);
        }
    }
}

#[test]
fn a_listing_takes_lent_and_owned_buffers_and_stays_ended() {
    let (relation, order) = (Relation::Directly, Order::Ancestor);
    let mut lent = [PAIR_PAINT; 3];
    let mut listing =
        Listing::new(&ZONES, &SAMPLES, relation, order, &mut lent[..]).expect("the farm is taken");
    let found: Vec<_> = listing.by_ref().map(starts).collect();
    assert_eq!(found, [(2, 8), (3, 4)]);
    assert_eq!((listing.next(), listing.next()), (None, None));
    assert_eq!(lent[2], PAIR_PAINT);
    let owned =
        Listing::new(&ZONES, &SAMPLES, relation, order, [PAIR_PAINT]).expect("the farm is taken");
    assert_eq!(owned.map(starts).collect::<Vec<_>>(), found);
}

#[test]
fn a_listing_is_refused_at_its_start() {
    let (relation, order) = (Relation::Inside, Order::Descendant);
    let turned = Err(refusal_at(Answer::Order, DESCENDANTS, 1));
    assert_eq!(listing(&ZONES, &TURNED, relation, order), turned);
    let one_by_one = Listing::new(&ZONES, &TURNED, relation, order, [PAIR_PAINT]);
    assert_eq!(one_by_one.map(Iterator::collect), turned);
}

#[test]
fn a_zone_has_the_low_and_the_high_of_its_readings() {
    let range = |readings: [Reading; 2], zone| zone_range(&ZONES, &SAMPLES, &readings, zone);
    let found = |low, high| Ok(Some(Range { low, high }));
    let (percent, grams) = (Reading::Percent(4.5), Reading::Grams(38.0));
    assert_eq!(range([percent, grams], 0), found(38.0 / 10.0, 4.5));
    assert_eq!(range([percent, grams], 1), found(4.5, 4.5));
    assert_eq!(range([Reading::Missing, grams], 0), found(38.0 / 10.0, 38.0 / 10.0));
    assert_eq!(range([Reading::Missing, grams], 1), Ok(None));
    assert_eq!(range([Reading::Missing; 2], 0), Ok(None));
    assert_eq!(range([Reading::Percent(0.0), grams], 1), found(0.0, 0.0));
    assert_eq!(zone_range(&ZONES, &[], &[], 1), Ok(None));

    let zeros = range([Reading::Percent(-0.0), Reading::Grams(0.0)], 0);
    let Range { low, high } = zeros.expect("both are taken").expect("both are present");
    assert_eq!([low, high].map(f32::to_bits), [1 << 31; 2]);
}

#[test]
fn a_range_is_refused() {
    let good = [Reading::Percent(MOST_PERCENT), Reading::Grams(MOST_GRAMS)];
    let range = |readings: &[Reading], zone| zone_range(&ZONES, &SAMPLES, readings, zone);
    let faulty = |index| Refusal { index: Some(index), ..refusal(Answer::Reading) };
    assert_eq!(range(&good, 0), Ok(Some(Range { low: 100.0, high: 100.0 })));
    for zone in [2, u32::MAX as usize, 1 << 32, (1 << 32) + 1, usize::MAX] {
        assert_eq!(range(&good, zone), Err(refusal(Answer::Absent)), "zone {zone}");
    }
    assert_eq!(range(&good[1..], 0), Err(refusal(Answer::Ragged)));
    assert_eq!(range(&[], 0), Err(refusal(Answer::Ragged)));
    for value in [f32::NAN, f32::INFINITY, -f32::MIN_POSITIVE, 1000.5] {
        assert_eq!(range(&[Reading::Grams(value), good[1]], 1), Err(faulty(0)));
        assert_eq!(range(&[good[0], Reading::Percent(value)], 9), Err(faulty(1)));
    }
    let turned = zone_range(&ZONES, &TURNED, &good, 0);
    assert_eq!(turned, Err(refusal_at(Answer::Order, DESCENDANTS, 1)));
    assert_eq!(zone_range(&ZONES, &CROSSING, &good, 9), Err(refusal(Answer::Joint)));
    let long = zone_range(&siblings(MOST_NODES + 1), &SAMPLES, &good, 0);
    assert_eq!(long, Err(Refusal { list: Some(ANCESTORS), ..refusal(Answer::Long) }));
    let hint = Answer::Reading.hint();
    let said = range(&[good[0], Reading::Percent(100.5)], 0).expect_err("it is above 100 percent");
    assert_eq!(said.to_string(), format!("refused 17 READING index 1: {hint}"));
}

const fn subtotal(samples: u32, present: u32, sum: u32) -> Subtotal {
    Subtotal { samples, present, sum }
}

const SUBTOTAL_PAINT: Subtotal = subtotal(9, 9, 9);

#[test]
fn each_zone_has_its_subtotal_in_the_sheet() {
    let missing = Hundredths::MISSING;
    let of_farm = |hundredths: [Hundredths; 2]| sheet(&ZONES, &SAMPLES, &hundredths);
    let both = [subtotal(2, 2, 830), subtotal(1, 1, 450)];
    assert_eq!(of_farm([Hundredths(450), Hundredths(380)]), Ok(both.to_vec()));
    let second = of_farm([missing, Hundredths(0)]);
    assert_eq!(second, Ok(vec![subtotal(2, 1, 0), subtotal(1, 0, 0)]));
    assert_eq!(of_farm([missing; 2]), Ok(vec![subtotal(2, 0, 0), subtotal(1, 0, 0)]));
    assert_eq!(sheet(&ZONES, &[], &[]), Ok(vec![subtotal(0, 0, 0); 2]));
    assert_eq!(sheet(&[], &SAMPLES, &[missing; 2]), Ok(vec![]));
    // A sample that is a zone too is inside the zone around it, and not inside itself.
    let zones_as_samples = sheet(&ZONES, &ZONES, &[Hundredths(450), Hundredths(380)]);
    assert_eq!(zones_as_samples, Ok(vec![subtotal(1, 1, 380), subtotal(0, 0, 0)]));

    let mut out = [SUBTOTAL_PAINT; 3];
    let count = sheet_into(&ZONES, &SAMPLES, &[Hundredths(450), Hundredths(380)], &mut out);
    assert_eq!((count, out[..].to_vec()), (Ok(2), painted(&both, SUBTOTAL_PAINT, 3)));
}

#[test]
fn a_sheet_has_sums_up_to_the_limit() {
    let most = [Hundredths(MOST_HUNDREDTHS); MOST_NODES];
    let starts = || (0..MOST_NODES as u32).map(|number| 2 * number + 1);
    let samples: Vec<Node> = starts().map(|start| node(start + 1, start + 1, 3)).collect();
    let side_by_side: Vec<Node> = starts().map(|start| node(start, start + 1, 2)).collect();
    let whole = sheet(&[node(0, 10_000, 1)], &samples, &most);
    assert_eq!(whole, Ok(vec![subtotal(4_096, 4_096, 40_960_000)]));
    let each = sheet(&side_by_side, &samples, &most);
    assert_eq!(each, Ok(vec![subtotal(1, 1, 10_000); MOST_NODES]));
}

#[test]
fn a_sheet_is_refused_and_its_output_left() {
    let good = [Hundredths(MOST_HUNDREDTHS), Hundredths::MISSING];
    let mut out = [SUBTOTAL_PAINT; 2];
    let mut refused = |zones: &[Node], samples: &[Node], hundredths: &[Hundredths]| {
        let found = sheet_into(zones, samples, hundredths, &mut out);
        assert_eq!(sheet(zones, samples, hundredths).map(|_| 0), found);
        assert_eq!(out, [SUBTOTAL_PAINT; 2]);
        found.expect_err("something is wrong with it")
    };
    for word in [10_001, 65_534, 65_536, u32::MAX] {
        let faulty = |index| Refusal { index: Some(index), ..refusal(Answer::Reading) };
        assert_eq!(refused(&ZONES, &SAMPLES, &[Hundredths(word), good[1]]), faulty(0));
        assert_eq!(refused(&ZONES, &SAMPLES, &[good[0], Hundredths(word)]), faulty(1));
        assert_eq!(refused(&[], &SAMPLES, &[good[0], Hundredths(word)]), faulty(1));
        assert_eq!(refused(&ZONES, &SAMPLES, &[Hundredths(word)]), refusal(Answer::Ragged));
    }
    assert_eq!(refused(&ZONES, &SAMPLES, &[good[0]; 3]), refusal(Answer::Ragged));
    assert_eq!(refused(&ZONES, &TURNED, &good), refusal_at(Answer::Order, DESCENDANTS, 1));
    assert_eq!(refused(&ZONES, &CROSSING, &good), refusal(Answer::Joint));
    let long = Refusal { list: Some(DESCENDANTS), ..refusal(Answer::Long) };
    assert_eq!(refused(&ZONES, &siblings(MOST_NODES + 1), &good), long);

    let short = sheet_into(&ZONES, &SAMPLES, &good, &mut out[..1]);
    assert_eq!((short, out), (Err(refusal(Answer::Room)), [SUBTOTAL_PAINT; 2]));
}

#[test]
fn marks_are_numbered_and_come_back() {
    assert_eq!(number(5, &MARKS), Ok(TABLE.to_vec()));
    assert_eq!(unnumber(&TABLE), Ok((5, MARKS.to_vec())));
    assert_eq!(pick(&TABLE, 2), Ok(ZONES.to_vec()));
    assert_eq!(pick(&TABLE, 9), Ok(Vec::new()));
}

#[test]
fn marks_are_numbered_into_an_output_and_come_back() {
    let mut out = [ROW_PAINT; 7];
    assert_eq!(number_into(5, &MARKS, &mut out), Ok(6));
    assert_eq!(out[..], painted(&TABLE, ROW_PAINT, 7));
    let mut back = [9; 12];
    assert_eq!(unnumber_into(&TABLE, &mut back), Ok((5, 11)));
    assert_eq!((&back[..11], back[11]), (&MARKS[..], 9));
    let mut zones = [NODE_PAINT; 3];
    assert_eq!(pick_into(&TABLE, 2, &mut zones), Ok(2));
    assert_eq!(zones[..], painted(&ZONES, NODE_PAINT, 3));
}

#[test]
fn marks_and_tables_are_refused() {
    assert_eq!(number(5, &[1, TEXT + 1]), Err(refusal(Answer::Mark)));
    assert_eq!(number(5, &[CLOSE]), Err(refusal(Answer::Stray)));
    assert_eq!(number(5, &[1; 65]), Err(refusal(Answer::Deep)));
    assert_eq!(number(5, &[]), Err(refusal(Answer::Unclosed)));
    assert_eq!(number(5, &[1; MOST_NODES + 1]), Err(refusal(Answer::Long)));
    assert_eq!(unnumber(&TABLE[1..]), Err(refusal(Answer::Table)));
    assert_eq!(unnumber(&[TABLE[0]; MOST_NODES + 1]), Err(refusal(Answer::Long)));
    assert_eq!(pick(&[TABLE[0]; MOST_NODES + 1], 2), Err(refusal(Answer::Long)));
}

#[test]
fn short_outputs_are_refused_and_left() {
    let room = refusal(Answer::Room);
    let (mut rows, mut marks, mut nodes) = ([ROW_PAINT; 5], [9; 10], [NODE_PAINT]);
    assert_eq!(number_into(5, &MARKS, &mut rows), Err(room));
    assert_eq!(unnumber_into(&TABLE, &mut marks), Err(room));
    assert_eq!(pick_into(&TABLE, 2, &mut nodes), Err(room));
    assert_eq!((rows, marks, nodes), ([ROW_PAINT; 5], [9; 10], [NODE_PAINT]));
    let (mut links, mut book) = ([Link::default()], [9; 91]);
    assert_eq!(links_into(&ZONES, &mut links), Err(room));
    assert_eq!(book_write_into(&ENTRIES, &farm_nodes(), &mut book), Err(room));
    assert_eq!((links, book), ([Link::default()], [9; 91]));
}

#[test]
fn nodes_are_linked() {
    let list = [ZONES[0], ZONES[1], SAMPLES[1]];
    let linked = links(&list).expect("the list is taken");
    let shown: Vec<_> =
        linked.iter().map(|l| [l.parent(), l.first_child(), l.next_sibling()]).collect();
    assert_eq!(shown, [[None, Some(1), None], [Some(0), None, Some(2)], [Some(0), None, None]]);
    assert_eq!(words(&linked), [NONE, 1, NONE, 0, NONE, 2, 0, NONE, NONE]);
    let mut out = [linked[1]; 3];
    assert_eq!(links_into(&ZONES, &mut out), Ok(2));
    assert_eq!(words(&out), [NONE, 1, NONE, 0, NONE, NONE, 0, NONE, 2]);
    assert_eq!(links(&TURNED), Err(refusal_at(Answer::Order, 0, 1)));
    assert_eq!(links(&siblings(MOST_NODES + 1)), Err(refusal(Answer::Long)));
}

/// Returns the links with one word changed.
fn with_word(links: &[Link], place: usize, word: u32) -> Vec<Link> {
    let mut changed = words(links).to_vec();
    changed[place] = word;
    node_links(&changed).expect("they are whole").to_vec()
}

#[test]
fn links_are_taken_exactly_when_they_are_those_of_the_list() {
    let list = [ZONES[0], ZONES[1], SAMPLES[1]];
    let linked = links(&list).expect("the list is taken");
    let wrong = Err(refusal(Answer::Links));
    assert_eq!(check_links(&list, &linked), Ok(()));
    assert_eq!(check_links(&[], &[]), Ok(()));
    for place in 0..words(&linked).len() {
        for word in [0, 1, 2, 3, 1 << 31, NONE - 1, NONE] {
            let is_changed = words(&linked)[place] != word;
            let expected = if is_changed { wrong } else { Ok(()) };
            assert_eq!(check_links(&list, &with_word(&linked, place, word)), expected);
        }
    }
    assert_eq!(check_links(&list, &linked[..2]), wrong);
    assert_eq!(check_links(&list, &[&linked[..], &linked[2..]].concat()), wrong);
    assert_eq!(check_links(&list, &[]), wrong);
    assert_eq!(check_links(&[], &linked[..1]), wrong);
    assert_eq!(check_links(&SAMPLES, &links(&ZONES).expect("they are taken")), wrong);
    assert_eq!(check_links(&TURNED, &linked), Err(refusal_at(Answer::Order, 0, 1)));
    assert_eq!(check_links(&siblings(MOST_NODES + 1), &[]), Err(refusal(Answer::Long)));
    let hint = Answer::Links.hint();
    let said = check_links(&list, &[]).expect_err("there are no links").to_string();
    assert_eq!(said, format!("refused 18 LINKS: {hint}"));
}

#[test]
fn words_are_lent_as_links_and_back() {
    let linked = links(&ZONES).expect("they are taken");
    let stored = words(&linked).to_vec();
    let lent = node_links(&stored).expect("they are whole");
    assert_eq!(lent, linked);
    assert_eq!(lent.as_ptr().cast(), stored.as_ptr());
    assert_eq!(node_links(&[]), Ok(&[][..]));
    for left_over in 1..LINK_WORDS {
        assert_eq!(node_links(&stored[left_over..]), Err(refusal(Answer::Links)));
    }
}

/// Returns all pairs by page calls that are lent links and have room for `room` pairs. Each page
/// must be the one of a call without links.
fn paged_with_links(lists: &(Vec<Node>, Vec<Node>), fresh: Ticket, room: usize) -> Vec<Pair> {
    let (zones, samples) = lists;
    let linked = links(zones).expect("the farm is taken");
    let (mut out, mut plain) = (vec![PAIR_PAINT; room], vec![PAIR_PAINT; room]);
    let (mut found, mut ticket) = (Vec::new(), fresh);
    loop {
        let page = next_linked_page(zones, samples, &linked, ticket, &mut out);
        assert_eq!((page, &out), (next_page(zones, samples, ticket, &mut plain), &plain));
        let Page { count, done, ticket: next } = page.expect("the farm is taken");
        found.extend_from_slice(&out[..count]);
        if done {
            return found;
        }
        ticket = next;
    }
}

#[test]
fn pages_with_links_are_the_pages_without() {
    let farm = sample_farm();
    let (zones, samples) = &farm;
    let linked = links(zones).expect("the farm is taken");
    for (relation, order) in [(0, 0), (0, 1), (1, 0), (1, 1)] {
        let fresh = Ticket::from_words([relation, order, 0, 0, 0, 0]);
        let Ticket { relation, order, .. } = fresh;
        let whole = listing(zones, samples, relation, order).expect("the farm is taken");
        for room in 1..=whole.len() + 1 {
            assert_eq!(paged_with_links(&farm, fresh, room), whole);
            let buffer = vec![PAIR_PAINT; room];
            let listing = Listing::linked(zones, samples, &linked, relation, order, buffer);
            assert_eq!(listing.expect("the farm is taken").collect::<Vec<_>>(), whole);
        }
    }
}

#[test]
fn a_page_with_wrong_links_is_refused_and_leaves_the_output() {
    let linked = links(&ZONES).expect("they are taken");
    let fresh = Ticket::fresh(Relation::Directly, Order::Ancestor);
    let mut out = [PAIR_PAINT; 2];
    let mut refused = |descendants: &[Node], links: &[Link]| {
        let found = next_linked_page(&ZONES, descendants, links, fresh, &mut out);
        let listing =
            Listing::linked(&ZONES, descendants, links, fresh.relation, fresh.order, [PAIR_PAINT]);
        assert_eq!(listing.map(|_| ()), found.map(|_| ()));
        assert_eq!(out, [PAIR_PAINT; 2]);
        found.expect_err("something is wrong with it")
    };
    for place in 0..words(&linked).len() {
        let changed = with_word(&linked, place, 7);
        assert_eq!(refused(&SAMPLES, &changed), refusal(Answer::Links));
        assert_eq!(refused(&[], &changed), refusal(Answer::Links));
        assert_eq!(refused(&CROSSING, &changed), refusal(Answer::Joint));
        assert_eq!(refused(&TURNED, &changed), refusal_at(Answer::Order, DESCENDANTS, 1));
    }
    assert_eq!(refused(&SAMPLES, &linked[..1]), refusal(Answer::Links));
    assert_eq!(refused(&SAMPLES, &[]), refusal(Answer::Links));
    assert_eq!(refused(&CROSSING, &linked), refusal(Answer::Joint));
    let long = Refusal { list: Some(DESCENDANTS), ..refusal(Answer::Long) };
    assert_eq!(refused(&siblings(MOST_NODES + 1), &[]), long);
}

const BOOK: &[u8; 92] = include_bytes!("../../../examples/figure.book");
const ENTRIES: [Entry; 2] = [Entry { tag: 2, count: 2 }, Entry { tag: 3, count: 2 }];

fn farm_nodes() -> Vec<Node> {
    [ZONES, SAMPLES].concat()
}

#[test]
fn books_are_written_and_read() {
    assert_eq!(book_bytes(2, 4), BOOK.len());
    assert_eq!(book_write(&ENTRIES, &farm_nodes()), Ok(BOOK.to_vec()));
    let mut out = [9; 93];
    assert_eq!(book_write_into(&ENTRIES, &farm_nodes(), &mut out), Ok(92));
    assert_eq!((&out[..92], out[92]), (&BOOK[..], 9));
    assert_eq!(book_check(BOOK), Ok(2));
    let body = book_body(BOOK, 3).expect("the book has the tag");
    assert_eq!(body.as_ptr_range(), BOOK[60..].as_ptr_range());
    assert_eq!(body_nodes(body), SAMPLES);
}

#[test]
fn books_are_refused() {
    let nodes = [&ZONES[..], &TURNED[..]].concat();
    let entries = |first, second| [Entry { tag: first, count: 2 }, Entry { tag: second, count: 3 }];
    assert_eq!(book_write(&entries(2, 3), &nodes), Err(refusal_at(Answer::Order, 1, 1)));
    assert_eq!(book_write(&entries(3, 2), &nodes), Err(refusal(Answer::Contents)));

    let mut book = *BOOK;
    assert_eq!(book_body(&book, 4), Err(refusal(Answer::Absent)));
    assert_eq!(book_check(&book[..91]), Err(refusal(Answer::Contents)));
    book[60 + 16 + 4] = 4;
    assert_eq!(book_check(&book), Err(refusal_at(Answer::Order, 1, 1)));
    assert_eq!(book_body(&book, 2), Err(refusal_at(Answer::Order, 1, 1)));
}

/// Returns the question for all pairs of two tags.
fn all(ancestors: u32, descendants: u32) -> Question {
    Question::fresh(ancestors, descendants, Relation::Inside, Order::Descendant)
}

/// Returns three questions to the farm's book. The second asks for a tag that isn't there.
fn three_questions() -> [Question; 3] {
    let place = Place::After { document: 5, first: 2, second: 8 };
    let absent = Question { ticket: Ticket { place, ..all(0, 0).ticket }, ..all(2, 4) };
    [all(2, 3), absent, Question::fresh(2, 3, Relation::Directly, Order::Ancestor)]
}

#[test]
fn questions_share_one_output_and_a_refused_one_takes_no_room() {
    let [first, second, third] = three_questions();
    let mut out = [PAIR_PAINT; 5];
    let mut replies = ask(BOOK, &[first, second, third], &mut out[..4]).expect("three are taken");
    assert_eq!(replies.len(), 3);
    let mut next = || replies.next().expect("a reply for each question");
    let (all_pairs, absent, one_pair) = (next(), next(), next());

    let found = all_pairs.found.expect("the farm is taken");
    let shown: Vec<_> = found.pairs.iter().copied().map(starts).collect();
    assert_eq!((shown, found.done), (vec![(2, 4), (3, 4), (2, 8)], true));
    let place = Place::After { document: 5, first: 8, second: 2 };
    assert_eq!(all_pairs.ticket, Ticket { place, ..first.ticket });

    let refused = Reply { found: Err(refusal(Answer::Absent)), ticket: second.ticket };
    assert_eq!(absent, refused);

    let pairs = [Pair { ancestor: ZONES[0], descendant: SAMPLES[1] }];
    let place = Place::After { document: 5, first: 2, second: 8 };
    let found = Ok(Found { pairs: &pairs, done: false });
    assert_eq!(one_pair, Reply { found, ticket: Ticket { place, ..third.ticket } });
    assert_eq!((replies.next(), replies.next()), (None, None));
    assert_eq!((out.map(starts)[3], out[4]), ((2, 8), PAIR_PAINT));
}

/// Returns all pairs of each question, asked again and again with room for `room` pairs until each
/// is done.
fn asked_until_done(book: &[u8], mut questions: Vec<Question>, room: usize) -> Vec<Vec<Pair>> {
    let mut out = vec![PAIR_PAINT; room];
    let mut found = vec![Vec::new(); questions.len()];
    loop {
        let mut all_done = true;
        let replies = ask(book, &questions, &mut out).expect("the questions are taken");
        for ((reply, question), found) in replies.zip(&mut questions).zip(&mut found) {
            let Found { pairs, done } = reply.found.expect("the book has both tags");
            found.extend_from_slice(pairs);
            question.ticket = reply.ticket;
            all_done &= done;
        }
        if all_done {
            return found;
        }
    }
}

#[test]
fn questions_that_are_asked_until_done_have_the_pairs_of_their_listings() {
    let book = include_bytes!("../../../examples/farm.book");
    let (zones, samples) = sample_farm();
    let each = [(0, 0), (0, 1), (1, 0), (1, 1)];
    let tickets = each.map(|(relation, order)| Ticket::from_words([relation, order, 0, 0, 0, 0]));
    let questions = tickets.map(|ticket| Question { ticket, ..all(2, 3) });
    let listed = tickets.map(|Ticket { relation, order, .. }| {
        listing(&zones, &samples, relation, order).expect("the farm is taken")
    });
    for room in 1..=100 {
        assert_eq!(asked_until_done(book, questions.to_vec(), room), listed);
    }
}

#[test]
fn a_call_takes_from_no_question_to_32() {
    let counts = |questions: usize, room: usize| {
        let mut out = vec![PAIR_PAINT; room];
        let replies = ask(BOOK, &vec![all(2, 3); questions], &mut out)?;
        let counts = replies.map(|reply| reply.found.map(|found| found.pairs.len()));
        counts.collect::<Result<Vec<_>, _>>()
    };
    assert_eq!(counts(0, 1), Ok(vec![]));
    assert_eq!(counts(1, 3), Ok(vec![3]));
    assert_eq!(counts(MOST_QUESTIONS, 3), Ok([&[3][..], &[0; MOST_QUESTIONS - 1]].concat()));
    assert_eq!(counts(MOST_QUESTIONS, 100), Ok(vec![3; MOST_QUESTIONS]));
    for too_many in [MOST_QUESTIONS + 1, MOST_QUESTIONS + 2, 1_000] {
        let mut out = [PAIR_PAINT; 3];
        let refused = ask(BOOK, &vec![all(2, 3); too_many], &mut out).map(|_| ());
        assert_eq!((refused, out), (Err(refusal(Answer::Long)), [PAIR_PAINT; 3]));
    }
}

#[test]
fn each_question_is_refused_with_the_books_own_fault() {
    let mut out = [PAIR_PAINT; 3];
    let questions = three_questions();
    let mut refused = |book: &[u8], wanted: Refusal| {
        let replies = ask(book, &questions, &mut out).expect("three are taken");
        let keeps = |(reply, asked): (Reply, Question)| {
            reply == Reply { found: Err(wanted), ticket: asked.ticket }
        };
        assert_eq!(replies.len(), questions.len());
        assert!(replies.zip(questions).all(keeps));
        assert_eq!(out, [PAIR_PAINT; 3]);
    };
    refused(&BOOK[..91], refusal(Answer::Contents));
    refused(&[], refusal(Answer::Contents));
    let mut book = *BOOK;
    book[60 + 16 + 4] = 4;
    refused(&book, refusal_at(Answer::Order, 1, 1));
    let at_odds = [ENTRIES[0], Entry { tag: 3, count: 1 }, Entry { tag: 4, count: 1 }];
    let nodes = [&ZONES[..], &CROSSING, &CROSSING].concat();
    let book = book_write(&at_odds, &nodes).expect("each list is taken alone");
    refused(&book, refusal(Answer::Joint));
}

const NO_PAGE: raw::Page = raw::Page {
    verdict: raw::Verdict { answer: 0, list: 0, index: 0 },
    done: 0,
    count: 0,
    ticket: raw::Ticket { relation: 0, order: 0, placed: 0, document: 0, first: 0, second: 0 },
};

#[test]
fn words_that_make_no_whole_questions_are_ragged_and_pages_after_the_last_are_zero() {
    let question = [2, 3, 0, 9, 0, 71, 72, 73];
    let [relation, order, placed, document, first, second] = [0, 9, 0, 71, 72, 73];
    let ticket = raw::Ticket { relation, order, placed, document, first, second };
    let words = question.repeat(MOST_QUESTIONS + 2);
    let mut out = [9; 24];
    for length in [1, 7, 9, 255, 257, 263, 264, 265] {
        let answer = if length == 264 { Answer::Long } else { Answer::Ragged }.number();
        let found = raw::ask(BOOK, &words[..length], &mut out);
        assert_eq!((found.answer, found.questions, out), (answer, 0, [9; 24]));
        let (refused, none) = found.pages.split_at((length / 8).min(MOST_QUESTIONS));
        let verdict = raw::Verdict { answer, list: 0, index: 0 };
        assert!(refused.iter().all(|page| *page == raw::Page { verdict, ticket, ..NO_PAGE }));
        assert!(none.iter().all(|page| *page == NO_PAGE));
    }
    let found = raw::ask(BOOK, &words[..16], &mut out);
    assert_eq!((found.answer, found.questions), (0, 2));
    assert_eq!((found.pages[0].count, found.pages[1].count), (3, 0));
    assert_eq!(found.pages[1], raw::Page { ticket, ..NO_PAGE });
    assert_eq!(found.pages[2..], [NO_PAGE; 30]);
}

#[test]
fn a_question_is_eight_words() {
    let place = Place::After { document: 5, first: 0x0102_0304, second: u32::MAX };
    let ticket = Ticket { relation: Relation::Directly, order: Order::Ancestor, place };
    let question = Question { ancestors: 7, descendants: u32::MAX, ticket };
    let both = [question, all(2, 3)].map(raw::Question::from);
    let expected = [7, u32::MAX, 1, 1, 1, 5, 0x0102_0304, u32::MAX, 2, 3, 0, 0, 0, 0, 0, 0];
    assert_eq!(words(&both), expected);
}

#[test]
fn words_are_lent_as_nodes_and_rows_and_back() {
    let list = [5, 2, 10, 2, 5, 3, 7, 3];
    let lent = nodes(&list).expect("the words make whole nodes");
    assert_eq!(lent, ZONES);
    assert_eq!(words(lent).as_ptr_range(), list.as_ptr_range());
    assert_eq!(words(&ZONES), list);
    assert_eq!(rows(words(&TABLE)), Ok(&TABLE[..]));
    let pair = Pair { ancestor: ZONES[0], descendant: ZONES[1] };
    assert_eq!(words(&[pair]), list);
    assert_eq!(words(&ENTRIES), [2, 2, 3, 2]);
    let mut out = [NODE_PAINT; 2];
    raw::words_mut(&mut out).copy_from_slice(&list);
    assert_eq!(out, ZONES);
}

#[test]
fn pairs_have_the_keys_of_both_orders() {
    let pair = Pair { ancestor: ZONES[0], descendant: SAMPLES[1] };
    assert_eq!(pair.key(Order::Descendant), [5, 8, 2]);
    assert_eq!(pair.key(Order::Ancestor), [5, 2, 8]);
}
