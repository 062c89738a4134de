//! What users did by mistake, and lost samples by, each under its name.

use belfrychest::*;

const INSIDE: Relation = Relation::Inside;
const BY_SAMPLES: Order = Order::Descendant;

fn node(start: u32, end: u32, level: u32) -> Node {
    Node { document: 5, start, end, level }
}

fn refusal(answer: Answer) -> Refusal {
    Refusal { answer, list: None, index: None }
}

/// Returns a field of 4,500 zones side by side, which is a zone itself, and a sample in each of
/// them.
fn field() -> (Vec<Node>, Vec<Node>) {
    let starts = || (1..=4_500).map(|number| 10 * number);
    let zones = starts().map(|start| node(start, start + 9, 2));
    let samples = starts().map(|start| node(start + 1, start + 1, 3));
    ([node(0, 50_000, 1)].into_iter().chain(zones).collect(), samples.collect())
}

#[test]
fn lists_that_are_cut_and_joined_piece_by_piece_lose_pairs() {
    let (zones, samples) = field();
    let pieces = zones.chunks(MOST_NODES).zip(samples.chunks(MOST_NODES));
    let joined = pieces.map(|(z, s)| listing(z, s, INSIDE, BY_SAMPLES).expect("taken").len());
    assert_eq!(joined.sum::<usize>(), 8_595);

    let found = Pieces::new(&zones, &samples).listing(INSIDE, BY_SAMPLES).expect("taken");
    let with_both = |sample: &Node| {
        let small = zones[sample.start as usize / 10];
        [zones[0], small].map(|ancestor| Pair { ancestor, descendant: *sample })
    };
    let all: Vec<Pair> = samples.iter().flat_map(with_both).collect();
    assert_eq!(found.len(), 9_000);
    assert_eq!(found, all);
}

#[test]
fn lists_that_are_cut_are_found_whole_in_every_listing_and_page() {
    let (zones, samples) = field();
    let pieces = Pieces::new(&zones, &samples);
    for (relation, order, count) in [
        (INSIDE, Order::Descendant, 9_000),
        (INSIDE, Order::Ancestor, 9_000),
        (Relation::Directly, Order::Descendant, 4_500),
        (Relation::Directly, Order::Ancestor, 4_500),
    ] {
        let found = pieces.listing(relation, order).expect("the field is taken");
        assert_eq!(found.len(), count);
        assert!(found.windows(2).all(|two| two[0].key(order) < two[1].key(order)));
    }
    let mut out = [Pair::default(); PAGE_PAIRS];
    let page = pieces.page(Ticket::fresh(INSIDE, BY_SAMPLES), &mut out).expect("taken");
    assert_eq!((page.count, page.done), (PAGE_PAIRS, false));
}

#[test]
fn the_pieces_that_meet_have_every_pair_once() {
    let (mut zones, samples) = field();
    zones.push(Node { document: 6, start: 0, end: 9, level: 1 });
    let meeting = Pieces::new(&zones, &samples).meeting().expect("the field is taken");
    assert_eq!(meeting.len(), 4);
    let list = |(z, s): &(&[Node], &[Node])| listing(z, s, INSIDE, BY_SAMPLES).expect("taken");
    let mut found: Vec<Pair> = meeting.iter().flat_map(list).collect();
    found.sort_by_key(|pair| pair.key(BY_SAMPLES));
    let whole = Pieces::new(&zones, &samples).listing(INSIDE, BY_SAMPLES);
    assert_eq!(Ok(found), whole);
}

#[test]
fn pieces_of_other_documents_do_not_meet() {
    let of_document = |document: u32| move |node: Node| Node { document, ..node };
    let (zones, samples) = field();
    let twice = |list: &[Node]| -> Vec<Node> {
        let again = list.iter().copied().map(of_document(9));
        list.iter().copied().chain(again).collect()
    };
    let (zones, samples) = (twice(&zones[..MOST_NODES]), twice(&samples[..MOST_NODES]));
    let meeting = Pieces::new(&zones, &samples).meeting().expect("the fields are taken");
    let documents: Vec<_> = meeting.iter().map(|(z, s)| (z[0].document, s[0].document)).collect();
    assert_eq!(documents, [(5, 5), (9, 9)]);
}

/// Returns what the pieces of a field say of its zones after a change, while each piece alone is
/// taken.
fn refused_after(change: impl Fn(&mut Vec<Node>)) -> Refusal {
    let (mut zones, samples) = field();
    change(&mut zones);
    assert!(zones.chunks(MOST_NODES).all(|piece| check(piece).is_ok()), "seen by a piece alone");
    let refused = Pieces::new(&zones, &samples).check().expect_err("the zones are at fault");
    assert_eq!(Pieces::new(&zones, &samples).listing(INSIDE, BY_SAMPLES), Err(refused));
    assert_eq!(Pieces::new(&zones, &samples).meeting(), Err(refused));
    refused
}

fn at(answer: Answer, index: usize) -> Refusal {
    Refusal { answer, list: Some(ANCESTORS), index: Some(index) }
}

#[test]
fn a_cross_at_the_cut_is_found() {
    let last_ends_late = refused_after(|zones| zones[MOST_NODES - 1].end += 2);
    assert_eq!(last_ends_late, at(Answer::Cross, MOST_NODES));
    let field_ends_early = refused_after(|zones| zones[0].end = zones[4_400].start + 5);
    assert_eq!(field_ends_early, at(Answer::Cross, 4_400));
}

#[test]
fn a_wrong_depth_or_order_at_the_cut_is_found() {
    assert_eq!(refused_after(|zones| zones[4_400].level = 1), at(Answer::Depth, 4_400));
    let again = refused_after(|zones| zones[MOST_NODES] = zones[MOST_NODES - 1]);
    assert_eq!(again, at(Answer::Order, MOST_NODES));
}

#[test]
fn a_sample_that_crosses_a_zone_of_another_piece_is_found() {
    let (zones, mut samples) = field();
    samples[MOST_NODES - 1].end = zones[MOST_NODES].end + 1;
    let piece_by_piece = zones.chunks(MOST_NODES).zip(samples.chunks(MOST_NODES));
    assert!(piece_by_piece.clone().all(|(z, s)| check_two(z, s).is_ok()));
    assert_eq!(Pieces::new(&zones, &samples).check(), Err(refusal(Answer::Joint)));
}

#[test]
fn a_page_with_room_for_no_pair_is_refused() {
    let (zones, samples) = ([node(2, 10, 2)], [node(4, 6, 4)]);
    let room = refusal(Answer::Room);
    let fresh = Ticket::fresh(INSIDE, BY_SAMPLES);
    let place = Place::After { document: u32::MAX, first: u32::MAX, second: u32::MAX };
    for ticket in [fresh, Ticket { place, ..fresh }] {
        assert_eq!(next_page(&zones, &samples, ticket, &mut []), Err(room));
        assert_eq!(Pieces::new(&zones, &samples).page(ticket, &mut []), Err(room));
    }
    assert_eq!(next_linked_page(&zones, &samples, &[], fresh, &mut []), Err(room));
    let listing = |samples| Listing::new(&zones, samples, INSIDE, BY_SAMPLES, []).map(|_| ());
    assert_eq!(listing(&samples), Err(room));
    assert_eq!(listing(&[]), Err(room));
    let asked = |questions: &[Question]| ask(&[], questions, &mut []).map(|_| ());
    assert_eq!(asked(&[Question::fresh(2, 3, INSIDE, BY_SAMPLES)]), Err(room));
    assert_eq!(asked(&[]), Err(room));
}

/// Tries links that were made before the zones were edited, and those of the samples. The ticket is
/// still good, and the listing goes on with links that are made anew, or without any.
#[test]
fn links_from_before_an_edit_are_refused() {
    let mut zones = vec![node(2, 30, 2), node(3, 7, 3), node(9, 20, 3), node(10, 15, 4)];
    let samples = [node(4, 6, 4), node(11, 12, 5), node(16, 17, 4), node(21, 22, 3)];
    let before = links(&zones).expect("the zones are taken");
    let mut out = [Pair::default(); 5];
    let fresh = Ticket::fresh(INSIDE, BY_SAMPLES);
    let first = next_linked_page(&zones, &samples, &before, fresh, &mut out[..2]);
    let Page { count, done, ticket } = first.expect("the zones are taken");
    assert_eq!((count, done), (2, false));

    zones[3] = node(23, 25, 3);
    let of_samples = links(&samples).expect("the samples are taken");
    for wrong in [before, of_samples] {
        let refused = next_linked_page(&zones, &samples, &wrong, ticket, &mut out);
        assert_eq!(refused, Err(refusal(Answer::Links)));
    }
    let anew = links(&zones).expect("the zones are taken");
    let linked = next_linked_page(&zones, &samples, &anew, ticket, &mut out);
    let plain = next_page(&zones, &samples, ticket, &mut [Pair::default(); 5]);
    assert_eq!(linked, plain);
    assert_eq!(linked.map(|page| (page.count, page.done)), Ok((5, true)));
}

/// Tries a question to a list that the book doesn't have, between one whose list is empty and one
/// with pairs. The first has no pairs, and the second is refused.
#[test]
fn a_refused_question_is_not_one_without_pairs() {
    let lists = [(2, 1), (3, 1), (4, 0)].map(|(tag, count)| Entry { tag, count });
    let book = book_write(&lists, &[node(2, 10, 2), node(4, 6, 4)]).expect("both are taken");
    let questions = [4, 5, 3].map(|tag| Question::fresh(2, tag, INSIDE, BY_SAMPLES));
    let mut out = [Pair::default(); 2];
    let replies = ask(&book, &questions, &mut out).expect("three questions are taken");
    let counts = replies.map(|reply| reply.found.map(|found| (found.pairs.len(), found.done)));
    let absent = Err(refusal(Answer::Absent));
    assert_eq!(counts.collect::<Vec<_>>(), [Ok((0, true)), absent, Ok((1, true))]);
}

/// Tries what was once sown at the sand's rate: a missing reading was taken for 0, and 0 was read
/// as bare sand.
#[test]
fn a_missing_reading_is_not_zero() {
    let (zones, samples) = ([node(2, 10, 2)], [node(4, 6, 4), node(8, 9, 3)]);
    let range = |readings: [Reading; 2]| zone_range(&zones, &samples, &readings, 0);
    let only = |percent| Ok(Some(Range { low: percent, high: percent }));
    assert_eq!(range([Reading::Missing; 2]), Ok(None));
    assert_eq!(range([Reading::Missing, Reading::Percent(4.5)]), only(4.5));
    assert_eq!(range([Reading::Missing, Reading::Percent(0.0)]), only(0.0));
}

/// Tries the same in a sheet. A 0 that stands in for a missing reading counts as present.
#[test]
fn a_missing_reading_does_not_count_in_a_sheet() {
    let (zones, samples) = ([node(2, 10, 2)], [node(4, 6, 4), node(8, 9, 3)]);
    let subtotals = |hundredths: [Hundredths; 2]| sheet(&zones, &samples, &hundredths);
    let only = |present, sum| Ok(vec![Subtotal { samples: 2, present, sum }]);
    assert_eq!(subtotals([Hundredths::MISSING, Hundredths(450)]), only(1, 450));
    assert_eq!(subtotals([Hundredths(0), Hundredths(450)]), only(2, 450));
    assert_eq!(subtotals([Hundredths::MISSING; 2]), only(0, 0));
}

#[test]
fn a_ticket_of_another_form_is_told() {
    let place = Place::After { document: 5, first: 0x0102_0304, second: u32::MAX };
    let ticket = Ticket { relation: Relation::Directly, order: Order::Ancestor, place };
    let stored = [
        1, 0, 0, 0, 1, 0, 0, 0, 1, 0, 0, 0, 1, 0, 0, 0, 5, 0, 0, 0, 4, 3, 2, 1, 255, 255, 255, 255,
    ];
    assert_eq!(ticket.to_bytes(), stored);
    assert_eq!(Ticket::from_bytes(&stored), Ok(ticket));
    let fresh = Ticket::fresh(INSIDE, BY_SAMPLES);
    assert_eq!(Ticket::from_bytes(&fresh.to_bytes()), Ok(fresh));

    let mut later = stored;
    later[0] = 2;
    let said = |stored: &[u8]| Ticket::from_bytes(stored).map_err(|error| error.to_string());
    let other_form = "the ticket was stored in form 2, and this is form 1";
    assert_eq!(said(&later), Err(other_form.to_string()));
    let other_length = "a stored ticket has 28 bytes, and these are 24";
    assert_eq!(said(&stored[4..]), Err(other_length.to_string()));
    assert_eq!(Ticket::from_bytes(&[]), Err(StoredTicketError::Length(0)));
}

#[test]
fn words_that_are_no_whole_nodes_are_ragged() {
    let list = [5, 2, 10, 2, 5, 3, 7, 3];
    for left_over in 1..NODE_WORDS {
        assert_eq!(nodes(&list[left_over..]), Err(refusal(Answer::Ragged)));
        assert_eq!(rows(&list[left_over..]).is_ok(), list.len() - left_over == ROW_WORDS);
    }
    assert_eq!(nodes(&[]), Ok(&[][..]));
}
