//! The figures of docs/SCOPE.md, word for word, of the library and of the model alike. Lengths and
//! the largest book are tried in `limits.rs`, most figures of readings in `ranges.rs`, and limits
//! of the sheet in `sheets.rs`.

use belfrychest::raw::{self, Question, Ticket};
use outside::asking::{self, TAKEN};
use outside::making::books::{empty_lists, shared_out};
use outside::making::marks::FIGURE;
use outside::making::tickets::FRESH;
use outside::model::answers::Answer::{self, *};
use outside::model::books::bytes;
use outside::model::links::NONE;
use outside::model::marks::ROW_WORDS;
use outside::model::nodes::{nodes, NODE_WORDS};
use outside::model::pages::{Pair, PAIR_WORDS};
use outside::model::printing::printed;
use outside::model::sheets::{NO_HUNDREDTHS, SUBTOTAL_WORDS};
use outside::process::print;

const DOCUMENT: u32 = 5;
const BOOK: &[u8] = include_bytes!("../../examples/figure.book");

/// Returns a list of document 5 from (start, end, level).
fn list(nodes: &[[u32; 3]]) -> Vec<u32> {
    nodes.iter().flat_map(|&[start, end, level]| [DOCUMENT, start, end, level]).collect()
}

fn zones() -> Vec<u32> {
    list(&[[2, 10, 2], [3, 7, 3]])
}

fn samples() -> Vec<u32> {
    list(&[[4, 6, 4], [8, 9, 3]])
}

/// Returns the zones that the scope calls E, of which three end at 6.
fn zones_with_one_end() -> Vec<u32> {
    list(&[[1, 9, 1], [2, 6, 2], [4, 6, 3], [5, 6, 4]])
}

/// Returns the samples T. The second stands where those three zones end, and the third where the
/// first zone ends.
fn samples_at_ends() -> Vec<u32> {
    list(&[[3, 3, 3], [6, 6, 5], [9, 9, 2]])
}

fn ticket(relation: u32, order: u32) -> Ticket {
    Ticket { relation, order, ..FRESH }
}

/// Returns the starts of the pairs of one page, whether it was done, and the ticket for the next.
fn page(
    ancestors: &[u32],
    descendants: &[u32],
    ticket: Ticket,
    room: usize,
) -> (Vec<[u32; 2]>, bool, Ticket) {
    let mut out = vec![0; room * PAIR_WORDS];
    asking::list(ancestors, descendants, ticket, &mut out);
    let page = raw::list(ancestors, descendants, ticket, &mut out);
    assert_eq!(page.verdict.answer, Taken as u32);
    let starts = out
        .chunks(PAIR_WORDS)
        .take(page.count)
        .map(|pair| [pair[1], pair[NODE_WORDS + 1]])
        .collect();
    (starts, page.done == 1, page.ticket)
}

/// Fails unless the list draws this answer at this index.
fn draws(nodes: &[[u32; 3]], answer: Answer, index: u32) {
    assert_eq!(asking::check(&list(nodes)), answer);
    assert_eq!(raw::check(&list(nodes)), raw::Verdict { answer: answer as u32, list: 0, index });
}

#[test]
fn marks_number_to_the_table_and_come_back() {
    let rows = [
        [5, 1, 11, 1, 1],
        [5, 2, 10, 2, 2],
        [5, 3, 7, 3, 2],
        [5, 4, 6, 4, 3],
        [5, 5, 5, 5, 65_536],
        [5, 8, 9, 3, 3],
    ]
    .concat();
    let mut out = vec![0; rows.len()];
    assert_eq!(asking::number(DOCUMENT, &FIGURE, &mut out), Taken);
    assert_eq!(raw::number(DOCUMENT, &FIGURE, &mut out).count, rows.len() / ROW_WORDS);
    assert_eq!(out, rows);
    let mut back = [0; FIGURE.len()];
    assert_eq!(asking::unnumber(&rows, &mut back), Taken);
    assert_eq!(
        raw::unnumber(&rows, &mut back),
        raw::Unnumbered { answer: 0, document: DOCUMENT, count: FIGURE.len() }
    );
    assert_eq!(back, FIGURE);
    for (tag, nodes) in [(2, zones()), (3, samples())] {
        let mut picked = vec![0; nodes.len()];
        assert_eq!(asking::pick(&rows, tag, &mut picked), Taken);
        assert_eq!(picked, nodes);
    }
}

#[test]
fn pairs_come_in_both_orders_and_relations() {
    let listed = |relation, order| page(&zones(), &samples(), ticket(relation, order), 4).0;
    assert_eq!(listed(0, 0), [[2, 4], [3, 4], [2, 8]]);
    assert_eq!(listed(0, 1), [[2, 4], [2, 8], [3, 4]]);
    assert_eq!(listed(1, 0), [[3, 4], [2, 8]]);
    assert_eq!(listed(1, 1), [[2, 8], [3, 4]]);
}

/// Returns a list of document 5 from (order, size, level).
fn by_order_and_size(nodes: &[[u32; 3]]) -> Vec<u32> {
    list(
        &nodes.iter().map(|&[order, size, level]| [order, order + size, level]).collect::<Vec<_>>(),
    )
}

/// Tries the ranges and points of Li and Moon, of which the last range ends where the first does.
/// All six make one list too.
#[test]
fn a_list_by_order_and_size() {
    let both = [[[1, 8, 1], [4, 2, 2], [7, 2, 2]], [[2, 0, 2], [5, 0, 3], [8, 0, 3]]];
    let mut all = both.concat();
    all.sort_by_key(|&[order, ..]| order);
    assert_eq!(asking::check(&by_order_and_size(&all)), Taken);
    let [ranges, points] = both.map(|nodes| by_order_and_size(&nodes));
    let listed = |relation, order| page(&ranges, &points, ticket(relation, order), 6).0;
    assert_eq!(asking::check_two(&ranges, &points), Taken);
    assert_eq!(listed(0, 0), [[1, 2], [1, 5], [4, 5], [1, 8], [7, 8]]);
    assert_eq!(listed(0, 1), [[1, 2], [1, 5], [1, 8], [4, 5], [7, 8]]);
    assert_eq!(listed(1, 0), [[1, 2], [4, 5], [7, 8]]);
    assert_eq!(listed(1, 1), [[1, 2], [4, 5], [7, 8]]);
}

/// Follows each listing of three zones that end at one position: all at once, and pair by pair.
#[test]
fn three_zones_that_end_at_one_position() {
    let (zones, samples) = (zones_with_one_end(), samples_at_ends());
    let listings = [
        (0, 0, vec![[1, 3], [2, 3], [1, 6], [2, 6], [4, 6], [5, 6], [1, 9]]),
        (0, 1, vec![[1, 3], [1, 6], [1, 9], [2, 3], [2, 6], [4, 6], [5, 6]]),
        (1, 0, vec![[2, 3], [5, 6], [1, 9]]),
        (1, 1, vec![[1, 9], [2, 3], [5, 6]]),
    ];
    for (relation, order, pairs) in listings {
        let mut next = ticket(relation, order);
        assert_eq!(page(&zones, &samples, next, 8).0, pairs);
        for (place, &pair) in pairs.iter().enumerate() {
            let (listed, done, after) = page(&zones, &samples, next, 1);
            assert_eq!((listed, done), (vec![pair], place + 1 == pairs.len()));
            next = after;
        }
    }
}

/// Follows two pages, of which the first stops between zones that end at one position. The second
/// is the same if the last zone handed out is removed in between.
#[test]
fn pages_that_stop_between_zones_with_one_end() {
    let (zones, samples) = (zones_with_one_end(), samples_at_ends());
    let fewer_zones = list(&[[1, 9, 1], [4, 6, 3], [5, 6, 4]]);
    let pages = [
        (0, 4, vec![[1, 3], [2, 3], [1, 6], [2, 6]], vec![[4, 6], [5, 6], [1, 9]]),
        (1, 5, vec![[1, 3], [1, 6], [1, 9], [2, 3], [2, 6]], vec![[4, 6], [5, 6]]),
    ];
    for (order, room, first, second) in pages {
        let (listed, done, next) = page(&zones, &samples, ticket(0, order), room);
        assert_eq!((listed, done), (first, false));
        for zones in [&zones, &fewer_zones] {
            let (listed, done, _) = page(zones, &samples, next, room);
            assert_eq!((listed, done), (second.clone(), true));
        }
    }
}

#[test]
fn two_pages_of_room_two() {
    let (first, done, next) = page(&zones(), &samples(), ticket(0, 0), 2);
    assert_eq!((first, done), (vec![[2, 4], [3, 4]], false));
    let (second, done, _) = page(&zones(), &samples(), next, 2);
    assert_eq!((second, done), (vec![[2, 8]], true));
}

#[test]
fn zones_joined_with_themselves() {
    assert_eq!(page(&zones(), &zones(), ticket(0, 0), 4).0, [[2, 3]]);
}

/// Returns what a zone answers: the bits of its low and high, or none.
fn range(zones: &[u32], samples: &[u32], readings: &[u32], zone: u32) -> Option<[u32; 2]> {
    let expected = asking::zone_range(zones, samples, readings, zone);
    assert_eq!(expected.verdict.answer, Taken);
    expected.bounds.map(|bounds| bounds.map(f32::to_bits))
}

/// Gives the first sample 4.5 percent or no reading, and the second 38 grams, which are 3.8
/// percent. A zone whose only sample has no reading has no number, and never 0.
#[test]
fn a_zone_without_a_reading_has_none() {
    let [percent, grams] = [4.5_f32, 38.0].map(f32::to_bits);
    let [low, high] = [3.8_f32, 4.5].map(f32::to_bits);
    let of_zone = |readings: [u32; 4], zone| range(&zones(), &samples(), &readings, zone);
    assert_eq!(of_zone([1, percent, 2, grams], 0), Some([low, high]));
    assert_eq!(of_zone([1, percent, 2, grams], 1), Some([high, high]));
    assert_eq!(of_zone([0, 0, 2, grams], 0), Some([low, low]));
    assert_eq!(of_zone([0, 0, 2, grams], 1), None);
    assert_eq!(of_zone([1, 0, 2, grams], 1), Some([0, 0]));
}

/// Gives the samples 10, 20 and 30 percent. Only the two outer zones have the first of them.
#[test]
fn ranges_of_zones_with_one_end() {
    let [ten, twenty, thirty] = [10.0_f32, 20.0, 30.0].map(f32::to_bits);
    let readings = [1, ten, 1, twenty, 1, thirty];
    let expected = [[ten, thirty], [ten, twenty], [twenty, twenty], [twenty, twenty]];
    for (zone, bounds) in expected.into_iter().enumerate() {
        let found = range(&zones_with_one_end(), &samples_at_ends(), &readings, zone as u32);
        assert_eq!(found, Some(bounds));
    }
}

/// Returns the words of a sheet that is taken.
fn sheet(zones: &[u32], samples: &[u32], hundredths: &[u32]) -> Vec<u32> {
    let mut out = vec![0; SUBTOTAL_WORDS * (zones.len() / NODE_WORDS)];
    assert_eq!(asking::sheet(zones, samples, hundredths, &mut out), Taken);
    raw::sheet(zones, samples, hundredths, &mut out);
    out
}

/// Gives the samples 450 and 380 hundredths, or leaves out one of them or both. Then there are no
/// samples, and then the zones are the samples too.
#[test]
fn a_sheet_of_the_zones() {
    let of = |hundredths: [u32; 2]| sheet(&zones(), &samples(), &hundredths);
    assert_eq!(of([450, 380]), [2, 2, 830, 1, 1, 450]);
    assert_eq!(of([NO_HUNDREDTHS, 380]), [2, 1, 380, 1, 0, 0]);
    assert_eq!(of([NO_HUNDREDTHS, NO_HUNDREDTHS]), [2, 0, 0, 1, 0, 0]);
    assert_eq!(sheet(&zones(), &[], &[]), [0; 6]);
    assert_eq!(sheet(&zones(), &zones(), &[100, 20]), [1, 1, 20, 0, 0, 0]);
}

#[test]
fn sheets_that_are_refused() {
    let draws = |hundredths: &[u32], room: usize| {
        asking::sheet(&zones(), &samples(), hundredths, &mut vec![0; room])
    };
    assert_eq!(draws(&[450, 380], 6), Taken);
    assert_eq!(draws(&[450, 380], 5), Room);
    for word in [10_001, 65_534, 65_536, 4_294_967_295] {
        assert_eq!(draws(&[450, word], 5), Reading);
        assert_eq!(draws(&[word], 6), Ragged);
        assert_eq!(asking::sheet(&[], &samples(), &[word, 0], &mut []), Reading);
    }
    assert_eq!(draws(&[450], 6), Ragged);
    assert_eq!(draws(&[450, 380, 0], 6), Ragged);
    let at_odds = list(&[[4, 12, 2]]);
    assert_eq!(asking::sheet(&list(&[[1, 9, 1]]), &at_odds, &[], &mut [0; 3]), Joint);
}

/// Gives the samples 10, 20 and 30 percent.
#[test]
fn a_sheet_of_zones_with_one_end() {
    let found = sheet(&zones_with_one_end(), &samples_at_ends(), &[1_000, 2_000, 3_000]);
    assert_eq!(found, [3, 3, 6_000, 2, 2, 3_000, 1, 1, 2_000, 1, 1, 2_000]);
}

#[test]
fn links_of_the_zones() {
    let mut out = [0; 6];
    assert_eq!(asking::links(&zones(), &mut out), Taken);
    assert_eq!(out, [NONE, 1, NONE, 0, NONE, NONE]);
    let mut out = [0; 12];
    assert_eq!(asking::links(&zones_with_one_end(), &mut out), Taken);
    assert_eq!(out, [NONE, 1, NONE, 0, 2, NONE, 1, 3, NONE, 2, NONE, NONE]);
}

/// Lends the links of the zones to the check and to pages of two pairs, then each other length, and
/// links of other zones.
#[test]
fn links_that_are_lent() {
    let links = [NONE, 1, NONE, 0, NONE, NONE, NONE];
    let lend = |links: &[u32], ticket: Ticket| {
        let page =
            asking::list_linked(&zones(), &samples(), links, ticket, &mut [0; 2 * PAIR_WORDS]);
        let starts = |pair: &Pair| [pair.ancestor.start, pair.descendant.start];
        let found: Vec<[u32; 2]> = page.pairs.iter().map(starts).collect();
        (page.verdict.answer, found, page.done)
    };
    assert_eq!(asking::links_check(&zones(), &links[..6]), Taken);
    assert_eq!(lend(&links[..6], ticket(0, 0)), (Taken, vec![[2, 4], [3, 4]], false));
    let second = Ticket { placed: 1, document: 5, first: 4, second: 3, ..FRESH };
    assert_eq!(lend(&links[..6], second), (Taken, vec![[2, 8]], true));
    for length in [0, 1, 3, 5, 7] {
        assert_eq!(asking::links_check(&zones(), &links[..length]), Links);
        assert_eq!(lend(&links[..length], ticket(0, 0)), (Links, vec![], false));
    }
    let side_by_side = [NONE, NONE, 1, NONE, NONE, NONE];
    assert_eq!(lend(&side_by_side, second), (Links, vec![], false));
    assert_eq!(asking::links_check(&samples(), &side_by_side), Taken);
    assert_eq!(asking::links_check(&[], &[]), Taken);
    assert_eq!(asking::links_check(&[], &links[..3]), Links);
    assert_eq!(asking::links_check(&zones()[..7], &links[..6]), Ragged);
    assert_eq!(asking::links_check(&list(&[[1, 5, 1], [5, 7, 2]]), &links[..6]), Cross);
}

#[test]
fn book_of_zones_and_samples() {
    let nodes = [zones(), samples()].concat();
    let mut book = [0; 92];
    assert_eq!(asking::book_write(&[2, 2, 3, 2], &nodes, &mut book), Taken);
    assert_eq!(book, BOOK);
    for (tag, from) in [(2, 28), (3, 60)] {
        assert_eq!(asking::book_body(BOOK, tag), Taken);
        assert_eq!(raw::book_body(BOOK, tag), raw::Body { verdict: TAKEN, from, bytes: 32 });
    }
    assert_eq!(printed(BOOK), "5 2 4\n5 3 4\n5 2 8\npairs 3\n");
    assert_eq!(printed(b""), "refused 15 CONTENTS\n");
}

/// Fails unless the program and the model both print this of a book.
fn is_printed(book: &[u8], text: &str) {
    assert_eq!((&print(book)[..], &printed(book)[..]), (text, text), "of {} bytes", book.len());
}

#[test]
fn books_with_many_lists() {
    for (count, size) in [(16, 196), (17, 208), (64, 772)] {
        let (entries, book) = empty_lists(count);
        let mut written = vec![0; size];
        assert_eq!(asking::book_write(&entries, &[], &mut written), Taken);
        assert_eq!(written, book);
        assert_eq!(asking::book_check(&book), Taken);
        assert_eq!(raw::book_check(&book), raw::Book { verdict: TAKEN, lists: count });
        is_printed(&book, "pairs 0\n");
    }
    let (entries, book) = empty_lists(65);
    assert_eq!(asking::book_check(&book), Contents);
    assert_eq!(asking::book_write(&entries, &[], &mut vec![0; book.len()]), Contents);
    is_printed(&book, "refused 15 CONTENTS\n");
}

/// Tries books in which the first node is a zone around all others, and some bytes after them.
#[test]
fn books_with_many_lists_at_the_size_that_is_printed() {
    let lines = |pairs: u32| {
        let lines = (100..100 + pairs).map(|start| format!("5 0 {start}\n"));
        lines.chain([format!("pairs {pairs}\n")]).collect::<String>()
    };
    let [contents, long] = ["refused 15 CONTENTS\n", "refused 2 LONG\n"].map(String::from);
    for (lists, nodes, after, size, answer, text) in [
        (64, 3_791, 0, 61_428, Taken, lines(60)),
        (64, 3_791, 12, 61_440, Contents, contents),
        (64, 3_791, 13, 61_441, Contents, long.clone()),
        (64, 3_792, 0, 61_444, Taken, long.clone()),
        (61, 3_794, 0, 61_440, Taken, lines(63)),
        (61, 3_794, 1, 61_441, Contents, long),
    ] {
        let book = [bytes(&shared_out(lists, nodes)), vec![0; after]].concat();
        assert_eq!((book.len(), asking::book_check(&book)), (size, answer));
        is_printed(&book, &text);
    }
}

/// Returns a book of the zones, the samples and one more list, which has this tag.
fn book_with(tag: u32, list: Vec<u32>) -> Vec<u8> {
    bytes(&[(2, zones()), (3, samples()), (tag, list)].map(|(tag, list)| (tag, nodes(&list))))
}

/// Returns the book that is asked in the scope.
fn asked_book() -> Vec<u8> {
    book_with(4, list(&[[4, 12, 2]]))
}

/// Returns the words of questions about these tags: by inside, in descendant order and with fresh
/// tickets.
fn about(tags: &[[u32; 2]]) -> Vec<u32> {
    let question =
        |&[ancestors, descendants]: &[u32; 2]| Question { ancestors, descendants, ticket: FRESH };
    raw::words(&tags.iter().map(question).collect::<Vec<_>>()).to_vec()
}

/// What a question draws: its verdict, the starts of its pairs, and whether it is done.
type Drawn = (raw::Verdict, Vec<[u32; 2]>, bool);

/// Returns what each of these questions draws, with an output of `room` words.
fn drawn(book: &[u8], tags: &[[u32; 2]], room: usize) -> Vec<Drawn> {
    let (asked, mut out) = (about(tags), vec![0; room]);
    asking::ask(book, &asked, &mut out);
    let given = raw::ask(book, &asked, &mut out);
    assert_eq!((given.answer, given.questions as usize), (Taken as u32, tags.len()));
    let mut starts = out.chunks_exact(PAIR_WORDS).map(|pair| [pair[1], pair[NODE_WORDS + 1]]);
    let pages = &given.pages[..tags.len()];
    pages
        .iter()
        .map(|page| (page.verdict, starts.by_ref().take(page.count).collect(), page.done == 1))
        .collect()
}

fn is_taken(pairs: &[[u32; 2]], done: bool) -> Drawn {
    (TAKEN, pairs.to_vec(), done)
}

fn is_refused(answer: Answer, list: u32, index: u32) -> Drawn {
    (raw::Verdict { answer: answer as u32, list, index }, vec![], false)
}

#[test]
fn several_questions_to_a_book() {
    let drawn = |tags: &[[u32; 2]], room| drawn(&asked_book(), tags, room);
    let all = is_taken(&[[2, 4], [3, 4], [2, 8]], true);
    let room = 7 * PAIR_WORDS;
    assert_eq!(drawn(&[[2, 3]], room), [all.clone()]);
    assert_eq!(drawn(&[[2, 3]; 2], room), [all.clone(), all.clone()]);
    for (room, second) in [(24, vec![]), (32, vec![[2, 4]]), (37, vec![[2, 4]])] {
        assert_eq!(drawn(&[[2, 3]; 2], room), [all.clone(), is_taken(&second, false)]);
    }
    for (tag, answer) in [(5, Absent), (4, Joint)] {
        let between = is_refused(answer, 0, 0);
        let expected = [all.clone(), between, all.clone()];
        assert_eq!(drawn(&[[2, 3], [2, tag], [2, 3]], room), expected);
    }
    assert_eq!(drawn(&[[2, 2]], room), [is_taken(&[[2, 3]], true)]);
}

/// Asks a book without a byte too, whose fault comes after the number of questions and words.
#[test]
fn numbers_of_questions() {
    for book in [asked_book(), vec![]] {
        let answer = |words: &[u32]| asking::ask(&book, words, &mut [0; 24]).answer;
        assert_eq!(answer(&[]), Taken);
        assert_eq!(answer(&about(&[[2, 3]; 32])), Taken);
        assert_eq!(answer(&about(&[[2, 3]; 33])), Long);
        assert_eq!(answer(&[about(&[[2, 3]]), vec![2]].concat()), Ragged);
    }
}

#[test]
fn questions_to_a_faulty_book() {
    let faulty = book_with(7, list(&[[1, 9, 3], [2, 3, 3]]));
    for tags in [vec![[2, 3]], vec![[2, 3], [2, 2], [2, 5], [3, 2]], vec![[2, 3]; 32]] {
        assert_eq!(drawn(&faulty, &tags, 24), vec![is_refused(Depth, 2, 1); tags.len()]);
        assert_eq!(drawn(&[], &tags, 24), vec![is_refused(Contents, 0, 0); tags.len()]);
    }
}

#[test]
fn lists_that_cross_or_sink() {
    draws(&[[1, 5, 1], [5, 7, 2]], Cross, 1);
    draws(&[[1, 5, 1], [6, 7, 1]], Taken, 0);
    draws(&[[1, 9, 1], [7, 9, 2]], Taken, 0);
    draws(&[[1, 9, 1], [7, 8, 2]], Taken, 0);
    draws(&[[1, 9, 3], [2, 3, 3]], Depth, 1);
    draws(&[[1, 9, 2], [7, 9, 2]], Depth, 1);
    draws(&[[2, 2, 64]], Taken, 0);
    draws(&[[2, 2, 65]], Level, 0);
}

#[test]
fn lists_that_disagree() {
    let with = |descendant| asking::check_two(&list(&[[1, 9, 1]]), &list(&[descendant]));
    for descendant in [[4, 12, 2], [4, 9, 1], [1, 9, 2]] {
        assert_eq!(with(descendant), Joint, "{descendant:?}");
    }
    assert_eq!(with([4, 9, 2]), Taken);
}

#[test]
fn marks_that_stray_or_stay_open() {
    assert_eq!(asking::number(DOCUMENT, &[0], &mut [0; 20]), Stray);
    assert_eq!(asking::number(DOCUMENT, &[], &mut [0; 20]), Unclosed);
    assert_eq!(asking::number(DOCUMENT, &[1, 0, 1, 0], &mut [0; 20]), Stray);
}

#[test]
fn empty_lists_have_no_pairs() {
    assert_eq!(page(&[], &[], ticket(0, 0), 1), (vec![], true, ticket(0, 0)));
    assert_eq!(page(&[], &[], ticket(0, 0), 0), (vec![], true, ticket(0, 0)));
}

#[test]
fn names_are_filled_up_with_blanks() {
    let name = |number| String::from_utf8(raw::name(number).to_vec()).expect("names are ASCII");
    let names: Vec<String> = (0..=19).chain([u32::MAX]).map(name).collect();
    let table = "TAKEN   RAGGED  LONG    LEVEL   SPAN    ORDER   CROSS   DEPTH   JOINT   \
                 ROOM    MARK    STRAY   DEEP    UNCLOSEDTABLE   CONTENTSABSENT  \
                 READING LINKS   ";
    assert_eq!(names.concat(), format!("{table}{:16}", ""));
}
