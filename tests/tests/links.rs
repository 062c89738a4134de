//! Links that are lent. The check takes the links of a list and nothing else, and a page that is
//! lent them is the plain one, for every ticket and room.

use belfrychest::raw::{self, Page, Ticket};
use outside::asking::{self, raw_verdict, TAKEN};
use outside::cases::{self, Linked};
use outside::ground::Ground;
use outside::making::links::others;
use outside::making::lists::{any_family, nest, nest_with_one_end, node, some_of, texts};
use outside::making::tickets::FRESH;
use outside::model::answers::Answer::{self, *};
use outside::model::answers::Verdict;
use outside::model::links::{links_of, LINK_WORDS, NONE};
use outside::model::nodes::{inside, nodes, words, Node};
use outside::model::pages::{pairs, Order, Pair, Relation, PAIR_WORDS};
use outside::model::MOST;
use outside::paint::{hold, Word};
use outside::random::each_case;
use outside::tally::Tally;

/// The words of an output that stays as it was; no multiple of a pair's.
const ROOM: usize = 29;

/// Each relation in each order.
const KINDS: [[u32; 2]; 4] = [[0, 0], [0, 1], [1, 0], [1, 1]];

/// Tickets that a refused call gives back.
const TICKETS: [Ticket; 3] = [
    FRESH,
    Ticket { relation: 7, order: u32::MAX, placed: 3, document: 5, first: 20, second: 10 },
    Ticket { placed: 1, ..FRESH },
];

/// Returns a node of a document.
fn node_of(document: u32, numbers: [u32; 3]) -> Node {
    Node { document, ..node(numbers) }
}

/// Returns nodes of document 5.
fn list_of(nodes: &[[u32; 3]]) -> Vec<Node> {
    nodes.iter().copied().map(node).collect()
}

/// Returns accepted lists with forests of many forms: nests, siblings, combs, trees of several
/// documents, and nodes that end at one position.
fn lists() -> Vec<Vec<Node>> {
    vec![
        vec![],
        list_of(&[[3, 3, 1]]),
        list_of(&[[1, 9, 1], [2, 6, 2], [4, 6, 3], [5, 6, 4]]),
        list_of(&[[1, 30, 1], [2, 9, 2], [3, 8, 3], [10, 20, 2], [11, 14, 3], [16, 16, 3]]),
        list_of(&[[1, 4, 1], [2, 3, 2], [5, 8, 1], [6, 7, 2], [9, 12, 1], [10, 11, 2]]),
        list_of(&[[0, 20, 1], [1, 8, 2], [2, 7, 3], [3, 6, 4], [9, 9, 2], [10, 20, 2]]),
        [4, 5, 6].map(|document| node_of(document, [1, 9, 1])).to_vec(),
        several_documents(),
        nest(7),
        nest_with_one_end(7),
        texts(6),
    ]
}

/// Returns the zones of four documents. The first and the third have one root, the second has two
/// and the last one has no zone inside another.
fn several_documents() -> Vec<Node> {
    vec![
        node_of(0, [1, 9, 1]),
        node_of(0, [2, 5, 2]),
        node_of(0, [3, 4, 3]),
        node_of(5, [0, 3, 1]),
        node_of(5, [1, 2, 2]),
        node_of(5, [4, 7, 1]),
        node_of(1 << 31, [1, 9, 1]),
        node_of(1 << 31, [6, 9, 2]),
        node_of(u32::MAX, [1, 9, 1]),
    ]
}

/// Fails unless the check answers so, and a page call too, which then gives each ticket back and
/// writes nothing.
fn refuses(list: &[u32], links: &[u32], answer: Answer) {
    let verdict = raw_verdict(Verdict::of(answer));
    assert_eq!(raw::links_check(list, links), verdict, "{list:?} with the links {links:?}");
    for ticket in TICKETS {
        let page = Page { verdict, done: 0, count: 0, ticket };
        hold(&(list, links), &mut [0; ROOM], &[], page, |out| {
            raw::list_linked(list, list, links, ticket, out)
        });
    }
}

/// Fails unless the check and a page call take the links.
fn takes(list: &[u32], links: &[u32]) {
    assert_eq!(raw::links_check(list, links), TAKEN, "{list:?} with the links {links:?}");
    assert_eq!(raw::list_linked(list, list, links, FRESH, &mut []).verdict, TAKEN);
}

/// Tries each word of a list's links in turn, with words in its place. Returns how many links were
/// wrong.
fn try_each_word(list: &[Node]) -> usize {
    let (list, links, count) = (words(list), links_of(list), list.len());
    let mut wrong = 0;
    takes(&list, &links);
    for place in 0..links.len() {
        for word in others(place, links[place], count) {
            let mut changed = links.clone();
            changed[place] = word;
            if changed == links {
                takes(&list, &changed);
            } else {
                refuses(&list, &changed, Links);
                wrong += 1;
            }
        }
    }
    wrong
}

#[test]
fn any_word() {
    let wrong: usize = lists().iter().map(|list| try_each_word(list)).sum();
    assert!(wrong > 1_000, "only {wrong} links were wrong");
}

#[test]
fn any_word_of_any_list() {
    let mut wrong = 0;
    each_case(SEEDS[0], 2_000, |random| {
        let all = any_family(random);
        wrong += try_each_word(&some_of(random, &all));
    });
    assert!(wrong > 100_000, "only {wrong} links were wrong");
}

/// Tries words of the longest list's links. Its zones are in nests of three.
#[test]
fn any_word_of_the_longest_list() {
    let zone = |index: u32| match index % 3 {
        0 => node([2 * index, 2 * index + 5, 1]),
        1 => node([2 * index, 2 * index + 3, 2]),
        _ => node([2 * index, 2 * index + 1, 3]),
    };
    let list: Vec<Node> = (0..MOST as u32).map(zone).collect();
    let (list, mut links) = (words(&list), links_of(&list));
    takes(&list, &links);
    let wrong = raw_verdict(Verdict::of(Links));
    for place in 0..links.len() {
        let was = links[place];
        links[place] = if was == NONE { place as u32 / 3 } else { NONE };
        assert_eq!(raw::links_check(&list, &links), wrong, "word {place}");
        links[place] = was.wrapping_add(1);
        assert_eq!(raw::links_check(&list, &links), wrong, "word {place}");
        links[place] = was;
    }
    takes(&list, &links);
}

/// Tries all words of three nodes of which each is an index or NONE. Of the 262,144 just the links
/// are taken.
#[test]
fn all_links_of_three_nodes() {
    let in_one_document: [[[u32; 3]; 3]; 5] = [
        [[1, 9, 1], [2, 8, 2], [3, 7, 3]],
        [[1, 9, 1], [2, 4, 2], [5, 9, 2]],
        [[1, 4, 1], [2, 4, 2], [5, 9, 1]],
        [[1, 4, 1], [5, 9, 1], [6, 7, 2]],
        [[1, 1, 1], [5, 9, 1], [10, 10, 1]],
    ];
    let in_one = in_one_document.map(|nodes| nodes.map(node));
    let two_and_one = [[2, 8, 2], [10, 10, 1]]
        .map(|second| [node([1, 9, 1]), node(second), node_of(6, [3, 7, 3])]);
    let one_and_two =
        [[3, 7, 3], [10, 10, 1]].map(|third| [node_of(4, [1, 9, 1]), node([2, 8, 2]), node(third)]);
    let in_three = [4, 5, 6].map(|document| node_of(document, [1, 9, 1]));
    let lists = in_one.into_iter().chain(two_and_one).chain(one_and_two).chain([in_three]);
    for list in lists {
        let taken = taken_of_all(&words(&list));
        assert_eq!(taken, [links_of(&list)], "of {list:?}");
    }
}

/// Returns the links that are taken of a list of three nodes, out of all words that are an index or
/// NONE.
fn taken_of_all(list: &[u32]) -> Vec<Vec<u32>> {
    const WORDS: [u32; 4] = [NONE, 0, 1, 2];
    let mut links = [0; 3 * LINK_WORDS];
    let mut taken = Vec::new();
    for number in 0..1_usize << (2 * links.len()) {
        for (place, word) in links.iter_mut().enumerate() {
            *word = WORDS[number >> (2 * place) & 3];
        }
        if raw::links_check(list, &links) == TAKEN {
            taken.push(links.to_vec());
        }
    }
    taken
}

#[test]
fn any_byte() {
    let list = list_of(&[[2, 10, 2], [3, 7, 3]]);
    let (list, links) = (words(&list), links_of(&list));
    for place in 0..links.len() {
        for change in (0..4).flat_map(|byte| (1..=255).map(move |change: u32| change << (8 * byte)))
        {
            let mut changed = links.clone();
            changed[place] ^= change;
            refuses(&list, &changed, Links);
        }
    }
}

/// Tries each number of words up to two nodes more, of which the first are the links of the list.
#[test]
fn any_length() {
    for list in lists() {
        let (list, links) = (words(&list), links_of(&list));
        for filling in [NONE, 0, links.last().copied().unwrap_or(1)] {
            let mut longer = links.clone();
            longer.resize(links.len() + 2 * LINK_WORDS + 1, filling);
            for length in (0..longer.len()).filter(|&length| length != links.len()) {
                refuses(&list, &longer[..length], Links);
            }
            takes(&list, &longer[..links.len()]);
        }
    }
}

#[test]
fn links_of_any_other_list() {
    let (mut same, mut other) = (0, 0);
    for (list, lent) in lists().iter().flat_map(|x| lists().into_iter().map(move |y| (x, y))) {
        let links = links_of(&lent);
        if links == links_of(list) {
            takes(&words(list), &links);
            same += 1;
        } else {
            refuses(&words(list), &links, Links);
            other += 1;
        }
    }
    assert!(same >= lists().len() && other > 80, "{same} the same, {other} others");
}

/// Tries two lists at odds, with right links, with wrong ones and with none.
#[test]
fn lists_at_odds_come_before_links() {
    let zones = list_of(&[[2, 10, 2], [3, 7, 3]]);
    let (zones, crossing, links) = (words(&zones), words(&[node([6, 8, 3])]), links_of(&zones));
    let joint = raw_verdict(Verdict::of(Joint));
    for lent in [&links[..], &links[1..], &[], &[0; 6]] {
        for ticket in TICKETS {
            let page = Page { verdict: joint, done: 0, count: 0, ticket };
            hold(&lent, &mut [0; ROOM], &[], page, |out| {
                raw::list_linked(&zones, &crossing, lent, ticket, out)
            });
        }
    }
    refuses(&zones, &links[1..], Links);
}

/// Returns what a page call answers, with links and without, and fails unless both answer and write
/// the same.
fn same_page(lists: [&[u32]; 2], links: &[u32], ticket: Ticket, room: usize) -> Page {
    let [coat, _] = u32::COATS;
    let (mut out, mut plain) = (vec![coat; room], vec![coat; room]);
    let page = raw::list_linked(lists[0], lists[1], links, ticket, &mut out);
    let expected = raw::list(lists[0], lists[1], ticket, &mut plain);
    assert_eq!(page, expected, "with links and without: {lists:?} {ticket:?}, room {room}");
    assert_eq!(out, plain, "with links and without: {lists:?} {ticket:?}, room {room}");
    page
}

/// Returns zones and samples of many forms. There is a sample right after an inner zone, there are
/// samples that hold zones, and nodes in both lists. Others are deep nests, several documents, and
/// zones that end at one position.
fn farms() -> Vec<[Vec<Node>; 2]> {
    let farm = |zones: &[[u32; 3]], samples: &[[u32; 3]]| [list_of(zones), list_of(samples)];
    let deep: Vec<[u32; 3]> = (0..6).map(|at| [at, 16 - at, at + 1]).collect();
    let comb = [[0, 16, 1], [1, 5, 2], [2, 4, 3], [6, 9, 2], [7, 8, 3], [10, 16, 2], [11, 16, 3]];
    vec![
        farm(&comb, &[[9, 9, 3]]),
        farm(&comb, &[[3, 3, 4], [12, 13, 4], [16, 16, 4]]),
        farm(&comb, &[[1, 5, 2], [6, 9, 2], [8, 8, 4]]),
        farm(&comb, &comb),
        farm(&deep, &[[8, 8, 9], [13, 13, 5]]),
        farm(&[[1, 9, 1], [2, 6, 2], [4, 6, 3], [5, 6, 4]], &[[3, 3, 3], [6, 6, 5], [9, 9, 2]]),
        farm(&[[1, 3, 1], [4, 6, 1], [7, 9, 1]], &[[5, 5, 2]]),
        farm(&[[4, 6, 3]], &[[1, 9, 1], [5, 5, 4]]),
        [several_documents(), vec![node_of(0, [7, 7, 2]), node_of(1 << 31, [8, 8, 3])]],
        farm(&comb, &[]),
        farm(&[], &comb),
    ]
}

/// Returns the documents of the nodes, and one before and one after that of most farms.
fn documents_of(nodes: &[Node]) -> Vec<u32> {
    let mut documents: Vec<u32> = nodes.iter().map(|node| node.document).chain([4, 6]).collect();
    documents.sort_unstable();
    documents.dedup();
    documents
}

/// Tries each relation and order with each key of a farm's documents and small numbers, and with
/// each room.
#[test]
fn every_ticket_and_room() {
    let (mut cut, mut done, mut nothing) = (0, 0, 0);
    for [zones, samples] in farms() {
        let lists = [words(&zones), words(&samples)];
        let links = links_of(&zones);
        let keys =
            documents_of(&[&zones[..], &samples].concat()).into_iter().flat_map(|document| {
                (0..18).flat_map(move |first| (0..18).map(move |second| [document, first, second]))
            });
        let tickets = keys
            .map(|[document, first, second]| Ticket { placed: 1, document, first, second, ..FRESH })
            .chain([FRESH]);
        for (ticket, [relation, order]) in
            tickets.flat_map(|ticket| KINDS.map(|kind| (ticket, kind)))
        {
            let ticket = Ticket { relation, order, ..ticket };
            for room in 0.. {
                let words = PAIR_WORDS * room + room % PAIR_WORDS;
                let page = same_page([&lists[0], &lists[1]], &links, ticket, words);
                assert_eq!(page.verdict, TAKEN);
                cut += usize::from(page.done == 0 && page.count > 0);
                done += usize::from(page.done == 1 && page.count > 0);
                nothing += usize::from(page.done == 1 && page.count == 0);
                if page.done == 1 {
                    break;
                }
            }
        }
    }
    assert!(cut > 10_000 && done > 10_000 && nothing > 10_000, "{cut} {done} {nothing}");
}

/// Returns the longest lists of zones, and samples in few of them: side by side, in nests, in
/// documents with one root each, and all at one end.
fn longest_farms() -> Vec<[Vec<Node>; 2]> {
    let side_by_side = |index: u32| node([4 * index, 4 * index + 3, 2]);
    let sample = |start: u32| node([start, start, 64]);
    let in_nests = |index: u32| {
        let (base, depth) = (200 * (index / 63), index % 63);
        node([base + depth, base + 190 - depth, depth + 1])
    };
    let in_document = |index: u32| match index % 4 {
        0 => node_of(index / 4, [1, 20, 1]),
        1 => node_of(index / 4, [2, 9, 2]),
        2 => node_of(index / 4, [3, 8, 3]),
        _ => node_of(index / 4, [10, 20, 2]),
    };
    let zones = |zone: &dyn Fn(u32) -> Node| (0..MOST as u32).map(zone).collect::<Vec<Node>>();
    let last = 4 * MOST as u32 - 2;
    let under_a_root = |index: u32| match index {
        0 => node([0, 4 * MOST as u32, 1]),
        _ => side_by_side(index),
    };
    vec![
        [zones(&side_by_side), vec![sample(last)]],
        [zones(&under_a_root), [1_602, 9_001, last].map(sample).to_vec()],
        [zones(&in_nests), [95, 6_130, 12_895].map(sample).to_vec()],
        [zones(&in_nests), zones(&in_nests)[2_000..2_010].to_vec()],
        [
            zones(&in_document),
            [3, 500, 1_023].map(|document| node_of(document, [15, 15, 3])).to_vec(),
        ],
        [nest_with_one_end(63), [9_999, 10_000].map(sample).to_vec()],
    ]
}

/// Tries the longest lists with fresh tickets and with late ones, and with enough room, with some
/// and with none.
#[test]
fn the_longest_lists() {
    for [zones, samples] in longest_farms() {
        let lists = [&words(&zones)[..], &words(&samples)];
        let mut links = vec![0; LINK_WORDS * zones.len()];
        assert_eq!(raw::links(lists[0], &mut links).verdict, TAKEN);
        assert_eq!(raw::links_check(lists[0], &links), TAKEN);
        for [relation, order] in KINDS {
            let fresh = Ticket { relation, order, ..FRESH };
            let all = same_page(lists, &links, fresh, 1_000 * PAIR_WORDS);
            assert_eq!((all.verdict, all.done), (TAKEN, 1));
            assert!(all.count > 0 || relation == 1, "no pairs");
            for room in [0, 7, PAIR_WORDS, 3 * PAIR_WORDS + 2] {
                let mut page = same_page(lists, &links, fresh, room);
                while page.done == 0 && page.count > 0 {
                    page = same_page(lists, &links, page.ticket, room);
                }
            }
            same_page(lists, &links, Ticket { document: 5, ..all.ticket }, PAIR_WORDS);
            same_page(lists, &links, Ticket { second: 0, ..all.ticket }, PAIR_WORDS);
        }
    }
}

/// Seeds that no other test has, for each test here that draws.
const SEEDS: [u64; 3] = [1 << 60, 1 << 61, 1 << 62];
/// The random cases of each test.
const CASES: u64 = 30_000;
/// Fewer cases than this that say something are too few.
const LEAST: u64 = 50;

/// Makes random calls with the right links, whatever links the case has. Fails unless the page is
/// the plain one.
#[test]
fn pages_with_links_are_the_plain_ones() {
    let (mut telling, mut tally) = (0, Tally::default());
    each_case(SEEDS[1], CASES, |random| {
        let case = cases::list_linked(random, Ground::Heap, &mut tally);
        let lists = [&case.ancestors[..], &case.descendants];
        let mut links = vec![0; LINK_WORDS * nodes(lists[0]).len()];
        if raw::links(lists[0], &mut links).verdict == TAKEN {
            telling += u64::from(same_page(lists, &links, case.ticket, case.words).count > 0);
        }
    });
    assert!(telling > CASES / 10, "{telling} of {CASES} cases have pairs");
}

/// A random call, its zones and samples, and all pairs of its ticket's relation.
struct Shown<'a> {
    case: &'a Linked,
    zones: Vec<Node>,
    samples: Vec<Node>,
    pairs: Vec<Pair>,
}

/// What random cases must show often: in words, and whether a case shows it.
type Feature = (&'static str, fn(&Shown) -> bool);

impl Shown<'_> {
    fn is(&self, answer: Answer) -> bool {
        self.case.page.verdict.answer == answer
    }

    fn wrote(&self) -> bool {
        !self.case.page.pairs.is_empty()
    }

    /// Returns the zones that hold no sample.
    fn bare(&self) -> impl Iterator<Item = &Node> {
        self.zones.iter().filter(|zone| !self.samples.iter().any(|sample| inside(sample, zone)))
    }

    /// Returns how many zones are inside a node.
    fn zones_in(&self, outer: &Node) -> usize {
        self.zones.iter().filter(|zone| inside(zone, outer)).count()
    }

    /// Returns how many zones are around a node.
    fn zones_around(&self, inner: &Node) -> usize {
        self.zones.iter().filter(|zone| inside(inner, zone)).count()
    }

    /// Tells whether the page has a pair past a zone that holds others and no sample.
    fn jumps(&self) -> bool {
        self.bare().any(|zone| {
            let is_past = |pair: &Pair| {
                let descendant = pair.descendant;
                (descendant.document, descendant.start) > (zone.document, zone.end)
            };
            self.zones_in(zone) >= 2 && self.case.page.pairs.iter().any(is_past)
        })
    }

    /// Returns how many pairs lie past the ticket's place.
    fn remaining(&self) -> usize {
        let asked = asking::meaning(&self.case.ticket);
        let is_left =
            |pair: &&Pair| asked.place.map_or(true, |place| pair.key(asked.order) > place);
        self.pairs.iter().filter(is_left).count()
    }

    fn has_relation(&self, relation: Relation, order: Order) -> bool {
        let asked = asking::meaning(&self.case.ticket);
        (asked.relation, asked.order) == (relation, order)
    }

    /// Returns how many words the links have, beside how many they have to have.
    fn lengths(&self) -> (usize, usize) {
        (self.case.links.len(), LINK_WORDS * self.zones.len())
    }
}

const JUMPS: [Feature; 5] = [
    ("a jump, inside in descendant order", |shown| {
        shown.jumps() && shown.has_relation(Relation::Inside, Order::Descendant)
    }),
    ("a jump, inside in ancestor order", |shown| {
        shown.jumps() && shown.has_relation(Relation::Inside, Order::Ancestor)
    }),
    ("a jump, directly inside in descendant order", |shown| {
        shown.jumps() && shown.has_relation(Relation::Directly, Order::Descendant)
    }),
    ("a jump, directly inside in ancestor order", |shown| {
        shown.jumps() && shown.has_relation(Relation::Directly, Order::Ancestor)
    }),
    ("ten zones for each sample, with pairs", |shown| {
        shown.zones.len() >= 10 * shown.samples.len() && shown.wrote()
    }),
];

const SHAPES: [Feature; 6] = [
    ("a sample in a nest of thirty zones", |shown| {
        shown.case.page.pairs.iter().any(|pair| shown.zones_around(&pair.descendant) >= 30)
    }),
    ("three documents with one root each, and pairs in two", |shown| {
        let mut roots: Vec<u32> = shown
            .zones
            .iter()
            .filter(|zone| shown.zones_around(zone) == 0)
            .map(|zone| zone.document)
            .collect();
        let all_roots = roots.len();
        roots.dedup();
        let mut paired: Vec<u32> =
            shown.case.page.pairs.iter().map(|pair| pair.ancestor.document).collect();
        paired.dedup();
        roots.len() == all_roots && all_roots >= 3 && paired.len() >= 2
    }),
    ("a sample right after a zone without samples, inside one zone", |shown| {
        let follows = |zone: &Node, pair: &Pair| {
            inside(zone, &pair.ancestor) && pair.descendant.start == zone.end.wrapping_add(1)
        };
        shown.bare().any(|zone| shown.case.page.pairs.iter().any(|pair| follows(zone, pair)))
    }),
    ("a node in both lists, as a descendant", |shown| {
        shown.case.page.pairs.iter().any(|pair| shown.zones.contains(&pair.descendant))
    }),
    ("a descendant that holds a zone without samples", |shown| {
        let pairs = &shown.case.page.pairs;
        shown.bare().any(|zone| pairs.iter().any(|pair| inside(zone, &pair.descendant)))
    }),
    ("a zone without samples that ends where one with a pair ends", |shown| {
        let ends = |zone: &Node, outer: &Node| inside(zone, outer) && zone.end == outer.end;
        let pairs = &shown.case.page.pairs;
        shown.bare().any(|zone| pairs.iter().any(|pair| ends(zone, &pair.ancestor)))
    }),
];

const PAGES: [Feature; 6] = [
    ("a late ticket, with pairs left", |shown| {
        shown.is(Taken) && (1..=shown.pairs.len() / 4).contains(&shown.remaining())
    }),
    ("a ticket past all pairs", |shown| {
        shown.is(Taken) && shown.remaining() == 0 && !shown.pairs.is_empty()
    }),
    ("a ticket at a zone without samples, with pairs left", |shown| {
        let is_there = |zone: &Node, [document, first, _]: [u32; 3]| {
            zone.document == document && (zone.start..=zone.end).contains(&first)
        };
        let place = asking::meaning(&shown.case.ticket).place;
        let mut bare = shown.bare();
        shown.wrote() && place.map_or(false, |place| bare.any(|zone| is_there(zone, place)))
    }),
    ("no room for what is left", |shown| {
        shown.is(Taken) && shown.case.words < PAIR_WORDS && shown.remaining() > 0
    }),
    ("a page that is cut", |shown| shown.wrote() && !shown.case.page.done),
    ("a page with all pairs", |shown| {
        shown.wrote() && shown.case.page.pairs.len() == shown.pairs.len()
    }),
];

const WRONG_LINKS: [Feature; 8] = [
    ("LINKS, as many words as there should be", |shown| {
        shown.is(Links) && shown.lengths().0 == shown.lengths().1
    }),
    ("LINKS, too few words", |shown| shown.is(Links) && shown.lengths().0 < shown.lengths().1),
    ("LINKS, too many words", |shown| shown.is(Links) && shown.lengths().0 > shown.lengths().1),
    ("LINKS, whole nodes too few", |shown| {
        shown.is(Links) && shown.lengths().0 + LINK_WORDS == shown.lengths().1
    }),
    ("LINKS, only indexes and NONE", |shown| {
        let is_index = |word: &u32| *word == NONE || (*word as usize) < shown.zones.len();
        shown.is(Links)
            && shown.lengths().0 == shown.lengths().1
            && shown.case.links.iter().all(is_index)
    }),
    ("LINKS, with pairs that aren't handed out", |shown| shown.is(Links) && shown.remaining() > 0),
    ("JOINT, with wrong links", |shown| {
        shown.is(Joint) && shown.case.links != links_of(&shown.zones)
    }),
    ("CROSS, with as many words as there should be", |shown| {
        shown.is(Cross) && shown.lengths().0 == shown.lengths().1
    }),
];

#[test]
fn each_feature_comes_often() {
    let features: Vec<&Feature> =
        JUMPS.iter().chain(&SHAPES).chain(&PAGES).chain(&WRONG_LINKS).collect();
    let (mut seen, mut tally) = (vec![0; features.len()], Tally::default());
    each_case(SEEDS[2], CASES, |random| {
        let case = cases::list_linked(random, Ground::Heap, &mut tally);
        if [Long, Ragged].contains(&case.page.verdict.answer) {
            return;
        }
        let (zones, samples) = (nodes(&case.ancestors), nodes(&case.descendants));
        let pairs = pairs(asking::meaning(&case.ticket).relation, &zones, &samples);
        let shown = Shown { case: &case, zones, samples, pairs };
        for ((_, is_shown), times) in features.iter().zip(&mut seen) {
            *times += u64::from(is_shown(&shown));
        }
    });
    for ((name, _), times) in features.iter().zip(seen) {
        assert!(times > LEAST, "{name}: {times} of {CASES} cases");
    }
}
