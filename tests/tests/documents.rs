//! Lists of several documents, against the model. Both lists may have the same nodes, a document
//! may be in one list only, and a list may go back to an earlier document. Numbers go up to the
//! greatest. The calls asked are the checks of one list and of two, the faulty part, links,
//! listings, and the check and the writing of a book.

use outside::asking;
use outside::making::lists::{nest, nest_with_one_end};
use outside::making::tickets::FRESH;
use outside::model::answers::Answer::{self, *};
use outside::model::books;
use outside::model::links::{links_of, LINK_WORDS};
use outside::model::lists::MOST_LEVEL;
use outside::model::nodes::{nodes, words, Node, NODE_WORDS};
use outside::model::MOST;
use outside::random::{each_case, Random};
use outside::tally::Tally;

/// The random cases.
const CASES: u64 = 60_000;
/// Seeds that no other test has.
const SEEDS: u64 = 1 << 54;
/// Fewer cases of a kind say too little.
const LEAST: u64 = 100;
/// The greatest level, as a number of nodes.
const DEEPEST: usize = MOST_LEVEL as usize;
/// The least document and the greatest, and two neighbours.
const DOCUMENTS: [u32; 4] = [0, 5, 6, u32::MAX];
/// Positions at both ends of the numbers.
const POSITIONS: [u32; 5] = [0, 1, 2, u32::MAX - 1, u32::MAX];

/// Fails unless each of these calls answers for the lists as the model does, either way round and
/// each list alone. Returns the answer to the lists as they are given.
fn ask(ancestors: &[Node], descendants: &[Node]) -> Answer {
    let lists = [words(ancestors), words(descendants)];
    for [first, second] in [[0, 1], [1, 0]] {
        let (first, second) = (&lists[first], &lists[second]);
        asking::check(first);
        asking::links(first, &mut vec![0; LINK_WORDS * (first.len() / NODE_WORDS)]);
        for links in [first, second].map(|list| links_of(&nodes(list))) {
            asking::links_check(first, &links);
            asking::list_linked(first, second, &links, FRESH, &mut [0; 40]);
        }
        asking::faulty(first, second);
        asking::list(first, second, FRESH, &mut [0; 40]);
    }
    let book = books::bytes(&[(1, ancestors.to_vec()), (2, descendants.to_vec())]);
    asking::book_check(&book);
    asking::book_write(
        &[1, ancestors.len() as u32, 2, descendants.len() as u32],
        &lists.concat(),
        &mut vec![0; book.len()],
    );
    asking::check_two(&lists[0], &lists[1])
}

/// Returns the nodes as they are, in another document.
fn moved(nodes: &[Node], document: u32) -> Vec<Node> {
    nodes.iter().map(|&node| Node { document, ..node }).collect()
}

/// Returns all sound nodes of these documents that have small numbers or the greatest ones.
fn small_nodes(documents: &[u32]) -> Vec<Node> {
    let positions = [0, 1, u32::MAX];
    let mut nodes = Vec::new();
    for &document in documents {
        for (start, end) in positions.iter().flat_map(|&x| positions.map(|y| (x, y))) {
            let levels = if start <= end { 1..3 } else { 0..0 };
            nodes.extend(levels.map(|level| Node { document, start, end, level }));
        }
    }
    nodes
}

/// Tries every two lists of at most two small nodes.
#[test]
fn every_two_small_lists() {
    let nodes = small_nodes(&[0, u32::MAX]);
    let mut lists = vec![Vec::new()];
    lists.extend(nodes.iter().map(|node| words(&[*node])));
    lists.extend(nodes.iter().flat_map(|x| nodes.iter().map(|y| words(&[*x, *y]))));
    let mut tally = Tally::default();
    for (ancestors, descendants) in lists.iter().flat_map(|x| lists.iter().map(move |y| (x, y))) {
        tally.count(asking::check_two(ancestors, descendants));
    }
    tally.hold(&[Taken, Order, Cross, Depth, Joint]);
}

/// Returns some nodes of each document. Mostly they are nested or apart, and now and then two
/// cross. Some end at one position.
fn pool(random: &mut Random) -> Vec<Node> {
    let mut nodes = Vec::new();
    for document in DOCUMENTS {
        let at = random.pick(&[0, 100, u32::MAX - 20]);
        let around = Node { document, start: at, end: at + 20, level: 1 };
        let left = Node { document, start: at + 2, end: at + 2 + random.small(8), level: 3 };
        let right = Node { document, start: at + 12, end: at + 12 + random.small(9), level: 3 };
        let text = |start| Node { document, start, end: start, level: 5 };
        nodes.extend([around, left, text(left.end), right, text(right.end)]);
        nodes.push(Node { document, start: at + 11, end: at + 20, level: 2 });
        if random.one_in(8) {
            nodes.push(Node { document, start: at + 3, end: at + 15, level: 4 });
        }
        if random.one_in(8) {
            nodes.push(Node { level: 2, ..right });
        }
    }
    nodes.sort_by_key(|node| (node.document, node.start, node.level));
    nodes.dedup_by_key(|node| (node.document, node.start, node.end, node.level));
    nodes
}

/// Returns some of the nodes, and of some documents none. Of nodes that start at one position it
/// takes one.
fn drawn(random: &mut Random, pool: &[Node]) -> Vec<Node> {
    let documents: Vec<u32> = DOCUMENTS.into_iter().filter(|_| !random.one_in(3)).collect();
    let mut list: Vec<Node> = pool.to_vec();
    list.retain(|node| documents.contains(&node.document) && random.one_in(2));
    list.dedup_by_key(|node| (node.document, node.start));
    list
}

/// Alters a word of one of the nodes, goes back to one of them at the end, or exchanges two.
fn damage(random: &mut Random, list: &mut Vec<Node>) {
    if list.is_empty() {
        return;
    }
    let (index, other) = (random.below(list.len()), random.below(list.len()));
    let node = &mut list[index];
    match random.below(7) {
        0 => node.level = random.pick(&[0, 1, MOST_LEVEL, MOST_LEVEL + 1, u32::MAX]),
        1 => node.end = random.pick(&POSITIONS),
        2 => node.start = random.pick(&POSITIONS),
        3 => node.document = random.pick(&DOCUMENTS),
        4 => node.end = node.end.saturating_add(1),
        5 => list.swap(index, other),
        _ => list.push(list[index]),
    }
}

/// Tells whether two nodes that come one after the other lie in documents that descend.
fn goes_back(list: &[Node]) -> bool {
    list.windows(2).any(|two| two[1].document < two[0].document)
}

/// Tells whether a node is of a document that the other list hasn't, and nodes of both come later.
fn is_alone_first(list: &[Node], other: &[Node]) -> bool {
    let has = |nodes: &[Node], test: &dyn Fn(u32) -> bool| nodes.iter().any(|x| test(x.document));
    list.iter().any(|node| {
        let later = |document| document > node.document;
        !has(other, &|document| document == node.document)
            && has(list, &later)
            && has(other, &later)
    })
}

/// Tells of which kinds a case is, in the order in which `several_documents` names them.
fn kinds(ancestors: &[Node], descendants: &[Node], answer: Answer) -> [bool; 6] {
    let taken = answer == Taken;
    let in_both = |test: fn(&Node) -> bool| {
        taken && ancestors.iter().any(|node| test(node) && descendants.contains(node))
    };
    [
        in_both(|_| true),
        in_both(|node| node.end == u32::MAX && node.document < u32::MAX),
        in_both(|node| node.start == u32::MAX),
        taken && is_alone_first(ancestors, descendants),
        taken && is_alone_first(descendants, ancestors),
        answer == Order && goes_back(ancestors) && !descendants.is_empty(),
    ]
}

#[test]
fn several_documents() {
    let (mut tally, mut seen) = (Tally::default(), [0; 6]);
    each_case(SEEDS, CASES, |random| {
        let pool = pool(random);
        let [mut ancestors, mut descendants] = [(); 2].map(|()| drawn(random, &pool));
        match random.below(6) {
            0 => damage(random, &mut ancestors),
            1 => damage(random, &mut descendants),
            _ => (),
        }
        let answer = ask(&ancestors, &descendants);
        tally.count(answer);
        let of_kind = kinds(&ancestors, &descendants, answer);
        (0..seen.len()).for_each(|kind| seen[kind] += u64::from(of_kind[kind]));
    });
    tally.hold(&[Taken, Level, Span, Order, Cross, Depth, Joint]);
    assert!(
        seen.iter().all(|&cases| cases > LEAST),
        "taken with a node in both lists, with one that ends and one that starts at the greatest \
         number, with a document of the ancestors alone, of the descendants alone; refused since \
         the ancestors go back to an earlier document: {seen:?}"
    );
}

/// Returns every choice of documents that a list may have.
fn subsets() -> impl Iterator<Item = Vec<u32>> {
    let has = |set: u32, place: usize| set >> place & 1 == 1;
    (0..1 << DOCUMENTS.len()).map(move |set| {
        (0..DOCUMENTS.len()).filter(|&place| has(set, place)).map(|i| DOCUMENTS[i]).collect()
    })
}

/// Returns five nodes of each document, at both ends of the numbers.
fn block(documents: &[u32]) -> Vec<Node> {
    let node = |document, [start, end, level]: [u32; 3]| Node { document, start, end, level };
    let spans =
        [[0, u32::MAX, 1], [1, 9, 2], [9, 9, 3], [20, u32::MAX, 2], [u32::MAX, u32::MAX, 64]];
    documents.iter().flat_map(|&document| spans.map(|span| node(document, span))).collect()
}

/// Edits of a node that draw an answer wherever its list is checked, in whatever document it is.
const FAULTS: [(Answer, fn(&mut Node)); 6] = [
    (Level, |node| node.level = 0),
    (Level, |node| node.level = MOST_LEVEL + 1),
    (Span, |node| (node.start, node.end) = (9, 8)),
    (Order, |node| (node.start, node.end) = (0, 0)),
    (Cross, |node| (node.start, node.end) = (9, 10)),
    (Depth, |node| node.level = 2),
];

/// Alters the text in the first inner zone of one document, whatever documents the other list has.
#[test]
fn a_fault_in_any_document() {
    for (mine, others) in subsets().flat_map(|mine| subsets().map(move |its| (mine.clone(), its))) {
        let (sound, other) = (block(&mine), block(&others));
        assert_eq!(ask(&sound, &other), Taken);
        for (place, (answer, edit)) in (0..mine.len()).flat_map(|i| FAULTS.map(|fault| (i, fault)))
        {
            let mut faulty = sound.clone();
            edit(&mut faulty[5 * place + 2]);
            assert_eq!(ask(&faulty, &other), answer, "{faulty:?} and {other:?}");
        }
    }
}

/// Alters a node of one document so that it is sound in its list, and at odds with the nodes that
/// the other list may have in this document.
#[test]
fn lists_at_odds_in_any_document() {
    let edits: [(usize, fn(&mut Node)); 5] = [
        (0, |node| node.end -= 1),
        (1, |node| node.end += 1),
        (2, |node| node.level += 1),
        (3, |node| node.start -= 1),
        (4, |node| node.level -= 1),
    ];
    for (mine, others) in subsets().flat_map(|mine| subsets().map(move |its| (mine.clone(), its))) {
        let other = block(&others);
        for (place, (index, edit)) in (0..mine.len()).flat_map(|i| edits.map(|edit| (i, edit))) {
            let mut edited = block(&mine);
            edit(&mut edited[5 * place + index]);
            if index == 0 {
                edited.truncate(5 * place + 1);
            }
            let answer = if others.contains(&mine[place]) { Joint } else { Taken };
            assert_eq!(ask(&edited, &other), answer, "{edited:?} and {other:?}");
        }
    }
}

/// Returns the nodes at even places, and those at odd places.
fn in_turn(nodes: &[Node]) -> [Vec<Node>; 2] {
    [0, 1].map(|first| nodes.iter().skip(first).step_by(2).copied().collect())
}

/// Opens as many nodes as there are levels in each of two documents, whichever list has them.
#[test]
fn the_deepest_nest_in_each_document() {
    for nest in [nest(DEEPEST), nest_with_one_end(DEEPEST)] {
        let both = [moved(&nest, 5), moved(&nest, 6)].concat();
        let [even, odd] = in_turn(&both);
        for (ancestors, descendants) in [(&both, &both), (&even, &odd), (&both, &odd)] {
            assert_eq!(ask(ancestors, descendants), Taken);
        }
        assert_eq!(ask(&moved(&nest, 5), &moved(&nest, 6)), Taken);
        for place in [DEEPEST - 1, 2 * DEEPEST - 1] {
            let mut higher = odd.clone();
            higher[place / 2].level -= 1;
            assert_eq!(ask(&even, &higher), Joint);
            assert_eq!(ask(&higher, &[]), Taken);
        }
    }
}

/// Returns as many zones as a list may have, each of a document of its own.
fn one_of_each(first: u32, step: u32) -> Vec<Node> {
    let zone = |document| Node { document, start: 0, end: u32::MAX, level: 1 };
    (0..MOST as u32).map(|place| zone(first + step * place)).collect()
}

#[test]
fn as_many_documents_as_nodes() {
    let [even, odd] = [0, 1].map(|first| one_of_each(first, 2));
    let last = one_of_each(u32::MAX - (MOST as u32 - 1), 1);
    for (ancestors, descendants) in [(&even, &even), (&even, &odd), (&last, &last)] {
        assert_eq!(ask(ancestors, descendants), Taken);
    }
    let mut at_odds = last.clone();
    at_odds[MOST - 1].level = 2;
    assert_eq!(ask(&last, &at_odds), Joint);
    let mut again = last.clone();
    again[MOST - 1].document -= 1;
    assert_eq!(ask(&again, &last), Order);
    again[MOST - 1].start = u32::MAX;
    assert_eq!(ask(&again, &last), Depth);
    again[MOST - 1].level = 2;
    assert_eq!(ask(&again, &last), Taken);
}
