//! What contains what: the archive's numbers and its pairs against the marks alone, walked with the
//! elements that are open.

use belfrychest::raw::{self, Ticket};
use outside::asking::{self, TAKEN};
use outside::making::marks::{marks, tag};
use outside::making::tickets::FRESH;
use outside::model::marks::{CLOSE, ROW_WORDS, TEXT};
use outside::model::nodes::{node, Node, NODE_WORDS};
use outside::random::{each_case, Random};

/// The marks that are made for each test, most of which are accepted.
const CASES: u64 = 4_000;
/// Seeds that no other test has.
const SEEDS: u64 = 1 << 46;
/// Fewer documents of a kind say too little.
const LEAST: u64 = 100;

/// A node as the marks tell of it: where its mark stands, counted from 1, its tag, and the starts
/// of the elements that are open there. The last of them is its parent.
struct Marked {
    start: u32,
    tag: u32,
    around: Vec<u32>,
}

/// Returns the nodes of accepted marks.
fn marked(marks: &[u32]) -> Vec<Marked> {
    let (mut nodes, mut open) = (Vec::new(), Vec::new());
    for (start, &tag) in (1..).zip(marks) {
        if tag == CLOSE {
            open.pop();
            continue;
        }
        nodes.push(Marked { start, tag, around: open.clone() });
        if tag != TEXT {
            open.push(start);
        }
    }
    nodes
}

/// Returns random marks' nodes and the table by which the archive numbers them, if it accepts them.
fn numbered(random: &mut Random) -> Option<(Vec<Marked>, Vec<u32>)> {
    let (document, marks) = (random.word(), marks(random));
    let mut table = vec![0; ROW_WORDS * marks.len()];
    let written = raw::number(document, &marks, &mut table);
    table.truncate(ROW_WORDS * written.count);
    (written.verdict == TAKEN).then(|| (marked(&marks), table))
}

/// Tells whether y is inside x, and whether directly, by the marks.
fn by_marks(x: &Marked, y: &Marked) -> [bool; 2] {
    [y.around.contains(&x.start), y.around.last() == Some(&x.start)]
}

/// Tells the same by the numbers.
fn by_numbers(x: &Node, y: &Node) -> [bool; 2] {
    let inside = x.start < y.start && y.end <= x.end;
    [inside, inside && y.level == x.level + 1]
}

/// Fails unless the numbers say of a node's row and every other's what the marks say.
fn hold_row(x: (&Marked, &Node), all: &[(&Marked, Node)]) {
    for (y, y_node) in all {
        let (given, expected) = (by_numbers(x.1, y_node), by_marks(x.0, y));
        assert_eq!(given, expected, "given and expected: {y_node:?} inside {:?}, directly", x.1);
    }
}

#[test]
fn numbers_say_what_the_marks_say() {
    let mut seen = [0; 2];
    each_case(SEEDS, CASES, |random| {
        let (nodes, table) = match numbered(random) {
            Some(document) => document,
            None => return,
        };
        let rows = table.chunks(ROW_WORDS);
        let of_marks = nodes.iter().map(|node| [node.start, node.tag]);
        assert!(rows.clone().map(|row| [row[1], row[NODE_WORDS]]).eq(of_marks), "one row for each");
        let all: Vec<(&Marked, Node)> = nodes.iter().zip(rows.map(node)).collect();
        all.iter().for_each(|(x, x_node)| hold_row((x, x_node), &all));
        seen[0] += u64::from(nodes.iter().any(|node| node.around.len() > 1));
        seen[1] += u64::from(nodes.iter().any(|node| node.tag == TEXT));
    });
    assert!(
        seen.iter().all(|&documents| documents > LEAST),
        "documents with nested nodes, with texts: {seen:?}"
    );
}

/// Returns the list that the archive picks from a table.
fn picked(table: &[u32], tag: u32) -> Vec<u32> {
    let mut out = vec![0; table.len()];
    let written = raw::pick(table, tag, &mut out);
    assert_eq!(written.verdict, TAKEN, "tag {tag} of {table:?}");
    out.truncate(NODE_WORDS * written.count);
    out
}

/// Returns the starts of all pairs that the archive lists.
fn listed(ancestors: &[u32], descendants: &[u32], ticket: Ticket) -> Vec<[u32; 2]> {
    let pairs = asking::listed(ancestors, descendants, ticket);
    pairs.iter().map(|pair| [pair.ancestor.start, pair.descendant.start]).collect()
}

/// Returns the starts of all pairs by the marks, in descendant order. The ancestors have the first
/// tag, and the descendants have the second.
fn pairs_by_marks(nodes: &[Marked], tags: [u32; 2], relation: u32) -> Vec<[u32; 2]> {
    let [outer, inner] = tags.map(|tag| nodes.iter().filter(move |node| node.tag == tag));
    let with_all = |y| outer.clone().map(move |x| (x, y));
    inner
        .flat_map(with_all)
        .filter(|(x, y)| by_marks(x, y)[relation as usize])
        .map(|(x, y)| [x.start, y.start])
        .collect()
}

#[test]
fn pairs_of_two_tags_are_those_of_the_marks() {
    let mut seen = [0; 2];
    each_case(SEEDS + CASES, CASES, |random| {
        let (nodes, table) = match numbered(random) {
            Some(document) => document,
            None => return,
        };
        let tags = [(); 2].map(|()| tag(random, &table));
        let [ancestors, descendants] = tags.map(|tag| picked(&table, tag));
        let [inside, directly] = [0, 1].map(|relation| {
            let mut expected = pairs_by_marks(&nodes, tags, relation);
            let ticket = |order| Ticket { relation, order, ..FRESH };
            assert_eq!(listed(&ancestors, &descendants, ticket(0)), expected, "tags {tags:?}");
            expected.sort_unstable();
            assert_eq!(listed(&ancestors, &descendants, ticket(1)), expected, "tags {tags:?}");
            expected.len()
        });
        seen[0] += u64::from(directly > 0);
        seen[1] += u64::from(inside > directly);
    });
    assert!(
        seen.iter().all(|&documents| documents > LEAST),
        "documents with pairs that are directly inside, with others: {seen:?}"
    );
}
