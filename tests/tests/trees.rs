//! Trees that are numbered by order and size: the library and the model against the trees
//! themselves. What is above a node is found by going from parent to parent, and no number is asked
//! for it.

use belfrychest::raw::Ticket;
use outside::asking;
use outside::ends::most_around;
use outside::making::tickets::FRESH;
use outside::making::trees::{tree, Tree};
use outside::model::answers::Answer::Taken;
use outside::model::links::{LINK_WORDS, NONE};
use outside::model::nodes::{words, Node};
use outside::model::pages::{Order, Pair, PAIR_WORDS};
use outside::model::sheets::{subtotal_over, Subtotal, NO_HUNDREDTHS, SUBTOTAL_WORDS};
use outside::random::{each_case, Random};

/// The lists that are made for each test.
const CASES: u64 = 4_000;
/// Seeds that no other test has.
const SEEDS: u64 = 1 << 47;
/// Fewer lists of a kind say too little.
const LEAST: u64 = 100;
/// The most nodes of a tree, mostly, and of one that may be as deep as there are levels.
const SIZE: usize = 24;
const LARGE: usize = 150;
/// The documents of which a list may have a tree.
const DOCUMENTS: [u32; 3] = [0, 5, u32::MAX];

/// Returns one tree or more, each of a document of its own, as one: all nodes in list order, and
/// the places of their parents among them.
fn forest(random: &mut Random) -> Tree {
    let mut all = Tree { parents: Vec::new(), nodes: Vec::new() };
    for document in DOCUMENTS {
        if all.nodes.is_empty() || random.one_in(3) {
            let size = if random.one_in(8) { LARGE } else { SIZE };
            let Tree { parents, nodes } = tree(random, document, size);
            let before = all.nodes.len();
            all.parents.extend(parents.iter().map(|place| place.map(|place| before + place)));
            all.nodes.extend(nodes);
        }
    }
    all
}

/// Returns the places of the nodes above the one at this place, its parent first.
fn above(tree: &Tree, place: usize) -> Vec<usize> {
    let mut found = Vec::new();
    let mut next = tree.parents[place];
    while let Some(parent) = next {
        found.push(parent);
        next = tree.parents[parent];
    }
    found
}

/// Returns the place of the next node with the same parent. Roots are of different documents, and
/// have no siblings.
fn next_sibling(tree: &Tree, place: usize) -> Option<usize> {
    let parent = tree.parents[place]?;
    (place + 1..tree.parents.len()).find(|&later| tree.parents[later] == Some(parent))
}

/// Fails unless the numbers keep Li and Moon's two conditions. The order of a child is above that
/// of its parent, and its order and size together aren't above the parent's. The order and size of
/// a node together are below the order of its next sibling.
fn hold_numbering(tree: &Tree) {
    for (place, y) in tree.nodes.iter().enumerate() {
        if let Some(parent) = tree.parents[place] {
            let x = tree.nodes[parent];
            assert!(x.start < y.start && y.end <= x.end, "{y:?} below {x:?}");
        }
        if let Some(sibling) = next_sibling(tree, place) {
            let later = tree.nodes[sibling];
            assert!(y.end < later.start, "{y:?} before {later:?}");
        }
    }
}

/// Returns the words of the links that the tree has.
fn links_of(tree: &Tree) -> Vec<u32> {
    let places = 0..tree.nodes.len();
    let first_child = |place| places.clone().find(|&child| tree.parents[child] == Some(place));
    let links = |place| [tree.parents[place], first_child(place), next_sibling(tree, place)];
    let word = |link: Option<usize>| link.map_or(NONE, |place| place as u32);
    places.clone().flat_map(links).map(word).collect()
}

fn ends_where_its_parent_ends(tree: &Tree, place: usize) -> bool {
    tree.parents[place].map_or(false, |parent| tree.nodes[parent].end == tree.nodes[place].end)
}

#[test]
fn lists_are_taken_and_linked_as_the_trees_are() {
    let mut seen = [0; 4];
    each_case(SEEDS, CASES, |random| {
        let tree = forest(random);
        let list = words(&tree.nodes);
        hold_numbering(&tree);
        assert_eq!(asking::check(&list), Taken);
        assert_eq!(asking::check_two(&list, &list), Taken);
        let mut links = vec![0; LINK_WORDS * tree.nodes.len()];
        assert_eq!(asking::links(&list, &mut links), Taken);
        assert_eq!(links, links_of(&tree), "links, and those of the tree: {:?}", tree.nodes);
        assert_eq!(asking::links_check(&list, &links), Taken);
        let places = 0..tree.nodes.len();
        let shared = places.clone().filter(|&place| ends_where_its_parent_ends(&tree, place));
        let is_of_kind = [
            shared.clone().count() > 0,
            shared.count() > 2,
            places.clone().any(|place| next_sibling(&tree, place).is_some()),
            places.clone().any(|place| above(&tree, place).len() > 40),
        ];
        (0..seen.len()).for_each(|kind| seen[kind] += u64::from(is_of_kind[kind]));
    });
    assert!(
        seen.iter().all(|&lists| lists > LEAST),
        "lists with a node that ends where its parent ends, with three, with siblings, with more \
         than forty nodes above one: {seen:?}"
    );
}

/// Returns some of the nodes' places, in their order.
fn some_places(random: &mut Random, tree: &Tree) -> Vec<usize> {
    (0..tree.nodes.len()).filter(|_| random.below(8) < 5).collect()
}

/// Returns the words of the nodes at these places.
fn words_at(tree: &Tree, places: &[usize]) -> Vec<u32> {
    words(&places.iter().map(|&place| tree.nodes[place]).collect::<Vec<Node>>())
}

/// Returns the pairs of the places in the first list with those below them in the second, in either
/// order. If they are to be directly inside, the levels differ by one.
fn pairs_of(tree: &Tree, lists: [&[usize]; 2], ticket: &Ticket) -> Vec<Pair> {
    let mut pairs = Vec::new();
    for &y in lists[1] {
        let above = above(tree, y);
        for &x in lists[0].iter().filter(|x| above.contains(x)) {
            let (ancestor, descendant) = (tree.nodes[x], tree.nodes[y]);
            if ticket.relation == 0 || descendant.level == ancestor.level + 1 {
                pairs.push(Pair { ancestor, descendant });
            }
        }
    }
    let order = if ticket.order == 0 { Order::Descendant } else { Order::Ancestor };
    pairs.sort_by_key(|pair| pair.key(order));
    pairs
}

/// Tells whether each level is one more than the parent's.
fn rises_by_one(tree: &Tree) -> bool {
    let level = |place: usize| tree.nodes[place].level;
    (0..tree.nodes.len()).all(|y| tree.parents[y].map_or(true, |x| level(y) == level(x) + 1))
}

#[test]
fn pairs_are_those_of_the_trees() {
    let mut seen = [0; 4];
    each_case(SEEDS + CASES, CASES, |random| {
        let tree = forest(random);
        let places = [(); 2].map(|()| some_places(random, &tree));
        let lists = [0, 1].map(|list: usize| words_at(&tree, &places[list]));
        assert_eq!(asking::check_two(&lists[0], &lists[1]), Taken);
        for [relation, order] in [[0, 0], [0, 1], [1, 0], [1, 1]] {
            let ticket = Ticket { relation, order, ..FRESH };
            let expected = pairs_of(&tree, [&places[0], &places[1]], &ticket);
            let mut out = vec![0; random.below(9 * PAIR_WORDS)];
            assert_eq!(asking::list(&lists[0], &lists[1], ticket, &mut out), Taken);
            assert_eq!(asking::listed(&lists[0], &lists[1], ticket), expected, "{ticket:?}");
            seen[0] += u64::from(relation == 0 && most_around(&expected) >= 3);
            seen[1] += u64::from(relation == 1 && !expected.is_empty());
            if relation == 1 && rises_by_one(&tree) {
                hold_parents(&tree, &expected);
                seen[2] += u64::from(!expected.is_empty());
            }
        }
        seen[3] += u64::from(tree.nodes.iter().any(|node| node.end == u32::MAX));
    });
    assert!(
        seen.iter().all(|&lists| lists > LEAST),
        "listings with three ancestors that end at one position, with pairs directly inside, with \
         such pairs where levels rise by one, lists up to the greatest number: {seen:?}"
    );
}

/// Fails unless the pairs are those of a parent and its child.
fn hold_parents(tree: &Tree, pairs: &[Pair]) {
    let place = |node: &Node| tree.nodes.iter().position(|other| other == node);
    for Pair { ancestor, descendant } in pairs {
        let parent = place(descendant).and_then(|place| tree.parents[place]);
        assert_eq!(parent, place(ancestor), "the parent of {descendant:?}");
    }
}

/// Gives each sample its place as its word, or none. A zone's row is over the samples below it.
#[test]
fn sheets_are_those_of_the_trees() {
    let mut seen = [0; 2];
    each_case(SEEDS + 2 * CASES, CASES, |random| {
        let tree = forest(random);
        let [zones, samples] = [(); 2].map(|()| some_places(random, &tree));
        let word = |&place: &usize| if place % 3 == 0 { NO_HUNDREDTHS } else { place as u32 };
        let row = |zone: &usize| {
            let is_below = |sample: &&usize| above(&tree, **sample).contains(zone);
            subtotal_over(&samples.iter().filter(is_below).map(word).collect::<Vec<u32>>())
        };
        let rows: Vec<Subtotal> = zones.iter().map(row).collect();
        let hundredths: Vec<u32> = samples.iter().map(word).collect();
        let lists = [&zones, &samples].map(|places| words_at(&tree, places));
        let mut out = vec![0; SUBTOTAL_WORDS * rows.len()];
        assert_eq!(asking::sheet(&lists[0], &lists[1], &hundredths, &mut out), Taken);
        assert_eq!(out, rows.concat(), "the sheet, and that of the tree: {:?}", tree.nodes);
        seen[0] += u64::from(rows.iter().any(|&[samples, present, _]| samples > present));
        seen[1] += u64::from(zones.iter().any(|&zone| above(&tree, zone).len() > 40));
    });
    assert!(
        seen.iter().all(|&lists| lists > LEAST),
        "lists with a missing sample in a zone, with more than forty nodes above a zone: {seen:?}"
    );
}
