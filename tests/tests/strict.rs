//! What the stricter rule of docs/SCOPE.md, "Order and size", accepts: a list, two lists, a book.
//! The library must accept it too, with the same pairs and links.

use belfrychest::raw::{self, Ticket};
use outside::asking::{self, meaning, raw_verdict, TAKEN};
use outside::ends::{meet, most_at_one_end};
use outside::making::books::book;
use outside::making::lists::{list, two_lists};
use outside::making::marks::marks;
use outside::making::tickets::FRESH;
use outside::model::answers::Answer::{Cross, Joint, Taken};
use outside::model::answers::{Verdict, ANCESTORS};
use outside::model::books::{body_nodes, check};
use outside::model::links::{LINK_WORDS, NONE};
use outside::model::marks::ROW_WORDS;
use outside::model::nodes::{node, nodes, words, Node};
use outside::model::{strict, MOST};
use outside::random::each_case;
use outside::stored::each_book;

/// The cases that are made for each test.
const CASES: u64 = 20_000;
/// Seeds that no other test has.
const SEEDS: u64 = 1 << 48;
/// Fewer cases of a kind say too little. Of the stored books there are fewer.
const LEAST: u64 = 100;
const LEAST_STORED: u64 = 3;

/// How many cases both rules accept, how many of them have a node inside another, how many only the
/// library accepts, and how many both refuse.
#[derive(Debug, Default)]
struct Seen {
    both: u64,
    nested: u64,
    library: u64,
    neither: u64,
}

impl Seen {
    /// Holds the library's verdict against that of the stricter rule. Tells whether both accept.
    /// They answer the same, unless the stricter rule answers CROSS or JOINT. Of what the library
    /// accepts, the stricter rule refuses exactly that in which two nodes of a list share an end.
    /// Where two lists are checked together, the nodes of both count as one list.
    fn hold(&mut self, strict: Verdict, given: raw::Verdict, lists: &[Vec<Node>]) -> bool {
        let (same, taken) = (given == raw_verdict(strict), given == TAKEN);
        let is_earlier = (given.list, given.index) < (strict.list, strict.index);
        let is_right = match strict.answer {
            Cross => taken || given.answer == Joint as u32 || !is_earlier,
            Joint => taken || same,
            _ => same,
        };
        assert!(is_right, "given {given:?}, and by the stricter rule {strict:?}: {lists:?}");
        if taken {
            let shares_an_end = lists.iter().any(|nodes| meet(nodes, nodes));
            assert_eq!(same, !shares_an_end, "by the stricter rule {strict:?}: {lists:?}");
        }
        self.both += u64::from(taken && same);
        self.library += u64::from(taken && !same);
        self.neither += u64::from(!taken);
        taken && same
    }

    /// Holds the verdict on a list, and its links if both rules accept it.
    fn hold_list(&mut self, nodes: &[Node]) {
        let (list, verdict) = (words(nodes), strict::check(ANCESTORS, nodes));
        if self.hold(verdict, raw::check(&list), &[nodes.to_vec()]) {
            let (expected, mut given) = (strict::links(nodes), vec![0; LINK_WORDS * nodes.len()]);
            assert_eq!(asking::links(&list, &mut given), Taken);
            assert_eq!(given, expected, "links of {nodes:?}");
            assert_eq!(asking::links_check(&list, &expected), Taken);
            let mut parents = expected.iter().step_by(LINK_WORDS);
            self.nested += u64::from(parents.any(|&parent| parent != NONE));
        }
    }

    /// Holds the verdict on two lists, and their pairs if both rules accept them.
    fn hold_two(&mut self, outer: &[Node], inner: &[Node]) {
        let (ancestors, descendants) = (words(outer), words(inner));
        let given = raw::check_two(&ancestors, &descendants);
        if self.hold(strict::check_two(outer, inner), given, &[[outer, inner].concat()]) {
            let [inside, ..] = [[0, 0], [0, 1], [1, 0], [1, 1]].map(|[relation, order]| {
                let ticket = Ticket { relation, order, ..FRESH };
                let expected = strict::pairs(&meaning(&ticket), outer, inner);
                let given = asking::listed(&ancestors, &descendants, ticket);
                assert_eq!(given, expected, "{ticket:?} of {outer:?} and {inner:?}");
                expected
            });
            self.nested += u64::from(!inside.is_empty());
        }
    }

    /// Holds the verdict on a book, and its first two lists if both rules accept it.
    fn hold_book(&mut self, book: &[u8]) {
        let entries = check(book).entries;
        let lists: Vec<Vec<Node>> = entries.iter().map(|entry| body_nodes(book, entry)).collect();
        let both = self.hold(strict::check_book(book), raw::book_check(book).verdict, &lists);
        if let (true, [first, second, ..]) = (both, &lists[..]) {
            let mut of_two = Seen::default();
            of_two.hold_two(first, second);
            self.nested += of_two.nested;
        }
    }

    /// Fails unless this many cases of each kind came.
    fn hold_counts(&self, least: u64) {
        let counts = [self.both, self.nested, self.library, self.neither];
        assert!(counts.iter().all(|&count| count >= least), "{self:?}");
    }
}

/// Returns the whole nodes that the words make, no more than a list may have.
fn few_nodes(words: &[u32]) -> Vec<Node> {
    nodes(words).into_iter().take(MOST).collect()
}

#[test]
fn lists_are_accepted_and_linked() {
    let mut seen = Seen::default();
    each_case(SEEDS, CASES, |random| seen.hold_list(&few_nodes(&list(random))));
    seen.hold_counts(LEAST);
}

#[test]
fn two_lists_are_accepted_and_paired() {
    let mut seen = Seen::default();
    each_case(SEEDS + CASES, CASES, |random| {
        let (ancestors, descendants) = two_lists(random);
        seen.hold_two(&few_nodes(&ancestors), &few_nodes(&descendants));
    });
    seen.hold_counts(LEAST);
}

#[test]
fn books_are_accepted() {
    let mut seen = Seen::default();
    each_case(SEEDS + 2 * CASES, CASES, |random| seen.hold_book(&book(random)));
    seen.hold_counts(LEAST);
}

#[test]
fn stored_books_are_accepted() {
    let mut seen = Seen::default();
    each_book(|book| seen.hold_book(book));
    seen.hold_counts(LEAST_STORED);
}

#[test]
fn no_two_nodes_of_a_numbered_document_share_an_end() {
    let mut seen = Seen::default();
    each_case(SEEDS + 3 * CASES, CASES, |random| {
        let (document, marks) = (random.word(), marks(random));
        let mut table = vec![0; ROW_WORDS * marks.len()];
        let written = raw::number(document, &marks, &mut table);
        if written.verdict == TAKEN {
            let rows: Vec<Node> = table.chunks(ROW_WORDS).map(node).take(written.count).collect();
            assert_eq!(most_at_one_end(&rows), 1, "{rows:?}");
            seen.hold_list(&rows);
            seen.hold_two(&rows, &rows);
        }
    });
    let by_both_rules = seen.library + seen.neither == 0;
    assert!(by_both_rules && seen.nested >= LEAST, "{seen:?}");
}
