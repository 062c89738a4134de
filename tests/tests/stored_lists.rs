//! The checks of one list and of two, and the part at the faulty node, on the cases of
//! `tests/cases/lists.txt`: against what is stored there, and against the model.

use belfrychest::raw;
use outside::asking;
use outside::stored::{each_case, listed, two_lists, verdict, words, Case};

const CASES: &str = include_str!("../cases/lists.txt");

/// Returns the line of one list.
fn one(list: &[u32]) -> String {
    asking::check(list);
    verdict(raw::check(list))
}

/// Returns the line of two lists, which both calls of two lists must agree on.
fn two(ancestors: &[u32], descendants: &[u32]) -> String {
    asking::faulty(ancestors, descendants);
    let raw::Part { verdict: found, from, words } = raw::faulty(ancestors, descendants);
    let checked = raw::check_two(ancestors, descendants);
    assert_eq!(checked, found, "given by belfry_check_two and by belfry_faulty");
    let faulty = [ancestors, descendants][found.list as usize];
    format!("{}, part of {words} words{}", verdict(checked), listed(&faulty[from..from + words]))
}

fn lines(case: &Case) -> Vec<String> {
    match two_lists(case.given) {
        Some((first, second)) => {
            vec![two(&first, &second), format!("swapped: {}", two(&second, &first))]
        }
        None => vec![one(&words(case.given))],
    }
}

#[test]
fn lists() {
    each_case(CASES, 140, lines);
}
