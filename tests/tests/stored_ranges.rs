//! A zone's low and high, on the cases of `tests/cases/ranges.txt`: against what is stored there,
//! and against the model.

use belfrychest::raw;
use outside::asking::{self, TAKEN};
use outside::stored::{each_case, hexadecimal_words, number, verdict, words, Case};

const CASES: &str = include_str!("../cases/ranges.txt");

/// Returns what is shown of a call that is taken: the bits of the low and the high, or that there
/// is no reading.
fn shown(found: raw::Range) -> String {
    match found.present {
        0 => "no reading".to_string(),
        _ => format!("low {:08x} high {:08x}", found.low.to_bits(), found.high.to_bits()),
    }
}

fn lines(case: &Case) -> Vec<String> {
    let zone = number(case.label.split([' ', ',']).nth(1).expect("the zone's index")) as u32;
    let lists: Vec<&str> = case.given.split('/').collect();
    let (zones, samples) = (words(lists[0]), words(lists[1]));
    let readings = hexadecimal_words(lists[2]);
    asking::zone_range(&zones, &samples, &readings, zone);
    let found = raw::zone_range(&zones, &samples, &readings, zone);
    let said = verdict(found.verdict);
    vec![if found.verdict == TAKEN { format!("{said}, {}", shown(found)) } else { said }]
}

#[test]
fn ranges() {
    each_case(CASES, 130, lines);
}
