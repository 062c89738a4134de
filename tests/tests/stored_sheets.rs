//! The zone sheet, on the cases of `tests/cases/sheets.txt`: against what is stored there, and
//! against the model.

use belfrychest::raw;
use outside::asking;
use outside::model::sheets::SUBTOTAL_WORDS;
use outside::stored::{each_case, number, shown, verdict, words, Case};

const CASES: &str = include_str!("../cases/sheets.txt");

fn lines(case: &Case) -> Vec<String> {
    let room = number(case.label.split([' ', ',']).nth(1).expect("the output's words"));
    let given: Vec<Vec<u32>> = case.given.split('/').map(words).collect();
    let [zones, samples, hundredths] = [&given[0], &given[1], &given[2]];
    let mut out = vec![0; room];
    asking::sheet(zones, samples, hundredths, &mut out);
    let raw::Written { verdict: found, count } = raw::sheet(zones, samples, hundredths, &mut out);
    let subtotals = shown(&out[..SUBTOTAL_WORDS * count]);
    vec![format!("{}, subtotals {count}:{subtotals}", verdict(found))]
}

#[test]
fn sheets() {
    each_case(CASES, 72, lines);
}
