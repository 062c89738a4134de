//! The runs of page calls of `tests/cases/pairs.txt`: each call against what is stored there and
//! against the model, and each run against demand 3.

use belfrychest::raw::Ticket;
use outside::asking::{self, meaning};
use outside::history::History;
use outside::making::tickets::FRESH;
use outside::model::pages::{Order, Pair, Relation};
use outside::stored::{each_case, listed, number, numbers, two_lists, Case};

const CASES: &str = include_str!("../cases/pairs.txt");
/// The document that is left out, and the most pairs that are all shown.
const DOCUMENT: u32 = 5;
const ALL_SHOWN: usize = 40;

/// Returns the ticket that a run's line describes: the relation, the order, and the place.
fn ticket(text: &str) -> Ticket {
    let parts: Vec<&str> = text.split_whitespace().collect();
    let chosen = |word: &str, among: [&str; 2]| {
        among.iter().position(|name| *name == word).expect("a relation or an order") as u32
    };
    let (relation, order) =
        (chosen(parts[0], ["inside", "directly"]), chosen(parts[1], ["descendant", "ancestor"]));
    if parts[2..] == ["fresh"] {
        return Ticket { relation, order, ..FRESH };
    }
    match numbers(&parts[2..].join(" "))[..] {
        [document, first, second] => Ticket { relation, order, placed: 1, document, first, second },
        _ => panic!("no place: {text}"),
    }
}

/// Returns how a ticket is described.
fn described(ticket: &Ticket) -> String {
    let ticket = meaning(ticket);
    let relation = match ticket.relation {
        Relation::Inside => "inside",
        Relation::Directly => "directly",
    };
    let order = match ticket.order {
        Order::Descendant => "descendant",
        Order::Ancestor => "ancestor",
    };
    format!("{relation} {order}{}", ticket.place.map_or(" fresh".into(), |place| listed(&place)))
}

/// Returns a pair by its starts, with its document if that isn't 5.
fn by_starts(pair: &Pair) -> String {
    let document = pair.ancestor.document;
    let shown = if document == DOCUMENT { String::new() } else { format!("{document}:") };
    format!(" {shown}{}-{}", pair.ancestor.start, pair.descendant.start)
}

/// Returns the pairs of a page, and of many the first and the last.
fn shown(pairs: &[Pair]) -> String {
    match pairs {
        [first, .., last] if pairs.len() > ALL_SHOWN => {
            format!("{} to{}", by_starts(first), by_starts(last))
        }
        _ => pairs.iter().map(by_starts).collect(),
    }
}

/// Makes a run's next call, and returns its line.
fn call(history: &mut History, text: &str) -> String {
    let (room, lists) = text.split_once(':').expect("the output's words and a colon");
    let (room, (ancestors, descendants)) = (number(room), two_lists(lists).expect("two lists"));
    asking::list(&ancestors, &descendants, history.ticket, &mut vec![0; room]);
    let page = history.call(&ancestors, &descendants, None, room);
    let pairs = &history.handed_out[history.handed_out.len() - page.count..];
    let done = if page.done == 1 { "done" } else { "not done" };
    let verdict = format!(
        "answer {} list {} index {}",
        page.verdict.answer, page.verdict.list, page.verdict.index
    );
    format!(
        "{verdict}, pairs {}{}, {done}, ticket {}",
        page.count,
        shown(pairs),
        described(&page.ticket)
    )
}

fn lines(case: &Case) -> Vec<String> {
    let mut history = History::from(ticket(case.given));
    let mut lines: Vec<String> = case.calls.iter().map(|text| call(&mut history, text)).collect();
    let stood = history.standing.iter().flatten().count();
    lines.push(format!(
        "run: done {}, stood {stood}, handed out {}",
        history.done,
        history.handed_out.len()
    ));
    lines
}

#[test]
fn pairs() {
    each_case(CASES, 417, lines);
}
