//! The farm of docs/SCOPE.md, two zones and two samples. Prints all its pairs, and then the refusal
//! of a check with the samples in the wrong order.
use belfrychest::{check_two, Listing, Node, Order, Pair, Refusal, Relation, PAGE_PAIRS};

fn main() -> Result<(), Refusal> {
    let node = |start, end, level| Node { document: 5, start, end, level };
    let zones = [node(2, 10, 2), node(3, 7, 3)];
    let samples = [node(4, 6, 4), node(8, 9, 3)];
    let buffer = vec![Pair::default(); PAGE_PAIRS];
    let mut count = 0;
    for pair in Listing::new(&zones, &samples, Relation::Inside, Order::Descendant, buffer)? {
        println!("{} {} {}", pair.ancestor.document, pair.ancestor.start, pair.descendant.start);
        count += 1;
    }
    println!("pairs {count}");

    let turned = [samples[1], samples[0]];
    if let Err(Refusal { answer, list: Some(list), index: Some(index) }) =
        check_two(&zones, &turned)
    {
        println!("refused {} {} list {list} index {index}", answer.number(), answer.name());
    }
    Ok(())
}
