//! Field books, and what they are written from.

use super::lists::{any_family, damage, nest, some_of, texts};
use super::misfit;
use crate::earlier::books::MOST_LISTS as FEW_LISTS;
use crate::model::books::{bytes, contents_end, numbers, Tagged, MOST_LISTS, WANTED_WORDS};
use crate::model::nodes::{words, Node, NODE_WORDS};
use crate::random::Random;

/// Returns this many lists under the tags 0, 1, 2 and so on. The first has three zones, and each of
/// the others two texts in all of them.
pub fn zones_and_texts(count: u32) -> Vec<Tagged> {
    (0..count).map(|tag| (tag, if tag == 0 { nest(3) } else { texts(2) })).collect()
}

/// Returns this many lists under the tags 1, 2, 3 and so on, among which this many nodes are shared
/// out. The first node is a zone around all others, which are texts.
pub fn shared_out(lists: usize, nodes: usize) -> Vec<Tagged> {
    let of_list = |list: usize| nodes / lists + usize::from(list < nodes % lists);
    let mut made: Vec<Tagged> =
        (0..lists).map(|list| (1 + list as u32, texts(of_list(list)))).collect();
    made[0].1[0] = nest(1)[0];
    made
}

/// Returns the entries of this many empty lists, under the tags 1, 2, 3 and so on, and their book.
pub fn empty_lists(count: u32) -> (Vec<u32>, Vec<u8>) {
    let lists: Vec<Tagged> = (1..=count).map(|tag| (tag, Vec::new())).collect();
    (parts(&lists).0, bytes(&lists))
}

/// Returns how many lists a book gets, mostly a few. Now and then there are more than earlier
/// programs take, or as many as may be, one less or one more.
fn any_count(random: &mut Random) -> usize {
    match random.below(16) {
        0 => MOST_LISTS - 1 + random.below(3),
        1 => FEW_LISTS + 1 + random.below(MOST_LISTS - FEW_LISTS),
        _ => random.below(5),
    }
}

/// Returns this many lists under ascending tags. The nodes of all are of one family, so that all
/// are accepted and any two agree. If there are many lists, every other one is empty.
pub fn sound_lists(random: &mut Random, count: usize) -> Vec<Tagged> {
    let all = any_family(random);
    let step = random.pick(&[1, 1 << 16, u32::MAX / (count as u32 + 2)]);
    let mut lists: Vec<Tagged> = Vec::with_capacity(count);
    for place in 0..count {
        let is_empty = count >= FEW_LISTS && random.one_in(2);
        let nodes = if is_empty { Vec::new() } else { some_of(random, &all) };
        lists.push((step * place as u32, nodes));
    }
    if count > 0 && step > 1 && random.one_in(2) {
        lists[count - 1].0 = u32::MAX;
    }
    lists
}

/// Returns this many lists that are mostly as above. Tags and nodes are damaged now and then.
pub fn lists_of(random: &mut Random, count: usize) -> Vec<Tagged> {
    let mut lists = sound_lists(random, count);
    while count > 0 && random.one_in(3) {
        let list = random.below(count);
        damage_list(random, &mut lists[list]);
    }
    lists
}

fn damage_list(random: &mut Random, (tag, nodes): &mut Tagged) {
    if random.one_in(6) {
        *tag = random.other_than(*tag);
    } else {
        damage(random, nodes);
    }
}

/// Returns the bytes of a book, mostly sound.
pub fn book(random: &mut Random) -> Vec<u8> {
    let count = any_count(random);
    let lists = lists_of(random, count);
    book_of(random, &lists)
}

/// Returns the bytes of a book of these lists, mostly undamaged.
pub fn book_of(random: &mut Random, lists: &[Tagged]) -> Vec<u8> {
    let mut book = bytes(lists);
    while random.one_in(5) {
        damage_bytes(random, &mut book, contents_end(lists.len()));
    }
    book
}

/// Alters a byte of the contents or of the whole, adds one or cuts the rest off.
fn damage_bytes(random: &mut Random, book: &mut Vec<u8>, contents_end: usize) {
    if book.is_empty() {
        return;
    }
    let most = if random.one_in(2) { contents_end.min(book.len()) } else { book.len() };
    let place = random.below(most);
    match random.below(5) {
        0 => book.push(random.any() as u8),
        1 => book.truncate(place),
        2 => book[place] = random.any() as u8,
        3 => book[place] = book[place].wrapping_sub(1),
        _ => book[place] = book[place].wrapping_add(1),
    }
}

/// Returns the tags of a book, as far as there are bytes for them.
pub fn tags(book: &[u8]) -> Vec<u32> {
    let numbers = numbers(book);
    let lists = numbers.first().map_or(0, |&lists| lists as usize);
    numbers.iter().skip(1).step_by(3).take(lists).copied().collect()
}

/// Returns a tag that the book mostly has.
pub fn tag(random: &mut Random, book: &[u8]) -> u32 {
    random.mostly_of(&tags(book))
}

/// Returns the entries and the nodes that a book of these lists is written from.
pub fn parts(lists: &[Tagged]) -> (Vec<u32>, Vec<u32>) {
    let entries = lists.iter().flat_map(|(tag, nodes)| [*tag, nodes.len() as u32]).collect();
    let nodes: Vec<Node> = lists.iter().flat_map(|(_, nodes)| nodes).copied().collect();
    (entries, words(&nodes))
}

/// Returns entries and nodes to write a book from, mostly sound.
pub fn wanted(random: &mut Random) -> (Vec<u32>, Vec<u32>) {
    let count = any_count(random);
    let lists = lists_of(random, count);
    wanted_of(random, &lists)
}

/// Returns entries and nodes to write a book of these lists from, mostly undamaged.
pub fn wanted_of(random: &mut Random, lists: &[Tagged]) -> (Vec<u32>, Vec<u32>) {
    let (mut entries, nodes) = parts(lists);
    if !entries.is_empty() && random.one_in(12) {
        let place = random.below(entries.len());
        entries[place] = random.other_than(entries[place]);
    }
    (misfit(random, entries, WANTED_WORDS), misfit(random, nodes, NODE_WORDS))
}
