//! Each function of the C interface with a random case of it: what it is asked is made, lent where
//! the ground says, and held against the model.

use crate::asking;
use crate::earlier::books::MOST_LISTS as FEW_LISTS;
use crate::ends::{clash, is_between, meet, most_around, most_at_one_end};
use crate::ground::Ground;
use crate::making::{books, hundredths, links as lent, lists, marks, questions, readings, tickets};
use crate::model::answers::Answer::{self, *};
use crate::model::answers::{Written, NAME_BYTES};
use crate::model::books::{
    body_nodes, check as opened, contents_end, write, Entry, Opened, NUMBER_BYTES, WANTED_WORDS,
};
use crate::model::links::LINK_WORDS;
use crate::model::marks::{CLOSE, ROW_WORDS};
use crate::model::nodes::{nodes, NODE_WORDS};
use crate::model::pages::{pairs, Page, Pair, Relation, Ticket, PAIR_WORDS};
use crate::model::questions::{ask as answered, Asked};
use crate::model::readings::{Range, MISSING, READING_WORDS};
use crate::model::sheets::SUBTOTAL_WORDS;
use crate::model::MOST;
use crate::random::{each_case, Random};
use crate::tally::Kind::{self, *};
use crate::tally::Tally;
use belfrychest::raw;

/// A function, by a case of it, which counts itself, and by the answers that it can give. The kinds
/// are those that its cases have to be now and then.
pub struct Function {
    case: fn(&mut Random, Ground, &mut Tally),
    answers: &'static [Answer],
    kinds: &'static [Kind],
}

impl Function {
    /// Runs `cases` cases, and fails unless each answer came that the function can give, and each
    /// kind of case.
    pub fn hold(&self, first_seed: u64, cases: u64, ground: Ground) {
        let mut tally = Tally::default();
        each_case(first_seed, cases, |random| (self.case)(random, ground, &mut tally));
        tally.hold(self.answers);
        tally.hold_kinds(self.kinds);
    }
}

/// Counts a case of one list.
fn count_one(tally: &mut Tally, answer: Answer, list: &[u32]) {
    tally.count(answer);
    tally.see(Three, answer == Taken && most_at_one_end(&nodes(list)) >= 3);
}

pub const CHECK: Function = Function {
    case: check,
    answers: &[Taken, Ragged, Long, Level, Span, Order, Cross, Depth],
    kinds: &[Three],
};

fn check(random: &mut Random, ground: Ground, tally: &mut Tally) {
    let list = lists::list(random);
    let answer = asking::check(&ground.lend(&list));
    count_one(tally, answer, &list);
}

const OF_TWO_LISTS: &[Answer] = &[Taken, Ragged, Long, Level, Span, Order, Cross, Depth, Joint];

/// Counts a case of two lists.
fn count_two(tally: &mut Tally, answer: Answer, ancestors: &[u32], descendants: &[u32]) {
    let (ancestors, descendants) = (nodes(ancestors), nodes(descendants));
    tally.count(answer);
    tally.see(Shared, answer == Taken && meet(&ancestors, &descendants));
    tally.see(AtOdds, answer == Joint && clash(&ancestors, &descendants));
}

pub const CHECK_TWO: Function =
    Function { case: check_two, answers: OF_TWO_LISTS, kinds: &[Shared, AtOdds] };

fn check_two(random: &mut Random, ground: Ground, tally: &mut Tally) {
    let (ancestors, descendants) = lists::two_lists(random);
    let answer = asking::check_two(&ground.lend(&ancestors), &ground.lend(&descendants));
    count_two(tally, answer, &ancestors, &descendants);
}

pub const FAULTY: Function =
    Function { case: faulty, answers: OF_TWO_LISTS, kinds: &[Shared, AtOdds] };

fn faulty(random: &mut Random, ground: Ground, tally: &mut Tally) {
    let (ancestors, descendants) = lists::two_lists(random);
    let answer = asking::faulty(&ground.lend(&ancestors), &ground.lend(&descendants));
    count_two(tally, answer, &ancestors, &descendants);
}

pub const LIST: Function =
    Function { case: list, answers: OF_TWO_LISTS, kinds: &[Shared, Three, AtOdds, Between] };

fn list(random: &mut Random, ground: Ground, tally: &mut Tally) {
    let (ancestors, descendants) = lists::two_lists(random);
    let ticket = tickets::made_up(random, &ancestors, &descendants);
    let asked = asking::meaning(&ticket);
    let pairs = pairs(asked.relation, &nodes(&ancestors), &nodes(&descendants));
    let words = random.around(pairs.len() * PAIR_WORDS);
    let answer = asking::list(
        &ground.lend(&ancestors),
        &ground.lend(&descendants),
        ticket,
        &mut ground.room(words),
    );
    count_two(tally, answer, &ancestors, &descendants);
    tally.see(Three, answer == Taken && most_around(&pairs) >= 3);
    tally.see(Between, answer == Taken && stops_between(&asked, pairs, words / PAIR_WORDS));
}

/// Tells whether a page of these pairs stops between two ancestors that end at one position.
fn stops_between(ticket: &Ticket, mut pairs: Vec<Pair>, room: usize) -> bool {
    pairs.retain(|pair| ticket.place.map_or(true, |place| pair.key(ticket.order) > place));
    pairs.sort_by_key(|pair| pair.key(ticket.order));
    0 < room && room < pairs.len() && is_between(&pairs[room - 1], &pairs[room])
}

pub const LIST_LINKED: Function = Function {
    case: |random, ground, tally| {
        list_linked(random, ground, tally);
    },
    answers: &[Taken, Ragged, Long, Level, Span, Order, Cross, Depth, Joint, Links],
    kinds: &[Shared, Three, AtOdds, Between],
};

/// What a page call was lent, the words of its output, and what the model says.
pub struct Linked {
    pub ancestors: Vec<u32>,
    pub descendants: Vec<u32>,
    pub links: Vec<u32>,
    pub ticket: raw::Ticket,
    pub words: usize,
    pub page: Page,
}

/// Makes a page call that is lent links. Two of three calls have many zones and few samples, and
/// now and then there is no room.
pub fn list_linked(random: &mut Random, ground: Ground, tally: &mut Tally) -> Linked {
    let (ancestors, descendants) =
        if random.one_in(3) { lists::two_lists(random) } else { lists::two_sparse_lists(random) };
    let links = lent::links(random, &ancestors, &descendants);
    let ticket = tickets::made_up(random, &ancestors, &descendants);
    let asked = asking::meaning(&ticket);
    let pairs = pairs(asked.relation, &nodes(&ancestors), &nodes(&descendants));
    let needed = random.around(pairs.len() * PAIR_WORDS);
    let words = if random.one_in(8) { random.below(PAIR_WORDS) } else { needed };
    let page = asking::list_linked(
        &ground.lend(&ancestors),
        &ground.lend(&descendants),
        &ground.lend(&links),
        ticket,
        &mut ground.room(words),
    );
    let answer = page.verdict.answer;
    count_two(tally, answer, &ancestors, &descendants);
    tally.see(Three, answer == Taken && most_around(&pairs) >= 3);
    tally.see(Between, answer == Taken && stops_between(&asked, pairs, words / PAIR_WORDS));
    Linked { ancestors, descendants, links, ticket, words, page }
}

pub const ZONE_RANGE: Function = Function {
    case: |random, ground, tally| {
        zone_range(random, ground, tally);
    },
    answers: &[Taken, Ragged, Long, Level, Span, Order, Cross, Depth, Joint, Absent, Reading],
    kinds: &[Shared, AtOdds],
};

/// Asks for a zone, and returns what the model says. A case is shared where a sample with a reading
/// ends where the zone ends.
pub fn zone_range(random: &mut Random, ground: Ground, tally: &mut Tally) -> Range {
    let (zones, samples) = lists::two_lists(random);
    let readings = readings::readings(random, samples.len() / NODE_WORDS);
    let zone = readings::zone(random, &zones, &samples);
    let range = asking::zone_range(
        &ground.lend(&zones),
        &ground.lend(&samples),
        &ground.lend(&readings),
        zone,
    );
    let (answer, zones, samples) = (range.verdict.answer, nodes(&zones), nodes(&samples));
    let is_read = |index: usize| readings[READING_WORDS * index] != MISSING;
    tally.count(answer);
    tally.see(AtOdds, answer == Joint && clash(&zones, &samples));
    if answer == Taken {
        let zone = zones[zone as usize];
        let ends_there = |&index: &usize| meet(&[zone], &[samples[index]]);
        tally.see(Shared, (0..samples.len()).filter(ends_there).any(is_read));
    }
    range
}

pub const SHEET: Function = Function {
    case: |random, ground, tally| {
        sheet(random, ground, tally);
    },
    answers: &[Taken, Ragged, Long, Level, Span, Order, Cross, Depth, Joint, Room, Reading],
    kinds: &[Shared, Three, AtOdds],
};

/// What a sheet was asked for, and what came of it.
pub struct Sheet {
    pub zones: Vec<u32>,
    pub samples: Vec<u32>,
    pub hundredths: Vec<u32>,
    pub answer: Answer,
}

pub fn sheet(random: &mut Random, ground: Ground, tally: &mut Tally) -> Sheet {
    let (zones, samples) = lists::two_lists(random);
    let hundredths = hundredths::hundredths(random, samples.len() / NODE_WORDS);
    let needed = SUBTOTAL_WORDS * (zones.len() / NODE_WORDS);
    let answer = asking::sheet(
        &ground.lend(&zones),
        &ground.lend(&samples),
        &ground.lend(&hundredths),
        &mut ground.room(random.around(needed)),
    );
    count_two(tally, answer, &zones, &samples);
    let pairs = pairs(Relation::Inside, &nodes(&zones), &nodes(&samples));
    tally.see(Three, answer == Taken && most_around(&pairs) >= 3);
    Sheet { zones, samples, hundredths, answer }
}

pub const NUMBER: Function = Function {
    case: number,
    answers: &[Taken, Long, Room, Mark, Stray, Deep, Unclosed],
    kinds: &[],
};

fn number(random: &mut Random, ground: Ground, tally: &mut Tally) {
    let (document, marks) = (random.word(), marks::marks(random));
    let needed = ROW_WORDS * marks.iter().filter(|&&mark| mark != CLOSE).count();
    let mut out = ground.room(random.around(needed));
    tally.count(asking::number(document, &ground.lend(&marks), &mut out));
}

pub const UNNUMBER: Function =
    Function { case: unnumber, answers: &[Taken, Ragged, Long, Room, Table], kinds: &[] };

fn unnumber(random: &mut Random, ground: Ground, tally: &mut Tally) {
    let table = marks::table(random);
    let needed = table.get(2).map_or(0, |&end| MOST.min(end as usize));
    let mut out = ground.room(random.around(needed));
    tally.count(asking::unnumber(&ground.lend(&table), &mut out));
}

pub const PICK: Function =
    Function { case: pick, answers: &[Taken, Ragged, Long, Room], kinds: &[] };

fn pick(random: &mut Random, ground: Ground, tally: &mut Tally) {
    let table = marks::table(random);
    let tag = marks::tag(random, &table);
    let needed =
        NODE_WORDS * table.chunks_exact(ROW_WORDS).filter(|row| row[NODE_WORDS] == tag).count();
    let mut out = ground.room(random.around(needed));
    tally.count(asking::pick(&ground.lend(&table), tag, &mut out));
}

pub const LINKS: Function = Function {
    case: links,
    answers: &[Taken, Ragged, Long, Level, Span, Order, Cross, Depth, Room],
    kinds: &[Three],
};

fn links(random: &mut Random, ground: Ground, tally: &mut Tally) {
    let list = lists::list(random);
    let needed = LINK_WORDS * (list.len() / NODE_WORDS);
    let mut out = ground.room(random.around(needed));
    let answer = asking::links(&ground.lend(&list), &mut out);
    count_one(tally, answer, &list);
}

pub const LINKS_CHECK: Function = Function {
    case: links_check,
    answers: &[Taken, Ragged, Long, Level, Span, Order, Cross, Depth, Links],
    kinds: &[Three],
};

fn links_check(random: &mut Random, ground: Ground, tally: &mut Tally) {
    let (list, other) =
        if random.one_in(2) { lists::two_lists(random) } else { lists::two_sparse_lists(random) };
    let links = lent::links(random, &list, &other);
    let answer = asking::links_check(&ground.lend(&list), &ground.lend(&links));
    count_one(tally, answer, &list);
}

/// Returns the lists of a book that have nodes and come after those that earlier programs take.
fn later(entries: &[Entry]) -> impl Iterator<Item = &Entry> {
    entries.iter().skip(FEW_LISTS).filter(|entry| entry.count > 0)
}

/// Counts a case of a book.
fn count_book(tally: &mut Tally, answer: Answer, opened: &Opened, book: &[u8]) {
    let has_three = |entry: &Entry| most_at_one_end(&body_nodes(book, entry)) >= 3;
    tally.count(answer);
    tally.see(Three, answer == Taken && opened.entries.iter().any(has_three));
    tally.see(LaterFault, opened.verdict.list as usize >= FEW_LISTS);
}

pub const BOOK_CHECK: Function = Function {
    case: book_check,
    answers: &[Taken, Level, Span, Order, Cross, Depth, Contents],
    kinds: &[Three, Later, LaterFault],
};

fn book_check(random: &mut Random, ground: Ground, tally: &mut Tally) {
    let book = books::book(random);
    let answer = asking::book_check(&ground.lend(&book));
    let opened = opened(&book);
    count_book(tally, answer, &opened, &book);
    tally.see(Later, later(&opened.entries).next().is_some());
}

pub const BOOK_BODY: Function = Function {
    case: book_body,
    answers: &[Taken, Level, Span, Order, Cross, Depth, Contents, Absent],
    kinds: &[Three, Later, LaterFault],
};

fn book_body(random: &mut Random, ground: Ground, tally: &mut Tally) {
    let book = books::book(random);
    let tag = books::tag(random, &book);
    let answer = asking::book_body(&ground.lend(&book), tag);
    let opened = opened(&book);
    count_book(tally, answer, &opened, &book);
    tally.see(Later, later(&opened.entries).any(|entry| entry.tag == tag));
}

pub const BOOK_WRITE: Function = Function {
    case: book_write,
    answers: &[Taken, Ragged, Level, Span, Order, Cross, Depth, Room, Contents],
    kinds: &[Three, Later, LaterFault],
};

fn book_write(random: &mut Random, ground: Ground, tally: &mut Tally) {
    let (entries, words) = books::wanted(random);
    let needed = contents_end(entries.len() / WANTED_WORDS) + NUMBER_BYTES * words.len();
    let mut out = ground.room(random.around(needed));
    let answer = asking::book_write(&ground.lend(&entries), &ground.lend(&words), &mut out);
    let Written { verdict, words: book, .. } = write(&entries, &words, out.len());
    let opened = Opened { verdict, ..opened(&book) };
    count_book(tally, answer, &opened, &book);
    tally.see(Later, later(&opened.entries).next().is_some());
}

pub const ASK: Function = Function {
    case: |random, ground, tally| {
        ask(random, ground, tally);
    },
    answers: &[Taken, Ragged, Long, Level, Span, Order, Cross, Depth, Joint, Contents, Absent],
    kinds: &[Three, Later, LaterFault],
};

/// What a book was asked, the words of the output, and what the model says.
pub struct Asking {
    pub book: Vec<u8>,
    pub words: Vec<u32>,
    pub room: usize,
    pub asked: Asked,
}

impl Asking {
    /// Tells whether some question has pairs of which this is true: it is given the places of the
    /// question's two lists in the book.
    pub fn has_pairs_of(&self, is_so: impl Fn([usize; 2]) -> bool) -> bool {
        let tags = books::tags(&self.book);
        let place = |tag| tags.iter().position(|&other| other == tag).expect("a tag of the book");
        let answered = asking::asked_in(&self.words).iter().zip(&self.asked.pages);
        let with_pairs = answered.filter(|(_, page)| !page.pairs.is_empty());
        let mut lists = with_pairs.map(|(asked, _)| [asked.ancestors, asked.descendants]);
        lists.any(|tags| is_so(tags.map(place)))
    }
}

/// Asks a book several questions. The answer of each counts, and so does that of the whole call. In
/// every other case the output has room for whole pairs and no word more.
pub fn ask(random: &mut Random, ground: Ground, tally: &mut Tally) -> Asking {
    let book = questions::book(random);
    let words = questions::words_for(random, &book);
    let all = answered(&book, &words, usize::MAX);
    let needed: usize = all.pages.iter().map(|page| PAIR_WORDS * page.pairs.len()).sum();
    let whole = if random.one_in(2) { PAIR_WORDS } else { 1 };
    let room = random.around(needed) / whole * whole;
    let asked = asking::ask(&ground.lend(&book), &ground.lend(&words), &mut ground.room(room));
    tally.count(asked.answer);
    for page in &asked.pages {
        tally.count(page.verdict.answer);
        tally.see(Three, most_around(&page.pairs) >= 3);
        tally.see(LaterFault, page.verdict.list as usize >= FEW_LISTS);
    }
    let case = Asking { book, words, room, asked };
    tally.see(Later, case.has_pairs_of(|places| places.iter().any(|&place| place >= FEW_LISTS)));
    case
}

/// Checks names of numbers that have one and of numbers that have none. The output is a name's
/// bytes long, or longer.
pub fn name(random: &mut Random, ground: Ground) {
    let number = if random.one_in(2) { random.small(20) } else { random.word() };
    asking::name(number, &mut ground.room(NAME_BYTES + 4 * random.below(2)));
}
