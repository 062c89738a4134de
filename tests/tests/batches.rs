//! Several listings that are followed at once, each as one question of every call. Between the
//! calls the book is edited, lists change places, tags are missing for a call, and the questions
//! change places and neighbours. Some calls are refused as a whole, and some books have as many
//! lists as they may have. Each listing is held against demand 3 (`outside::history`).

use belfrychest::raw::{self, Question, Ticket};
use outside::history::{History, Lists};
use outside::making::edits::edit;
use outside::making::lists::{family, some_of};
use outside::making::questions::question;
use outside::making::tickets::made_up;
use outside::model::answers::Answer::{self, *};
use outside::model::books::{bytes, Tagged, MOST_LISTS};
use outside::model::nodes::{words, Node};
use outside::model::pages::PAIR_WORDS;
use outside::model::questions::{MOST_QUESTIONS, QUESTION_WORDS};
use outside::paint::Word;
use outside::random::{each_case, Random};

/// The sequences of calls that are followed, from fresh tickets and from tickets that are made up.
const FRESH: u64 = 12_000;
const MADE_UP: u64 = 4_000;
/// Fewer than this many nodes of a document.
const SIZE: usize = 20;
/// The lists of the book that are edited. Their tags are twice their places, and more than the tags
/// of those before them.
const LISTS: usize = 4;
/// The lists before them in some books, which are never edited. These books have as many lists as
/// they may have.
const BEFORE: usize = MOST_LISTS - LISTS;
/// The relations and orders of the listings that are followed at once.
const KINDS: [[u32; 2]; 4] = [[0, 0], [0, 1], [1, 0], [1, 1]];
/// Seeds that no other test has.
const SEEDS: u64 = 1 << 58;
/// Fewer calls or listings of a kind say too little.
const LEAST: u64 = 100;

/// The nodes of the book's lists that are edited.
type Book = [Vec<Node>; LISTS];

fn tag(place: usize) -> u32 {
    2 * (BEFORE + place) as u32
}

/// Returns the bytes of the book, without the list of a place that is missing.
fn without(missing: Option<usize>, before: &[Tagged], book: &Book) -> Vec<u8> {
    let places = (0..LISTS).filter(|&place| Some(place) != missing);
    let edited: Vec<Tagged> = places.map(|place| (tag(place), book[place].clone())).collect();
    bytes(&[before, &edited].concat())
}

/// Returns the lists before those that are edited: mostly none, and now and then as many as may be.
fn any_before(random: &mut Random, all: &[Node]) -> Vec<Tagged> {
    let count = if random.one_in(10) { BEFORE } else { 0 };
    (0..count as u32).map(|tag| (tag, some_of(random, all))).collect()
}

/// Returns the book after some edits, which may damage it. Now and then two lists change places.
fn edited(random: &mut Random, book: &Book, all: &[Node]) -> Book {
    let mut book = book.clone();
    for _ in 0..random.pick(&[0, 0, 1, 2]) {
        edit(random, &mut book, all);
    }
    if random.one_in(12) {
        book.swap(random.below(LISTS), random.below(LISTS));
    }
    book
}

/// A listing that is followed, and the places of its two lists in the book.
struct Followed {
    history: History,
    lists: [usize; 2],
}

impl Followed {
    /// Makes a listing of any two lists of the book.
    fn new(random: &mut Random, book: &Book, [relation, order]: [u32; 2], placed: u32) -> Followed {
        let lists = [random.below(LISTS), random.below(LISTS)];
        let [ancestors, descendants] = lists.map(|list| words(&book[list]));
        let ticket = made_up(random, &ancestors, &descendants);
        Followed { history: History::from(Ticket { relation, order, placed, ..ticket }), lists }
    }

    fn question(&self) -> Question {
        let [ancestors, descendants] = self.lists.map(tag);
        Question { ancestors, descendants, ticket: self.history.ticket }
    }
}

/// A question of a call: the place of the listing that it follows, or none for a stranger.
type Asked = (Option<usize>, Question);

/// Returns the questions of a call: those that are followed, in any order, and strangers among
/// them. Now and then there are about as many as a call may have.
fn asked(random: &mut Random, followed: &[Followed], book: &[u8]) -> Vec<Asked> {
    let most = MOST_QUESTIONS - followed.len();
    let strangers = if random.one_in(16) { most - 1 + random.below(4) } else { random.below(3) };
    let mut questions: Vec<Asked> =
        (0..strangers).map(|_| (None, question(random, book))).collect();
    for (place, one) in followed.iter().enumerate() {
        questions.insert(random.below(questions.len() + 1), (Some(place), one.question()));
    }
    questions
}

/// The questions of a call, and their words. The last word may be missing, and then the last
/// question isn't whole.
struct Call {
    asked: Vec<Asked>,
    words: Vec<u32>,
}

impl Call {
    fn new(asked: Vec<Asked>) -> Call {
        let questions: Vec<Question> = asked.iter().map(|one| one.1).collect();
        Call { asked, words: raw::words(&questions).to_vec() }
    }

    /// Returns what the whole call has to answer, and how many questions it has to say.
    fn expected(&self) -> (Answer, usize) {
        if self.words.len() % QUESTION_WORDS != 0 {
            (Ragged, 0)
        } else if self.asked.len() > MOST_QUESTIONS {
            (Long, 0)
        } else {
            (Taken, self.asked.len())
        }
    }

    /// Makes the call on the book's bytes, and follows each of the listings through it, as far as
    /// it has a page. Returns how many of them were accepted.
    fn make(&self, followed: &mut [Followed], book: &Book, bytes: &[u8], room: usize) -> usize {
        let [coat, _] = u32::COATS;
        let (mut out, mut from, mut accepted) = (vec![coat; room], 0, 0);
        let given = raw::ask(bytes, &self.words, &mut out);
        let (answer, questions) = self.expected();
        assert_eq!((given.answer, given.questions as usize), (answer as u32, questions));
        let whole = self.words.len() / QUESTION_WORDS;
        for ((place, _), page) in self.asked.iter().take(whole).zip(&given.pages) {
            if let Some(place) = *place {
                let Followed { history, lists } = &mut followed[place];
                let [ancestors, descendants] = lists.map(|list| book[list].clone());
                history.follow(page, &Lists { ancestors, descendants }, &out[from..]);
                accepted += usize::from(page.verdict.answer == 0);
            }
            from += PAIR_WORDS * page.count;
        }
        assert!(out[from..].iter().all(|&word| word == coat), "altered after {from} words");
        accepted
    }
}

/// How often something happened: in calls, and in listings.
#[derive(Debug, Default)]
struct Seen {
    /// Calls whose words aren't whole questions, calls with too many questions, and calls in which
    /// some listings were accepted and others weren't.
    ragged: u64,
    too_many: u64,
    some_refused: u64,
    /// Listings with more than five pages, with a refused call, and with a pair that was altered.
    of_many_pages: u64,
    refused: u64,
    altered: u64,
    /// Those with a page that went on between two ancestors that end at one position.
    between: u64,
    /// Those with several pages, of the last lists of a book that has as many as may be.
    of_many_lists: u64,
}

impl Seen {
    fn count(&mut self, history: &History, before: &[Tagged]) {
        self.of_many_lists += u64::from(history.pages > 1 && !before.is_empty());
        self.of_many_pages += u64::from(history.pages > 5);
        self.refused += u64::from(history.refused > 0);
        self.altered += u64::from(history.altered > 0);
        self.between += u64::from(history.between > 0);
    }

    fn counts(&self) -> [u64; 8] {
        let Seen { ragged, too_many, some_refused, of_many_pages, .. } = *self;
        let Seen { refused, altered, between, of_many_lists, .. } = *self;
        [ragged, too_many, some_refused, of_many_pages, refused, altered, between, of_many_lists]
    }
}

/// Follows listings through edits until they are done, or further. The first lists are sound. An
/// edit is undone if a listing was refused or a list was missing, and the last call has room for
/// all.
fn follow(random: &mut Random, placed: u32, seen: &mut Seen) {
    let all = family(random, SIZE);
    let before = any_before(random, &all);
    let mut book = [(); LISTS].map(|()| some_of(random, &all));
    let mut followed = KINDS.map(|kind| Followed::new(random, &book, kind, placed));
    for _ in 0..random.pick(&[0, 1, 4, 14, 30]) {
        let next = edited(random, &book, &all);
        let missing = random.one_in(8).then(|| random.below(LISTS));
        let bytes = without(missing, &before, &next);
        let mut call = Call::new(asked(random, &followed, &bytes));
        if random.one_in(16) {
            call.words.pop();
        }
        let room = PAIR_WORDS * random.pick(&[0, 1, 1, 2, 3, 5]) + random.below(PAIR_WORDS);
        let accepted = call.make(&mut followed, &next, &bytes, room);
        if accepted == KINDS.len() && missing.is_none() {
            book = next;
        }
        seen.ragged += u64::from(call.expected().0 == Ragged);
        seen.too_many += u64::from(call.expected().0 == Long);
        seen.some_refused += u64::from((1..KINDS.len()).contains(&accepted));
    }
    finish(&mut followed, &before, &book);
    followed.iter().for_each(|one| seen.count(&one.history, &before));
}

/// Makes the last call, with room for all pairs. All listings are accepted and done.
fn finish(followed: &mut [Followed], before: &[Tagged], book: &Book) {
    let asked: Vec<Asked> =
        followed.iter().enumerate().map(|(place, one)| (Some(place), one.question())).collect();
    let done: Vec<usize> = followed.iter().map(|one| one.history.done).collect();
    let sizes = followed.iter().map(|one| one.lists.map(|list| book[list].len()));
    let enough = sizes.map(|[outer, inner]| PAIR_WORDS * outer * inner).sum();
    Call::new(asked).make(followed, book, &without(None, before, book), enough);
    for (one, done) in followed.iter().zip(done) {
        assert_eq!(one.history.done, done + 1, "accepted lists, and room for all their pairs");
    }
}

/// Follows listings, and fails unless all happened often that is counted.
fn hold(first_seed: u64, sequences: u64, placed: u32) {
    let mut seen = Seen::default();
    each_case(first_seed, sequences, |random| follow(random, placed, &mut seen));
    assert!(seen.counts().iter().all(|&times| times > LEAST), "{seen:?}");
}

#[test]
fn from_fresh_tickets() {
    hold(SEEDS, FRESH, 0);
}

#[test]
fn from_tickets_that_are_made_up() {
    hold(SEEDS + FRESH, MADE_UP, 1);
}
