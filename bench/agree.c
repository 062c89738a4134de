/* Whether every twin answers and writes as the archive does: on all shapes, on lists at the limits
   and on random small lists, most of which are damaged. In many of these a node ends where the one
   around it ends. The links that are lent are right, or wrong in some words. agree CASES says how
   many random ones. A difference is printed and ends it with 1. */
#include "codes.h"
#include "shapes.h"
#include <stdio.h>
#include <stdlib.h>
#include <string.h>

enum {
    MOST_PAIRS = 300000,
    MOST_NOTES = 1 << 16,
    ANSWERS = BELFRY_LINKS + 1,
    /* How far apart the words of a shape's links lie that are made wrong. Words of all three kinds
       are among them. */
    WRONG_APART = 97,
    /* The nodes of each of the two lists of the shape that a book of many lists is dealt from. */
    FEW_NODES = 100
};

/* What a book is written from: a list of entries, and the nodes of all lists. */
struct wanted {
    size_t entry_words, node_words;
    uint32_t entry[BELFRY_ENTRY_WORDS * (BELFRY_MOST_LISTS + 1)],
        node[2 * BELFRY_NODE_WORDS * (BELFRY_MOST_NODES + 1)];
};

/* What a case gives to the calls. */
struct input {
    const uint32_t *ancestors, *descendants, *links, *readings, *hundredths, *marks, *questions;
    const uint8_t *book;
    const struct wanted *wanted;
    size_t ancestor_words, descendant_words, link_words, reading_words, hundredth_words, mark_words,
        book_bytes, question_words;
    size_t rooms[2];
    belfry_ticket ticket;
    uint32_t zone, tag;
};

/* All that a code answered in a case, in order. */
struct notes {
    size_t count;
    uint64_t note[MOST_NOTES];
};

static struct notes expected, found;
static uint32_t out[MOST_PAIRS * BELFRY_PAIR_WORDS];
static unsigned long seen[ANSWERS];
/* How often the check of two gave each answer where a zone and a sample that start at two positions
   end at one. */
static unsigned long seen_at_an_end[ANSWERS];

static void note(struct notes *notes, uint64_t number) {
    if (notes->count == MOST_NOTES) {
        fprintf(stderr, "agree: a case with too many answers\n");
        exit(2);
    }
    notes->note[notes->count++] = number;
}

static void note_verdict(struct notes *notes, belfry_verdict v) {
    if (notes == &expected && v.answer < ANSWERS)
        seen[v.answer]++;
    note(notes, v.answer);
    note(notes, v.list);
    note(notes, v.index);
}

/* Paints the output before a call, and some words after its end, which no call may alter. */
static void clear_out(size_t words) {
    for (size_t i = 0; i < words + BELFRY_PAIR_WORDS; i++)
        out[i] = 0xa5a5a5a5 + i;
}

static void note_out(struct notes *notes, size_t words) {
    uint64_t sum = 14695981039346656037u;
    for (size_t i = 0; i < words + BELFRY_PAIR_WORDS; i++)
        sum = (sum ^ out[i]) * 1099511628211u;
    note(notes, sum);
}

static void note_ticket(struct notes *notes, belfry_ticket t) {
    note(notes, t.relation);
    note(notes, t.order);
    note(notes, t.placed);
    note(notes, t.document);
    note(notes, t.first);
    note(notes, t.second);
}

static void note_page(struct notes *notes, const belfry_page *page) {
    note_verdict(notes, page->verdict);
    note(notes, page->done);
    note(notes, page->count);
    note_ticket(notes, page->ticket);
}

static void note_checks(struct notes *notes, const struct code *code, const struct input *in) {
    belfry_verdict one = code->check(in->ancestors, in->ancestor_words);
    belfry_verdict other = code->check(in->descendants, in->descendant_words);
    belfry_verdict two =
        code->check_two(in->ancestors, in->ancestor_words, in->descendants, in->descendant_words);
    note_verdict(notes, one);
    note_verdict(notes, other);
    note_verdict(notes, two);
}

/* Makes the call with links, and the plain one where there are none. */
static belfry_page next_page(const struct code *code, const struct input *in, belfry_ticket ticket,
                             size_t room_words, int linked) {
    if (linked)
        return code->list_linked(in->ancestors, in->ancestor_words, in->descendants,
                                 in->descendant_words, in->links, in->link_words, ticket, out,
                                 room_words);
    return code->list(in->ancestors, in->ancestor_words, in->descendants, in->descendant_words,
                      ticket, out, room_words);
}

/* Notes page after page with one room, from a ticket on, until one is done or nothing is written.
 * */
static void note_pages(struct notes *notes, const struct code *code, const struct input *in,
                       belfry_ticket ticket, size_t room_words, int linked) {
    belfry_page page;
    do {
        clear_out(room_words);
        page = next_page(code, in, ticket, room_words, linked);
        note_page(notes, &page);
        note_out(notes, room_words);
        ticket = page.ticket;
    } while (!page.done && page.count > 0);
}

static void note_listings(struct notes *notes, const struct code *code, const struct input *in) {
    for (uint32_t kind = 0; kind < 4; kind++) {
        belfry_ticket fresh = BELFRY_TICKET(kind & 1, kind >> 1);
        belfry_ticket made_up = in->ticket;
        made_up.relation = kind & 1;
        made_up.order = kind >> 1;
        for (int linked = 0; linked < 2; linked++) {
            note_pages(notes, code, in, fresh, in->rooms[0], linked);
            note_pages(notes, code, in, fresh, in->rooms[1], linked);
            note_pages(notes, code, in, made_up, in->rooms[1], linked);
        }
    }
}

static void note_float(struct notes *notes, float number) {
    uint32_t bits;
    memcpy(&bits, &number, sizeof bits);
    note(notes, bits);
}

static void note_range(struct notes *notes, const struct code *code, const struct input *in) {
    belfry_range range =
        code->zone_range(in->ancestors, in->ancestor_words, in->descendants, in->descendant_words,
                         in->readings, in->reading_words, in->zone);
    note_verdict(notes, range.verdict);
    note(notes, range.present);
    note_float(notes, range.low);
    note_float(notes, range.high);
}

static void note_written(struct notes *notes, belfry_result result, size_t room_words) {
    note_verdict(notes, result.verdict);
    note(notes, result.count);
    note_out(notes, room_words);
}

static void note_sheets(struct notes *notes, const struct code *code, const struct input *in) {
    for (size_t i = 0; i < 2; i++) {
        clear_out(in->rooms[i]);
        belfry_result sheet =
            code->sheet(in->ancestors, in->ancestor_words, in->descendants, in->descendant_words,
                        in->hundredths, in->hundredth_words, out, in->rooms[i]);
        note_written(notes, sheet, in->rooms[i]);
    }
}

static void note_others(struct notes *notes, const struct code *code, const struct input *in) {
    for (size_t i = 0; i < 2; i++) {
        clear_out(in->rooms[i]);
        note_written(notes, code->links(in->ancestors, in->ancestor_words, out, in->rooms[i]),
                     in->rooms[i]);
        clear_out(in->rooms[i]);
        note_written(notes, code->number(in->tag, in->marks, in->mark_words, out, in->rooms[i]),
                     in->rooms[i]);
    }
    note_verdict(notes,
                 code->links_check(in->ancestors, in->ancestor_words, in->links, in->link_words));
}

/* Notes what writing a book, checking one and finding a list in it answer. */
static void note_books(struct notes *notes, const struct code *code, const struct input *in) {
    const struct wanted *wanted = in->wanted;
    for (size_t i = 0; i < 2; i++) {
        clear_out(in->rooms[i]);
        note_written(notes,
                     code->book_write(wanted->entry, wanted->entry_words, wanted->node,
                                      wanted->node_words, (uint8_t *)out,
                                      BELFRY_NUMBER_BYTES * in->rooms[i]),
                     in->rooms[i]);
    }
    belfry_book book = code->book_check(in->book, in->book_bytes);
    belfry_body body = code->book_body(in->book, in->book_bytes, in->tag);
    note_verdict(notes, book.verdict);
    note(notes, book.lists);
    note_verdict(notes, body.verdict);
    note(notes, body.from);
    note(notes, body.bytes);
}

/* Notes the page of each question, and that those after the last are zeros. */
static void note_questions(struct notes *notes, const struct code *code, const struct input *in) {
    static const belfry_page none;
    for (size_t i = 0; i < 2; i++) {
        clear_out(in->rooms[i]);
        belfry_pages asked = code->ask(in->book, in->book_bytes, in->questions, in->question_words,
                                       out, in->rooms[i]);
        note(notes, asked.answer);
        note(notes, asked.questions);
        for (size_t q = 0; q < BELFRY_MOST_QUESTIONS; q++)
            if (q < in->question_words / BELFRY_QUESTION_WORDS)
                note_page(notes, &asked.pages[q]);
            else
                note(notes, memcmp(&asked.pages[q], &none, sizeof none) == 0);
        note_out(notes, in->rooms[i]);
    }
}

/* Notes all that is answered about books and to questions about one. */
static void note_books_and_questions(struct notes *notes, const struct code *code,
                                     const struct input *in) {
    notes->count = 0;
    note_books(notes, code, in);
    note_questions(notes, code, in);
}

static void note_all(struct notes *notes, const struct code *code, const struct input *in) {
    notes->count = 0;
    note_checks(notes, code, in);
    note_listings(notes, code, in);
    note_range(notes, code, in);
    note_sheets(notes, code, in);
    note_others(notes, code, in);
    note_books(notes, code, in);
    note_questions(notes, code, in);
}

/* Notes what is answered to links: by their check, and by a page of each listing. */
static void note_linked(struct notes *notes, const struct code *code, const struct input *in) {
    notes->count = 0;
    note_verdict(notes,
                 code->links_check(in->ancestors, in->ancestor_words, in->links, in->link_words));
    for (uint32_t kind = 0; kind < 4; kind++) {
        clear_out(BELFRY_PAIR_WORDS);
        belfry_page page =
            next_page(code, in, BELFRY_TICKET(kind & 1, kind >> 1), BELFRY_PAIR_WORDS, 1);
        note_page(notes, &page);
        note_out(notes, BELFRY_PAIR_WORDS);
    }
}

typedef void noting(struct notes *notes, const struct code *code, const struct input *in);

/* Runs a case on all codes, and ends where one differs from the archive in what is noted. */
static void compare(noting *note_them, const struct input *in, const char *name,
                    unsigned long number) {
    note_them(&expected, &codes[0], in);
    for (size_t i = 1; i < CODES; i++) {
        note_them(&found, &codes[i], in);
        if (found.count == expected.count &&
            memcmp(found.note, expected.note, found.count * sizeof found.note[0]) == 0)
            continue;
        size_t at = 0;
        while (at < found.count && at < expected.count && found.note[at] == expected.note[at])
            at++;
        printf("%s differs from %s in %s %lu at number %zu of what it answered\n", codes[i].name,
               codes[0].name, name, number, at);
        exit(1);
    }
}

/* Returns a random number below a limit. */
static uint32_t below(uint32_t limit) {
    static uint64_t state = 2026;
    return random_number(&state) % limit;
}

enum {
    MOST_SMALL = 24,
    SMALL_MARKS = 200,
    SMALL_LISTS = 2,
    SMALL_NODES = SMALL_LISTS * MOST_SMALL,
    SMALL_QUESTIONS = BELFRY_MOST_QUESTIONS + 1,
    CONTENTS_BYTES = BELFRY_BOOK_BYTES(SMALL_LISTS, 0)
};

/* Puts a list into what a book is written from, under the next tag. */
static void want_list(struct wanted *wanted, const uint32_t *list, size_t words) {
    size_t lists = wanted->entry_words / BELFRY_ENTRY_WORDS;
    uint32_t entry[BELFRY_ENTRY_WORDS] = {ZONE_TAG + lists, words / BELFRY_NODE_WORDS};
    memcpy(&wanted->entry[wanted->entry_words], entry, sizeof entry);
    memcpy(&wanted->node[wanted->node_words], list, words * sizeof list[0]);
    wanted->entry_words += BELFRY_ENTRY_WORDS;
    wanted->node_words += words;
}

/* Returns what the book of an input's two lists is written from. It lies in memory that all inputs
 * share. */
static struct wanted *want_both(const struct input *in) {
    static struct wanted wanted;
    wanted.entry_words = wanted.node_words = 0;
    want_list(&wanted, in->ancestors, in->ancestor_words);
    want_list(&wanted, in->descendants, in->descendant_words);
    return &wanted;
}

/* A random case. */
struct small {
    size_t words[SMALL_LISTS], links, marks, bytes, questions;
    uint32_t list[SMALL_LISTS][BELFRY_NODE_WORDS * MOST_SMALL],
        link[BELFRY_LINK_WORDS * (MOST_SMALL + 1)], reading[BELFRY_READING_WORDS * MOST_SMALL],
        hundredths[MOST_SMALL + 1], mark[SMALL_MARKS],
        question[BELFRY_QUESTION_WORDS * (SMALL_QUESTIONS + 1)];
    uint8_t book[BELFRY_BOOK_BYTES(SMALL_LISTS, SMALL_NODES) + 1];
};

static void put_node(struct small *s, size_t list, uint32_t document, uint32_t start, uint32_t end,
                     uint32_t level) {
    uint32_t node[BELFRY_NODE_WORDS] = {document, start, end, level};
    if (s->words[list] == BELFRY_NODE_WORDS * MOST_SMALL)
        return;
    memcpy(&s->list[list][s->words[list]], node, sizeof node);
    s->words[list] += BELFRY_NODE_WORDS;
}

/* Grows a random forest between two positions. Each of its nodes goes to one list, to both or to
 * none, and levels may jump. Many nodes end at the second position, which every third time is the
 * end of the node around them. */
static void grow(struct small *s, uint32_t document, uint32_t from, uint32_t to, uint32_t level) {
    while (from <= to && to - from < UINT32_MAX / 2 && level <= BELFRY_MOST_LEVELS) {
        uint32_t start = from + below(to - from + 1) / 2;
        uint32_t end = below(3) ? start + below(to - start + 1) : to;
        uint32_t last = end - (end > start && below(3));
        uint32_t lists = below(4);
        for (size_t list = 0; list < SMALL_LISTS; list++)
            if (lists >> list & 1)
                put_node(s, list, document, start, end, level);
        if (last > start)
            grow(s, document, start + 1, last, level + 1 + below(2));
        if (end == to)
            return;
        from = end + 1;
    }
}

static void fill_lists(struct small *s) {
    uint32_t width = 1 + below(24), from = below(4) ? below(3) : UINT32_MAX - width;
    uint32_t document = below(4) ? below(3) : UINT32_MAX - 2;
    s->words[0] = s->words[1] = 0;
    for (uint32_t i = below(3); i < 3; i++)
        grow(s, document + i, from, from + width, below(4) ? 1 : 58 + below(6));
}

/* Damages a list. Most damage is a word that is off by a little, so that the nodes nearly fit. */
static void damage_list(uint32_t *list, size_t *words) {
    static const uint32_t others[] = {0, 1, BELFRY_MOST_LEVELS, BELFRY_MOST_LEVELS + 1, UINT32_MAX};
    if (*words < BELFRY_NODE_WORDS)
        return;
    uint32_t at = below(*words);
    if (below(16) == 0)
        *words -= below(BELFRY_NODE_WORDS);
    else if (below(4) == 0)
        list[at] = others[below(5)];
    else
        list[at] += below(5) - 2;
}

/* Fills in marks that open, close and stand for texts at random, most often all closed at the end.
 * Some have one mark changed. */
static void fill_marks(struct small *s) {
    static const uint32_t others[] = {BELFRY_CLOSE,    1,         BELFRY_TEXT - 1, BELFRY_TEXT,
                                      BELFRY_TEXT + 1, UINT32_MAX};
    size_t depth = 0, wanted = below(24);
    s->marks = 0;
    for (size_t i = below(8) ? 1 : 60 + below(6); i > 0; i--, depth++)
        s->mark[s->marks++] = 1 + below(3);
    for (size_t i = 0; i < wanted && depth > 0; i++) {
        uint32_t choice = below(3);
        s->mark[s->marks++] = choice == 0   ? BELFRY_CLOSE
                              : choice == 1 ? BELFRY_TEXT
                                            : 1 + below(BELFRY_TEXT - 1);
        depth += choice == 2 ? 1 : choice == 0 ? -1 : 0;
    }
    for (; depth > 0; depth--)
        s->mark[s->marks++] = BELFRY_CLOSE;
    if (below(2))
        s->mark[below(s->marks)] = others[below(6)];
    if (below(8) == 0)
        s->marks = below(s->marks + 1);
}

/* Fills in the book of both lists under the tags of zones and samples. Some have a byte changed,
 * are cut short or go on. */
static void fill_book(struct small *s) {
    size_t end = build_book(s->book, SMALL_LISTS, s->list[0], s->words[0] / BELFRY_NODE_WORDS,
                            s->list[1], s->words[1] / BELFRY_NODE_WORDS);
    s->bytes = end;
    if (below(4) == 0)
        s->book[below(CONTENTS_BYTES)] += below(3) - 1;
    if (below(16) == 0)
        s->bytes = below(2) ? below(end) : end + 1;
}

/* Changes what a book is written from, in most cases: a tag or a count by a little, or how many
 * words there are. */
static void damage_wanted(struct wanted *wanted) {
    uint32_t choice = below(8);
    if (choice < 3)
        wanted->entry[below(wanted->entry_words)] += below(3) - 1;
    else if (choice == 3)
        wanted->entry_words -= below(BELFRY_ENTRY_WORDS + 1);
    else if (choice == 4 && wanted->node_words >= BELFRY_NODE_WORDS)
        wanted->node_words -= 1 + below(BELFRY_NODE_WORDS);
}

/* Changes a word of the links: to that of another node, or by a little, or to another limit. */
static void damage_link(struct small *s) {
    static const uint32_t others[] = {0, BELFRY_MOST_NODES, BELFRY_NONE - 1, BELFRY_NONE};
    uint32_t *word = &s->link[below(s->links)], choice = below(3);
    if (choice == 0)
        *word = s->link[below(s->links)];
    else if (choice == 1)
        *word += below(5) - 2;
    else
        *word = others[below(4)];
}

/* Fills in the links of the zones before these are damaged. In every second case some words are
 * changed, and some have words too few or too many. */
static void fill_links(struct small *s) {
    belfry_result made =
        codes[0].links(s->list[0], s->words[0], s->link, BELFRY_LINK_WORDS * MOST_SMALL);
    s->links = BELFRY_LINK_WORDS * made.count;
    if (s->links > 0 && below(2))
        for (size_t changes = below(3); changes > 0; changes--)
            damage_link(s);
    if (s->links > 0 && below(16) == 0)
        s->links -= 1 + below(BELFRY_LINK_WORDS);
    else if (below(16) == 0)
        s->links += 1 + below(BELFRY_LINK_WORDS);
}

/* Fills in a reading for each sample, and most often leaves them sound. Values lie close together,
 * so that many are equal, and at the limits. */
static void fill_readings(struct small *s) {
    static const uint32_t others[] = {0,          1,          0x80000000, 0x80000001, 0x42c80000,
                                      0x42c80001, 0x447a0000, 0x447a0001, 0x7f7fffff, 0x7f800000,
                                      0x7fc00000, 0xff800000, 0xffc00001};
    build_readings(s->reading, MOST_SMALL, IN_TURN);
    for (size_t i = 0; i < MOST_SMALL; i++)
        if (below(2)) {
            float value = below(3) ? 3 : 30;
            memcpy(&s->reading[BELFRY_READING_WORDS * i + 1], &value, sizeof value);
            s->reading[BELFRY_READING_WORDS * i] = BELFRY_PERCENT + below(2);
        }
    if (below(2))
        s->reading[BELFRY_READING_WORDS * below(MOST_SMALL) + 1] = others[below(13)];
    if (below(8) == 0)
        s->reading[BELFRY_READING_WORDS * below(MOST_SMALL)] = below(5);
}

/* Fills in a word for each sample, and one more. Most often all are sound. */
static void fill_hundredths(struct small *s) {
    static const uint32_t others[] = {0,
                                      BELFRY_MOST_HUNDREDTHS,
                                      BELFRY_MOST_HUNDREDTHS + 1,
                                      BELFRY_NO_HUNDREDTHS - 1,
                                      BELFRY_NO_HUNDREDTHS + 1,
                                      UINT32_MAX};
    build_hundredths(s->hundredths, MOST_SMALL + 1);
    if (below(2))
        s->hundredths[below(MOST_SMALL)] = others[below(6)];
}

/* Fills in some questions, most often a few and now and then about as many as a call takes. Some
 * ask for a tag that isn't there, and some have words left over. */
static void fill_questions(struct small *s) {
    size_t count = below(16) ? below(6) : SMALL_QUESTIONS - below(3);
    for (size_t i = 0; i <= count; i++) {
        uint32_t tag = below(4) ? ZONE_TAG : 1 + below(4);
        uint32_t words[BELFRY_QUESTION_WORDS] = {tag,      1 + below(4), below(3),  below(3),
                                                 below(3), below(3),     below(24), below(24)};
        memcpy(&s->question[BELFRY_QUESTION_WORDS * i], words, sizeof words);
    }
    s->questions = BELFRY_QUESTION_WORDS * count + (below(16) ? 0 : below(BELFRY_QUESTION_WORDS));
}

/* Tells whether a zone and a sample of one document start at two positions and end at one. */
static int meet_at_an_end(const struct input *in) {
    for (size_t i = 0; i < in->ancestor_words / BELFRY_NODE_WORDS; i++)
        for (size_t j = 0; j < in->descendant_words / BELFRY_NODE_WORDS; j++) {
            const uint32_t *zone = &in->ancestors[BELFRY_NODE_WORDS * i];
            const uint32_t *sample = &in->descendants[BELFRY_NODE_WORDS * j];
            if (zone[0] == sample[0] && zone[1] != sample[1] && zone[2] == sample[2])
                return 1;
        }
    return 0;
}

/* Returns what a random case gives to the calls, all but what a book is written from. Now and then
 * the readings have a word too few, or the hundredths one too many. */
static struct input random_input(const struct small *s) {
    return (struct input){
        .ancestors = s->list[0],
        .ancestor_words = s->words[0],
        .descendants = s->list[1],
        .descendant_words = s->words[1],
        .links = s->link,
        .link_words = s->links,
        .readings = s->reading,
        .reading_words = BELFRY_READING_WORDS * (s->words[1] / BELFRY_NODE_WORDS) -
                         (s->words[1] > 0 && below(16) == 0),
        .hundredths = s->hundredths,
        .hundredth_words = s->words[1] / BELFRY_NODE_WORDS + (below(16) == 0),
        .zone = below(8),
        .marks = s->mark,
        .mark_words = s->marks,
        .book = s->book,
        .book_bytes = s->bytes,
        .questions = s->question,
        .question_words = s->questions,
        .tag = 1 + below(4),
        .rooms = {below(200), below(40)},
        .ticket = {.placed = below(4),
                   .document = below(3),
                   .first = below(24),
                   .second = below(24)},
    };
}

static void compare_random(unsigned long number) {
    static struct small s;
    fill_lists(&s);
    fill_links(&s);
    for (size_t damages = below(3); damages > 0; damages--) {
        size_t list = below(SMALL_LISTS);
        damage_list(s.list[list], &s.words[list]);
    }
    fill_readings(&s);
    fill_hundredths(&s);
    fill_marks(&s);
    fill_book(&s);
    fill_questions(&s);
    struct input in = random_input(&s);
    struct wanted *wanted = want_both(&in);
    damage_wanted(wanted);
    in.wanted = wanted;
    compare(note_all, &in, "random case", number);
    if (meet_at_an_end(&in))
        seen_at_an_end[belfry_check_two(in.ancestors, in.ancestor_words, in.descendants,
                                        in.descendant_words)
                           .answer]++;
}

/* Questions to a shape's book: directly inside in both orders, then inside in both. */
static const uint32_t questions[] = {
    ZONE_TAG, SAMPLE_TAG, 1, 0, 0, 0, 0, 0, ZONE_TAG, SAMPLE_TAG, 1, 1, 0, 0, 0, 0,
    ZONE_TAG, SAMPLE_TAG, 0, 1, 0, 0, 0, 0, ZONE_TAG, SAMPLE_TAG, 0, 0, 0, 0, 0, 0,
};

/* Compares links of which one word is wrong, as far apart as said above. It is in turn one less,
 * one more, and NONE or 0. */
static void compare_wrong_links(const struct input *in, uint32_t *links, const char *name) {
    for (size_t i = 0; i < in->link_words; i += WRONG_APART) {
        const uint32_t word = links[i];
        const uint32_t wrong[] = {word - 1, word + 1, word == BELFRY_NONE ? 0 : BELFRY_NONE};
        links[i] = wrong[i / WRONG_APART % 3];
        compare(note_linked, in, name, i);
        links[i] = word;
    }
}

/* Fills in the links of a list, and returns how many words they have. They are none if it is
 * refused. */
static size_t fill_in_links(uint32_t *links, const uint32_t *list, size_t words) {
    return BELFRY_LINK_WORDS *
           codes[0].links(list, words, links, BELFRY_LINK_WORDS * BELFRY_MOST_NODES).count;
}

static void compare_shape(const char *name) {
    static struct shape lists, document;
    static uint32_t links[BELFRY_LINK_WORDS * BELFRY_MOST_NODES],
        readings[BELFRY_READING_WORDS * BELFRY_MOST_NODES], hundredths[BELFRY_MOST_NODES];
    static uint8_t book[BELFRY_BOOK_BYTES(SMALL_LISTS, SMALL_LISTS * BELFRY_MOST_NODES)];
    build_shape(&lists, name, BELFRY_MOST_NODES);
    build_document(&document, name, BELFRY_MOST_NODES);
    build_readings(readings, lists.samples, IN_TURN);
    build_hundredths(hundredths, lists.samples);
    size_t bytes =
        build_book(book, SMALL_LISTS, lists.zone, lists.zones, lists.sample, lists.samples);
    struct input in = {
        .ancestors = lists.zone,
        .ancestor_words = BELFRY_NODE_WORDS * lists.zones,
        .descendants = lists.sample,
        .descendant_words = BELFRY_NODE_WORDS * lists.samples,
        .links = links,
        .link_words = fill_in_links(links, lists.zone, BELFRY_NODE_WORDS * lists.zones),
        .readings = readings,
        .reading_words = BELFRY_READING_WORDS * lists.samples,
        .hundredths = hundredths,
        .hundredth_words = lists.samples,
        .zone = lists.zones / 2,
        .marks = document.mark,
        .mark_words = document.marks,
        .book = book,
        .book_bytes = bytes,
        .questions = questions,
        .question_words = sizeof questions / sizeof questions[0],
        .tag = SAMPLE_TAG,
        .rooms = {BELFRY_PAIR_WORDS * (MOST_PAIRS - 1), BELFRY_PAIR_WORDS * 5000 + 3},
        .ticket = {.placed = 1,
                   .document = lists.zone[BELFRY_NODE_WORDS * (lists.zones / 2)],
                   .first = lists.zone[BELFRY_NODE_WORDS * (lists.zones / 2) + 1],
                   .second = lists.zone[BELFRY_NODE_WORDS * (lists.zones / 3) + 1]},
    };
    in.wanted = want_both(&in);
    compare(note_all, &in, name, BELFRY_MOST_NODES);
    compare_wrong_links(&in, links, name);
}

/* How the nodes of a list at a limit lie: side by side, each inside the one before, or so and all
   with one end. */
enum lie { SIBLINGS, NEST, NEST_WITH_ONE_END };

/* Compares lists and marks of as many words as are given. */
static void compare_limit(size_t words, size_t mark_words, enum lie lie) {
    static uint32_t list[BELFRY_NODE_WORDS * (BELFRY_MOST_NODES + 1)], mark[BELFRY_MOST_NODES + 1];
    static uint32_t links[BELFRY_LINK_WORDS * BELFRY_MOST_NODES],
        readings[BELFRY_READING_WORDS * (BELFRY_MOST_NODES + 1)], hundredths[BELFRY_MOST_NODES + 1];
    static uint8_t book[CONTENTS_BYTES];
    build_readings(readings, BELFRY_MOST_NODES + 1, IN_TURN);
    build_hundredths(hundredths, BELFRY_MOST_NODES + 1);
    for (uint32_t i = 0; i < words / BELFRY_NODE_WORDS; i++) {
        const uint32_t ends[] = {2 + 2 * i, UINT32_MAX - i, UINT32_MAX};
        uint32_t node[BELFRY_NODE_WORDS] = {5, 1 + 2 * i, ends[lie], lie == SIBLINGS ? 1 : 1 + i};
        memcpy(&list[BELFRY_NODE_WORDS * i], node, sizeof node);
    }
    for (size_t i = 0; i < mark_words; i++)
        mark[i] = i == 0 ? 1 : i == mark_words - 1 ? BELFRY_CLOSE : BELFRY_TEXT;
    struct input in = {
        .ancestors = list,
        .ancestor_words = words,
        .descendants = list,
        .descendant_words = words,
        .links = links,
        .link_words = fill_in_links(links, list, words),
        .readings = readings,
        .reading_words = BELFRY_READING_WORDS * (words / BELFRY_NODE_WORDS),
        .hundredths = hundredths,
        .hundredth_words = words / BELFRY_NODE_WORDS,
        .marks = mark,
        .mark_words = mark_words,
        .book = book,
        .book_bytes = sizeof book,
        .questions = questions,
        .question_words = sizeof questions / sizeof questions[0],
        .rooms = {BELFRY_ROW_WORDS * (BELFRY_MOST_NODES + 1), BELFRY_ROW_WORDS * (mark_words - 2)},
    };
    in.wanted = want_both(&in);
    compare(note_all, &in, "the limits", words);
}

/* Compares a book of this many lists: its check, finding its last list, questions about that list,
 * and writing it. */
static void compare_lists(size_t lists) {
    static struct shape flat;
    static struct wanted wanted;
    static uint8_t book[BELFRY_BOOK_BYTES(BELFRY_MOST_LISTS + 1, 2 * FEW_NODES)];
    uint32_t last = ZONE_TAG + lists - 1;
    uint32_t asked[] = {last, last, 0, 0, 0, 0, 0, 0, ZONE_TAG, last, 1, 0, 0, 0, 0, 0};
    build_shape(&flat, "flat", FEW_NODES);
    size_t bytes = build_book(book, lists, flat.zone, flat.zones, flat.sample, flat.samples);
    size_t contents = BELFRY_BOOK_BYTES(lists, 0);
    wanted.entry_words = BELFRY_ENTRY_WORDS * lists;
    wanted.node_words = (bytes - contents) / BELFRY_NUMBER_BYTES;
    memcpy(wanted.node, book + contents, bytes - contents);
    for (size_t i = 0; i < lists; i++) {
        const uint8_t *entry = book + BELFRY_BOOK_BYTES(i, 0);
        wanted.entry[BELFRY_ENTRY_WORDS * i] = belfry_read_number(entry);
        wanted.entry[BELFRY_ENTRY_WORDS * i + 1] =
            belfry_read_number(entry + 2 * BELFRY_NUMBER_BYTES);
    }
    struct input in = {
        .book = book,
        .book_bytes = bytes,
        .wanted = &wanted,
        .questions = asked,
        .question_words = sizeof asked / sizeof asked[0],
        .tag = last,
        .rooms = {bytes / BELFRY_NUMBER_BYTES, bytes / BELFRY_NUMBER_BYTES - 1},
    };
    compare(note_books_and_questions, &in, "the lists", lists);
}

/* Tells whether some case drew each answer that the calls compared here can give, and whether zones
 * and samples that end at one position were taken and JOINT. Prints what none drew. */
static int are_seen(void) {
    int all = 1;
    for (uint32_t answer = 0; answer < ANSWERS; answer++)
        if (seen[answer] == 0 && answer != BELFRY_TABLE) {
            printf("no case was answered %u\n", answer);
            all = 0;
        }
    if (seen_at_an_end[BELFRY_TAKEN] == 0 || seen_at_an_end[BELFRY_JOINT] == 0) {
        printf("of the zones and samples that end at one position "
               "none were taken, or none were JOINT\n");
        all = 0;
    }
    return all;
}

int main(int argc, char **argv) {
    unsigned long cases = argc == 2 ? strtoul(argv[1], NULL, 10) : 0;
    if (cases == 0) {
        fprintf(stderr, "usage: agree CASES\n");
        return 2;
    }
    for (size_t i = 0; i < SHAPES; i++)
        compare_shape(shape_names[i]);
    for (size_t nodes = BELFRY_MOST_NODES; nodes <= BELFRY_MOST_NODES + 1; nodes++)
        compare_limit(BELFRY_NODE_WORDS * nodes, nodes, SIBLINGS);
    compare_limit(BELFRY_NODE_WORDS * BELFRY_MOST_NODES + 1, BELFRY_MOST_NODES, SIBLINGS);
    for (size_t nodes = BELFRY_MOST_LEVELS; nodes <= BELFRY_MOST_LEVELS + 1; nodes++) {
        compare_limit(BELFRY_NODE_WORDS * nodes, nodes, NEST);
        compare_limit(BELFRY_NODE_WORDS * nodes, nodes, NEST_WITH_ONE_END);
    }
    for (size_t lists = BELFRY_MOST_LISTS; lists <= BELFRY_MOST_LISTS + 1; lists++)
        compare_lists(lists);
    for (unsigned long i = 0; i < cases; i++)
        compare_random(i);
    printf("%d twins answered and wrote as the archive did: %d shapes, 9 cases at the limits, %lu "
           "random cases.\n",
           CODES - 1, SHAPES, cases);
    printf("A zone and a sample end at one position in %lu random cases that were taken, and in "
           "%lu that were JOINT.\n",
           seen_at_an_end[BELFRY_TAKEN], seen_at_an_end[BELFRY_JOINT]);
    printf("Answers by number:");
    for (size_t i = 0; i < ANSWERS; i++)
        printf(" %zu:%lu", i, seen[i]);
    printf("\n");
    return are_seen() ? 0 : 1;
}
