/* How much stack each call takes, its arguments, its answer and the way back included: the most
   over all shapes and the deepest nest, taken and refused, and over books of two lists and of as
   many as may be. A call runs on a stack of its own that was painted before, and what lost its
   paint is counted, less what an empty function leaves. A line is printed for each call: its name,
   and the bytes for each code, 0 where the twin has no such call. */
#include "codes.h"
#include "shapes.h"
#include <stdio.h>
#include <string.h>
#include <ucontext.h>

enum {
    AREA_BYTES = 1 << 18,
    OUT_WORDS = 1 << 21,
    CALLS = 19,
    PAINTS = 2,
    WORD_BYTES = 8,
    FEW_LISTS = 2,
    BOOK_NODES = 2 * BELFRY_MOST_NODES,
    /* For each shape there are books of few lists and of many, and each is taken and refused. */
    ROUNDS = 2 * 2,
    LISTINGS = 4,
    QUESTION_KINDS = 1 + 2 * LISTINGS
};

/* What the calls are given: a shape's lists, links, readings and hundredths, a document's marks and
   table, and a book with the tag of its last list, its questions, and the entries and nodes that it
   is written from. */
static struct shape lists, document;
static size_t zone_words, sample_words, table_words, book_bytes, entry_words, node_words;
static belfry_question questions[QUESTION_KINDS];
static const uint32_t *nodes;
static uint32_t last_tag, table[BELFRY_ROW_WORDS * BELFRY_MOST_NODES],
    book[BELFRY_BOOK_BYTES(BELFRY_MOST_LISTS, BOOK_NODES) / BELFRY_NUMBER_BYTES],
    entries[BELFRY_ENTRY_WORDS * BELFRY_MOST_LISTS], links[BELFRY_LINK_WORDS * BELFRY_MOST_NODES],
    readings[BELFRY_READING_WORDS * BELFRY_MOST_NODES], hundredths[BELFRY_MOST_NODES],
    out[OUT_WORDS];

static void call_nothing(const struct code *code) {
    (void)code;
}

static void call_check(const struct code *code) {
    code->check(lists.zone, zone_words);
}

static void call_check_two(const struct code *code) {
    code->check_two(lists.zone, zone_words, lists.sample, sample_words);
}

static void call_faulty(const struct code *code) {
    (void)code;
    belfry_part part = belfry_faulty(lists.zone, zone_words, lists.sample, sample_words);
    (void)part;
}

static void call_list(const struct code *code, uint32_t relation, uint32_t order) {
    belfry_ticket ticket = BELFRY_TICKET(relation, order);
    code->list(lists.zone, zone_words, lists.sample, sample_words, ticket, out, OUT_WORDS);
}

static void call_list_descendant(const struct code *code) {
    call_list(code, 0, 0);
    call_list(code, 1, 0);
}

static void call_list_ancestor(const struct code *code) {
    call_list(code, 0, 1);
    call_list(code, 1, 1);
}

static void call_linked(const struct code *code, uint32_t relation, uint32_t order) {
    belfry_ticket ticket = BELFRY_TICKET(relation, order);
    code->list_linked(lists.zone, zone_words, lists.sample, sample_words, links,
                      BELFRY_LINK_WORDS * lists.zones, ticket, out, OUT_WORDS);
}

static void call_linked_descendant(const struct code *code) {
    call_linked(code, 0, 0);
    call_linked(code, 1, 0);
}

static void call_linked_ancestor(const struct code *code) {
    call_linked(code, 0, 1);
    call_linked(code, 1, 1);
}

static void call_zone_range(const struct code *code) {
    code->zone_range(lists.zone, zone_words, lists.sample, sample_words, readings,
                     BELFRY_READING_WORDS * lists.samples, 0);
}

static void call_sheet(const struct code *code) {
    code->sheet(lists.zone, zone_words, lists.sample, sample_words, hundredths, lists.samples, out,
                OUT_WORDS);
}

static void call_number(const struct code *code) {
    code->number(1, document.mark, document.marks, out, OUT_WORDS);
}

static void call_unnumber(const struct code *code) {
    (void)code;
    belfry_unnumbered marks = belfry_unnumber(table, table_words, out, OUT_WORDS);
    (void)marks;
}

static void call_pick(const struct code *code) {
    (void)code;
    belfry_result nodes = belfry_pick(table, table_words, ZONE_TAG, out, OUT_WORDS);
    (void)nodes;
}

static void call_links(const struct code *code) {
    code->links(lists.zone, zone_words, out, OUT_WORDS);
}

static void call_links_check(const struct code *code) {
    code->links_check(lists.zone, zone_words, links, BELFRY_LINK_WORDS * lists.zones);
}

static void call_book_check(const struct code *code) {
    code->book_check((const uint8_t *)book, book_bytes);
}

static void call_book_body(const struct code *code) {
    code->book_body((const uint8_t *)book, book_bytes, last_tag);
}

static void call_book_write(const struct code *code) {
    code->book_write(entries, entry_words, nodes, node_words, (uint8_t *)out, sizeof out);
}

static void call_ask(const struct code *code) {
    belfry_pages pages = code->ask((const uint8_t *)book, book_bytes, &questions[0].ancestors,
                                   BELFRY_QUESTION_WORDS * QUESTION_KINDS, out, OUT_WORDS);
    (void)pages;
}

static void call_name(const struct code *code) {
    (void)code;
    belfry_name(1, (uint8_t *)out);
}

static const struct {
    const char *name;
    void (*make)(const struct code *code);
    int shared;
} calls[CALLS] = {
    {"check", call_check, 1},
    {"check_two", call_check_two, 1},
    {"faulty", call_faulty, 0},
    {"list, descendant order", call_list_descendant, 1},
    {"list, ancestor order", call_list_ancestor, 1},
    {"list_linked, descendant order", call_linked_descendant, 1},
    {"list_linked, ancestor order", call_linked_ancestor, 1},
    {"zone_range", call_zone_range, 1},
    {"sheet", call_sheet, 1},
    {"number", call_number, 1},
    {"unnumber", call_unnumber, 0},
    {"pick", call_pick, 0},
    {"links", call_links, 1},
    {"links_check", call_links_check, 1},
    {"book_check", call_book_check, 1},
    {"book_body", call_book_body, 1},
    {"book_write", call_book_write, 1},
    {"ask", call_ask, 1},
    {"name", call_name, 0},
};

static ucontext_t outside, inside;
static unsigned char area[AREA_BYTES];
static void (*made)(const struct code *code);
static const struct code *made_by;

static void make_call(void) {
    made(made_by);
}

/* Counts the bytes that a call leaves without paint. */
static size_t unpainted(void (*make)(const struct code *code), const struct code *code,
                        unsigned char paint) {
    size_t left = 0;
    memset(area, paint, sizeof area);
    made = make;
    made_by = code;
    getcontext(&inside);
    inside.uc_stack.ss_sp = area;
    inside.uc_stack.ss_size = sizeof area;
    inside.uc_link = &outside;
    makecontext(&inside, make_call, 0);
    swapcontext(&outside, &inside);
    while (left < sizeof area && area[left] == paint)
        left++;
    return sizeof area - left;
}

/* Returns the stack of a call, in whole words of it. A byte that happens to be written in the
 * paint's colour has another colour the second time. */
static size_t stack_of(void (*make)(const struct code *code), const struct code *code) {
    static const unsigned char paints[PAINTS] = {0xa5, 0x5a};
    size_t most = 0;
    for (size_t i = 0; i < PAINTS; i++) {
        size_t bytes = unpainted(make, code, paints[i]) - unpainted(call_nothing, code, paints[i]);
        if (bytes > most)
            most = bytes;
    }
    return (most + WORD_BYTES - 1) / WORD_BYTES * WORD_BYTES;
}

/* Builds the book of this many lists, and the entries and nodes that it is written from. */
static void prepare_book(size_t count) {
    book_bytes =
        build_book((uint8_t *)book, count, lists.zone, lists.zones, lists.sample, lists.samples);
    for (size_t i = 0; i < count; i++) {
        const uint32_t *numbers = &book[1 + BELFRY_CONTENTS_NUMBERS * i];
        entries[BELFRY_ENTRY_WORDS * i] = numbers[0];
        entries[BELFRY_ENTRY_WORDS * i + 1] = numbers[2];
    }
    last_tag = ZONE_TAG + count - 1;
    entry_words = BELFRY_ENTRY_WORDS * count;
    nodes = &book[1 + BELFRY_CONTENTS_NUMBERS * count];
    node_words = BELFRY_NODE_WORDS * (lists.zones + lists.samples);
}

/* Makes questions of all kinds: one for a tag that the book lacks, and one for each listing, first
 * from the middle zone's place on and then fresh. The listings are of the first list and the last.
 */
static void make_questions(void) {
    const uint32_t *zone = &lists.zone[BELFRY_NODE_WORDS * (lists.zones / 2)];
    questions[0] = (belfry_question){last_tag + 1, ZONE_TAG, {0, 0, 0, 0, 0, 0}};
    for (uint32_t i = 0; i < LISTINGS; i++) {
        belfry_ticket placed = {i & 1, i >> 1, BELFRY_PLACED, zone[0], zone[1], 0};
        questions[1 + i] = (belfry_question){ZONE_TAG, last_tag, placed};
        questions[1 + LISTINGS + i] =
            (belfry_question){ZONE_TAG, last_tag, BELFRY_TICKET(i & 1, i >> 1)};
    }
}

static void prepare(const char *shape_name, size_t book_lists) {
    build_shape(&lists, shape_name, BELFRY_MOST_NODES);
    build_document(&document, shape_name, BELFRY_MOST_NODES);
    build_readings(readings, lists.samples, IN_TURN);
    build_hundredths(hundredths, lists.samples);
    zone_words = BELFRY_NODE_WORDS * lists.zones;
    sample_words = BELFRY_NODE_WORDS * lists.samples;
    codes[0].links(lists.zone, zone_words, links, BELFRY_LINK_WORDS * BELFRY_MOST_NODES);
    size_t room = BELFRY_ROW_WORDS * BELFRY_MOST_NODES;
    belfry_result rows = codes[0].number(1, document.mark, document.marks, table, room);
    table_words = BELFRY_ROW_WORDS * rows.count;
    prepare_book(book_lists);
    make_questions();
}

/* Gives the last node of each list, and of the book, a level that is too high. A book is written
 * from its own nodes. */
static void damage(void) {
    lists.zone[zone_words - 1] = BELFRY_MOST_LEVELS + 1;
    lists.sample[sample_words - 1] = BELFRY_MOST_LEVELS + 1;
    book[book_bytes / BELFRY_NUMBER_BYTES - 1] = BELFRY_MOST_LEVELS + 1;
}

int main(void) {
    static size_t most[CALLS][CODES];
    for (size_t round = 0; round < ROUNDS * (SHAPES + 1); round++) {
        prepare(round / ROUNDS < SHAPES ? shape_names[round / ROUNDS] : "deepest",
                round / 2 % 2 == 0 ? FEW_LISTS : BELFRY_MOST_LISTS);
        if (round % 2 == 1)
            damage();
        for (size_t c = 0; c < CALLS; c++)
            for (size_t k = 0; k < (calls[c].shared ? CODES : 1); k++) {
                size_t bytes = stack_of(calls[c].make, &codes[k]);
                if (bytes > most[c][k])
                    most[c][k] = bytes;
            }
    }
    for (size_t c = 0; c < CALLS; c++) {
        printf("%s", calls[c].name);
        for (size_t k = 0; k < CODES; k++)
            printf(";%zu", most[c][k]);
        printf("\n");
    }
    return 0;
}
