#include "measures.h"
#include "linking.h"
#include <stdio.h>
#include <stdlib.h>
#include <string.h>

enum {
    FEW_LISTS = 2,
    BOOK_NODES = 2 * BELFRY_MOST_NODES,
    OUT_WORDS = QUESTIONS * MOST_PAIRS * BELFRY_PAIR_WORDS,
};

struct shape shape;
static uint32_t out[OUT_WORDS], readings[BELFRY_READING_WORDS * BELFRY_MOST_NODES],
    hundredths[BELFRY_MOST_NODES], entries[BELFRY_ENTRY_WORDS * BELFRY_MOST_LISTS];
uint32_t book[BELFRY_BOOK_BYTES(BELFRY_MOST_LISTS, BOOK_NODES) / BELFRY_NUMBER_BYTES];
size_t book_bytes;

void fail(const char *why) {
    fprintf(stderr, "%s\n", why);
    exit(2);
}

static int prepare_listing(struct measure *measure, const char *name) {
    char relation[16], order[16], room[16];
    if (sscanf(name, "%15[^-]-%15[^-]-%15s", relation, order, room) != 3)
        return 0;
    measure->kind = LISTING;
    measure->late = strcmp(room, "late") == 0;
    measure->ticket =
        BELFRY_TICKET(strcmp(relation, "inside") != 0, strcmp(order, "descendant") != 0);
    measure->room =
        measure->late || strcmp(room, "all") == 0 ? MOST_PAIRS : strtoul(room, NULL, 10);
    return 0 < measure->room && measure->room <= MOST_PAIRS;
}

static int prepare_linked(struct measure *measure, const char *name) {
    int found = prepare_listing(measure, name);
    measure->kind = LINKED;
    return found;
}

static int prepare_range(struct measure *measure, const char *name) {
    static const char *const names[] = {[BELFRY_MISSING] = "range-missing",
                                        [BELFRY_PERCENT] = "range-percent",
                                        [BELFRY_GRAMS] = "range-grams",
                                        [IN_TURN] = "range"};
    for (uint32_t kind = BELFRY_MISSING; kind <= IN_TURN; kind++)
        if (strcmp(names[kind], name) == 0) {
            measure->kind = RANGE;
            measure->readings = kind;
            return 1;
        }
    return 0;
}

/* Tells whether there is a book of that many lists. */
static int is_book(size_t lists) {
    return FEW_LISTS <= lists && lists <= BELFRY_MOST_LISTS;
}

static struct asking asking_of(const struct measure *measure) {
    return (struct asking){book, book_bytes, measure->lists, out, OUT_WORDS};
}

static int prepare_ask(struct measure *measure, const char *name) {
    static const char *const ways[WAYS] = {
        [TOGETHER] = "together", [EACH] = "each",   [SINGLE] = "single",
        [FOUND] = "found",       [FIRST] = "first", [LAST] = "last"};
    char way[16];
    if (sscanf(name, "ask-%zu-%15s", &measure->lists, way) != 2)
        return 0;
    measure->kind = ASK;
    for (measure->way = TOGETHER; measure->way < WAYS; measure->way++)
        if (strcmp(ways[measure->way], way) == 0)
            return is_book(measure->lists);
    return 0;
}

/* The measures that have a name of their own. The last three may have a number of lists after it.
 */
static const char *const named[] = {[CHECK] = "check",
                                    [CHECK_ONE] = "check-one",
                                    [SHEET] = "sheet",
                                    [LINKS] = "links",
                                    [LINKS_CHECK] = "links-check",
                                    [NUMBER] = "number",
                                    [BOOK] = "book",
                                    [BODY] = "body",
                                    [WRITE] = "write"};

static int prepare_book(struct measure *measure, const char *name) {
    char call[16];
    if (sscanf(name, "%15[^-]-%zu", call, &measure->lists) != 2)
        return 0;
    for (measure->kind = BOOK; measure->kind <= WRITE; measure->kind++)
        if (strcmp(named[measure->kind], call) == 0)
            return is_book(measure->lists);
    return 0;
}

/* Prepares what a measure's name says, without the shape. */
static int prepare_named(struct measure *measure, const char *name) {
    if (prepare_book(measure, name))
        return 1;
    measure->lists = FEW_LISTS;
    for (enum kind kind = CHECK; kind <= WRITE; kind++)
        if (named[kind] && strcmp(named[kind], name) == 0) {
            measure->kind = kind;
            return 1;
        }
    if (strncmp(name, "ask-", 4) == 0)
        return prepare_ask(measure, name);
    if (strncmp(name, "linked-", 7) == 0)
        return prepare_linked(measure, name + 7);
    return prepare_range(measure, name) || prepare_listing(measure, name);
}

/* Builds the entries that the book is written from: the tag and the count of each list. */
static void build_entries(size_t lists) {
    const uint32_t *numbers = book + 1;
    for (size_t i = 0; i < lists; i++, numbers += BELFRY_CONTENTS_NUMBERS) {
        entries[BELFRY_ENTRY_WORDS * i] = numbers[0];
        entries[BELFRY_ENTRY_WORDS * i + 1] = numbers[2];
    }
}

/* Makes the first page of a listing, with room for some pairs. */
static belfry_page first_page(const struct measure *measure, size_t room) {
    return codes[0].list(shape.zone, BELFRY_NODE_WORDS * shape.zones, shape.sample,
                         BELFRY_NODE_WORDS * shape.samples, measure->ticket, out,
                         BELFRY_PAIR_WORDS * room);
}

/* Places the ticket after three quarters of the pairs. */
static void place_late(struct measure *measure) {
    size_t pairs = first_page(measure, MOST_PAIRS).count;
    measure->ticket = first_page(measure, pairs - pairs / 4).ticket;
}

int prepare_measure(struct measure *measure, const char *name, const char *shape_name,
                    size_t nodes) {
    if (!prepare_named(measure, name))
        return 0;
    if (measure->kind == NUMBER)
        return build_document(&shape, shape_name, nodes);
    if (!build_shape(&shape, shape_name, nodes))
        return 0;
    book_bytes = build_book((uint8_t *)book, measure->lists, shape.zone, shape.zones, shape.sample,
                            shape.samples);
    build_entries(measure->lists);
    build_readings(readings, shape.samples, measure->readings);
    build_hundredths(hundredths, shape.samples);
    if (measure->kind == ASK) {
        struct asking asking = asking_of(measure);
        build_questions(&asking, measure->way);
    }
    build_links();
    if (measure->late)
        place_late(measure);
    return 1;
}

/* Fetches all pages of a listing, and returns how many pairs they have. */
static size_t list_all(const struct measure *measure, const struct code *code) {
    belfry_ticket ticket = measure->ticket;
    size_t pairs = 0;
    for (;;) {
        belfry_page page = code->list(shape.zone, BELFRY_NODE_WORDS * shape.zones, shape.sample,
                                      BELFRY_NODE_WORDS * shape.samples, ticket, out,
                                      BELFRY_PAIR_WORDS * measure->room);
        if (page.verdict.answer != 0)
            fail("a listing was refused");
        pairs += page.count;
        ticket = page.ticket;
        if (page.done)
            return pairs;
    }
}

static size_t taken(uint32_t answer, size_t count) {
    if (answer != 0)
        fail("a call was refused");
    return count;
}

static size_t check_two(const struct code *code) {
    belfry_verdict verdict = code->check_two(shape.zone, BELFRY_NODE_WORDS * shape.zones,
                                             shape.sample, BELFRY_NODE_WORDS * shape.samples);
    return taken(verdict.answer, shape.zones + shape.samples);
}

/* Asks for the first zone, around which no other lies. */
static size_t range_of_first(const struct code *code) {
    belfry_range range = code->zone_range(shape.zone, BELFRY_NODE_WORDS * shape.zones, shape.sample,
                                          BELFRY_NODE_WORDS * shape.samples, readings,
                                          BELFRY_READING_WORDS * shape.samples, 0);
    return taken(range.verdict.answer, shape.zones + shape.samples);
}

static size_t sheet_of_zones(const struct code *code) {
    belfry_result result =
        code->sheet(shape.zone, BELFRY_NODE_WORDS * shape.zones, shape.sample,
                    BELFRY_NODE_WORDS * shape.samples, hundredths, shape.samples, out, OUT_WORDS);
    return taken(result.verdict.answer, result.count);
}

static size_t link_zones(const struct code *code) {
    belfry_result result = code->links(shape.zone, BELFRY_NODE_WORDS * shape.zones, out, OUT_WORDS);
    return taken(result.verdict.answer, result.count);
}

static size_t number_marks(const struct code *code) {
    belfry_result result = code->number(1, shape.mark, shape.marks, out, OUT_WORDS);
    return taken(result.verdict.answer, result.count);
}

static size_t check_book(const struct code *code) {
    belfry_book opened = code->book_check((const uint8_t *)book, book_bytes);
    return taken(opened.verdict.answer, opened.lists);
}

static size_t find_last(const struct measure *measure, const struct code *code) {
    belfry_body body =
        code->book_body((const uint8_t *)book, book_bytes, ZONE_TAG + measure->lists - 1);
    return taken(body.verdict.answer, body.bytes);
}

/* Writes the book. Its nodes are taken from where they lie in it. */
static size_t write_book(const struct measure *measure, const struct code *code) {
    size_t contents = BELFRY_BOOK_BYTES(measure->lists, 0) / BELFRY_NUMBER_BYTES;
    belfry_result result =
        code->book_write(entries, BELFRY_ENTRY_WORDS * measure->lists, book + contents,
                         book_bytes / BELFRY_NUMBER_BYTES - contents, (uint8_t *)out, sizeof out);
    return taken(result.verdict.answer, result.count);
}

static size_t ask_questions(const struct measure *measure, const struct code *code) {
    struct asking asking = asking_of(measure);
    return ask_all(&asking, measure->way, code);
}

size_t run_measure(const struct measure *measure, const struct code *code) {
    switch (measure->kind) {
    case CHECK:
        return check_two(code);
    case RANGE:
        return range_of_first(code);
    case SHEET:
        return sheet_of_zones(code);
    case LINKS:
        return link_zones(code);
    case NUMBER:
        return number_marks(code);
    case BOOK:
        return check_book(code);
    case BODY:
        return find_last(measure, code);
    case WRITE:
        return write_book(measure, code);
    case ASK:
        return ask_questions(measure, code);
    case CHECK_ONE:
    case LINKS_CHECK:
    case LINKED:
        return run_linked(measure, code, out);
    default:
        return list_all(measure, code);
    }
}
