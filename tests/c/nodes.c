/* Holds each call of nodes against the call of words that it stands on. With n nodes it answers and
 * writes what the other does with 4 * n words, and so with rows, links, entries, pairs and
 * questions. Every number of nodes is tried, from none up to lists that are refused. */
#include "expect.h"

enum { ROOM = 8 };

/* The last two end at one position, and the third sample too. */
static const belfry_node zones[] = {{5, 2, 30, 2}, {5, 3, 7, 3}, {5, 9, 20, 3}, {5, 10, 20, 4}};
/* The last one is at fault: it comes after a node that starts later. */
static const belfry_node samples[] = {
    {5, 4, 6, 4}, {5, 11, 12, 5}, {5, 16, 20, 5}, {5, 40, 40, 2}, {5, 39, 39, 2}};
/* The third one is at fault: a missing reading has no bits. */
static const belfry_reading readings[] = {{BELFRY_GRAMS, 0x42180000},
                                          {BELFRY_MISSING, 0},
                                          {BELFRY_MISSING, 1},
                                          {BELFRY_PERCENT, 0x40900000}};
/* The third one is at fault: it is above 100 percent, and isn't the word for missing. */
static const uint32_t hundredths[] = {450, BELFRY_NO_HUNDREDTHS, BELFRY_NO_HUNDREDTHS - 1, 380};
static const uint32_t marks[] = {1, 2, 2, 3, 65536, 0, 0, 3, 0, 0, 0};
static const belfry_row table[] = {{5, 1, 11, 1, 1}, {5, 2, 10, 2, 2},    {5, 3, 7, 3, 2},
                                   {5, 4, 6, 4, 3},  {5, 5, 5, 5, 65536}, {5, 8, 9, 3, 3}};
static const belfry_entry entries[] = {{2, 4}, {3, 0}, {9, 2}};
static const belfry_node stored[] = {{5, 2, 30, 2},  {5, 3, 7, 3}, {5, 9, 20, 3},
                                     {5, 10, 20, 4}, {5, 4, 6, 4}, {5, 11, 12, 5}};

/* The same in words. */
static uint32_t zone_words[COUNT(zones) * BELFRY_NODE_WORDS];
static uint32_t sample_words[COUNT(samples) * BELFRY_NODE_WORDS];
static uint32_t reading_words[COUNT(readings) * BELFRY_READING_WORDS];
static uint32_t table_words[COUNT(table) * BELFRY_ROW_WORDS];
static uint32_t entry_words[COUNT(entries) * BELFRY_ENTRY_WORDS];
static uint32_t stored_words[COUNT(stored) * BELFRY_NODE_WORDS];

static void fill_words(void) {
    memcpy(zone_words, zones, sizeof zone_words);
    memcpy(sample_words, samples, sizeof sample_words);
    memcpy(reading_words, readings, sizeof reading_words);
    memcpy(table_words, table, sizeof table_words);
    memcpy(entry_words, entries, sizeof entry_words);
    memcpy(stored_words, stored, sizeof stored_words);
}

static void expect_same(const char *what, belfry_verdict found, belfry_verdict wanted) {
    expect_verdict(what, found, wanted.answer, wanted.list, wanted.index);
}

/* What a call of nodes and a call of words wrote into an output of the same length. */
static uint32_t by_words[ROOM * BELFRY_PAIR_WORDS], by_nodes[ROOM * BELFRY_PAIR_WORDS];

static void paint(void) {
    memset(by_words, PAINT, sizeof by_words);
    memset(by_nodes, PAINT, sizeof by_nodes);
}

static void expect_same_result(const char *what, belfry_result found, belfry_result wanted,
                               const void *output, size_t bytes) {
    expect_same(what, found.verdict, wanted.verdict);
    expect("count", found.count, wanted.count);
    expect_output(output, bytes, by_words, bytes);
}

static void check_samples(size_t count) {
    expect_same("belfry_check_nodes", belfry_check_nodes(samples, count),
                belfry_check(sample_words, BELFRY_NODE_WORDS * count));
}

static void check_both(size_t zone_count, size_t sample_count) {
    const size_t ancestors = BELFRY_NODE_WORDS * zone_count;
    const size_t descendants = BELFRY_NODE_WORDS * sample_count;
    const belfry_part words = belfry_faulty(zone_words, ancestors, sample_words, descendants);
    const belfry_node_part part = belfry_faulty_nodes(zones, zone_count, samples, sample_count);

    expect_same("belfry_check_two_lists",
                belfry_check_two_lists(zones, zone_count, samples, sample_count),
                belfry_check_two(zone_words, ancestors, sample_words, descendants));
    expect_same("belfry_faulty_nodes", part.verdict, words.verdict);
    expect("from", BELFRY_NODE_WORDS * part.from, words.from);
    expect("the part's nodes", BELFRY_NODE_WORDS * part.count, words.words);
}

/* Lists a page with room for some pairs, in ancestor order. */
static void list_both(size_t zone_count, size_t sample_count, size_t room) {
    const belfry_ticket fresh = BELFRY_TICKET(BELFRY_INSIDE, BELFRY_ANCESTOR_ORDER);
    belfry_pair out[ROOM];
    paint();
    memset(out, PAINT, sizeof out);
    const belfry_page words =
        belfry_list(zone_words, BELFRY_NODE_WORDS * zone_count, sample_words,
                    BELFRY_NODE_WORDS * sample_count, fresh, by_words, BELFRY_PAIR_WORDS * room);
    const belfry_page pairs =
        belfry_list_pairs(zones, zone_count, samples, sample_count, fresh, out, room);
    expect_same("belfry_list_pairs", pairs.verdict, words.verdict);
    expect("done", pairs.done, words.done);
    expect("count", pairs.count, words.count);
    expect_ticket(pairs.ticket, words.ticket);
    expect_output(out, sizeof out, by_words, sizeof out);
}

/* The links of the zones; with fewer zones there are others. */
static belfry_link zone_links[COUNT(zones)];
static uint32_t zone_link_words[COUNT(zones) * BELFRY_LINK_WORDS];

static void link_zones(size_t zone_count) {
    memset(zone_links, PAINT, sizeof zone_links);
    expect("the links", belfry_link_nodes(zones, zone_count, zone_links, COUNT(zone_links)).count,
           zone_count);
    memcpy(zone_link_words, zone_links, sizeof zone_link_words);
}

/* Lists a page with room for some pairs and this many links of the zones, and checks these links
 * alone. */
static void list_linked(size_t zone_count, size_t sample_count, size_t link_count, size_t room) {
    const belfry_ticket fresh = BELFRY_TICKET(BELFRY_INSIDE, BELFRY_ANCESTOR_ORDER);
    belfry_pair out[ROOM];
    paint();
    memset(out, PAINT, sizeof out);
    link_zones(zone_count);
    const belfry_page words = belfry_list_linked(
        zone_words, BELFRY_NODE_WORDS * zone_count, sample_words, BELFRY_NODE_WORDS * sample_count,
        zone_link_words, BELFRY_LINK_WORDS * link_count, fresh, by_words, BELFRY_PAIR_WORDS * room);
    const belfry_page pairs = belfry_linked_pairs(zones, zone_count, samples, sample_count,
                                                  zone_links, link_count, fresh, out, room);
    expect_same("belfry_linked_pairs", pairs.verdict, words.verdict);
    expect("done", pairs.done, words.done);
    expect("count", pairs.count, words.count);
    expect_ticket(pairs.ticket, words.ticket);
    expect_output(out, sizeof out, by_words, sizeof out);

    expect_verdict("belfry_links_check",
                   belfry_links_check(zone_words, BELFRY_NODE_WORDS * zone_count, zone_link_words,
                                      BELFRY_LINK_WORDS * link_count),
                   link_count == zone_count ? BELFRY_TAKEN : BELFRY_LINKS, 0, 0);
    expect_same("belfry_check_node_links",
                belfry_check_node_links(zones, zone_count, zone_links, link_count),
                belfry_links_check(zone_words, BELFRY_NODE_WORDS * zone_count, zone_link_words,
                                   BELFRY_LINK_WORDS * link_count));
}

/* Asks for the zone after the last one too, and gives as many readings as samples or one more. */
static void range_of(size_t zone_count, size_t sample_count, size_t reading_count, uint32_t zone) {
    const belfry_range words = belfry_zone_range(
        zone_words, BELFRY_NODE_WORDS * zone_count, sample_words, BELFRY_NODE_WORDS * sample_count,
        reading_words, BELFRY_READING_WORDS * reading_count, zone);
    const belfry_range nodes = belfry_zone_range_nodes(zones, zone_count, samples, sample_count,
                                                       readings, reading_count, zone);
    expect_same("belfry_zone_range_nodes", nodes.verdict, words.verdict);
    expect_range(nodes, words.present, words.low, words.high);
}

/* Makes a reading of each kind, which must have the bits of its value. */
static void make_readings(void) {
    const belfry_reading made[] = {belfry_grams(38.0f), belfry_no_reading(), belfry_percent(4.5f)};
    const belfry_reading wanted[] = {readings[0], readings[1], readings[3]};
    printf("belfry_grams, belfry_no_reading, belfry_percent\n");
    expect_output(made, sizeof made, wanted, sizeof wanted);
}

/* Writes the sheet with room for some subtotals. */
static void sheet_of(size_t zone_count, size_t sample_count, size_t hundredth_count, size_t room) {
    belfry_subtotal out[ROOM];
    paint();
    memset(out, PAINT, sizeof out);
    const belfry_result words = belfry_sheet(
        zone_words, BELFRY_NODE_WORDS * zone_count, sample_words, BELFRY_NODE_WORDS * sample_count,
        hundredths, hundredth_count, by_words, BELFRY_SUBTOTAL_WORDS * room);
    const belfry_result nodes = belfry_sheet_nodes(zones, zone_count, samples, sample_count,
                                                   hundredths, hundredth_count, out, room);
    expect_same_result("belfry_sheet_nodes", nodes, words, out, sizeof out);
}

static void number_marks(size_t count, size_t room) {
    belfry_row out[ROOM];
    paint();
    memset(out, PAINT, sizeof out);
    const belfry_result words = belfry_number(5, marks, count, by_words, BELFRY_ROW_WORDS * room);
    expect_same_result("belfry_number_rows", belfry_number_rows(5, marks, count, out, room), words,
                       out, sizeof out);
}

static void unnumber_table(size_t count, size_t room) {
    paint();
    const belfry_unnumbered words =
        belfry_unnumber(table_words, BELFRY_ROW_WORDS * count, by_words, room);
    const belfry_unnumbered rows = belfry_unnumber_rows(table, count, by_nodes, room);
    printf("belfry_unnumber_rows\n");
    expect("the answer", rows.answer, words.answer);
    expect("document", rows.document, words.document);
    expect("count", rows.count, words.count);
    expect_output(by_nodes, sizeof by_nodes, by_words, sizeof by_nodes);
}

static void pick_tag(size_t count, size_t room) {
    belfry_node out[ROOM];
    paint();
    memset(out, PAINT, sizeof out);
    const belfry_result words =
        belfry_pick(table_words, BELFRY_ROW_WORDS * count, 2, by_words, BELFRY_NODE_WORDS * room);
    expect_same_result("belfry_pick_nodes", belfry_pick_nodes(table, count, 2, out, room), words,
                       out, sizeof out);
}

static void link_samples(size_t count, size_t room) {
    belfry_link out[ROOM];
    paint();
    memset(out, PAINT, sizeof out);
    const belfry_result words =
        belfry_links(sample_words, BELFRY_NODE_WORDS * count, by_words, BELFRY_LINK_WORDS * room);
    expect_same_result("belfry_link_nodes", belfry_link_nodes(samples, count, out, room), words,
                       out, sizeof out);
}

/* Writes a book in both ways, and returns how many bytes it has. */
static size_t write_book(size_t entry_count, size_t node_count, uint8_t *book, size_t room) {
    uint8_t wanted[BELFRY_BOOK_BYTES(COUNT(entries), COUNT(stored))];
    memset(book, PAINT, room);
    memset(wanted, PAINT, sizeof wanted);
    const belfry_result words =
        belfry_book_write(entry_words, BELFRY_ENTRY_WORDS * entry_count, stored_words,
                          BELFRY_NODE_WORDS * node_count, wanted, room);
    const belfry_result nodes =
        belfry_write_nodes(entries, entry_count, stored, node_count, book, room);
    expect_same("belfry_write_nodes", nodes.verdict, words.verdict);
    expect("count", nodes.count, words.count);
    expect_output(book, room, wanted, room);
    return nodes.count;
}

/* Reads a tag's list, and holds it against the nodes that were written. */
static void read_tag(const uint8_t *book, size_t bytes, uint32_t tag, const belfry_node *wanted,
                     size_t count) {
    const belfry_body body = belfry_book_body(book, bytes, tag);
    belfry_node out[ROOM];
    memset(out, PAINT, sizeof out);
    const belfry_result read = belfry_read_nodes(book, bytes, tag, out, ROOM);
    expect_same("belfry_read_nodes", read.verdict, body.verdict);
    expect("count", read.count, count);
    expect_output(out, sizeof out, wanted, count * sizeof *wanted);
}

static void read_book(void) {
    uint8_t book[BELFRY_BOOK_BYTES(COUNT(entries), COUNT(stored))];
    belfry_node out[ROOM];
    const size_t bytes = write_book(COUNT(entries), COUNT(stored), book, sizeof book);
    expect("the book's length", bytes, sizeof book);
    expect_same("belfry_open_book", belfry_open_book(book, bytes).verdict,
                belfry_book_check(book, bytes).verdict);
    expect("lists", belfry_open_book(book, bytes).lists, COUNT(entries));
    expect("lists of a cut book", belfry_open_book(book, bytes - 1).lists, 0);
    read_tag(book, bytes, 2, stored, 4);
    read_tag(book, bytes, 3, stored, 0);
    read_tag(book, bytes, 9, stored + 4, 2);
    read_tag(book, bytes, 4, stored, 0);
    read_tag(book, bytes - 1, 2, stored, 0);

    memset(out, PAINT, sizeof out);
    const belfry_result refused = belfry_read_nodes(book, bytes, 2, out, 3);
    expect_verdict("belfry_read_nodes, too little room", refused.verdict, BELFRY_ROOM, 0, 0);
    expect("count", refused.count, 0);
    expect_output(out, sizeof out, stored, 0);
}

/* Asks with room for some pairs. The tag 4 isn't in the book. */
static void ask_both(const uint8_t *book, size_t bytes, size_t count, size_t room) {
    const belfry_question questions[] = {
        BELFRY_QUESTION(2, 9, BELFRY_INSIDE, BELFRY_DESCENDANT_ORDER),
        BELFRY_QUESTION(4, 9, BELFRY_INSIDE, BELFRY_DESCENDANT_ORDER),
        BELFRY_QUESTION(2, 9, BELFRY_DIRECTLY, BELFRY_ANCESTOR_ORDER),
        BELFRY_QUESTION(2, 3, BELFRY_INSIDE, BELFRY_ANCESTOR_ORDER)};
    uint32_t question_words[COUNT(questions) * BELFRY_QUESTION_WORDS];
    belfry_pair out[ROOM];
    memcpy(question_words, questions, sizeof question_words);
    paint();
    memset(out, PAINT, sizeof out);
    const belfry_pages words =
        belfry_ask(book, bytes, question_words, BELFRY_QUESTION_WORDS * count, by_words,
                   BELFRY_PAIR_WORDS * room);
    const belfry_pages pairs = belfry_ask_pairs(book, bytes, questions, count, out, room);
    printf("belfry_ask_pairs\n");
    expect_output(&pairs, sizeof pairs, &words, sizeof words);
    expect_output(out, sizeof out, by_words, sizeof out);
}

/* Tries each number of questions, with enough room and with too little, and with a cut book. */
static void try_questions(void) {
    uint8_t book[BELFRY_BOOK_BYTES(COUNT(entries), COUNT(stored))];
    const size_t bytes = write_book(COUNT(entries), COUNT(stored), book, sizeof book);
    for (size_t count = 0; count <= 4; count++) {
        ask_both(book, bytes, count, ROOM);
        ask_both(book, bytes, count, 3);
        ask_both(book, bytes, count, 0);
        ask_both(book, bytes - 1, count, ROOM);
    }
}

/* Tries each number of zones with each of samples. */
static void try_lists(void) {
    for (size_t i = 0; i < (COUNT(zones) + 1) * (COUNT(samples) + 1); i++) {
        const size_t zone_count = i % (COUNT(zones) + 1), sample_count = i / (COUNT(zones) + 1);
        check_samples(sample_count);
        check_both(zone_count, sample_count);
        list_both(zone_count, sample_count, ROOM);
        list_both(zone_count, sample_count, 2);
        list_linked(zone_count, sample_count, zone_count, ROOM);
        list_linked(zone_count, sample_count, zone_count, 2);
        list_linked(zone_count, sample_count, (zone_count + 1) % (COUNT(zones) + 1), ROOM);
        for (uint32_t zone = 0; zone <= zone_count; zone++) {
            range_of(zone_count, sample_count, sample_count % (COUNT(readings) + 1), zone);
            range_of(zone_count, sample_count, COUNT(readings), zone);
        }
        sheet_of(zone_count, sample_count, sample_count % (COUNT(hundredths) + 1), ROOM);
        sheet_of(zone_count, sample_count, sample_count % (COUNT(hundredths) + 1), 2);
        sheet_of(zone_count, sample_count, COUNT(hundredths), ROOM);
    }
}

/* Tries each number of marks, rows and nodes, with enough room and with too little. */
static void try_counts(void) {
    for (size_t count = 0; count <= COUNT(marks); count++) {
        number_marks(count, ROOM);
        number_marks(count, 5);
        unnumber_table(count % (COUNT(table) + 1), COUNT(by_words));
        unnumber_table(count % (COUNT(table) + 1), 10);
        pick_tag(count % (COUNT(table) + 1), ROOM);
        pick_tag(count % (COUNT(table) + 1), 1);
        link_samples(count % (COUNT(samples) + 1), ROOM);
        link_samples(count % (COUNT(samples) + 1), 1);
    }
}

/* Tries each number of entries with each of nodes, with enough room and with a byte less. */
static void try_books(void) {
    uint8_t book[BELFRY_BOOK_BYTES(COUNT(entries), COUNT(stored))];
    for (size_t i = 0; i < (COUNT(entries) + 1) * (COUNT(stored) + 1); i++) {
        const size_t entry_count = i % (COUNT(entries) + 1), node_count = i / (COUNT(entries) + 1);
        write_book(entry_count, node_count, book, sizeof book);
        write_book(entry_count, node_count, book, sizeof book - 1);
    }
}

int main(void) {
    fill_words();
    make_readings();
    try_lists();
    try_counts();
    try_books();
    read_book();
    try_questions();
    return differing;
}
