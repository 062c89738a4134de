/* The mistakes of a C user, by name: `mistakes NAME` tries one, and holds what comes of it against
 * what the header says. */
/* C99 alone has neither mmap nor its flags. */
#define _DEFAULT_SOURCE 1

#include <stdlib.h>
#include <sys/mman.h>
#include <unistd.h>

#include "expect.h"

static const belfry_node zones[] = {{5, 2, 30, 2}, {5, 3, 7, 3}, {5, 9, 20, 3}, {5, 10, 15, 4}};
static const belfry_node samples[] = {{5, 4, 6, 4}, {5, 11, 12, 5}, {5, 16, 17, 4}, {5, 21, 22, 3}};
/* The zones around each sample, added up. */
enum { ALL_PAIRS = 2 + 3 + 2 + 1, ROOM = 16 };

static belfry_ticket fresh_ticket(void) {
    return BELFRY_TICKET(BELFRY_INSIDE, BELFRY_DESCENDANT_ORDER);
}

static void expect_page(const char *what, belfry_page page, uint32_t done, size_t count) {
    expect_verdict(what, page.verdict, BELFRY_TAKEN, 0, 0);
    expect("done", page.done, done);
    expect("count", page.count, count);
}

/* Counts four nodes as four where words are wanted, which is one node. The call of words takes that
 * and says done, and all pairs but one are lost. Three are RAGGED. The call of nodes finds them
 * all. */
static void count_nodes_for_words(void) {
    uint32_t zone_words[16], sample_words[16], out_words[BELFRY_PAIR_WORDS * ROOM];
    belfry_pair out[ROOM];
    memcpy(zone_words, zones, sizeof zone_words);
    memcpy(sample_words, samples, sizeof sample_words);
    expect_page(
        "the call of words, lengths in nodes",
        belfry_list(zone_words, 4, sample_words, 4, fresh_ticket(), out_words, COUNT(out_words)), 1,
        1);
    expect_verdict("the call of words, a length of three", belfry_check(zone_words, 3),
                   BELFRY_RAGGED, 0, 0);
    expect_page("the call of nodes",
                belfry_list_pairs(zones, 4, samples, 4, fresh_ticket(), out, ROOM), 1, ALL_PAIRS);
}

/* Gives null with a count of 0 to the calls of lists. */
static void give_null_lists(void) {
    belfry_pair out[ROOM];
    expect_verdict("belfry_check_nodes", belfry_check_nodes(NULL, 0), BELFRY_TAKEN, 0, 0);
    expect_verdict("belfry_check_two_lists", belfry_check_two_lists(NULL, 0, NULL, 0), BELFRY_TAKEN,
                   0, 0);
    const belfry_node_part part = belfry_faulty_nodes(NULL, 0, NULL, 0);
    expect_verdict("belfry_faulty_nodes", part.verdict, BELFRY_TAKEN, 0, 0);
    expect("the part's nodes", part.count, 0);
    expect_page("belfry_list_pairs, no lists and no output",
                belfry_list_pairs(NULL, 0, NULL, 0, fresh_ticket(), NULL, 0), 1, 0);
    expect_page("belfry_list_pairs, no zones",
                belfry_list_pairs(NULL, 0, samples, 4, fresh_ticket(), out, ROOM), 1, 0);
    expect_page("belfry_list_pairs, no samples",
                belfry_list_pairs(zones, 4, NULL, 0, fresh_ticket(), out, ROOM), 1, 0);
    expect_page("belfry_list_pairs, no output",
                belfry_list_pairs(zones, 4, samples, 4, fresh_ticket(), NULL, 0), 0, 0);
    expect_verdict("belfry_link_nodes", belfry_link_nodes(NULL, 0, NULL, 0).verdict, BELFRY_TAKEN,
                   0, 0);
    expect_verdict("belfry_link_nodes, no output", belfry_link_nodes(zones, 4, NULL, 0).verdict,
                   BELFRY_ROOM, 0, 0);
}

/* Gives null with a count of 0 to the calls that are lent links. */
static void give_null_links(void) {
    belfry_pair out[ROOM];
    expect_verdict("belfry_check_node_links", belfry_check_node_links(NULL, 0, NULL, 0),
                   BELFRY_TAKEN, 0, 0);
    expect_verdict("belfry_check_node_links, no links", belfry_check_node_links(zones, 4, NULL, 0),
                   BELFRY_LINKS, 0, 0);
    expect_page("belfry_linked_pairs, no lists and no output",
                belfry_linked_pairs(NULL, 0, NULL, 0, NULL, 0, fresh_ticket(), NULL, 0), 1, 0);
    expect_page("belfry_linked_pairs, no zones",
                belfry_linked_pairs(NULL, 0, samples, 4, NULL, 0, fresh_ticket(), out, ROOM), 1, 0);
    expect_verdict(
        "belfry_linked_pairs, no links",
        belfry_linked_pairs(zones, 4, samples, 4, NULL, 0, fresh_ticket(), out, ROOM).verdict,
        BELFRY_LINKS, 0, 0);
}

/* Gives null with a count of 0 to the calls of readings and hundredths. */
static void give_null_readings(void) {
    expect_verdict("belfry_zone_range_nodes",
                   belfry_zone_range_nodes(NULL, 0, NULL, 0, NULL, 0, 0).verdict, BELFRY_ABSENT, 0,
                   0);
    expect_verdict("belfry_zone_range_nodes, no samples",
                   belfry_zone_range_nodes(zones, 4, NULL, 0, NULL, 0, 3).verdict, BELFRY_TAKEN, 0,
                   0);
    expect_verdict("belfry_zone_range_nodes, no readings",
                   belfry_zone_range_nodes(zones, 4, samples, 4, NULL, 0, 0).verdict, BELFRY_RAGGED,
                   0, 0);
    expect_verdict("belfry_sheet_nodes",
                   belfry_sheet_nodes(NULL, 0, NULL, 0, NULL, 0, NULL, 0).verdict, BELFRY_TAKEN, 0,
                   0);
    expect_verdict("belfry_sheet_nodes, no output",
                   belfry_sheet_nodes(zones, 4, NULL, 0, NULL, 0, NULL, 0).verdict, BELFRY_ROOM, 0,
                   0);
    expect_verdict("belfry_sheet_nodes, no hundredths",
                   belfry_sheet_nodes(zones, 4, samples, 4, NULL, 0, NULL, 0).verdict,
                   BELFRY_RAGGED, 0, 0);
}

/* Gives null with a count of 0 to the calls of marks and tables. */
static void give_null_tables(void) {
    const uint32_t marks[] = {1, 0};
    const belfry_row table[] = {{5, 1, 2, 1, 1}};
    expect_verdict("belfry_number_rows", belfry_number_rows(5, NULL, 0, NULL, 0).verdict,
                   BELFRY_UNCLOSED, 0, 0);
    expect_verdict("belfry_number_rows, no output",
                   belfry_number_rows(5, marks, 2, NULL, 0).verdict, BELFRY_ROOM, 0, 0);
    expect("belfry_unnumber_rows", belfry_unnumber_rows(NULL, 0, NULL, 0).answer, BELFRY_TABLE);
    expect("belfry_unnumber_rows, no output", belfry_unnumber_rows(table, 1, NULL, 0).answer,
           BELFRY_ROOM);
    expect_verdict("belfry_pick_nodes", belfry_pick_nodes(NULL, 0, 1, NULL, 0).verdict,
                   BELFRY_TAKEN, 0, 0);
    expect_verdict("belfry_pick_nodes, no output", belfry_pick_nodes(table, 1, 1, NULL, 0).verdict,
                   BELFRY_ROOM, 0, 0);
}

/* Gives null with a count of 0 to the calls of books and for a stored ticket. */
static void give_null_books(void) {
    const belfry_entry empty_list[] = {{2, 0}};
    uint8_t book[BELFRY_BOOK_BYTES(1, 0)];
    belfry_ticket ticket;
    expect_verdict("belfry_write_nodes", belfry_write_nodes(NULL, 0, NULL, 0, NULL, 0).verdict,
                   BELFRY_ROOM, 0, 0);
    expect("belfry_write_nodes, no lists", belfry_write_nodes(NULL, 0, NULL, 0, book, 16).count,
           BELFRY_BOOK_BYTES(0, 0));
    expect("belfry_write_nodes, no nodes",
           belfry_write_nodes(empty_list, 1, NULL, 0, book, 16).count, sizeof book);
    expect_verdict("belfry_open_book", belfry_open_book(NULL, 0).verdict, BELFRY_CONTENTS, 0, 0);
    expect_verdict("belfry_read_nodes", belfry_read_nodes(NULL, 0, 2, NULL, 0).verdict,
                   BELFRY_CONTENTS, 0, 0);
    expect_verdict("belfry_read_nodes, no output",
                   belfry_read_nodes(book, sizeof book, 2, NULL, 0).verdict, BELFRY_TAKEN, 0, 0);
    expect("belfry_stored_ticket", belfry_stored_ticket(NULL, 0, &ticket),
           BELFRY_TICKET_OTHER_LENGTH);
}

static belfry_question all_pairs(uint32_t ancestors, uint32_t descendants) {
    return BELFRY_QUESTION(ancestors, descendants, BELFRY_INSIDE, BELFRY_DESCENDANT_ORDER);
}

/* Writes a book of the zones, tag 2, and the samples, tag 3. */
enum { BYTES = BELFRY_BOOK_BYTES(2, 8) };
static void write_farm(uint8_t *book) {
    const belfry_entry entries[] = {{2, 4}, {3, 4}};
    belfry_node nodes[8];
    memcpy(nodes, zones, sizeof zones);
    memcpy(nodes + 4, samples, sizeof samples);
    expect("the book", belfry_write_nodes(entries, 2, nodes, 8, book, BYTES).count, BYTES);
}

/* Gives null with a count of 0 to the call of questions. */
static void give_null_questions(void) {
    const belfry_question question = all_pairs(2, 3);
    uint8_t book[BYTES];
    write_farm(book);
    const belfry_pages nothing = belfry_ask_pairs(NULL, 0, NULL, 0, NULL, 0);
    expect("belfry_ask_pairs", nothing.answer, BELFRY_TAKEN);
    expect("belfry_ask_pairs, the questions", nothing.questions, 0);
    expect_verdict("belfry_ask_pairs, no book",
                   belfry_ask_pairs(NULL, 0, &question, 1, NULL, 0).pages[0].verdict,
                   BELFRY_CONTENTS, 0, 0);
    expect_page("belfry_ask_pairs, no output",
                belfry_ask_pairs(book, BYTES, &question, 1, NULL, 0).pages[0], 0, 0);
}

static void give_null(void) {
    give_null_lists();
    give_null_links();
    give_null_readings();
    give_null_tables();
    give_null_books();
    give_null_questions();
}

/* Counts whose words can't be counted: multiplied as they are, they come out as 0 to 4 words, and
 * the whole list is lost. */
static void overflow_inputs(void) {
    const size_t nodes = SIZE_MAX / BELFRY_NODE_WORDS + 1, rows = SIZE_MAX / BELFRY_ROW_WORDS + 1;
    const size_t entries = SIZE_MAX / BELFRY_ENTRY_WORDS + 1;
    const size_t readings = SIZE_MAX / BELFRY_READING_WORDS + 1;
    const belfry_row table[] = {{5, 1, 2, 1, 1}};
    const belfry_entry empty_list[] = {{2, 0}};
    const belfry_reading reading = belfry_percent(4.5f);
    uint32_t marks[2];
    belfry_link links[ROOM];
    belfry_node picked[ROOM];
    uint8_t book[BELFRY_BOOK_BYTES(1, 0)];
    expect_verdict("belfry_check_nodes", belfry_check_nodes(zones, nodes), BELFRY_LONG, 0, 0);
    expect_verdict("belfry_check_nodes, all bits", belfry_check_nodes(zones, SIZE_MAX), BELFRY_LONG,
                   0, 0);
    expect_verdict("belfry_check_two_lists", belfry_check_two_lists(zones, 4, samples, nodes),
                   BELFRY_LONG, BELFRY_DESCENDANTS, 0);
    expect_verdict("belfry_zone_range_nodes",
                   belfry_zone_range_nodes(zones, 4, NULL, 0, &reading, readings, 0).verdict,
                   BELFRY_RAGGED, 0, 0);
    expect_verdict("belfry_sheet_nodes",
                   belfry_sheet_nodes(zones, nodes, NULL, 0, NULL, 0, NULL, 0).verdict, BELFRY_LONG,
                   0, 0);
    expect_verdict("belfry_link_nodes", belfry_link_nodes(zones, nodes, links, ROOM).verdict,
                   BELFRY_LONG, 0, 0);
    expect("belfry_unnumber_rows", belfry_unnumber_rows(table, rows, marks, 2).answer, BELFRY_LONG);
    expect_verdict("belfry_pick_nodes", belfry_pick_nodes(table, rows, 1, picked, ROOM).verdict,
                   BELFRY_LONG, 0, 0);
    expect_verdict("belfry_write_nodes, the entries",
                   belfry_write_nodes(empty_list, entries, NULL, 0, book, sizeof book).verdict,
                   BELFRY_CONTENTS, 0, 0);
    expect_verdict("belfry_write_nodes, the nodes",
                   belfry_write_nodes(empty_list, 1, zones, nodes, book, sizeof book).verdict,
                   BELFRY_CONTENTS, 0, 0);
}

/* Lists, links and rooms for pairs whose words can't be counted. */
static void overflow_links(void) {
    const size_t nodes = SIZE_MAX / BELFRY_NODE_WORDS + 1, all = SIZE_MAX / BELFRY_LINK_WORDS + 1;
    belfry_link links[4];
    belfry_pair pairs[ALL_PAIRS];
    expect("the links", belfry_link_nodes(zones, 4, links, 4).count, 4);
    expect_verdict("belfry_check_node_links, the nodes",
                   belfry_check_node_links(zones, nodes, links, 4), BELFRY_LONG, 0, 0);
    expect_verdict("belfry_check_node_links, the links",
                   belfry_check_node_links(zones, 4, links, all), BELFRY_LINKS, 0, 0);
    expect_verdict("belfry_check_node_links, none", belfry_check_node_links(zones, 0, links, all),
                   BELFRY_LINKS, 0, 0);
    expect_verdict("belfry_linked_pairs, all bits of both",
                   belfry_linked_pairs(zones, SIZE_MAX, samples, 4, links, SIZE_MAX, fresh_ticket(),
                                       pairs, ALL_PAIRS)
                       .verdict,
                   BELFRY_LONG, 0, 0);
    expect_verdict(
        "belfry_linked_pairs, the links",
        belfry_linked_pairs(zones, 4, samples, 4, links, all, fresh_ticket(), pairs, ALL_PAIRS)
            .verdict,
        BELFRY_LINKS, 0, 0);
    expect_page("belfry_linked_pairs, the room",
                belfry_linked_pairs(zones, 4, samples, 4, links, 4, fresh_ticket(), pairs,
                                    SIZE_MAX / BELFRY_PAIR_WORDS + 1),
                1, ALL_PAIRS);
}

/* Returns where `size` bytes may be written right before memory that may not be touched. */
static void *at_a_guard(size_t size) {
    const size_t page = (size_t)sysconf(_SC_PAGESIZE);
    char *memory =
        (char *)mmap(NULL, 2 * page, PROT_READ | PROT_WRITE, MAP_PRIVATE | MAP_ANONYMOUS, -1, 0);
    if (memory == MAP_FAILED || mprotect(memory + page, page, PROT_NONE) != 0) {
        perror("mistakes");
        exit(1);
    }
    return memory + page - size;
}

/* Zones side by side and their links, with a count far above what is there. Both calls answer LONG
 * before they read past the last zone. */
static void overflow_guarded_links(void) {
    enum { THERE = 4 };
    const size_t told = (size_t)1 << 40;
    belfry_node *list = (belfry_node *)at_a_guard(THERE * sizeof *list);
    belfry_link *links = (belfry_link *)at_a_guard(THERE * sizeof *links);
    belfry_pair pairs[ALL_PAIRS];
    for (uint32_t i = 0; i < THERE; i++) {
        const belfry_node node = {5, i, i, 1};
        const belfry_link link = {BELFRY_NONE, BELFRY_NONE, i + 1};
        list[i] = node;
        links[i] = link;
    }
    expect_verdict("belfry_check_node_links, a count that isn't there",
                   belfry_check_node_links(list, told, links, told), BELFRY_LONG, 0, 0);
    expect_verdict(
        "belfry_linked_pairs, a count that isn't there",
        belfry_linked_pairs(list, told, samples, 4, links, told, fresh_ticket(), pairs, ALL_PAIRS)
            .verdict,
        BELFRY_LONG, 0, 0);
}

/* Rooms whose words can't be counted: multiplied as they are, there would be room for nothing. */
static void overflow_rooms(void) {
    const uint32_t marks[] = {1, 0};
    const belfry_row table[] = {{5, 1, 2, 1, 1}};
    belfry_pair pairs[ALL_PAIRS];
    belfry_row rows[1];
    belfry_node nodes[1];
    belfry_link links[4];
    belfry_subtotal subtotals[4];
    expect_page("belfry_list_pairs",
                belfry_list_pairs(zones, 4, samples, 4, fresh_ticket(), pairs,
                                  SIZE_MAX / BELFRY_PAIR_WORDS + 1),
                1, ALL_PAIRS);
    expect("belfry_number_rows",
           belfry_number_rows(5, marks, 2, rows, SIZE_MAX / BELFRY_ROW_WORDS + 1).count, 1);
    expect("belfry_pick_nodes",
           belfry_pick_nodes(table, 1, 1, nodes, SIZE_MAX / BELFRY_NODE_WORDS + 1).count, 1);
    expect("belfry_link_nodes",
           belfry_link_nodes(zones, 4, links, SIZE_MAX / BELFRY_LINK_WORDS + 1).count, 4);
    expect("belfry_sheet_nodes",
           belfry_sheet_nodes(zones, 4, NULL, 0, NULL, 0, subtotals,
                              SIZE_MAX / BELFRY_SUBTOTAL_WORDS + 1)
               .count,
           4);
}

/* Questions and rooms for pairs whose words can't be counted. The first 32 questions are there,
 * since each has a page. */
static void overflow_questions(void) {
    belfry_question questions[BELFRY_MOST_QUESTIONS];
    belfry_pair pairs[ALL_PAIRS];
    uint8_t book[BYTES];
    write_farm(book);
    for (size_t i = 0; i < BELFRY_MOST_QUESTIONS; i++)
        questions[i] = all_pairs(2, 3);
    expect("belfry_ask_pairs, the questions",
           belfry_ask_pairs(book, BYTES, questions, SIZE_MAX / BELFRY_QUESTION_WORDS + 1, pairs,
                            ALL_PAIRS)
               .answer,
           BELFRY_LONG);
    expect_page("belfry_ask_pairs, the room",
                belfry_ask_pairs(book, BYTES, questions, 1, pairs, SIZE_MAX / BELFRY_PAIR_WORDS + 1)
                    .pages[0],
                1, ALL_PAIRS);
}

static void overflow(void) {
    overflow_inputs();
    overflow_links();
    overflow_guarded_links();
    overflow_rooms();
    overflow_questions();
}

/* Gives room for no pair. Nothing is handed out, and the call isn't done while a pair remains,
 * however often it is made. After the last pair it is. */
static void give_no_room(void) {
    belfry_pair pairs[ROOM];
    uint32_t zone_words[16], sample_words[16], out[BELFRY_PAIR_WORDS - 1];
    memcpy(zone_words, zones, sizeof zone_words);
    memcpy(sample_words, samples, sizeof sample_words);
    belfry_page page =
        belfry_list_pairs(zones, 4, samples, 4, fresh_ticket(), pairs, ALL_PAIRS - 1);
    expect_page("all pairs but one", page, 0, ALL_PAIRS - 1);
    const belfry_ticket before = page.ticket;
    page = belfry_list_pairs(zones, 4, samples, 4, before, pairs, 0);
    expect_page("room for no pair", page, 0, 0);
    expect_ticket(page.ticket, before);
    page = belfry_list(zone_words, 16, sample_words, 16, page.ticket, out, COUNT(out));
    expect_page("room for seven words", page, 0, 0);
    expect_ticket(page.ticket, before);
    page = belfry_list_pairs(zones, 4, samples, 4, page.ticket, pairs, 1);
    expect_page("room for the last pair", page, 1, 1);
    expect_page("room for no pair, and none remains",
                belfry_list_pairs(zones, 4, samples, 4, page.ticket, pairs, 0), 1, 0);
}

/* Lists the farm's pairs with these links and some room. */
static belfry_page list_linked(const belfry_node *list, const belfry_link *links,
                               belfry_ticket ticket, belfry_pair *out, size_t room) {
    return belfry_linked_pairs(list, 4, samples, 4, links, 4, ticket, out, room);
}

/* Lends links that were written before an edit, and those of the descendants. Both are refused, and
 * the ticket is still good. With links that are written anew, and also without any, the listing
 * goes on. */
static void lend_other_links(void) {
    belfry_node edited[4];
    belfry_link before[4], after[4], of_samples[4];
    belfry_pair pairs[ROOM];
    memcpy(edited, zones, sizeof edited);
    edited[3].start = 23;
    edited[3].end = 25;
    edited[3].level = 3;
    expect("the links", belfry_link_nodes(zones, 4, before, 4).count, 4);
    expect("the links after the edit", belfry_link_nodes(edited, 4, after, 4).count, 4);
    expect("the links of the samples", belfry_link_nodes(samples, 4, of_samples, 4).count, 4);

    belfry_page page = list_linked(zones, before, fresh_ticket(), pairs, 2);
    expect_page("the first page", page, 0, 2);
    const belfry_ticket ticket = page.ticket;
    memset(pairs, PAINT, sizeof pairs);
    page = list_linked(edited, before, ticket, pairs, ROOM);
    expect_verdict("the links before the edit", page.verdict, BELFRY_LINKS, 0, 0);
    expect("done", page.done, 0);
    expect("count", page.count, 0);
    expect_ticket(page.ticket, ticket);
    page = list_linked(edited, of_samples, ticket, pairs, ROOM);
    expect_verdict("the links of the samples", page.verdict, BELFRY_LINKS, 0, 0);
    expect_ticket(page.ticket, ticket);
    expect_output(pairs, sizeof pairs, pairs, 0);

    expect_page("links written anew", list_linked(edited, after, ticket, pairs, ROOM), 1, 5);
    expect_page("no links", belfry_list_pairs(edited, 4, samples, 4, ticket, pairs, ROOM), 1, 5);
}

/* Holds what the zones of the samples answer, by their indexes, against what has to be there. */
static void expect_ranges(const belfry_reading *readings, const belfry_range *wanted) {
    for (uint32_t zone = 0; zone < COUNT(zones); zone++) {
        const belfry_range range = belfry_zone_range_nodes(zones, 4, samples, 4, readings, 4, zone);
        expect_verdict("belfry_zone_range_nodes", range.verdict, BELFRY_TAKEN, 0, 0);
        expect_range(range, wanted[zone].present, wanted[zone].low, wanted[zone].high);
    }
}

/* Reads a zero where there is no low and no high. Only `present` tells a zone without a reading
 * from one whose only reading is zero. A float of 0 that stands in for a missing reading is one. */
static void take_missing_for_zero(void) {
    const belfry_reading missing = belfry_no_reading();
    const belfry_reading readings[] = {belfry_percent(4.5f), missing, belfry_grams(38.0f), missing};
    const belfry_reading zeros[] = {missing, belfry_percent(0.0f), missing, missing};
    const belfry_verdict taken = {BELFRY_TAKEN, 0, 0};
    const float tenth = 38.0f / 10.0f;
    const belfry_range found[] = {{taken, 1, tenth, 4.5f},
                                  {taken, 1, 4.5f, 4.5f},
                                  {taken, 1, tenth, tenth},
                                  {taken, 0, 0, 0}};
    const belfry_range found_zeros[] = {
        {taken, 1, 0, 0}, {taken, 0, 0, 0}, {taken, 1, 0, 0}, {taken, 1, 0, 0}};
    expect_ranges(readings, found);
    expect_ranges(zeros, found_zeros);
}

/* Holds the sheet of these hundredths against what has to be there. */
static void expect_sheet(const uint32_t *hundredths, const belfry_subtotal *wanted) {
    belfry_subtotal out[4];
    const belfry_result sheet = belfry_sheet_nodes(zones, 4, samples, 4, hundredths, 4, out, 4);
    expect_verdict("belfry_sheet_nodes", sheet.verdict, BELFRY_TAKEN, 0, 0);
    expect("count", sheet.count, 4);
    expect_output(out, sizeof out, wanted, sizeof out);
}

/* Lends a sheet 0 for a missing reading. The sums stay as they are, and `present` counts samples
 * that the lab didn't read, so that every average is too low. */
static void lend_zero_for_missing(void) {
    const uint32_t missing = BELFRY_NO_HUNDREDTHS;
    const uint32_t lent[] = {450, missing, 380, missing}, zeros[] = {450, 0, 380, 0};
    const belfry_subtotal wanted[] = {{4, 2, 830}, {1, 1, 450}, {2, 1, 380}, {1, 0, 0}};
    const belfry_subtotal of_zeros[] = {{4, 4, 830}, {1, 1, 450}, {2, 2, 380}, {1, 1, 0}};
    expect_sheet(lent, wanted);
    expect_sheet(zeros, of_zeros);
}

/* Takes a refused question for one without pairs. Its count is 0 too, and only its verdict tells
 * the two apart. A page after the last question looks like a question that was taken and isn't
 * done, so a loop until all 32 are done would never end. */
static void take_refused_for_empty(void) {
    const belfry_question questions[] = {all_pairs(2, 4), all_pairs(3, 2), all_pairs(2, 3)};
    belfry_pair out[ROOM];
    uint8_t book[BYTES];
    write_farm(book);
    const belfry_pages found = belfry_ask_pairs(book, BYTES, questions, 3, out, ROOM);
    expect("the answer of the whole call", found.answer, BELFRY_TAKEN);
    expect("questions", found.questions, 3);
    expect_verdict("a refused question", found.pages[0].verdict, BELFRY_ABSENT, 0, 0);
    expect("done", found.pages[0].done, 0);
    expect("count", found.pages[0].count, 0);
    expect_page("a question without pairs", found.pages[1], 1, 0);
    expect_page("a question with pairs", found.pages[2], 1, ALL_PAIRS);
    expect_page("a page after the last question", found.pages[3], 0, 0);
}

/* Looks for the pairs of the second question where a question with all the room would have them.
 * They come right after those of the first. */
static void look_for_pairs_elsewhere(void) {
    belfry_question questions[] = {all_pairs(2, 2), all_pairs(2, 3)};
    belfry_pair out[ROOM];
    uint8_t book[BYTES];
    write_farm(book);
    belfry_pages found = belfry_ask_pairs(book, BYTES, questions, 2, out, ALL_PAIRS);
    expect_page("zones in zones", found.pages[0], 1, 4);
    expect_page("as many pairs as there is room for", found.pages[1], 0, ALL_PAIRS - 4);
    expect("the first pair of the second question", out[4].descendant.start, samples[0].start);
    for (size_t i = 0; i < 2; i++)
        questions[i].ticket = found.pages[i].ticket;
    found = belfry_ask_pairs(book, BYTES, questions, 2, out, ALL_PAIRS);
    expect_page("zones in zones, again", found.pages[0], 1, 0);
    expect_page("the rest", found.pages[1], 1, 4);
    expect("the first pair of the rest", out[0].descendant.start, samples[1].start);
}

static void ask_by_mistake(void) {
    take_refused_for_empty();
    look_for_pairs_elsewhere();
}

/* Checks that bytes which aren't a ticket of this form are refused, and that the caller's ticket
 * stays as it was. */
static void refuse_bytes(const uint8_t *stored, size_t bytes, belfry_ticket_fault fault) {
    const belfry_ticket kept = {1, 2, 3, 4, 5, 6};
    belfry_ticket ticket = kept;
    expect("what reading it back says", belfry_stored_ticket(stored, bytes, &ticket), fault);
    expect_ticket(ticket, kept);
}

/* Stores a ticket as its form and its words, the lowest byte first. Another form, as a later
 * version of the library stores, and bytes that were cut off are refused. */
static void store_ticket(void) {
    const belfry_ticket ticket = {1, 9, 0xFFFFFFFF, 0x04030201, 0x10, 0x8000};
    /* clang-format off */
    const uint8_t wanted[] = {
        BELFRY_TICKET_FORM, 0, 0, 0,
        1, 0, 0, 0,  9, 0, 0, 0,  255, 255, 255, 255,
        1, 2, 3, 4,  16, 0, 0, 0,  0, 128, 0, 0,
    };
    /* clang-format on */
    uint8_t stored[BELFRY_TICKET_BYTES + 1];
    belfry_ticket back;
    memset(stored, PAINT, sizeof stored);
    belfry_store_ticket(ticket, stored);
    expect_output(stored, sizeof stored, wanted, sizeof wanted);
    memset(&back, PAINT, sizeof back);
    expect("what reading it back says", belfry_stored_ticket(stored, BELFRY_TICKET_BYTES, &back),
           BELFRY_TICKET_READ);
    expect_ticket(back, ticket);

    refuse_bytes(stored, BELFRY_TICKET_BYTES - 1, BELFRY_TICKET_OTHER_LENGTH);
    refuse_bytes(stored, BELFRY_TICKET_BYTES + 1, BELFRY_TICKET_OTHER_LENGTH);
    refuse_bytes(stored, BELFRY_NUMBER_BYTES - 1, BELFRY_TICKET_OTHER_LENGTH);
    stored[3] = 1;
    refuse_bytes(stored, BELFRY_TICKET_BYTES, BELFRY_TICKET_OTHER_FORM);
    refuse_bytes(stored, BELFRY_TICKET_BYTES + 1, BELFRY_TICKET_OTHER_FORM);
    memset(stored, 0, sizeof stored);
    refuse_bytes(stored, BELFRY_TICKET_BYTES, BELFRY_TICKET_OTHER_FORM);
}

/* Prints a name as a string: without blanks, and with a zero at its end. */
static void print_name(void) {
    const char full[] = "CONTENTS", part[] = "ROOM";
    char name[BELFRY_NAME_BYTES + 2];
    memset(name, PAINT, sizeof name);
    expect("what it returns", belfry_answer_name(BELFRY_CONTENTS, name) == name, 1);
    expect_output(name, sizeof name, full, sizeof full);
    memset(name, PAINT, sizeof name);
    expect("what it returns", belfry_answer_name(BELFRY_ROOM, name) == name, 1);
    expect_output(name, sizeof name, part, sizeof part);
    expect("the length of an unknown answer's name",
           strlen(belfry_answer_name(BELFRY_LINKS + 1, name)), 0);
}

static const struct {
    const char *name;
    void (*make)(void);
} mistakes[] = {
    {"length", count_nodes_for_words},
    {"null", give_null},
    {"overflow", overflow},
    {"room", give_no_room},
    {"missing", take_missing_for_zero},
    {"sheet", lend_zero_for_missing},
    {"question", ask_by_mistake},
    {"links", lend_other_links},
    {"ticket", store_ticket},
    {"name", print_name},
};

int main(int count, char **arguments) {
    int tried = 0;
    for (size_t i = 0; i < COUNT(mistakes); i++) {
        if (count == 2 && strcmp(arguments[1], mistakes[i].name) == 0) {
            mistakes[i].make();
            tried = 1;
        }
    }
    return tried ? differing : 2;
}
