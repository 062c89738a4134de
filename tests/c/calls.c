/* Calls each function of the archive on the farm of docs/SCOPE.md. Holds every field of the
 * answers, and every byte of the outputs, against what has to be there. */
#include "expect.h"

enum { MOST = 64 };

static const uint32_t none = BELFRY_NONE;
static const uint32_t marks[] = {1, 2, 2, 3, 65536, 0, 0, 3, 0, 0, 0};
static const uint32_t table[] = {5, 1, 11, 1, 1, 5, 2, 10, 2, 2,     5, 3, 7, 3, 2,
                                 5, 4, 6,  4, 3, 5, 5, 5,  5, 65536, 5, 8, 9, 3, 3};
static const uint32_t zones[] = {5, 2, 10, 2, 5, 3, 7, 3};
static const uint32_t samples[] = {5, 4, 6, 4, 5, 8, 9, 3};
/* A book of the zones and the samples. */
static const uint32_t entries[] = {2, 2, 3, 2};
static const uint32_t nodes[] = {5, 2, 10, 2, 5, 3, 7, 3, 5, 4, 6, 4, 5, 8, 9, 3};
/* The samples in the wrong order, and a text after them: the node at index 1 is at fault. */
static const uint32_t turned[] = {5, 8, 9, 3, 5, 4, 6, 4, 5, 5, 5, 5};

static void call_version(void) {
    printf("belfry_version\n");
    expect("the version", belfry_version(), BELFRY_VERSION);
}

/* Checks a node that ends where the one around it ends too, and a node that starts there. */
static void call_checks(void) {
    const uint32_t within[] = {5, 1, 9, 1, 5, 7, 9, 2}, crossed[] = {5, 1, 5, 1, 5, 5, 7, 2};
    belfry_verdict one = belfry_check(turned, 12);
    expect_verdict("belfry_check", one, BELFRY_ORDER, 0, 1);
    expect_verdict("belfry_check, equal ends", belfry_check(within, 8), BELFRY_TAKEN, 0, 0);
    expect_verdict("belfry_check, from an end on", belfry_check(crossed, 8), BELFRY_CROSS, 0, 1);

    belfry_verdict two = belfry_check_two(zones, 8, turned, 12);
    expect_verdict("belfry_check_two", two, BELFRY_ORDER, BELFRY_DESCENDANTS, 1);

    belfry_part part = belfry_faulty(zones, 8, turned, 12);
    expect_verdict("belfry_faulty", part.verdict, BELFRY_ORDER, BELFRY_DESCENDANTS, 1);
    expect("from", part.from, 4);
    expect("words", part.words, 8);
}

/* Fetches a page of two pairs in ancestor order, the last one, and a refused one. An order of 9 is
 * ancestor order and comes back as 9. */
static void call_list(void) {
    const uint32_t first_pairs[] = {5, 2, 10, 2, 5, 4, 6, 4, 5, 2, 10, 2, 5, 8, 9, 3};
    const uint32_t last_pair[] = {5, 3, 7, 3, 5, 4, 6, 4};
    const belfry_ticket fresh = {BELFRY_INSIDE, 9, BELFRY_FRESH, 71, 72, 73};
    const belfry_ticket after_two = {BELFRY_INSIDE, 9, BELFRY_PLACED, 5, 2, 8};
    const belfry_ticket after_all = {BELFRY_INSIDE, 9, BELFRY_PLACED, 5, 3, 4};
    uint32_t out[MOST];

    memset(out, PAINT, sizeof out);
    belfry_page page = belfry_list(zones, 8, samples, 8, fresh, out, 2 * BELFRY_PAIR_WORDS);
    expect_verdict("belfry_list", page.verdict, BELFRY_TAKEN, 0, 0);
    expect("done", page.done, 0);
    expect("count", page.count, 2);
    expect_ticket(page.ticket, after_two);
    expect_output(out, sizeof out, first_pairs, sizeof first_pairs);

    memset(out, PAINT, sizeof out);
    page = belfry_list(zones, 8, samples, 8, page.ticket, out, 2 * BELFRY_PAIR_WORDS);
    expect_verdict("belfry_list, the last page", page.verdict, BELFRY_TAKEN, 0, 0);
    expect("done", page.done, 1);
    expect("count", page.count, 1);
    expect_ticket(page.ticket, after_all);
    expect_output(out, sizeof out, last_pair, sizeof last_pair);

    memset(out, PAINT, sizeof out);
    page = belfry_list(zones, 8, turned, 12, fresh, out, 2 * BELFRY_PAIR_WORDS);
    expect_verdict("belfry_list, refused", page.verdict, BELFRY_ORDER, BELFRY_DESCENDANTS, 1);
    expect("done", page.done, 0);
    expect("count", page.count, 0);
    expect_ticket(page.ticket, fresh);
    expect_output(out, sizeof out, out, 0);
}

/* The links of the zones, and one word more. */
static const uint32_t zone_links[] = {BELFRY_NONE, 1, BELFRY_NONE, 0, BELFRY_NONE, BELFRY_NONE, 0};

/* Checks a page that isn't the last one, of a call that is lent links. */
static void expect_linked(const char *what, belfry_page page, uint32_t answer, size_t count,
                          belfry_ticket ticket) {
    expect_verdict(what, page.verdict, answer, 0, 0);
    expect("done", page.done, 0);
    expect("count", page.count, count);
    expect_ticket(page.ticket, ticket);
}

/* Fetches the page of two pairs with the links of the zones, then with a wrong word, a word less, a
 * word more and none at all. Lists that don't go together come before the links. */
static void call_list_linked(void) {
    const uint32_t pairs[] = {5, 2, 10, 2, 5, 4, 6, 4, 5, 2, 10, 2, 5, 8, 9, 3};
    const uint32_t crossing[] = {5, 6, 8, 3}, wrong[] = {none, 1, none, 0, none, 1};
    const belfry_ticket fresh = {BELFRY_INSIDE, 9, BELFRY_FRESH, 71, 72, 73};
    const belfry_ticket after_two = {BELFRY_INSIDE, 9, BELFRY_PLACED, 5, 2, 8};
    uint32_t out[MOST];

    memset(out, PAINT, sizeof out);
    belfry_page page = belfry_list_linked(zones, 8, samples, 8, zone_links, 6, fresh, out, 16);
    expect_linked("belfry_list_linked", page, BELFRY_TAKEN, 2, after_two);
    expect_output(out, sizeof out, pairs, sizeof pairs);

    memset(out, PAINT, sizeof out);
    page = belfry_list_linked(zones, 8, samples, 8, wrong, 6, fresh, out, 16);
    expect_linked("belfry_list_linked, a wrong word", page, BELFRY_LINKS, 0, fresh);
    page = belfry_list_linked(zones, 8, samples, 8, zone_links, 5, fresh, out, 16);
    expect_linked("belfry_list_linked, a word less", page, BELFRY_LINKS, 0, fresh);
    page = belfry_list_linked(zones, 8, samples, 8, zone_links, 7, fresh, out, 16);
    expect_linked("belfry_list_linked, a word more", page, BELFRY_LINKS, 0, fresh);
    page = belfry_list_linked(zones, 8, samples, 8, zone_links, 0, after_two, out, 16);
    expect_linked("belfry_list_linked, no word", page, BELFRY_LINKS, 0, after_two);
    page = belfry_list_linked(zones, 8, crossing, 4, wrong, 6, fresh, out, 16);
    expect_linked("belfry_list_linked, lists at odds", page, BELFRY_JOINT, 0, fresh);
    expect_output(out, sizeof out, out, 0);
}

/* Asks the outer zone for its low and high, then the inner zone without a reading and with a faulty
 * one. */
static void call_zone_range(void) {
    const uint32_t thirty_eight = 0x42180000, four_and_a_half = 0x40900000;
    uint32_t readings[] = {BELFRY_GRAMS, thirty_eight, BELFRY_PERCENT, four_and_a_half};

    belfry_range range = belfry_zone_range(zones, 8, samples, 8, readings, 4, 0);
    expect_verdict("belfry_zone_range", range.verdict, BELFRY_TAKEN, 0, 0);
    expect_range(range, 1, 38.0f / 10.0f, 4.5f);

    readings[0] = BELFRY_MISSING;
    readings[1] = 0;
    range = belfry_zone_range(zones, 8, samples, 8, readings, 4, 1);
    expect_verdict("belfry_zone_range, no reading", range.verdict, BELFRY_TAKEN, 0, 0);
    expect_range(range, 0, 0.0f, 0.0f);

    readings[2] = BELFRY_GRAMS + 1;
    range = belfry_zone_range(zones, 8, samples, 8, readings, 4, 1);
    expect_verdict("belfry_zone_range, refused", range.verdict, BELFRY_READING, 0, 1);
    expect_range(range, 0, 0.0f, 0.0f);
}

/* Writes the sheet with and without the first sample's reading, then with a faulty word for the
 * second sample, and then without room for the last word. */
static void call_sheet(void) {
    const uint32_t both[] = {2, 2, 830, 1, 1, 450}, second[] = {2, 1, 380, 1, 0, 0};
    uint32_t hundredths[] = {450, 380}, out[MOST];
    memset(out, PAINT, sizeof out);
    belfry_result sheet = belfry_sheet(zones, 8, samples, 8, hundredths, 2, out, MOST);
    expect_verdict("belfry_sheet", sheet.verdict, BELFRY_TAKEN, 0, 0);
    expect("count", sheet.count, 2);
    expect_output(out, sizeof out, both, sizeof both);

    hundredths[0] = BELFRY_NO_HUNDREDTHS;
    memset(out, PAINT, sizeof out);
    sheet = belfry_sheet(zones, 8, samples, 8, hundredths, 2, out, 6);
    expect_verdict("belfry_sheet, no reading", sheet.verdict, BELFRY_TAKEN, 0, 0);
    expect("count", sheet.count, 2);
    expect_output(out, sizeof out, second, sizeof second);

    memset(out, PAINT, sizeof out);
    hundredths[1] = BELFRY_MOST_HUNDREDTHS + 1;
    sheet = belfry_sheet(zones, 8, samples, 8, hundredths, 2, out, 5);
    expect_verdict("belfry_sheet, refused", sheet.verdict, BELFRY_READING, 0, 1);
    expect("count", sheet.count, 0);
    hundredths[1] = BELFRY_MOST_HUNDREDTHS;
    sheet = belfry_sheet(zones, 8, samples, 8, hundredths, 2, out, 5);
    expect_verdict("belfry_sheet, no room", sheet.verdict, BELFRY_ROOM, 0, 0);
    expect("count", sheet.count, 0);
    expect_output(out, sizeof out, out, 0);
}

/* Makes a ticket by BELFRY_TICKET, which must be fresh and have the relation and the order asked
 * for. */
static void make_ticket(void) {
    const belfry_ticket fresh = {BELFRY_DIRECTLY, BELFRY_ANCESTOR_ORDER, BELFRY_FRESH, 0, 0, 0};
    printf("BELFRY_TICKET\n");
    expect_ticket(BELFRY_TICKET(BELFRY_DIRECTLY, BELFRY_ANCESTOR_ORDER), fresh);
}

static void call_tables(void) {
    uint32_t out[MOST];
    memset(out, PAINT, sizeof out);
    belfry_result rows = belfry_number(5, marks, 11, out, MOST);
    expect_verdict("belfry_number", rows.verdict, BELFRY_TAKEN, 0, 0);
    expect("count", rows.count, 6);
    expect_output(out, sizeof out, table, sizeof table);

    memset(out, PAINT, sizeof out);
    belfry_unnumbered back = belfry_unnumber(table, 30, out, MOST);
    printf("belfry_unnumber\n");
    expect("the answer", back.answer, BELFRY_TAKEN);
    expect("document", back.document, 5);
    expect("count", back.count, 11);
    expect_output(out, sizeof out, marks, sizeof marks);

    memset(out, PAINT, sizeof out);
    belfry_result picked = belfry_pick(table, 30, 2, out, MOST);
    expect_verdict("belfry_pick", picked.verdict, BELFRY_TAKEN, 0, 0);
    expect("count", picked.count, 2);
    expect_output(out, sizeof out, zones, sizeof zones);
}

static void call_links(void) {
    const uint32_t links[] = {none, 1, none, 0, none, none};
    uint32_t out[MOST];
    memset(out, PAINT, sizeof out);
    belfry_result linked = belfry_links(zones, 8, out, MOST);
    expect_verdict("belfry_links", linked.verdict, BELFRY_TAKEN, 0, 0);
    expect("count", linked.count, 2);
    expect_output(out, sizeof out, links, sizeof links);

    memset(out, PAINT, sizeof out);
    linked = belfry_links(turned, 12, out, MOST);
    expect_verdict("belfry_links, refused", linked.verdict, BELFRY_ORDER, 0, 1);
    expect("count", linked.count, 0);
    expect_output(out, sizeof out, out, 0);
}

/* Checks the links of the zones, and the same with a wrong word, a word less and a word more. The
 * refusal of a list comes before that of its links. */
static void call_links_check(void) {
    uint32_t links[COUNT(zone_links)];
    memcpy(links, zone_links, sizeof links);
    expect_verdict("belfry_links_check", belfry_links_check(zones, 8, links, 6), BELFRY_TAKEN, 0,
                   0);
    expect_verdict("belfry_links_check, a word less", belfry_links_check(zones, 8, links, 5),
                   BELFRY_LINKS, 0, 0);
    expect_verdict("belfry_links_check, a word more", belfry_links_check(zones, 8, links, 7),
                   BELFRY_LINKS, 0, 0);
    expect_verdict("belfry_links_check, of other nodes", belfry_links_check(samples, 8, links, 6),
                   BELFRY_LINKS, 0, 0);
    expect_verdict("belfry_links_check, a refused list", belfry_links_check(turned, 12, links, 6),
                   BELFRY_ORDER, 0, 1);
    links[3] = none;
    expect_verdict("belfry_links_check, a wrong word", belfry_links_check(zones, 8, links, 6),
                   BELFRY_LINKS, 0, 0);
    expect_verdict("belfry_links_check, nothing", belfry_links_check(zones, 0, links, 0),
                   BELFRY_TAKEN, 0, 0);
}

/* Returns the number at a place of a book, the lowest byte first. */
static uint32_t number_at(const uint8_t *book, size_t index) {
    const uint8_t *at = book + BELFRY_NUMBER_BYTES * index;
    return at[0] | (uint32_t)at[1] << 8 | (uint32_t)at[2] << 16 | (uint32_t)at[3] << 24;
}

static void call_book(void) {
    const uint32_t numbers[] = {2, 2, 28, 2, 3, 60, 2, 5, 2, 10, 2, 5,
                                3, 7, 3,  5, 4, 6,  4, 5, 8, 9,  3};
    uint8_t book[BELFRY_BOOK_BYTES(2, 4) + 1];
    memset(book, PAINT, sizeof book);
    belfry_result written = belfry_book_write(entries, 4, nodes, 16, book, sizeof book);
    expect_verdict("belfry_book_write", written.verdict, BELFRY_TAKEN, 0, 0);
    expect("count", written.count, 92);
    expect("the size of the book", BELFRY_BOOK_BYTES(2, 4), 92);
    for (size_t i = 0; i < 23; i++)
        expect("a number of the book", number_at(book, i), numbers[i]);
    expect("the byte after the book", book[92], PAINT);

    belfry_book opened = belfry_book_check(book, 92);
    expect_verdict("belfry_book_check", opened.verdict, BELFRY_TAKEN, 0, 0);
    expect("lists", opened.lists, 2);

    belfry_body body = belfry_book_body(book, 92, 3);
    expect_verdict("belfry_book_body", body.verdict, BELFRY_TAKEN, 0, 0);
    expect("from", body.from, 60);
    expect("bytes", body.bytes, 32);
}

/* Writes the book of the zones and the samples, which the call above holds against its numbers. */
static void write_book(uint8_t *book, size_t bytes) {
    expect("count", belfry_book_write(entries, 4, nodes, 16, book, bytes).count, 92);
}

/* Gives the second sample of the book the first one's start: list 1, node 1 is out of order. */
static void call_faulty_book(void) {
    uint8_t book[BELFRY_BOOK_BYTES(2, 4)];
    write_book(book, sizeof book);
    book[60 + 16 + 4] = 4;

    belfry_book refused = belfry_book_check(book, 92);
    expect_verdict("belfry_book_check, refused", refused.verdict, BELFRY_ORDER, 1, 1);
    expect("lists", refused.lists, 0);

    belfry_body nowhere = belfry_book_body(book, 92, 3);
    expect_verdict("belfry_book_body, refused", nowhere.verdict, BELFRY_ORDER, 1, 1);
    expect("from", nowhere.from, 0);
    expect("bytes", nowhere.bytes, 0);
}

/* Writes the words of questions into `out`, as they lie in their structs. */
static void write_questions(const belfry_question *questions, size_t count, uint32_t *out) {
    memcpy(out, questions, count * sizeof *questions);
}

static void expect_asked(const char *what, belfry_page found, belfry_page wanted) {
    expect_verdict(what, found.verdict, wanted.verdict.answer, wanted.verdict.list,
                   wanted.verdict.index);
    expect("done", found.done, wanted.done);
    expect("count", found.count, wanted.count);
    expect_ticket(found.ticket, wanted.ticket);
}

/* Checks the answer of a whole call, and that the pages after the first ones are zero. */
static void expect_whole(const char *what, const belfry_pages *found, uint32_t answer,
                         uint32_t questions, size_t pages) {
    const belfry_page zero = {{0, 0, 0}, 0, 0, {0, 0, 0, 0, 0, 0}};
    printf("%s\n", what);
    expect("the answer", found->answer, answer);
    expect("questions", found->questions, questions);
    for (size_t i = pages; i < BELFRY_MOST_QUESTIONS; i++)
        expect("a page after the last question", memcmp(&found->pages[i], &zero, sizeof zero) == 0,
               1);
}

/* The questions of the calls below: all pairs, a tag that isn't in the book, and the pairs directly
 * inside in ancestor order, with an order of 9. */
static const belfry_question asked[] = {{2, 3, {BELFRY_INSIDE, 0, BELFRY_FRESH, 71, 72, 73}},
                                        {2, 4, {BELFRY_INSIDE, 9, BELFRY_PLACED, 5, 2, 8}},
                                        {2, 3, {BELFRY_DIRECTLY, 9, BELFRY_FRESH, 0, 0, 0}}};

/* Asks with room for all pairs of the first question, one pair of the third and seven words. The
 * refused question between them takes no room. */
static void call_ask(void) {
    const uint32_t pairs[] = {5, 2, 10, 2, 5, 4, 6, 4, 5, 3, 7,  3, 5, 4, 6, 4,
                              5, 2, 10, 2, 5, 8, 9, 3, 5, 2, 10, 2, 5, 8, 9, 3};
    const belfry_page wanted[] = {{{BELFRY_TAKEN, 0, 0}, 1, 3, {0, 0, BELFRY_PLACED, 5, 8, 2}},
                                  {{BELFRY_ABSENT, 0, 0}, 0, 0, asked[1].ticket},
                                  {{BELFRY_TAKEN, 0, 0}, 0, 1, {1, 9, BELFRY_PLACED, 5, 2, 8}}};
    uint32_t questions[3 * BELFRY_QUESTION_WORDS], out[MOST];
    uint8_t book[BELFRY_BOOK_BYTES(2, 4)];
    write_book(book, sizeof book);
    write_questions(asked, 3, questions);
    memset(out, PAINT, sizeof out);
    const belfry_pages found = belfry_ask(book, 92, questions, 24, out, 39);
    expect_whole("belfry_ask", &found, BELFRY_TAKEN, 3, 3);
    for (size_t i = 0; i < 3; i++)
        expect_asked("a page of belfry_ask", found.pages[i], wanted[i]);
    expect_output(out, sizeof out, pairs, sizeof pairs);

    const belfry_pages nothing = belfry_ask(book, 92, questions, 0, out, MOST);
    expect_whole("belfry_ask, no question", &nothing, BELFRY_TAKEN, 0, 0);
    expect_output(out, sizeof out, pairs, sizeof pairs);
}

/* Asks with a faulty book. Each question is refused with the book's answer. */
static void ask_faulty_book(void) {
    uint32_t questions[3 * BELFRY_QUESTION_WORDS], out[MOST];
    uint8_t book[BELFRY_BOOK_BYTES(2, 4)];
    write_book(book, sizeof book);
    book[60 + 16 + 4] = 4;
    write_questions(asked, 3, questions);
    memset(out, PAINT, sizeof out);
    const belfry_pages found = belfry_ask(book, 92, questions, 24, out, MOST);
    expect_whole("belfry_ask, a faulty book", &found, BELFRY_TAKEN, 3, 3);
    for (size_t i = 0; i < 3; i++) {
        const belfry_page wanted = {{BELFRY_ORDER, 1, 1}, 0, 0, asked[i].ticket};
        expect_asked("a page of belfry_ask, a faulty book", found.pages[i], wanted);
    }
    expect_output(out, sizeof out, out, 0);
}

/* Asks with this many words of 34 questions, for which the whole call is refused. Each whole
 * question among the first 32 has a page with the answer and its own ticket. */
static void ask_refused(size_t words, uint32_t answer, size_t pages) {
    uint32_t questions[34 * BELFRY_QUESTION_WORDS], out[MOST];
    uint8_t book[BELFRY_BOOK_BYTES(2, 4)];
    write_book(book, sizeof book);
    for (size_t i = 0; i < 34; i++)
        write_questions(&asked[i % 3], 1, questions + BELFRY_QUESTION_WORDS * i);
    memset(out, PAINT, sizeof out);
    const belfry_pages found = belfry_ask(book, 92, questions, words, out, MOST);
    expect_whole("belfry_ask, refused", &found, answer, 0, pages);
    for (size_t i = 0; i < pages; i++) {
        const belfry_page wanted = {{answer, 0, 0}, 0, 0, asked[i % 3].ticket};
        expect_asked("a page of belfry_ask, refused", found.pages[i], wanted);
    }
    expect_output(out, sizeof out, out, 0);
}

/* All pairs of the zones and the samples. */
static const uint32_t all_pairs[] = {5, 2, 10, 2, 5, 4, 6,  4, 5, 3, 7, 3,
                                     5, 4, 6,  4, 5, 2, 10, 2, 5, 8, 9, 3};

/* Asks as many questions as a call takes, each with the room that is left: the first one takes
 * all. */
static void ask_most(void) {
    uint32_t questions[BELFRY_MOST_QUESTIONS * BELFRY_QUESTION_WORDS], out[MOST];
    uint8_t book[BELFRY_BOOK_BYTES(2, 4)];
    write_book(book, sizeof book);
    for (size_t i = 0; i < BELFRY_MOST_QUESTIONS; i++)
        write_questions(&asked[0], 1, questions + BELFRY_QUESTION_WORDS * i);
    memset(out, PAINT, sizeof out);
    const belfry_pages found = belfry_ask(book, 92, questions, COUNT(questions), out, 24);
    expect_whole("belfry_ask, 32 questions", &found, BELFRY_TAKEN, 32, 32);
    for (size_t i = 0; i < BELFRY_MOST_QUESTIONS; i++) {
        const belfry_page first = {{BELFRY_TAKEN, 0, 0}, 1, 3, {0, 0, BELFRY_PLACED, 5, 8, 2}};
        const belfry_page other = {{BELFRY_TAKEN, 0, 0}, 0, 0, asked[0].ticket};
        expect_asked("a page of 32", found.pages[i], i == 0 ? first : other);
    }
    expect_output(out, sizeof out, all_pairs, sizeof all_pairs);
}

/* The bytes of a book of as many lists as it may have, with the zones in the first and the samples
 * in the last. */
enum { MANY = BELFRY_MOST_LISTS, MANY_BYTES = BELFRY_BOOK_BYTES(MANY, 4) };

/* Writes the entries of such a book of `lists` lists. Their tags are 1, 2, 3 and so on. */
static void write_many_entries(uint32_t *many, size_t lists) {
    for (uint32_t i = 0; i < lists; i++) {
        many[2 * i] = i + 1;
        many[2 * i + 1] = i == 0 || i + 1 == lists ? 2 : 0;
    }
}

/* Writes that book into as much room as it needs, into a byte less, and with a list more. */
static void write_many(uint8_t *book) {
    uint32_t many[2 * (MANY + 1)];
    uint8_t untouched[MANY_BYTES + 12];
    write_many_entries(many, MANY);
    belfry_result written = belfry_book_write(many, 2 * MANY, nodes, 16, book, MANY_BYTES);
    expect_verdict("belfry_book_write, 64 lists", written.verdict, BELFRY_TAKEN, 0, 0);
    expect("count", written.count, 836);

    memset(untouched, PAINT, sizeof untouched);
    written = belfry_book_write(many, 2 * MANY, nodes, 16, untouched, MANY_BYTES - 1);
    expect_verdict("belfry_book_write, a byte less", written.verdict, BELFRY_ROOM, 0, 0);
    write_many_entries(many, MANY + 1);
    written = belfry_book_write(many, 2 * (MANY + 1), nodes, 16, untouched, sizeof untouched);
    expect_verdict("belfry_book_write, 65 lists", written.verdict, BELFRY_CONTENTS, 0, 0);
    expect("count", written.count, 0);
    expect_output(untouched, sizeof untouched, untouched, 0);
}

/* Reads the book: its contents number by number, its first and its last list, and the book with a
 * list more in its first number. */
static void read_many(uint8_t *book) {
    expect("the number of lists", number_at(book, 0), 64);
    for (uint32_t i = 0; i < MANY; i++) {
        expect("a tag", number_at(book, 1 + 3 * i), i + 1);
        expect("an offset", number_at(book, 2 + 3 * i), i == 0 ? 772 : 804);
        expect("a count", number_at(book, 3 + 3 * i), i == 0 || i == 63 ? 2 : 0);
    }
    expect("the lists", belfry_book_check(book, MANY_BYTES).lists, 64);
    expect("the first list", belfry_book_body(book, MANY_BYTES, 1).from, 772);
    expect("the last list", belfry_book_body(book, MANY_BYTES, 64).from, 804);
    expect("the last list's bytes", belfry_book_body(book, MANY_BYTES, 64).bytes, 32);
    expect("no list", belfry_book_body(book, MANY_BYTES, 65).verdict.answer, BELFRY_ABSENT);
    book[0] = MANY + 1;
    belfry_book refused = belfry_book_check(book, MANY_BYTES);
    expect_verdict("belfry_book_check, 65 lists", refused.verdict, BELFRY_CONTENTS, 0, 0);
    expect("lists", refused.lists, 0);
    book[0] = MANY;
}

/* Asks the book about its first and its last list, and about one that it hasn't. */
static void ask_many(const uint8_t *book) {
    const belfry_question about[] = {{1, 64, {BELFRY_INSIDE, 0, BELFRY_FRESH, 0, 0, 0}},
                                     {64, 1, {BELFRY_INSIDE, 0, BELFRY_FRESH, 0, 0, 0}},
                                     {1, 65, {BELFRY_INSIDE, 0, BELFRY_FRESH, 0, 0, 0}}};
    const belfry_page wanted[] = {{{BELFRY_TAKEN, 0, 0}, 1, 3, {0, 0, BELFRY_PLACED, 5, 8, 2}},
                                  {{BELFRY_TAKEN, 0, 0}, 1, 0, about[1].ticket},
                                  {{BELFRY_ABSENT, 0, 0}, 0, 0, about[2].ticket}};
    uint32_t questions[3 * BELFRY_QUESTION_WORDS], out[MOST];
    write_questions(about, 3, questions);
    memset(out, PAINT, sizeof out);
    const belfry_pages found = belfry_ask(book, MANY_BYTES, questions, 24, out, MOST);
    expect_whole("belfry_ask, 64 lists", &found, BELFRY_TAKEN, 3, 3);
    for (size_t i = 0; i < 3; i++)
        expect_asked("a page of belfry_ask, 64 lists", found.pages[i], wanted[i]);
    expect_output(out, sizeof out, all_pairs, sizeof all_pairs);
}

static void call_many_lists(void) {
    uint8_t book[MANY_BYTES];
    write_many(book);
    read_many(book);
    ask_many(book);
}

static void call_refused_asks(void) {
    ask_refused(33 * BELFRY_QUESTION_WORDS, BELFRY_LONG, 32);
    ask_refused(33 * BELFRY_QUESTION_WORDS - 1, BELFRY_RAGGED, 32);
    ask_refused(33 * BELFRY_QUESTION_WORDS + 1, BELFRY_RAGGED, 32);
    ask_refused(32 * BELFRY_QUESTION_WORDS - 1, BELFRY_RAGGED, 31);
    ask_refused(3 * BELFRY_QUESTION_WORDS + 1, BELFRY_RAGGED, 3);
    ask_refused(BELFRY_QUESTION_WORDS - 1, BELFRY_RAGGED, 0);
}

/* Makes a question by BELFRY_QUESTION, which must have the tags and the ticket asked for. */
static void make_question(void) {
    const belfry_ticket fresh = {BELFRY_DIRECTLY, BELFRY_DESCENDANT_ORDER, BELFRY_FRESH, 0, 0, 0};
    const belfry_question made = BELFRY_QUESTION(2, 3, BELFRY_DIRECTLY, BELFRY_DESCENDANT_ORDER);
    printf("BELFRY_QUESTION\n");
    expect("ancestors", made.ancestors, 2);
    expect("descendants", made.descendants, 3);
    expect_ticket(made.ticket, fresh);
}

static void call_name(void) {
    uint8_t name[BELFRY_NAME_BYTES + 1];
    memset(name, PAINT, sizeof name);
    belfry_name(BELFRY_LINKS, name);
    printf("belfry_name\n");
    for (size_t i = 0; i < BELFRY_NAME_BYTES; i++)
        expect("a byte of the name", name[i], (uint8_t) "LINKS   "[i]);
    expect("the byte after the name", name[BELFRY_NAME_BYTES], PAINT);
}

int main(void) {
    call_version();
    call_checks();
    make_ticket();
    call_list();
    call_list_linked();
    call_zone_range();
    call_sheet();
    call_tables();
    call_links();
    call_links_check();
    call_book();
    call_faulty_book();
    make_question();
    call_ask();
    ask_faulty_book();
    ask_most();
    call_many_lists();
    call_refused_asks();
    call_name();
    return differing;
}
