#include "asking.h"
#include "measures.h"

enum { LISTINGS = 4, PASSED_PAIRS = 256, MOST_PASSED = 2 };

/* A list of a book, as words. */
struct list {
    const uint32_t *words;
    size_t count;
};

static belfry_question questions[BELFRY_MOST_QUESTIONS];
/* How many pairs the questions have in all. */
static size_t all_pairs;

static const uint8_t *bytes_of(const struct asking *asking) {
    return (const uint8_t *)asking->book;
}

static size_t count_of(const struct asking *asking) {
    return asking->lists == BELFRY_MOST_LISTS ? BELFRY_MOST_QUESTIONS : QUESTIONS;
}

/* Returns the number of the list of samples that a question asks for. */
static size_t sample_list(const struct asking *asking, size_t question) {
    return 1 + question * (asking->lists - 1) / count_of(asking);
}

/* Finds the list of a tag. The book lies in words, and numbers lie in memory as it keeps them, so
   nothing has to be copied. */
static struct list find_list(const struct asking *asking, const struct code *code, uint32_t tag) {
    belfry_body body = code->book_body(bytes_of(asking), asking->bytes, tag);
    if (body.verdict.answer != BELFRY_TAKEN)
        fail("a list wasn't found");
    return (struct list){asking->book + body.from / BELFRY_NUMBER_BYTES,
                         body.bytes / BELFRY_NUMBER_BYTES};
}

static belfry_page list_pairs(const struct code *code, struct list zones, struct list samples,
                              belfry_ticket ticket, uint32_t *out, size_t out_words) {
    return code->list(zones.words, zones.count, samples.words, samples.count, ticket, out,
                      out_words);
}

/* Returns how many pairs a page has, which has to be the last of its listing. */
static size_t last_count(const belfry_page *page) {
    if (page->verdict.answer != BELFRY_TAKEN || !page->done)
        fail("a question was refused or isn't done");
    return page->count;
}

void build_questions(const struct asking *asking, enum way way) {
    const struct code *code = &codes[0];
    uint32_t last = ZONE_TAG + asking->lists - 1, ancestors = way == LAST ? last : ZONE_TAG;
    struct list zones = find_list(asking, code, ancestors);
    all_pairs = 0;
    for (size_t i = 0; i < count_of(asking); i++) {
        uint32_t descendants =
            way == FIRST || way == LAST ? ancestors : ZONE_TAG + sample_list(asking, i);
        struct list samples = find_list(asking, code, descendants);
        belfry_ticket ticket = BELFRY_TICKET(i & 1, i >> 1 & 1);
        for (size_t passed = 0; passed < i / LISTINGS % (MOST_PASSED + 1); passed++)
            ticket = list_pairs(code, zones, samples, ticket, asking->out,
                                BELFRY_PAIR_WORDS * PASSED_PAIRS)
                         .ticket;
        belfry_page rest = list_pairs(code, zones, samples, ticket, asking->out, asking->out_words);
        questions[i] = (belfry_question){ancestors, descendants, ticket};
        all_pairs += last_count(&rest);
    }
}

/* Asks some of the questions in one call, with the output from a pair on. Returns how many pairs
   there are then. */
static size_t ask_some(const struct asking *asking, const struct code *code, size_t first,
                       size_t count, size_t pairs) {
    size_t at = BELFRY_PAIR_WORDS * pairs;
    belfry_pages asked =
        code->ask(bytes_of(asking), asking->bytes, &questions[first].ancestors,
                  BELFRY_QUESTION_WORDS * count, asking->out + at, asking->out_words - at);
    for (size_t i = 0; i < count; i++)
        pairs += last_count(&asked.pages[i]);
    return pairs;
}

static size_t ask_each(const struct asking *asking, const struct code *code) {
    size_t pairs = 0;
    for (size_t i = 0; i < count_of(asking); i++)
        pairs = ask_some(asking, code, i, 1, pairs);
    return pairs;
}

/* Lists what each question asks for. The lists are found anew for each, or once. */
static size_t list_each(const struct asking *asking, const struct code *code, int once) {
    struct list found[BELFRY_MOST_LISTS];
    size_t pairs = 0;
    for (size_t i = 0; once && i < asking->lists; i++)
        found[i] = find_list(asking, code, ZONE_TAG + i);
    for (size_t i = 0; i < count_of(asking); i++) {
        const belfry_question *q = &questions[i];
        struct list zones = once ? found[0] : find_list(asking, code, q->ancestors);
        struct list samples =
            once ? found[q->descendants - ZONE_TAG] : find_list(asking, code, q->descendants);
        size_t at = BELFRY_PAIR_WORDS * pairs;
        belfry_page page =
            list_pairs(code, zones, samples, q->ticket, asking->out + at, asking->out_words - at);
        pairs += last_count(&page);
    }
    return pairs;
}

size_t ask_all(const struct asking *asking, enum way way, const struct code *code) {
    size_t pairs = way == EACH                     ? ask_each(asking, code)
                   : way == SINGLE || way == FOUND ? list_each(asking, code, way == FOUND)
                                                   : ask_some(asking, code, 0, count_of(asking), 0);
    if (pairs != all_pairs)
        fail("the questions have other pairs than their listings");
    return pairs;
}
