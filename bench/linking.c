#include "linking.h"

uint32_t links[BELFRY_LINK_WORDS * BELFRY_MOST_NODES];

/* Returns how many words the zones and their links have. */
static size_t zone_words(void) {
    return BELFRY_NODE_WORDS * shape.zones;
}

static size_t link_words(void) {
    return BELFRY_LINK_WORDS * shape.zones;
}

static void take(uint32_t answer) {
    if (answer != BELFRY_TAKEN)
        fail("zones, links or a listing were refused");
}

void build_links(void) {
    take(codes[0].links(shape.zone, zone_words(), links, link_words()).verdict.answer);
}

/* Fetches all pages of a listing with the links lent, and returns how many pairs they have. */
static size_t list_linked(const struct measure *measure, const struct code *code, uint32_t *out) {
    belfry_ticket ticket = measure->ticket;
    size_t pairs = 0;
    for (;;) {
        belfry_page page = code->list_linked(shape.zone, zone_words(), shape.sample,
                                             BELFRY_NODE_WORDS * shape.samples, links, link_words(),
                                             ticket, out, BELFRY_PAIR_WORDS * measure->room);
        take(page.verdict.answer);
        pairs += page.count;
        ticket = page.ticket;
        if (page.done)
            return pairs;
    }
}

size_t run_linked(const struct measure *measure, const struct code *code, uint32_t *out) {
    if (measure->kind == LINKED)
        return list_linked(measure, code, out);
    take(measure->kind == CHECK_ONE
             ? code->check(shape.zone, zone_words()).answer
             : code->links_check(shape.zone, zone_words(), links, link_words()).answer);
    return shape.zones;
}
