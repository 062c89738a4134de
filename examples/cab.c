/* A terminal in a tractor's cab, which fetches the pairs of a field page by page. It may be
 * switched off between two pages, so it stores the ticket's bytes and nothing else. Meanwhile the
 * office edits the lists: it inserts a zone, deletes a sample, and mistypes a zone's end, which is
 * refused and put right. When a page says done, every pair that stood all the while has been
 * fetched, once. */
#include <stdio.h>
#include <stdlib.h>
#include <string.h>

#include "belfrychest.h"

/* The field lies in strips of STRIP positions. In each strip a plot holds the second half of the
 * strip's samples. */
enum { FIELD = 101, STRIPS = 50, STRIP = 1000, STRIP_SAMPLES = 80, SAMPLE_LEVEL = 5 };

typedef struct {
    belfry_node nodes[BELFRY_MOST_NODES];
    size_t count;
} node_list;

static node_list zones, samples;

/* Returns the index of the first node that doesn't start before a position. */
static size_t index_at(const node_list *list, uint32_t start) {
    size_t index = 0;
    while (index < list->count && list->nodes[index].start < start)
        index++;
    return index;
}

/* Adds a node of the field at its place in the list. The caller makes sure that the list isn't
 * full. */
static void add_node(node_list *list, uint32_t start, uint32_t end, uint32_t level) {
    const belfry_node node = {.document = FIELD, .start = start, .end = end, .level = level};
    const size_t index = index_at(list, start);
    belfry_node *place = list->nodes + index;
    memmove(place + 1, place, (list->count - index) * sizeof *place);
    *place = node;
    list->count++;
}

/* Deletes the node that starts at a position. */
static void delete_node(node_list *list, uint32_t start) {
    const size_t index = index_at(list, start);
    belfry_node *place = list->nodes + index;
    list->count--;
    memmove(place, place + 1, (list->count - index) * sizeof *place);
}

/* Adds a strip, its plot and its samples. */
static void add_strip(uint32_t start) {
    add_node(&zones, start, start + STRIP - 1, 2);
    add_node(&zones, start + STRIP_SAMPLES * 5 + 5, start + STRIP_SAMPLES * 10 + 5, 3);
    for (uint32_t i = 1; i <= STRIP_SAMPLES; i++)
        add_node(&samples, start + 10 * i, start + 10 * i + 4, SAMPLE_LEVEL);
}

/* Makes the lists: the whole field is a zone, too. */
static void make_field(void) {
    add_node(&zones, 1, STRIP * (STRIPS + 1), 1);
    for (uint32_t i = 1; i <= STRIPS; i++)
        add_strip(STRIP * i);
}

/* Returns the stored ticket. Where the terminal can't read it, its listing has to start again. */
static belfry_ticket take_ticket(const uint8_t stored[BELFRY_TICKET_BYTES]) {
    belfry_ticket ticket;
    if (belfry_stored_ticket(stored, BELFRY_TICKET_BYTES, &ticket) != BELFRY_TICKET_READ) {
        fprintf(stderr, "cab: the stored ticket is one of another version\n");
        exit(1);
    }
    return ticket;
}

static void print_page(const belfry_page *page, const belfry_pair *pairs) {
    char name[BELFRY_NAME_BYTES + 1];
    printf("page: %s", belfry_answer_name(page->verdict.answer, name));
    if (page->count > 0) {
        const belfry_pair first = pairs[0], last = pairs[page->count - 1];
        printf(", %zu pairs, from zone %u with sample %u to zone %u with sample %u", page->count,
               first.ancestor.start, first.descendant.start, last.ancestor.start,
               last.descendant.start);
    }
    printf(page->done ? ", done\n" : "\n");
}

/* Fetches and prints the page after the stored ticket, and stores the new ticket. After a refusal
 * that is the old one again. */
static belfry_page fetch_page(uint8_t stored[BELFRY_TICKET_BYTES]) {
    static belfry_pair pairs[BELFRY_PAGE_PAIRS];
    const belfry_page page =
        belfry_list_pairs(zones.nodes, zones.count, samples.nodes, samples.count,
                          take_ticket(stored), pairs, BELFRY_PAGE_PAIRS);
    belfry_store_ticket(page.ticket, stored);
    print_page(&page, pairs);
    return page;
}

/* Shows the faulty node where it lies in its list, and puts its end right. */
static void repair_end(uint32_t end) {
    const belfry_node_part part =
        belfry_faulty_nodes(zones.nodes, zones.count, samples.nodes, samples.count);
    if (part.count == 0)
        return;
    node_list *faulty = part.verdict.list == BELFRY_ANCESTORS ? &zones : &samples;
    belfry_node *node = faulty->nodes + part.from;
    char name[BELFRY_NAME_BYTES + 1];
    printf("repair: %s in list %u at index %zu, from %u to %u; now to %u\n",
           belfry_answer_name(part.verdict.answer, name), part.verdict.list, part.from, node->start,
           node->end, end);
    node->end = end;
}

int main(void) {
    uint8_t stored[BELFRY_TICKET_BYTES];
    belfry_store_ticket(BELFRY_TICKET(BELFRY_INSIDE, BELFRY_DESCENDANT_ORDER), stored);
    make_field();
    printf("field: %zu zones, %zu samples\n", zones.count, samples.count);

    fetch_page(stored);
    printf("edit: a zone from 30005 to 30205 is inserted\n");
    add_node(&zones, 30005, 30205, 3);
    fetch_page(stored);
    printf("edit: the sample at 1010, already fetched, is deleted\n");
    delete_node(&samples, 1010);
    printf("edit: the zone at 50000 is given the end 5999\n");
    zones.nodes[index_at(&zones, 50000)].end = 5999;
    if (fetch_page(stored).verdict.answer != BELFRY_TAKEN)
        repair_end(50999);

    belfry_page page;
    do
        page = fetch_page(stored);
    while (page.verdict.answer == BELFRY_TAKEN && !page.done);
    return page.done ? 0 : 1;
}
