/* The farm of docs/SCOPE.md, two zones and two samples. Prints all its pairs, and then what a call
 * with the samples in the wrong order is refused with. */
#include <stdio.h>

#include "belfrychest.h"

#define COUNT(array) (sizeof(array) / sizeof *(array))

static const belfry_node zones[] = {
    {.document = 5, .start = 2, .end = 10, .level = 2},
    {.document = 5, .start = 3, .end = 7, .level = 3},
};
static const belfry_node samples[] = {
    {.document = 5, .start = 4, .end = 6, .level = 4},
    {.document = 5, .start = 8, .end = 9, .level = 3},
};
static const belfry_node unsorted[] = {
    {.document = 5, .start = 8, .end = 9, .level = 3},
    {.document = 5, .start = 4, .end = 6, .level = 4},
};

static void print_pairs(const belfry_pair *pairs, size_t count) {
    for (size_t i = 0; i < count; i++)
        printf("%u %u %u\n", pairs[i].ancestor.document, pairs[i].ancestor.start,
               pairs[i].descendant.start);
}

static void print_refusal(belfry_verdict verdict) {
    char name[BELFRY_NAME_BYTES + 1];
    printf("refused %u %s list %u index %u\n", verdict.answer,
           belfry_answer_name(verdict.answer, name), verdict.list, verdict.index);
}

/* Prints every pair of the zones with these samples, page by page, and how many there are; or the
 * refusal. */
static void join_zones_with(const belfry_node *list, size_t count) {
    static belfry_pair pairs[BELFRY_PAGE_PAIRS];
    belfry_page page = {.ticket = BELFRY_TICKET(BELFRY_INSIDE, BELFRY_DESCENDANT_ORDER)};
    size_t total = 0;
    while (!page.done) {
        page = belfry_list_pairs(zones, COUNT(zones), list, count, page.ticket, pairs,
                                 BELFRY_PAGE_PAIRS);
        if (page.verdict.answer != BELFRY_TAKEN) {
            print_refusal(page.verdict);
            return;
        }
        print_pairs(pairs, page.count);
        total += page.count;
    }
    printf("pairs %zu\n", total);
}

int main(void) {
    if (belfry_version() != BELFRY_VERSION) {
        fprintf(stderr, "farm: the archive belongs to another version of belfrychest.h\n");
        return 1;
    }
    join_zones_with(samples, COUNT(samples));
    join_zones_with(unsorted, COUNT(unsorted));
    return 0;
}
