#include "looking.h"
#include <stdio.h>

/* How many zones further on the search looks for the end of what lies inside a zone. */
enum { STRIDE = 8 };

/* The lists of a shape, the links of its zones, and how many zones were read to confirm a jump. */
struct sight {
    const belfry_node *zones, *samples;
    const belfry_link *links;
    size_t zone_count, sample_count, probed;
};

/* How many zones are decided about. */
struct looked {
    size_t plain, linked;
};

static int is_after(const belfry_node *x, const belfry_node *y) {
    return x->document > y->document || (x->document == y->document && x->start > y->start);
}

static int is_open(const belfry_node *n, const belfry_node *zone) {
    return n->document == zone->document && n->start <= zone->end;
}

/* Tells whether there is a zone at an index and it lies inside another one before it. Each zone
   that is read counts. */
static int is_inside(struct sight *s, size_t index, size_t outer) {
    if (index >= s->zone_count)
        return 0;
    s->probed++;
    return is_open(&s->zones[index], &s->zones[outer]);
}

/* Returns the index that the links name after a zone and everything inside it, or 0. */
static size_t named_after(const struct sight *s, size_t zone) {
    while (s->links[zone].next_sibling == BELFRY_NONE) {
        if (s->links[zone].parent == BELFRY_NONE)
            return 0;
        zone = s->links[zone].parent;
    }
    return s->links[zone].next_sibling;
}

/* Returns where the call with links goes on after a zone without samples. What the links name is
   confirmed at the zone before it. */
static size_t past_zone(struct sight *s, size_t zone) {
    size_t next = zone + 1, named = named_after(s, zone);
    if (s->links[zone].first_child == BELFRY_NONE)
        return next;
    if (named != 0)
        return named > next && is_inside(s, named - 1, zone) ? named : next;
    while (is_inside(s, next + STRIDE - 1, zone))
        next += STRIDE;
    while (is_inside(s, next, zone))
        next++;
    return next;
}

/* Returns how many of the leaders a ticket has served: those before its place. */
static size_t served(const belfry_node *leaders, size_t count, const belfry_ticket *ticket) {
    const belfry_node place = {ticket->document, ticket->first, 0, 0};
    size_t i = 0;
    while (ticket->placed && i < count && is_after(&place, &leaders[i]))
        i++;
    return i;
}

static struct looked look_by_samples(struct sight *s, const belfry_ticket *ticket) {
    struct looked looked = {0, 0};
    size_t i = 0;
    for (size_t j = served(s->samples, s->sample_count, ticket); j < s->sample_count; j++) {
        const belfry_node *sample = &s->samples[j];
        while (looked.plain < s->zone_count && is_after(sample, &s->zones[looked.plain]))
            looked.plain++;
        for (; i < s->zone_count && is_after(sample, &s->zones[i]); looked.linked++)
            i = is_open(sample, &s->zones[i]) ? i + 1 : past_zone(s, i);
    }
    return looked;
}

static struct looked look_by_zones(struct sight *s, const belfry_ticket *ticket) {
    size_t i = served(s->zones, s->zone_count, ticket), j = 0;
    struct looked looked = {s->zone_count - i, 0};
    while (i < s->zone_count) {
        looked.linked++;
        while (j < s->sample_count && !is_after(&s->samples[j], &s->zones[i]))
            j++;
        if (j == s->sample_count)
            return looked;
        i = is_open(&s->samples[j], &s->zones[i]) ? i + 1 : past_zone(s, i);
    }
    return looked;
}

void print_looked(const struct shape *shape, const uint32_t *links, const belfry_ticket *ticket) {
    struct sight s = {(const belfry_node *)shape->zone,
                      (const belfry_node *)shape->sample,
                      (const belfry_link *)links,
                      shape->zones,
                      shape->samples,
                      0};
    struct looked looked = ticket->order == BELFRY_ANCESTOR_ORDER ? look_by_zones(&s, ticket)
                                                                  : look_by_samples(&s, ticket);
    printf("%zu %zu %zu\n", looked.plain, looked.linked, s.probed);
}
