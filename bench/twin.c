/* The twin as a careful C programmer would write it, in two forms: with FUSED set to 0 the checks
   of two lists are three passes; with FUSED set to 1 one pass settles the good case, and the three
   passes only say what is wrong. */
#include "twin.h"

static belfry_verdict check_one(const uint32_t *list, size_t words) {
    return check_list(list, words);
}

#if FUSED
/* Tells whether nothing is wrong with two lists, alone and together: one pass. The loops are those
 * of are_agreeing, written out: shared, they take both compilers three or four instructions a node
 * more. */
static int are_taken(struct lists l) {
    struct node stack[STACK_NODES], *top = stack;
    *top = EVERYTHING;
    while (l.ancestor < l.ancestors_end && l.descendant < l.descendants_end) {
        const struct node *n = next_node(&l);
        if (!n || check_node(stack, &top, n) != BELFRY_TAKEN)
            return 0;
    }
    for (; l.ancestor < l.ancestors_end; l.ancestor++)
        if (check_node(stack, &top, l.ancestor) != BELFRY_TAKEN)
            return 0;
    for (; l.descendant < l.descendants_end; l.descendant++)
        if (check_node(stack, &top, l.descendant) != BELFRY_TAKEN)
            return 0;
    return 1;
}
#endif

static belfry_verdict check_both(const uint32_t *ancestors, size_t ancestor_words,
                                 const uint32_t *descendants, size_t descendant_words) {
#if FUSED
    if (word_fault(ancestor_words) == BELFRY_TAKEN &&
        word_fault(descendant_words) == BELFRY_TAKEN &&
        are_taken(lists_of(ancestors, ancestor_words, descendants, descendant_words)))
        return verdict_of(BELFRY_TAKEN);
#endif
    return three_passes(ancestors, ancestor_words, descendants, descendant_words);
}

/* Writes the pairs of ancestors with one descendant, as many as fit. It says whether all did. */
static inline int pair_ancestors(struct writing *w, const struct node *ancestors, size_t count,
                                 const struct node *descendant) {
    const struct node d = *descendant;
    struct pair *out = w->out;
    size_t room = w->end - out, fitting = count < room ? count : room;
    for (size_t i = 0; i < fitting; i++) {
        out[i].ancestor = ancestors[i];
        out[i].descendant = d;
    }
    w->out = out + fitting;
    return fitting == count;
}

/* Writes the pairs of an ancestor with the descendants that start in it, or with those of them only
   that are one level deeper, as many as fit. It says whether all did. */
static inline int pair_run(struct writing *w, const struct node *a, const struct node *d,
                           const struct node *d_end, int directly) {
    uint32_t document = a->document, end = a->end, level = a->level + 1;
    struct pair *out = w->out, *out_end = w->end;
    for (; d < d_end && d->document == document && d->start <= end; d++) {
        if (directly && d->level != level)
            continue;
        if (out == out_end)
            return 0;
        out->ancestor = *a;
        out->descendant = *d;
        w->out = ++out;
    }
    return 1;
}

/* Puts the ancestors onto the stack that start before the descendant and are open at it, and takes
   the others off. */
static inline struct node *open_ancestors(struct node *stack, struct node *top, struct lists *l) {
    const struct node *d = l->descendant;
    for (; l->ancestor < l->ancestors_end && is_before(l->ancestor, d); l->ancestor++)
        if (l->ancestor->document == d->document && l->ancestor->end >= d->start) {
            top = open_at(stack, top, l->ancestor) + 1;
            *top = *l->ancestor;
        }
    return open_at(stack, top, d);
}

/* Pairs each descendant with the ancestors open at it, past the ticket's place. Directly inside it
 * can only lie in the innermost. Tells whether all found room. */
static int sweep_descendants(struct lists l, const belfry_ticket *ticket, struct writing *w) {
    const struct node place = {ticket->document, ticket->first, 0, 0};
    struct node stack[STACK_NODES], *top = stack;
    *top = EVERYTHING;
    if (ticket->placed)
        while (l.descendant < l.descendants_end && is_before(l.descendant, &place))
            l.descendant++;
    const struct node *resumed = ticket->placed ? l.descendant : NULL;
    for (; l.descendant < l.descendants_end; l.descendant++) {
        top = open_ancestors(stack, top, &l);
        const struct node *first = stack + 1;
        if (ticket->relation)
            first = top->level + 1 == l.descendant->level && top > stack ? top : top + 1;
        if (l.descendant == resumed && !is_before(&place, resumed))
            while (first <= top && first->start <= ticket->second)
                first++;
        if (!pair_ancestors(w, first, top + 1 - first, l.descendant))
            return 0;
    }
    return 1;
}

/* Pairs each ancestor with the run of descendants that start in it, past the ticket's place. Tells
 * whether all found room. */
static int sweep_ancestors(struct lists l, const belfry_ticket *ticket, struct writing *w) {
    const struct node place = {ticket->document, ticket->first, 0, 0};
    if (ticket->placed)
        while (l.ancestor < l.ancestors_end && is_before(l.ancestor, &place))
            l.ancestor++;
    const struct node *resumed = ticket->placed ? l.ancestor : NULL;
    for (; l.ancestor < l.ancestors_end; l.ancestor++) {
        const struct node *a = l.ancestor;
        while (l.descendant < l.descendants_end && !is_before(a, l.descendant))
            l.descendant++;
        const struct node *d = l.descendant;
        if (a == resumed && !is_before(&place, resumed))
            while (d < l.descendants_end && d->document == a->document &&
                   d->start <= ticket->second)
                d++;
        if (!(ticket->relation ? pair_run(w, a, d, l.descendants_end, 1)
                               : pair_run(w, a, d, l.descendants_end, 0)))
            return 0;
    }
    return 1;
}

/* Links the nodes of a list that was taken. The last node left on the way to a node's parent is its
 * elder sibling, if it is of the same document. */
static void link_nodes(const struct node *nodes, size_t count,
                       uint32_t (*links)[BELFRY_LINK_WORDS]) {
    uint32_t open[BELFRY_MOST_LEVELS];
    size_t depth = 0;
    for (uint32_t i = 0; i < count; i++) {
        uint32_t elder = BELFRY_NONE;
        while (depth > 0 && has_ended(&nodes[open[depth - 1]], &nodes[i]))
            elder = open[--depth];
        uint32_t parent = depth > 0 ? open[depth - 1] : BELFRY_NONE;
        links[i][0] = parent;
        links[i][1] = links[i][2] = BELFRY_NONE;
        if (elder != BELFRY_NONE && nodes[elder].document == nodes[i].document)
            links[elder][2] = i;
        else if (parent != BELFRY_NONE)
            links[parent][1] = i;
        open[depth++] = i;
    }
}

/* Tells whether links are those of a list that was taken, in one pass. The node before has a child
 * only if it is open. Of those that have ended, only the last one left can have a next sibling. */
static int are_links(const struct node *nodes, size_t count, const belfry_link *links) {
    uint32_t open[BELFRY_MOST_LEVELS];
    size_t depth = 0;
    for (uint32_t i = 0; i < count; i++) {
        uint32_t elder = BELFRY_NONE;
        while (depth > 0 && has_ended(&nodes[open[depth - 1]], &nodes[i])) {
            if (elder != BELFRY_NONE && links[elder].next_sibling != BELFRY_NONE)
                return 0;
            elder = open[--depth];
        }
        int related = elder != BELFRY_NONE && nodes[elder].document == nodes[i].document;
        if (elder != BELFRY_NONE && links[elder].next_sibling != (related ? i : BELFRY_NONE))
            return 0;
        if (i > 0 && links[i - 1].first_child != (elder == BELFRY_NONE ? i : BELFRY_NONE))
            return 0;
        if (links[i].parent != (depth > 0 ? open[depth - 1] : BELFRY_NONE))
            return 0;
        open[depth++] = i;
    }
    while (depth > 0)
        if (links[open[--depth]].next_sibling != BELFRY_NONE)
            return 0;
    return count == 0 || links[count - 1].first_child == BELFRY_NONE;
}

/* Returns the zone after one and everything inside it. After the last of a document none is named,
 * and what lies inside it is passed one by one. */
static const struct node *past_zone(const struct node *zones, const struct node *zones_end,
                                    const belfry_link *links, const struct node *zone) {
    if (links[zone - zones].first_child == BELFRY_NONE)
        return zone + 1;
    const struct node *next = named_after(zones, links, zone);
    if (next)
        return next;
    for (next = zone + 1; next < zones_end && !has_ended(zone, next); next++)
        ;
    return next;
}

/* Puts the ancestors onto the stack as open_ancestors does, and passes those that have ended with
   everything inside them. */
static struct node *open_jumping(struct node *stack, struct node *top, struct lists *l,
                                 const struct node *zones, const belfry_link *links) {
    const struct node *d = l->descendant;
    while (l->ancestor < l->ancestors_end && is_before(l->ancestor, d))
        if (has_ended(l->ancestor, d))
            l->ancestor = past_zone(zones, l->ancestors_end, links, l->ancestor);
        else {
            top = open_at(stack, top, l->ancestor) + 1;
            *top = *l->ancestor++;
        }
    return open_at(stack, top, d);
}

static int jump_descendants(struct lists l, const belfry_link *links, const belfry_ticket *ticket,
                            struct writing *w) {
    const struct node place = {ticket->document, ticket->first, 0, 0}, *zones = l.ancestor;
    struct node stack[STACK_NODES], *top = stack;
    *top = EVERYTHING;
    if (ticket->placed)
        while (l.descendant < l.descendants_end && is_before(l.descendant, &place))
            l.descendant++;
    const struct node *resumed = ticket->placed ? l.descendant : NULL;
    for (; l.descendant < l.descendants_end; l.descendant++) {
        top = open_jumping(stack, top, &l, zones, links);
        const struct node *first = stack + 1;
        if (ticket->relation)
            first = top->level + 1 == l.descendant->level && top > stack ? top : top + 1;
        if (l.descendant == resumed && !is_before(&place, resumed))
            while (first <= top && first->start <= ticket->second)
                first++;
        if (!pair_ancestors(w, first, top + 1 - first, l.descendant))
            return 0;
    }
    return 1;
}

/* Pairs each ancestor with its run as sweep_ancestors does. One without a run is passed with
   everything inside it. Where no descendant is left, neither is a pair. */
static int jump_ancestors(struct lists l, const belfry_link *links, const belfry_ticket *ticket,
                          struct writing *w) {
    const struct node place = {ticket->document, ticket->first, 0, 0}, *zones = l.ancestor;
    if (ticket->placed)
        while (l.ancestor < l.ancestors_end && is_before(l.ancestor, &place))
            l.ancestor++;
    const struct node *resumed = ticket->placed ? l.ancestor : NULL;
    while (l.ancestor < l.ancestors_end) {
        const struct node *a = l.ancestor;
        while (l.descendant < l.descendants_end && !is_before(a, l.descendant))
            l.descendant++;
        const struct node *d = l.descendant;
        if (d == l.descendants_end)
            return 1;
        if (has_ended(a, d)) {
            l.ancestor = past_zone(zones, l.ancestors_end, links, a);
            continue;
        }
        if (a == resumed && !is_before(&place, resumed))
            while (d < l.descendants_end && d->document == a->document &&
                   d->start <= ticket->second)
                d++;
        if (!(ticket->relation ? pair_run(w, a, d, l.descendants_end, 1)
                               : pair_run(w, a, d, l.descendants_end, 0)))
            return 0;
        l.ancestor++;
    }
    return 1;
}
