/* The twin in its best form: the best C that we could write for the bench's shapes, with the
   algorithms that took the fewest instructions on the first six. On others the fused form may take
   fewer, as it does on 4,096 small documents in ancestor order. */
#include "twin.h"

/* The check of two lists. It goes document by document, and in a document by runs: the nodes of one
   list are passed up to the next start of the other, and then the other's. */

/* Past every start in a document: where a list stands that has no more nodes of it. */
static const uint64_t PAST = (uint64_t)UINT32_MAX + 1;

/* A node that is open where the check stands. They are kept on a stack. At its bottom lies one that
   holds everything: it ends past every start, and its level is below all others. */
struct open {
    uint64_t end;
    uint32_t level;
};

/* Where a list stands: its next node, and where that starts in the document, or PAST. */
struct stand {
    const struct node *next, *end;
    uint64_t start;
};

/* Puts the next node onto those that are open at it. It says whether it may lie there. A level of 0
   is above none. */
static inline int push_node(struct open **top, const struct stand *s) {
    struct open *t = *top;
    uint64_t end = s->next->end;
    uint32_t level = s->next->level;
    if (end < s->start || level > BELFRY_MOST_LEVELS)
        return 0;
    while (t->end < s->start)
        t--;
    if (t->end < end || level <= t->level)
        return 0;
    t++;
    t->end = end;
    t->level = level;
    *top = t;
    return 1;
}

/* Goes on by a node. It says whether the one that follows comes after it. */
static inline int step(struct stand *s, uint32_t document) {
    const struct node *n = ++s->next;
    if (n < s->end && n->document == document) {
        uint64_t last = s->start;
        s->start = n->start;
        return s->start > last;
    }
    s->start = PAST;
    return n == s->end || n->document > document;
}

/* Passes the nodes of a list that start before the other's next. It says whether they are right. */
static inline int pass_run(struct open **top, struct stand *s, uint32_t document, uint64_t limit) {
    while (s->start < limit)
        if (!push_node(top, s) || !step(s, document))
            return 0;
    return 1;
}

/* Tells whether the nodes at which both lists stand, and which start together, are identical. */
static inline int are_identical(const struct node *x, const struct node *y) {
    return x->end == y->end && x->level == y->level;
}

/* Passes the nodes of a document. One that stands in both lists is passed over in the second, and
   then passed in the first. It says whether all are right. */
static inline int pass_document(struct open *stack, struct stand *x, struct stand *y,
                                uint32_t document) {
    struct open *top = stack;
    for (;;) {
        if (!pass_run(&top, x, document, y->start))
            return 0;
        if (x->start == y->start) {
            if (x->start == PAST)
                return 1;
            if (!are_identical(x->next, y->next) || !step(y, document))
                return 0;
        }
        if (!pass_run(&top, y, document, x->start))
            return 0;
    }
}

/* Returns the document of a list's next node, or PAST. */
static inline uint64_t document_of(const struct stand *s) {
    return s->next < s->end ? s->next->document : PAST;
}

/* Tells whether nothing is wrong with two lists, alone and together. */
static int are_right(struct lists l) {
    struct open stack[STACK_NODES];
    struct stand x = {l.ancestor, l.ancestors_end, PAST};
    struct stand y = {l.descendant, l.descendants_end, PAST};
    stack[0] = (struct open){PAST, 0};
    for (;;) {
        uint64_t first = document_of(&x), second = document_of(&y);
        uint64_t document = first < second ? first : second;
        if (document == PAST)
            return 1;
        x.start = first == document ? x.next->start : PAST;
        y.start = second == document ? y.next->start : PAST;
        if (!pass_document(stack, &x, &y, document))
            return 0;
    }
}

/* Checks one list as two of which the second is empty. What is wrong is left to the first pass. */
static belfry_verdict check_one(const uint32_t *list, size_t words) {
    if (word_fault(words) == BELFRY_TAKEN && are_right(lists_of(list, words, list, 0)))
        return verdict_of(BELFRY_TAKEN);
    return check_list(list, words);
}

static belfry_verdict check_both(const uint32_t *ancestors, size_t ancestor_words,
                                 const uint32_t *descendants, size_t descendant_words) {
    if (word_fault(ancestor_words) == BELFRY_TAKEN &&
        word_fault(descendant_words) == BELFRY_TAKEN &&
        are_right(lists_of(ancestors, ancestor_words, descendants, descendant_words)))
        return verdict_of(BELFRY_TAKEN);
    return three_passes(ancestors, ancestor_words, descendants, descendant_words);
}

/* The listings. A pair has a leader, by which the order goes first, and a follower. */

/* Returns the first leader at the ticket's place or past it, by halving. */
static const struct node *first_leader(const belfry_ticket *t, const struct node *n,
                                       const struct node *end) {
    const struct node place = {t->document, t->first, 0, 0};
    if (!t->placed)
        return n;
    while (n < end) {
        const struct node *middle = n + (end - n) / 2;
        if (is_before(middle, &place))
            n = middle + 1;
        else
            end = middle;
    }
    return n;
}

/* Returns the start from which on the followers of the first leader lie past the ticket's place. It
 * is 0, which takes all of them, unless that leader is the place's own. */
static uint64_t first_start(const belfry_ticket *t, const struct node *leader,
                            const struct node *end) {
    if (!t->placed || leader == end || leader->document != t->document || leader->start != t->first)
        return 0;
    return (uint64_t)t->second + 1;
}

/* Returns the first node of a row that starts there or later. */
static inline const struct node *from_start(const struct node *n, const struct node *end,
                                            uint64_t start) {
    if (start > 0)
        while (n < end && n->start < start)
            n++;
    return n;
}

/* Writes one pair. */
static inline void put_pair(struct pair *out, uint32_t order, const struct node *leader,
                            const struct node *follower) {
    out->ancestor = order == BELFRY_ANCESTOR_ORDER ? *leader : *follower;
    out->descendant = order == BELFRY_ANCESTOR_ORDER ? *follower : *leader;
}

/* Writes the pairs of a leader with `count` followers. The leader is held in a copy, which C can
   keep in a register: the output might overlap the list for all it knows. */
static inline void put_pairs(struct pair *out, uint32_t order, const struct node *leader,
                             const struct node *row, size_t count) {
    const struct node held = *leader;
    for (size_t i = 0; i < count; i++)
        if (order == BELFRY_ANCESTOR_ORDER) {
            out[i].ancestor = held;
            out[i].descendant = row[i];
        } else {
            out[i].ancestor = row[i];
            out[i].descendant = held;
        }
}

/* Writes the pairs of a leader with a row of followers, as many as fit. It says whether all did.
   Many rows are of one pair, so the first is written by itself; the others are counted, and then
   copied with no test between them. */
static inline int put_row(struct writing *w, uint32_t order, const struct node *leader,
                          const struct node *row, const struct node *row_end) {
    struct pair *out = w->out;
    if (row == row_end)
        return 1;
    if (out == w->end)
        return 0;
    put_pair(out, order, leader, row);
    w->out = out + 1;
    if (row + 1 == row_end)
        return 1;
    size_t room = w->end - out, count = row_end - row, fitting = count < room ? count : room;
    put_pairs(out + 1, order, leader, row + 1, fitting - 1);
    w->out = out + fitting;
    return fitting == count;
}

/* Puts the ancestors onto the stack that start before the descendant and are open at it. All that
   lie there are open at it too, so none is taken off. */
static inline struct node *open_before(struct node *top, struct lists *l, const struct node *d) {
    for (; l->ancestor < l->ancestors_end; l->ancestor++) {
        const struct node *a = l->ancestor;
        if (a->document == d->document) {
            if (a->start >= d->start)
                return top;
            if (a->end >= d->start)
                *++top = *a;
        } else if (a->document > d->document)
            return top;
    }
    return top;
}

/* Pairs each descendant with the ancestors open at it. Those that have ended are taken off first.
   Directly inside it can only lie in the innermost. */
static int sweep_descendants(struct lists l, const belfry_ticket *ticket, struct writing *w) {
    struct node stack[STACK_NODES], *top = stack;
    const struct node *d = first_leader(ticket, l.descendant, l.descendants_end);
    uint64_t start = first_start(ticket, d, l.descendants_end);
    const int directly = ticket->relation != BELFRY_INSIDE;
    *top = EVERYTHING;
    for (; d < l.descendants_end; d++) {
        top = open_before(open_at(stack, top, d), &l, d);
        const struct node *first = stack + 1;
        if (directly)
            first = top > stack && top->level + 1 == d->level ? top : top + 1;
        if (!put_row(w, BELFRY_DESCENDANT_ORDER, d, from_start(first, top + 1, start), top + 1))
            return 0;
        start = 0;
    }
    return 1;
}

/* How many descendants further on the search for the end of a run looks. */
enum { STRIDE = 8 };

/* Tells whether an ancestor that starts before a node is open at it. */
static inline int is_open(const struct node *a, const struct node *n) {
    return n->document == a->document && n->start <= a->end;
}

/* Tells the same of a node that may be the list's end. */
static inline int is_open_at(const struct node *a, const struct node *n, const struct node *end) {
    return n < end && is_open(a, n);
}

/* Returns where the run of descendants ends that begins with one at which the ancestor is open.
 * Most runs are of one, so the next is tried first, then a guess and the descendant before it.
 * After that the run is followed by strides. */
static inline const struct node *end_of_run(const struct node *a, const struct node *d,
                                            const struct node *d_end, const struct node *guess) {
    if (!is_open_at(a, ++d, d_end))
        return d;
    if (guess - d > 1) {
        if (!is_open(a, guess - 1)) {
            if (is_open(a, guess - 2))
                return guess - 1;
        } else if (!is_open_at(a, guess, d_end))
            return guess;
    }
    while (d_end - d > STRIDE && is_open(a, d + STRIDE))
        d += STRIDE;
    do
        d++;
    while (is_open_at(a, d, d_end));
    return d;
}

/* Returns the descendant of a run to look at after one that isn't one level deeper. Where more than
 * a stride is left, and the next zone holds this one and the one after it, all that the zone holds
 * are passed. That is the rest of the run, the rest but one, or what strides reach. A zone that has
 * ended, or holds no more than this one, makes way for the zone after it. */
static inline const struct node *past_inner(const struct node **next_zone,
                                            const struct node *zones_end, const struct node *d,
                                            const struct node *run_end) {
    const struct node *zone = *next_zone;
    if (run_end - d <= STRIDE || zone == zones_end || !is_before(zone, d))
        return d + 1;
    ++*next_zone;
    if ((++d)->start > zone->end)
        return d;
    if (run_end[-1].start <= zone->end)
        return run_end;
    if (run_end[-2].start <= zone->end)
        return run_end - 1;
    while (run_end - d > STRIDE && d[STRIDE].start <= zone->end)
        d += STRIDE;
    return d + 1;
}

/* Writes the pairs of an ancestor with those of its run that are one level deeper, as many as fit.
   It says whether all did. */
static inline int put_children(struct writing *w, const struct node *a, const struct node *a_end,
                               const struct node *d, const struct node *run_end) {
    const struct node *next_zone = a + 1;
    uint32_t level = a->level + 1;
    while (d < run_end) {
        if (d->level == level) {
            if (w->out == w->end)
                return 0;
            put_pair(w->out++, BELFRY_ANCESTOR_ORDER, a, d);
            d++;
        } else
            d = past_inner(&next_zone, a_end, d, run_end);
    }
    return 1;
}

/* Pairs each ancestor with the run of descendants that start in it. Where a run begins only moves
   on; where it ends is the guess for the next. */
static int sweep_ancestors(struct lists l, const belfry_ticket *ticket, struct writing *w) {
    const struct node *a = first_leader(ticket, l.ancestor, l.ancestors_end), *d = l.descendant;
    const struct node *d_end = l.descendants_end, *guess = d;
    uint64_t start = first_start(ticket, a, l.ancestors_end);
    const int directly = ticket->relation != BELFRY_INSIDE;
    for (; a < l.ancestors_end; a++) {
        for (; d < d_end && !is_before(a, d); d++)
            ;
        if (d == d_end)
            return 1;
        if (is_open(a, d)) {
            guess = end_of_run(a, d, d_end, guess);
            const struct node *first = from_start(d, guess, start);
            if (!(directly ? put_children(w, a, l.ancestors_end, first, guess)
                           : put_row(w, BELFRY_ANCESTOR_ORDER, a, first, guess)))
                return 0;
        }
        start = 0;
    }
    return 1;
}

/* The links. */

/* A node's parent, and its elder sibling. */
struct kin {
    uint32_t parent, elder;
};

/* Returns the kin of a node. The way up from the node before, along the parents already written,
 * leads to the parent; the last node passed on it is the elder sibling. The document is tested
 * once. */
static inline struct kin kin_of(const struct node *nodes, uint32_t i,
                                uint32_t (*links)[BELFRY_LINK_WORDS]) {
    uint32_t parent = i - 1, elder = BELFRY_NONE;
    if (i == 0 || nodes[parent].document != nodes[i].document)
        return (struct kin){BELFRY_NONE, BELFRY_NONE};
    do {
        if (nodes[parent].end >= nodes[i].start)
            return (struct kin){parent, elder};
        elder = parent;
        parent = links[parent][0];
    } while (parent != BELFRY_NONE);
    return (struct kin){BELFRY_NONE, elder};
}

static void link_nodes(const struct node *nodes, size_t count,
                       uint32_t (*links)[BELFRY_LINK_WORDS]) {
    for (uint32_t i = 0; i < count; i++) {
        struct kin kin = kin_of(nodes, i, links);
        links[i][0] = kin.parent;
        links[i][1] = links[i][2] = BELFRY_NONE;
        if (kin.elder != BELFRY_NONE)
            links[kin.elder][2] = i;
        else if (kin.parent != BELFRY_NONE)
            links[kin.parent][1] = i;
    }
}

/* Tells whether the links name the elder sibling of a node whose document has one before it, and no
   next sibling of the others that have ended. It goes up from the node before, along parents that
   were compared already. */
static inline int is_elder_named(const struct node *nodes, uint32_t i, const belfry_link *links) {
    uint32_t elder = i - 1, parent;
    while ((parent = links[elder].parent) != BELFRY_NONE && nodes[parent].end < nodes[i].start) {
        if (links[elder].next_sibling != BELFRY_NONE)
            return 0;
        elder = parent;
    }
    return links[elder].next_sibling == i && links[i].parent == parent;
}

/* Tells whether the links name nothing after a node: no child, and no next sibling of it or of any
   node around it. */
static inline int is_last_named(uint32_t i, const belfry_link *links) {
    if (links[i].first_child != BELFRY_NONE)
        return 0;
    for (; i != BELFRY_NONE; i = links[i].parent)
        if (links[i].next_sibling != BELFRY_NONE)
            return 0;
    return 1;
}

/* Tells whether the links say of a node, which isn't the first, what the list says. */
static inline int is_node_named(const struct node *nodes, uint32_t i, const belfry_link *links) {
    const uint32_t before = i - 1;
    if (nodes[before].document != nodes[i].document)
        return links[i].parent == BELFRY_NONE && is_last_named(before, links);
    if (nodes[before].end >= nodes[i].start)
        return links[before].first_child == i && links[i].parent == before;
    return links[before].first_child == BELFRY_NONE && is_elder_named(nodes, i, links);
}

static int are_links(const struct node *nodes, size_t count, const belfry_link *links) {
    if (count == 0)
        return 1;
    if (links[0].parent != BELFRY_NONE)
        return 0;
    for (uint32_t i = 1; i < count; i++)
        if (!is_node_named(nodes, i, links))
            return 0;
    return is_last_named(count - 1, links);
}

/* The listings that jump. */

/* Returns the zone after one and everything inside it. After the last of a document none is named,
   and what lies inside it is passed by strides. */
static inline const struct node *past_zone(const struct node *zones, const struct node *zones_end,
                                           const belfry_link *links, const struct node *zone) {
    if (links[zone - zones].first_child == BELFRY_NONE)
        return zone + 1;
    const struct node *next = named_after(zones, links, zone);
    if (next)
        return next;
    next = zone + 1;
    while (zones_end - next > STRIDE && is_open(zone, next + STRIDE))
        next += STRIDE;
    do
        next++;
    while (is_open_at(zone, next, zones_end));
    return next;
}

/* Puts the ancestors onto the stack as open_before does, and passes those that have ended with
   everything inside them. */
static inline struct node *open_jumping(struct node *top, struct lists *l, const struct node *zones,
                                        const belfry_link *links, const struct node *d) {
    while (l->ancestor < l->ancestors_end && is_before(l->ancestor, d))
        if (is_open(l->ancestor, d))
            *++top = *l->ancestor++;
        else
            l->ancestor = past_zone(zones, l->ancestors_end, links, l->ancestor);
    return top;
}

static int jump_descendants(struct lists l, const belfry_link *links, const belfry_ticket *ticket,
                            struct writing *w) {
    struct node stack[STACK_NODES], *top = stack;
    const struct node *zones = l.ancestor;
    const struct node *d = first_leader(ticket, l.descendant, l.descendants_end);
    uint64_t start = first_start(ticket, d, l.descendants_end);
    const int directly = ticket->relation != BELFRY_INSIDE;
    *top = EVERYTHING;
    for (; d < l.descendants_end; d++) {
        top = open_jumping(open_at(stack, top, d), &l, zones, links, d);
        const struct node *first = stack + 1;
        if (directly)
            first = top > stack && top->level + 1 == d->level ? top : top + 1;
        if (!put_row(w, BELFRY_DESCENDANT_ORDER, d, from_start(first, top + 1, start), top + 1))
            return 0;
        start = 0;
    }
    return 1;
}

static int jump_ancestors(struct lists l, const belfry_link *links, const belfry_ticket *ticket,
                          struct writing *w) {
    const struct node *zones = l.ancestor, *a = first_leader(ticket, zones, l.ancestors_end);
    const struct node *d = l.descendant, *d_end = l.descendants_end, *guess = d;
    uint64_t start = first_start(ticket, a, l.ancestors_end);
    const int directly = ticket->relation != BELFRY_INSIDE;
    for (; a < l.ancestors_end; start = 0) {
        for (; d < d_end && !is_before(a, d); d++)
            ;
        if (d == d_end)
            return 1;
        if (!is_open(a, d)) {
            a = past_zone(zones, l.ancestors_end, links, a);
            continue;
        }
        guess = end_of_run(a, d, d_end, guess);
        const struct node *first = from_start(d, guess, start);
        if (!(directly ? put_children(w, a, l.ancestors_end, first, guess)
                       : put_row(w, BELFRY_ANCESTOR_ORDER, a, first, guess)))
            return 0;
        a++;
    }
    return 1;
}
