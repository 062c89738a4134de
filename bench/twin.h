/* What the forms of the twin share. The twin is what a C programmer would write in place of the
   archive: the same calls with the same answers, and no proof. Nodes are read where they lie;
   nothing is allocated. Each form is a source file that includes this one first, defines what is
   declared under "What each form does in its own way", and is built with PREFIX set to what its
   calls are to begin with. */
#ifndef TWIN_H
#define TWIN_H

#include "calls.h"
#include <string.h>

#define PASTE(prefix, name) prefix##_##name
#define NAMED(prefix, name) PASTE(prefix, name)
#define TWIN(name) NAMED(PREFIX, name)

DECLARE_CALLS(PREFIX)

enum {
    NODE_BYTES = BELFRY_NUMBER_BYTES * BELFRY_NODE_WORDS,
    ENTRY_BYTES = BELFRY_NUMBER_BYTES * BELFRY_CONTENTS_NUMBERS
};

struct node {
    uint32_t document, start, end, level;
};

struct pair {
    struct node ancestor, descendant;
};

/* Two lists that are to be joined: where each begins and ends. */
struct lists {
    const struct node *ancestor, *ancestors_end, *descendant, *descendants_end;
};

static struct lists lists_of(const uint32_t *ancestors, size_t ancestor_words,
                             const uint32_t *descendants, size_t descendant_words) {
    const struct node *a = (const struct node *)ancestors, *d = (const struct node *)descendants;
    return (struct lists){a, a + ancestor_words / BELFRY_NODE_WORDS, d,
                          d + descendant_words / BELFRY_NODE_WORDS};
}

/* The nodes that are open where a check stands are kept on a stack, the innermost on top, which is
   the last node passed. Each lies inside the one below it and has a higher level. At the bottom
   lies one that holds everything. */
enum { STACK_NODES = BELFRY_MOST_LEVELS + 1 };

static const struct node EVERYTHING = {0, 0, UINT32_MAX, 0};

/* Returns the top of the stack once those are taken off that ended before the node. */
static inline struct node *open_at(struct node *stack, struct node *top, const struct node *n) {
    if (n->document != top->document)
        return stack;
    while (top->end < n->start)
        top--;
    return top;
}

/* Puts the node on top of what is open at it. It is CROSS or DEPTH where that doesn't allow it. */
static inline uint32_t open_node(struct node *stack, struct node **top, const struct node *n) {
    struct node *t = open_at(stack, *top, n);
    if (t->end < n->end)
        return BELFRY_CROSS;
    if (t->level >= n->level)
        return BELFRY_DEPTH;
    *++t = *n;
    *top = t;
    return BELFRY_TAKEN;
}

/* Returns what is wrong with a node. */
static inline uint32_t check_node(struct node *stack, struct node **top, const struct node *n) {
    const struct node *last = *top;
    if (n->level - 1 >= BELFRY_MOST_LEVELS)
        return BELFRY_LEVEL;
    if (n->end < n->start)
        return BELFRY_SPAN;
    if (n->document < last->document ||
        (n->document == last->document && n->start <= last->start && last > stack))
        return BELFRY_ORDER;
    return open_node(stack, top, n);
}

static uint32_t word_fault(size_t words) {
    if (words % BELFRY_NODE_WORDS != 0)
        return BELFRY_RAGGED;
    return words / BELFRY_NODE_WORDS > BELFRY_MOST_NODES ? BELFRY_LONG : BELFRY_TAKEN;
}

static belfry_verdict verdict_of(uint32_t answer) {
    return (belfry_verdict){answer, 0, 0};
}

/* Checks one list alone: the first pass, and the second. */
static belfry_verdict check_list(const uint32_t *list, size_t words) {
    const struct node *nodes = (const struct node *)list, *end = nodes + words / BELFRY_NODE_WORDS;
    struct node stack[STACK_NODES], *top = stack;
    uint32_t fault = word_fault(words);
    if (fault != BELFRY_TAKEN)
        return verdict_of(fault);
    *top = EVERYTHING;
    for (const struct node *n = nodes; n < end; n++) {
        fault = check_node(stack, &top, n);
        if (fault != BELFRY_TAKEN)
            return (belfry_verdict){fault, 0, n - nodes};
    }
    return verdict_of(BELFRY_TAKEN);
}

static inline int is_same(const struct node *x, const struct node *y) {
    return x->document == y->document && x->start == y->start && x->end == y->end &&
           x->level == y->level;
}

static inline int is_before(const struct node *x, const struct node *y) {
    return x->document < y->document || (x->document == y->document && x->start < y->start);
}

static inline int has_ended(const struct node *earlier, const struct node *n) {
    return earlier->document != n->document || earlier->end < n->start;
}

/* Returns the next node of two lists that both have more, in start order. It is NULL where each has
 * another at the same start; where both have the same, that is taken once. */
static inline const struct node *next_node(struct lists *l) {
    if (is_before(l->ancestor, l->descendant))
        return l->ancestor++;
    if (!is_before(l->descendant, l->ancestor) && !is_same(l->ancestor++, l->descendant))
        return NULL;
    return l->descendant++;
}

/* Tells whether two lists that were taken alone agree: the third pass. */
static int are_agreeing(struct lists l) {
    struct node stack[STACK_NODES], *top = stack;
    *top = EVERYTHING;
    while (l.ancestor < l.ancestors_end && l.descendant < l.descendants_end) {
        const struct node *n = next_node(&l);
        if (!n || open_node(stack, &top, n) != BELFRY_TAKEN)
            return 0;
    }
    for (; l.ancestor < l.ancestors_end; l.ancestor++)
        if (open_node(stack, &top, l.ancestor) != BELFRY_TAKEN)
            return 0;
    for (; l.descendant < l.descendants_end; l.descendant++)
        if (open_node(stack, &top, l.descendant) != BELFRY_TAKEN)
            return 0;
    return 1;
}

/* Makes all three passes. */
static belfry_verdict three_passes(const uint32_t *ancestors, size_t ancestor_words,
                                   const uint32_t *descendants, size_t descendant_words) {
    belfry_verdict verdict = check_list(ancestors, ancestor_words);
    if (verdict.answer != BELFRY_TAKEN)
        return verdict;
    verdict = check_list(descendants, descendant_words);
    if (verdict.answer != BELFRY_TAKEN) {
        verdict.list = BELFRY_DESCENDANTS;
        return verdict;
    }
    return verdict_of(
        are_agreeing(lists_of(ancestors, ancestor_words, descendants, descendant_words))
            ? BELFRY_TAKEN
            : BELFRY_JOINT);
}

/* A page that is being written: where the next pair goes, and where the room ends. */
struct writing {
    struct pair *out, *end;
};

/* What each form does in its own way. */

/* Checks a list alone, or two lists together. */
static belfry_verdict check_one(const uint32_t *list, size_t words);
static belfry_verdict check_both(const uint32_t *ancestors, size_t ancestor_words,
                                 const uint32_t *descendants, size_t descendant_words);

/* Writes the pairs past the ticket's place, and tells whether all found room. */
static int sweep_descendants(struct lists l, const belfry_ticket *ticket, struct writing *w);
static int sweep_ancestors(struct lists l, const belfry_ticket *ticket, struct writing *w);

/* Writes the links of a list that was taken. */
static void link_nodes(const struct node *nodes, size_t count,
                       uint32_t (*links)[BELFRY_LINK_WORDS]);

/* Tells whether links are those of a list that was taken. */
static int are_links(const struct node *nodes, size_t count, const belfry_link *links);

/* Writes what the sweeps write, and tells whether all found room. A zone that holds no descendant
   is passed together with everything inside it, by links that were found right. */
static int jump_descendants(struct lists l, const belfry_link *links, const belfry_ticket *ticket,
                            struct writing *w);
static int jump_ancestors(struct lists l, const belfry_link *links, const belfry_ticket *ticket,
                          struct writing *w);

/* What is the same in all forms: the calls. */

belfry_verdict TWIN(check)(const uint32_t *list, size_t words) {
    return check_one(list, words);
}

belfry_verdict TWIN(check_two)(const uint32_t *ancestors, size_t ancestor_words,
                               const uint32_t *descendants, size_t descendant_words) {
    return check_both(ancestors, ancestor_words, descendants, descendant_words);
}

/* Returns the ticket after a page whose last pair is given. */
static belfry_ticket ticket_after(belfry_ticket ticket, const struct pair *last) {
    ticket.placed = 1;
    ticket.document = last->descendant.document;
    ticket.first = ticket.order ? last->ancestor.start : last->descendant.start;
    ticket.second = ticket.order ? last->descendant.start : last->ancestor.start;
    return ticket;
}

belfry_page TWIN(list)(const uint32_t *ancestors, size_t ancestor_words,
                       const uint32_t *descendants, size_t descendant_words, belfry_ticket ticket,
                       uint32_t *out, size_t out_words) {
    belfry_verdict v = check_both(ancestors, ancestor_words, descendants, descendant_words);
    if (v.answer != BELFRY_TAKEN)
        return (belfry_page){v, 0, 0, ticket};
    struct lists lists = lists_of(ancestors, ancestor_words, descendants, descendant_words);
    struct pair *pairs = (struct pair *)out;
    struct writing w = {pairs, pairs + out_words / BELFRY_PAIR_WORDS};
    int done =
        ticket.order ? sweep_ancestors(lists, &ticket, &w) : sweep_descendants(lists, &ticket, &w);
    if (w.out > pairs)
        ticket = ticket_after(ticket, w.out - 1);
    return (belfry_page){verdict_of(BELFRY_TAKEN), done, w.out - pairs, ticket};
}

/* Tells whether words are the links of a list that was taken. */
static int are_link_words(const uint32_t *list, size_t words, const uint32_t *links,
                          size_t link_words) {
    size_t count = words / BELFRY_NODE_WORDS;
    return link_words == BELFRY_LINK_WORDS * count &&
           are_links((const struct node *)list, count, (const belfry_link *)links);
}

belfry_verdict TWIN(links_check)(const uint32_t *list, size_t words, const uint32_t *links,
                                 size_t link_words) {
    belfry_verdict v = check_one(list, words);
    if (v.answer == BELFRY_TAKEN && !are_link_words(list, words, links, link_words))
        return verdict_of(BELFRY_LINKS);
    return v;
}

/* Returns the node after a zone and everything inside it, by links that were found right. That is
   the next sibling of the zone, or of the nearest around it that has one. It is NULL after the last
   of a document. */
static inline const struct node *named_after(const struct node *zones, const belfry_link *links,
                                             const struct node *zone) {
    uint32_t i = zone - zones;
    while (links[i].next_sibling == BELFRY_NONE) {
        i = links[i].parent;
        if (i == BELFRY_NONE)
            return NULL;
    }
    return zones + links[i].next_sibling;
}

belfry_page TWIN(list_linked)(const uint32_t *ancestors, size_t ancestor_words,
                              const uint32_t *descendants, size_t descendant_words,
                              const uint32_t *links, size_t link_words, belfry_ticket ticket,
                              uint32_t *out, size_t out_words) {
    belfry_verdict v = check_both(ancestors, ancestor_words, descendants, descendant_words);
    if (v.answer == BELFRY_TAKEN && !are_link_words(ancestors, ancestor_words, links, link_words))
        v = verdict_of(BELFRY_LINKS);
    if (v.answer != BELFRY_TAKEN)
        return (belfry_page){v, 0, 0, ticket};
    struct lists lists = lists_of(ancestors, ancestor_words, descendants, descendant_words);
    const belfry_link *link = (const belfry_link *)links;
    struct pair *pairs = (struct pair *)out;
    struct writing w = {pairs, pairs + out_words / BELFRY_PAIR_WORDS};
    int done = ticket.order ? jump_ancestors(lists, link, &ticket, &w)
                            : jump_descendants(lists, link, &ticket, &w);
    if (w.out > pairs)
        ticket = ticket_after(ticket, w.out - 1);
    return (belfry_page){v, done, w.out - pairs, ticket};
}

/* The lab's reading of a sample. */
struct reading {
    uint32_t kind;
    union {
        uint32_t bits;
        float value;
    };
};

/* Tells whether a value lies between zero and the greatest. What isn't a number doesn't. */
static inline int is_between(float value, float most) {
    return 0 <= value && value <= most;
}

/* Tells whether a reading may be what it says. */
static inline int is_reading(const struct reading *r) {
    switch (r->kind) {
    case BELFRY_MISSING:
        return r->bits == 0;
    case BELFRY_PERCENT:
        return is_between(r->value, BELFRY_MOST_PERCENT);
    case BELFRY_GRAMS:
        return is_between(r->value, BELFRY_MOST_GRAMS);
    default:
        return 0;
    }
}

static inline int is_inside(const struct node *inner, const struct node *outer) {
    return inner->document == outer->document && outer->start < inner->start &&
           inner->end <= outer->end;
}

/* Takes a present reading into a range. Of equal ones the earlier stays. */
static inline void take_in(belfry_range *range, const struct reading *r) {
    float percent = r->kind == BELFRY_GRAMS ? r->value / 10 : r->value;
    if (!range->present || percent < range->low)
        range->low = percent;
    if (!range->present || percent > range->high)
        range->high = percent;
    range->present = 1;
}

static belfry_range without_range(belfry_verdict verdict) {
    return (belfry_range){verdict, 0, 0, 0};
}

/* Finds the low and the high of the samples inside a zone, or the first faulty reading. */
static belfry_range pass_samples(const struct node *zone, const struct node *samples,
                                 const struct reading *readings, size_t count) {
    belfry_range range = without_range(verdict_of(BELFRY_TAKEN));
    for (size_t i = 0; i < count; i++) {
        if (!is_reading(&readings[i]))
            return without_range((belfry_verdict){BELFRY_READING, 0, i});
        if (readings[i].kind != BELFRY_MISSING && is_inside(&samples[i], zone))
            take_in(&range, &readings[i]);
    }
    return range;
}

/* A zone that holds nothing stands in for one that isn't there: all readings are looked at before
 * it is missed. */
belfry_range TWIN(zone_range)(const uint32_t *zones, size_t zone_words, const uint32_t *samples,
                              size_t sample_words, const uint32_t *readings, size_t reading_words,
                              uint32_t zone) {
    static const struct node nowhere = {0, 0, 0, 0};
    belfry_verdict verdict = check_both(zones, zone_words, samples, sample_words);
    size_t count = sample_words / BELFRY_NODE_WORDS;
    int absent = zone >= zone_words / BELFRY_NODE_WORDS;
    if (verdict.answer != BELFRY_TAKEN)
        return without_range(verdict);
    if (reading_words != BELFRY_READING_WORDS * count)
        return without_range(verdict_of(BELFRY_RAGGED));
    belfry_range range =
        pass_samples(absent ? &nowhere : (const struct node *)zones + zone,
                     (const struct node *)samples, (const struct reading *)readings, count);
    if (range.verdict.answer == BELFRY_TAKEN && absent)
        return without_range(verdict_of(BELFRY_ABSENT));
    return range;
}

static belfry_result result_of(belfry_verdict v, size_t count) {
    return (belfry_result){v, count};
}

/* Returns the index of the first word that is neither a number of hundredths nor the one for
 * missing, or how many words there are. Most often none is faulty, which a loop without a way out
 * of it tells sooner. */
static size_t first_faulty(const uint32_t *words, size_t count) {
    int faulty = 0;
    size_t i = 0;
    for (size_t j = 0; j < count; j++)
        faulty |= words[j] > BELFRY_MOST_HUNDREDTHS && words[j] != BELFRY_NO_HUNDREDTHS;
    if (!faulty)
        return count;
    while (words[i] <= BELFRY_MOST_HUNDREDTHS || words[i] == BELFRY_NO_HUNDREDTHS)
        i++;
    return i;
}

/* How far a sheet has come along the samples: the next one, its word, and the subtotal of all
   before it. */
struct passed {
    const struct node *sample, *end;
    const uint32_t *word;
    uint32_t present, sum;
};

/* Passes the samples up to a position in a document. */
static inline void pass_up_to(struct passed *p, uint32_t document, uint32_t position) {
    const struct node place = {document, position, 0, 0};
    for (; p->sample < p->end && !is_before(&place, p->sample); p->sample++) {
        uint32_t word = *p->word++, present = word != BELFRY_NO_HUNDREDTHS;
        p->present += present;
        p->sum += present ? word : 0;
    }
}

/* A zone that has begun, and its row. */
struct begun {
    const struct node *zone;
    belfry_subtotal *row;
};

/* Passes the samples up to the end of a zone, and leaves in its row those since its start. */
static inline void end_zone(struct passed *p, const uint32_t *words, struct begun b) {
    pass_up_to(p, b.zone->document, b.zone->end);
    b.row->samples = (uint32_t)(p->word - words) - b.row->samples;
    b.row->present = p->present - b.row->present;
    b.row->sum = p->sum - b.row->sum;
}

/* Writes the rows of lists that were taken, without recursion: until a zone ends, its row keeps the
 * subtotal of all samples before it. */
static void write_subtotals(struct lists l, const uint32_t *words, belfry_subtotal *row) {
    struct begun open[STACK_NODES], *top = open;
    struct passed p = {l.descendant, l.descendants_end, words, 0, 0};
    for (; l.ancestor < l.ancestors_end; l.ancestor++, row++) {
        for (; top > open && has_ended(top->zone, l.ancestor); top--)
            end_zone(&p, words, *top);
        pass_up_to(&p, l.ancestor->document, l.ancestor->start);
        *row = (belfry_subtotal){p.word - words, p.present, p.sum};
        *++top = (struct begun){l.ancestor, row};
    }
    for (; top > open; top--)
        end_zone(&p, words, *top);
}

belfry_result TWIN(sheet)(const uint32_t *zones, size_t zone_words, const uint32_t *samples,
                          size_t sample_words, const uint32_t *hundredths, size_t hundredth_words,
                          uint32_t *out, size_t out_words) {
    belfry_verdict verdict = check_both(zones, zone_words, samples, sample_words);
    size_t count = zone_words / BELFRY_NODE_WORDS;
    if (verdict.answer != BELFRY_TAKEN)
        return result_of(verdict, 0);
    if (hundredth_words != sample_words / BELFRY_NODE_WORDS)
        return result_of(verdict_of(BELFRY_RAGGED), 0);
    size_t faulty = first_faulty(hundredths, hundredth_words);
    if (faulty < hundredth_words)
        return result_of((belfry_verdict){BELFRY_READING, 0, faulty}, 0);
    if (out_words / BELFRY_SUBTOTAL_WORDS < count)
        return result_of(verdict_of(BELFRY_ROOM), 0);
    write_subtotals(lists_of(zones, zone_words, samples, sample_words), hundredths,
                    (belfry_subtotal *)out);
    return result_of(verdict, count);
}

belfry_result TWIN(links)(const uint32_t *list, size_t words, uint32_t *out, size_t out_words) {
    belfry_verdict verdict = check_one(list, words);
    size_t count = words / BELFRY_NODE_WORDS;
    if (verdict.answer != BELFRY_TAKEN)
        return result_of(verdict, 0);
    if (out_words / BELFRY_LINK_WORDS < count)
        return result_of(verdict_of(BELFRY_ROOM), 0);
    link_nodes((const struct node *)list, count, (uint32_t(*)[BELFRY_LINK_WORDS])out);
    return result_of(verdict, count);
}

/* Returns what is wrong with a document's marks, and how many rows its table has. */
static uint32_t check_marks(const uint32_t *marks, size_t count, size_t *rows) {
    size_t depth = 0, found = 0;
    for (size_t i = 0; i < count; i++) {
        uint32_t mark = marks[i];
        if (mark > BELFRY_TEXT)
            return BELFRY_MARK;
        if (depth == 0 && (i > 0 || mark == BELFRY_CLOSE || mark == BELFRY_TEXT))
            return BELFRY_STRAY;
        if (mark == BELFRY_CLOSE) {
            depth--;
            continue;
        }
        if (depth == BELFRY_MOST_LEVELS)
            return BELFRY_DEEP;
        found++;
        depth += mark != BELFRY_TEXT;
    }
    *rows = found;
    return count == 0 || depth > 0 ? BELFRY_UNCLOSED : BELFRY_TAKEN;
}

/* Writes the rows of marks that were taken. An element's end is filled in at its close. */
static void write_rows(uint32_t document, const uint32_t *marks, size_t count,
                       uint32_t (*row)[BELFRY_ROW_WORDS]) {
    uint32_t *ends[BELFRY_MOST_LEVELS];
    size_t depth = 0;
    for (uint32_t position = 1; position <= count; position++) {
        uint32_t mark = marks[position - 1];
        if (mark == BELFRY_CLOSE) {
            *ends[--depth] = position;
            continue;
        }
        (*row)[0] = document;
        (*row)[1] = position;
        (*row)[2] = position;
        (*row)[3] = depth + 1;
        (*row)[4] = mark;
        if (mark != BELFRY_TEXT)
            ends[depth++] = &(*row)[2];
        row++;
    }
}

belfry_result TWIN(number)(uint32_t document, const uint32_t *marks, size_t mark_words,
                           uint32_t *out, size_t out_words) {
    size_t rows = 0;
    uint32_t fault =
        mark_words > BELFRY_MOST_NODES ? BELFRY_LONG : check_marks(marks, mark_words, &rows);
    if (fault == BELFRY_TAKEN && out_words / BELFRY_ROW_WORDS < rows)
        fault = BELFRY_ROOM;
    if (fault != BELFRY_TAKEN)
        return result_of(verdict_of(fault), 0);
    write_rows(document, marks, mark_words, (uint32_t(*)[BELFRY_ROW_WORDS])out);
    return result_of(verdict_of(BELFRY_TAKEN), rows);
}

/* Returns a number of a book, which may lie anywhere. */
static inline uint32_t number_at(const uint8_t *at) {
    return at[0] | (uint32_t)at[1] << 8 | (uint32_t)at[2] << 16 | (uint32_t)at[3] << 24;
}

/* An entry of a book's contents. */
struct entry {
    uint32_t tag, offset, count;
};

static inline struct entry entry_at(const uint8_t *book, size_t index) {
    const uint8_t *at = book + BELFRY_NUMBER_BYTES + ENTRY_BYTES * index;
    return (struct entry){number_at(at), number_at(at + 4), number_at(at + 8)};
}

/* Tells whether the contents keep the rules, and how many lists they name. */
static int are_contents(const uint8_t *book, size_t bytes, uint32_t *lists) {
    if (bytes < BELFRY_NUMBER_BYTES || number_at(book) > BELFRY_MOST_LISTS)
        return 0;
    *lists = number_at(book);
    size_t end = BELFRY_NUMBER_BYTES + ENTRY_BYTES * (size_t)*lists;
    if (bytes < end)
        return 0;
    for (uint32_t i = 0; i < *lists; i++) {
        struct entry entry = entry_at(book, i);
        if (entry.offset != end || entry.count > BELFRY_MOST_NODES)
            return 0;
        if (i > 0 && entry.tag <= entry_at(book, i - 1).tag)
            return 0;
        end += NODE_BYTES * (size_t)entry.count;
    }
    return end == bytes;
}

/* Checks one list alone, out of a book's bytes. */
static belfry_verdict check_body(const uint8_t *at, uint32_t count) {
    struct node stack[STACK_NODES], *top = stack;
    *top = EVERYTHING;
    for (uint32_t i = 0; i < count; i++, at += NODE_BYTES) {
        struct node n = {number_at(at), number_at(at + 4), number_at(at + 8), number_at(at + 12)};
        uint32_t fault = check_node(stack, &top, &n);
        if (fault != BELFRY_TAKEN)
            return (belfry_verdict){fault, 0, i};
    }
    return verdict_of(BELFRY_TAKEN);
}

static belfry_book check_book(const uint8_t *book, size_t bytes) {
    uint32_t lists = 0;
    if (!are_contents(book, bytes, &lists))
        return (belfry_book){verdict_of(BELFRY_CONTENTS), 0};
    for (uint32_t i = 0; i < lists; i++) {
        struct entry entry = entry_at(book, i);
        belfry_verdict verdict = check_body(book + entry.offset, entry.count);
        if (verdict.answer != BELFRY_TAKEN)
            return (belfry_book){{verdict.answer, i, verdict.index}, 0};
    }
    return (belfry_book){verdict_of(BELFRY_TAKEN), lists};
}

belfry_book TWIN(book_check)(const uint8_t *book, size_t bytes) {
    return check_book(book, bytes);
}

/* Finds a tag's list in a book that was checked. */
static belfry_body find_body(const uint8_t *book, uint32_t lists, uint32_t tag) {
    for (uint32_t i = 0; i < lists; i++) {
        struct entry entry = entry_at(book, i);
        if (entry.tag == tag)
            return (belfry_body){verdict_of(BELFRY_TAKEN), entry.offset,
                                 NODE_BYTES * (size_t)entry.count};
    }
    return (belfry_body){verdict_of(BELFRY_ABSENT), 0, 0};
}

belfry_body TWIN(book_body)(const uint8_t *book, size_t bytes, uint32_t tag) {
    belfry_book b = check_book(book, bytes);
    if (b.verdict.answer != BELFRY_TAKEN)
        return (belfry_body){b.verdict, 0, 0};
    return find_body(book, b.lists, tag);
}

/* Tells whether the contents of a book to be written keep the rules, and name all nodes. */
static int are_wanted(const belfry_entry *entries, size_t lists, size_t nodes) {
    size_t named = 0;
    if (lists > BELFRY_MOST_LISTS)
        return 0;
    for (size_t i = 0; i < lists; i++) {
        if (entries[i].count > BELFRY_MOST_NODES || (i > 0 && entries[i].tag <= entries[i - 1].tag))
            return 0;
        named += entries[i].count;
    }
    return named == nodes;
}

/* Checks the lists of a book to be written, one after the other. */
static belfry_verdict check_wanted(const belfry_entry *entries, size_t lists,
                                   const uint32_t *nodes) {
    for (size_t i = 0; i < lists; i++) {
        size_t words = BELFRY_NODE_WORDS * (size_t)entries[i].count;
        belfry_verdict verdict = check_one(nodes, words);
        if (verdict.answer != BELFRY_TAKEN)
            return (belfry_verdict){verdict.answer, i, verdict.index};
        nodes += words;
    }
    return verdict_of(BELFRY_TAKEN);
}

/* Writes a book's contents. Numbers lie in memory as a book keeps them. */
static void write_contents(const belfry_entry *entries, uint32_t lists, uint8_t *out) {
    uint32_t end = BELFRY_BOOK_BYTES(lists, 0);
    memcpy(out, &lists, sizeof lists);
    for (size_t i = 0; i < lists; i++) {
        struct entry entry = {entries[i].tag, end, entries[i].count};
        memcpy(out + BELFRY_BOOK_BYTES(i, 0), &entry, sizeof entry);
        end += NODE_BYTES * entry.count;
    }
}

belfry_result TWIN(book_write)(const uint32_t *entries, size_t entry_words, const uint32_t *nodes,
                               size_t node_words, uint8_t *out, size_t out_bytes) {
    const belfry_entry *entry = (const belfry_entry *)entries;
    size_t lists = entry_words / BELFRY_ENTRY_WORDS, count = node_words / BELFRY_NODE_WORDS;
    size_t bytes = BELFRY_BOOK_BYTES(lists, count);
    if (entry_words % BELFRY_ENTRY_WORDS != 0 || node_words % BELFRY_NODE_WORDS != 0)
        return result_of(verdict_of(BELFRY_RAGGED), 0);
    if (!are_wanted(entry, lists, count))
        return result_of(verdict_of(BELFRY_CONTENTS), 0);
    belfry_verdict verdict = check_wanted(entry, lists, nodes);
    if (verdict.answer == BELFRY_TAKEN && out_bytes < bytes)
        verdict.answer = BELFRY_ROOM;
    if (verdict.answer != BELFRY_TAKEN)
        return result_of(verdict, 0);
    write_contents(entry, lists, out);
    memcpy(out + BELFRY_BOOK_BYTES(lists, 0), nodes, NODE_BYTES * count);
    return result_of(verdict, bytes);
}

/* Answers a question to a book that was checked. A book may lie anywhere, so its two lists are
   copied to words, which lie as a book keeps them. */
static belfry_page answer_one(const uint8_t *book, uint32_t lists, const belfry_question *q,
                              uint32_t *out, size_t out_words) {
    uint32_t first[BELFRY_NODE_WORDS * BELFRY_MOST_NODES],
        second[BELFRY_NODE_WORDS * BELFRY_MOST_NODES];
    belfry_body a = find_body(book, lists, q->ancestors);
    belfry_body d = find_body(book, lists, q->descendants);
    if (a.verdict.answer != BELFRY_TAKEN || d.verdict.answer != BELFRY_TAKEN)
        return (belfry_page){verdict_of(BELFRY_ABSENT), 0, 0, q->ticket};
    memcpy(first, book + a.from, a.bytes);
    memcpy(second, book + d.from, d.bytes);
    return TWIN(list)(first, a.bytes / BELFRY_NUMBER_BYTES, second, d.bytes / BELFRY_NUMBER_BYTES,
                      q->ticket, out, out_words);
}

static uint32_t question_fault(size_t words) {
    if (words % BELFRY_QUESTION_WORDS != 0)
        return BELFRY_RAGGED;
    return words / BELFRY_QUESTION_WORDS > BELFRY_MOST_QUESTIONS ? BELFRY_LONG : BELFRY_TAKEN;
}

belfry_pages TWIN(ask)(const uint8_t *book, size_t bytes, const uint32_t *questions,
                       size_t question_words, uint32_t *out, size_t out_words) {
    const belfry_question *q = (const belfry_question *)questions;
    size_t count = question_words / BELFRY_QUESTION_WORDS, at = 0;
    belfry_pages asked = {.answer = question_fault(question_words)};
    belfry_book b = {verdict_of(asked.answer), 0};
    if (asked.answer == BELFRY_TAKEN) {
        asked.questions = count;
        b = check_book(book, bytes);
    }
    for (size_t i = 0; i < count && i < BELFRY_MOST_QUESTIONS; i++) {
        asked.pages[i] = b.verdict.answer == BELFRY_TAKEN
                             ? answer_one(book, b.lists, &q[i], out + at, out_words - at)
                             : (belfry_page){b.verdict, 0, 0, q[i].ticket};
        at += BELFRY_PAIR_WORDS * asked.pages[i].count;
    }
    return asked;
}

#endif
