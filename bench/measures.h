/* What is measured: a call of the C interface, all page calls of a listing, or several questions.
   They are made on a shape. */
#ifndef MEASURES_H
#define MEASURES_H

#include "asking.h"
#include "codes.h"
#include "shapes.h"

enum { MOST_PAIRS = 262144 };

enum kind {
    CHECK,
    CHECK_ONE,
    LISTING,
    LINKED,
    RANGE,
    SHEET,
    LINKS,
    LINKS_CHECK,
    NUMBER,
    BOOK,
    BODY,
    WRITE,
    ASK
};

/* A measure that was prepared: the shape's words and bytes, and the output, lie in memory that all
   measures share. */
struct measure {
    enum kind kind;
    belfry_ticket ticket;
    size_t room;
    uint32_t readings;
    enum way way;
    size_t lists;
    int late;
};

/* The shape that was prepared last, and the book of its lists. */
extern struct shape shape;
extern uint32_t book[];
extern size_t book_bytes;

/* Prepares a measure by its name on a shape with at most `nodes` nodes in each list, or on a
   document with at most `nodes` marks; it answers 0 where there is no such measure or shape. The
   names are check, check-one for the zones alone, range, sheet, links, links-check, number, book,
   and RELATION-ORDER-ROOM with the relation inside or directly, the order descendant or ancestor,
   and as room the pairs of a page, or all. As room, late is all for one page that begins after
   three quarters of the pairs. A listing with links is linked-RELATION-ORDER-ROOM.
   The readings of range are of each kind in turn; those of range-percent, range-grams and
   range-missing are of one. The book of book, body and write has 2 lists, and with -LISTS after
   their name it has that many. They check it, find its last list and write it.
   Questions are ask-LISTS-WAY, with the way together, each, single, found, first or last. */
int prepare_measure(struct measure *measure, const char *name, const char *shape_name,
                    size_t nodes);

/* Runs the measure once, and answers how many pairs, nodes, zones, link triples, rows, lists or
   bytes came of it.
   A refusal ends the program. */
size_t run_measure(const struct measure *measure, const struct code *code);

/* Ends the program with a message. */
void fail(const char *why);

#endif
