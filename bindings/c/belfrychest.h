/* Belfrychest for C99 and C++: it pairs every zone with the samples inside it, and loses none.
 *
 * A node is four numbers: document, start, end, level. A list is an array of nodes, sorted by
 * document and start. A listing joins two lists: the ancestors (zones) and the descendants
 * (samples).
 *
 * Node y is inside node x when both are of one document, x.start < y.start and y.end <= x.end. It
 * is directly inside when also y.level == x.level + 1. A node isn't inside itself, and nothing is
 * inside a text, which ends where it starts. docs/SCOPE.md of the repository has all the rules;
 * this header says what a caller has to know of each call.
 *
 * In a list that is numbered by order and size, a node's start is its order, and its end is
 * order + size, which must fit 32 bits.
 *
 * What the library does can be called in two ways:
 *
 * - The calls of nodes, at the end of this header, take arrays of structs and count structs. Use
 *   these: belfry_list_pairs, belfry_check_nodes and the others.
 * - The calls of words, which the archive holds, are for the bindings of other languages. They take
 *   words, which are uint32_t, and count words: a list of n nodes has 4 * n of them. To count nodes
 *   there is a mistake that they can't always see. They then read a quarter of the list, and the
 *   pairs of the rest are lost.
 *
 * This holds for every call:
 *
 * - It takes any numbers and returns. A caller need not check anything first: each call makes its
 *   own checks and answers with a number.
 * - A count or a length says how much lies at the pointer before it: structs, words or bytes. The
 *   pointer is aligned for its type, and everything that is counted may be read, and in an output
 *   also written.
 * - In a call of nodes, a pointer may be null where its count is 0. In a call of words it is never
 *   null, even where its length is 0.
 * - An output overlaps no input. Inputs may overlap one another or be the same.
 * - It reads its inputs and never alters them. In an output it alters nothing but the result, which
 *   starts at the first struct, word or byte.
 * - A refusal is any answer other than BELFRY_TAKEN. It leaves the whole output as it was, and the
 *   counts, lengths and places in the answer are 0. A refused question of belfry_ask alters no
 *   word, and the other questions still write.
 * - It allocates nothing and keeps nothing, neither an address nor a state. So calls may run at the
 *   same time, as long as none of them writes what another is lent.
 * - Nobody else writes what a call is lent before it returns, neither a thread nor a signal
 *   handler.
 * - The thread's floats are in their default mode: they are rounded to the nearest, and the
 *   smallest ones aren't taken for zero; otherwise a reading below zero may be taken. Only the
 *   calls for ranges compute with floats.
 * - There is enough stack. The comment of each call of words gives the most that it takes on
 *   x86-64. That includes its arguments, its answer and the return address, but not what memset and
 *   memcpy take. docs/SPEED.md of the repository has all of them in one table. A call of nodes
 *   takes its own frame on top of its call of words.
 */
#ifndef BELFRYCHEST_H
#define BELFRYCHEST_H

#include <stddef.h>
#include <stdint.h>

#ifdef __cplusplus
extern "C" {
#endif

/* The version of the library that this header belongs to. It rises when something here changes:
 * belfry_version returns that of the archive, and the two have to be equal. */
#define BELFRY_VERSION 6

/* A call of words takes no null, and an answer that nobody looks at may be a refusal. A compiler
 * that has these attributes warns of a null and of a dropped answer. */
#ifdef __GNUC__
#define BELFRY_NONNULL __attribute__((nonnull))
#define BELFRY_MUST_USE __attribute__((warn_unused_result))
#else
#define BELFRY_NONNULL
#define BELFRY_MUST_USE
#endif

/* The most nodes of a list, rows of a table and marks of a document. README.md says how a longer
 * list is cut into pieces without losing a pair (More than 4,096 nodes). */
#define BELFRY_MOST_NODES 4096
/* The highest level of a node. The lowest is 1. */
#define BELFRY_MOST_LEVELS 64
/* The most nodes of a list that contain one node, since levels rise on the way in. */
#define BELFRY_MOST_CONTAINING (BELFRY_MOST_LEVELS - 1)
/* The most lists of a book. A library of version 5 or earlier takes 16, and answers CONTENTS to a
 * book with more. */
#define BELFRY_MOST_LISTS 64
/* The most questions of one call. */
#define BELFRY_MOST_QUESTIONS 32
/* The most bytes of a book that the printing program takes. The calls below have no such limit. */
#define BELFRY_PRINTED_BYTES 61440

/* A good size for a page, in pairs. Every page checks both lists anew, so a small page costs nearly
 * as much as a large one. A listing in pages of 4 pairs costs hundreds of times as much as one in
 * pages of this size. */
#define BELFRY_PAGE_PAIRS 4096

/* How many words each thing takes. A node is document, start, end, level. A pair is the ancestor
 * and then the descendant. A row of a table is a node and its tag. A link is the index of the
 * parent, of the first child and of the next sibling. An entry for a book to be written is a tag
 * and a number of nodes. A reading is a kind and the bits of a float. A subtotal of a sheet is a
 * number of samples, how many of them have a reading, and the sum of those readings. A ticket is
 * its fields. A question is two tags and a ticket. */
#define BELFRY_NODE_WORDS 4
#define BELFRY_PAIR_WORDS (2 * BELFRY_NODE_WORDS)
#define BELFRY_ROW_WORDS (BELFRY_NODE_WORDS + 1)
#define BELFRY_LINK_WORDS 3
#define BELFRY_ENTRY_WORDS 2
#define BELFRY_READING_WORDS 2
#define BELFRY_SUBTOTAL_WORDS 3
#define BELFRY_TICKET_WORDS 6
#define BELFRY_QUESTION_WORDS (2 + BELFRY_TICKET_WORDS)

/* How many bytes a number in a book takes, lowest byte first. */
#define BELFRY_NUMBER_BYTES 4
/* How many numbers a list takes in a book's contents: tag, offset, count of nodes. */
#define BELFRY_CONTENTS_NUMBERS 3
/* How many bytes a book takes, from its number of lists and the number of nodes in all of them. */
#define BELFRY_BOOK_BYTES(lists, nodes) \
    (BELFRY_NUMBER_BYTES * (1 + BELFRY_CONTENTS_NUMBERS * (lists) + BELFRY_NODE_WORDS * (nodes)))

/* How many bytes a stored ticket takes: the number of its form and then its words, each as in a
 * book. The form changes only when a ticket's words do. */
#define BELFRY_TICKET_FORM 1
#define BELFRY_TICKET_BYTES (BELFRY_NUMBER_BYTES * (1 + BELFRY_TICKET_WORDS))

/* How many bytes an answer's name takes. It is padded with blanks and has no zero at its end. */
#define BELFRY_NAME_BYTES 8

/* Marks: the first closes an element, the second is a text. Any number between them opens an
 * element with that tag. */
#define BELFRY_CLOSE 0
#define BELFRY_TEXT 65536

/* The kinds of a lab reading of organic matter: there is none, it is in percent, or it is in grams
 * per kilogram. */
#define BELFRY_MISSING 0
#define BELFRY_PERCENT 1
#define BELFRY_GRAMS 2
/* The greatest reading in percent, and in grams per kilogram. The least is 0. */
#define BELFRY_MOST_PERCENT 100
#define BELFRY_MOST_GRAMS 1000

/* The word that a zone sheet takes for each sample. It is the reading in hundredths of a percent,
 * from 0 to the first of these. Or it is the second, which says that the reading is missing. */
#define BELFRY_MOST_HUNDREDTHS 10000
#define BELFRY_NO_HUNDREDTHS 65535

/* The word of a link when there is no such node. */
#define BELFRY_NONE 4294967295u

/* The field `list` of an answer about two lists. In an answer about a book it is the list's place
 * in the book, from 0. */
#define BELFRY_ANCESTORS 0
#define BELFRY_DESCENDANTS 1

/* A ticket's relation, its order, and whether it is placed. Any number other than 0 is taken as
 * BELFRY_DIRECTLY, as BELFRY_ANCESTOR_ORDER and as BELFRY_PLACED.
 * The relation and the order are two types, so that a compiler sees where one is given for the
 * other. C++ refuses it. In C, clang and gcc (from 10 on, with -Wextra) warn of it. */
typedef enum belfry_relation {
    BELFRY_INSIDE = 0,
    BELFRY_DIRECTLY = 1,
} belfry_relation;
typedef enum belfry_order {
    BELFRY_DESCENDANT_ORDER = 0,
    BELFRY_ANCESTOR_ORDER = 1,
} belfry_order;
#define BELFRY_FRESH 0
#define BELFRY_PLACED 1

/* The answers, written by bin/tables. */
/* Nothing below applies. */
#define BELFRY_TAKEN 0
/* The words don't divide evenly into nodes, rows, entries or questions, or there aren't as many
 * readings or hundredths as samples. */
#define BELFRY_RAGGED 1
/* There are more than 4,096 nodes, rows or marks, or more than 32 questions. For the program: more
 * than 61,440 bytes. */
#define BELFRY_LONG 2
/* A node's level is 0 or above 64. */
#define BELFRY_LEVEL 3
/* A node's end is below its start. */
#define BELFRY_SPAN 4
/* A node doesn't come after the one before it, by document and start. */
#define BELFRY_ORDER 5
/* A node starts no later than an earlier node of its document ends, and isn't inside it. */
#define BELFRY_CROSS 6
/* A node is inside an earlier one whose level isn't lower. */
#define BELFRY_DEPTH 7
/* Each list passes alone, but two nodes of one document, one of each list, overlap. They aren't
 * identical, and neither is inside the other with a higher level. */
#define BELFRY_JOINT 8
/* The result is longer than the output. */
#define BELFRY_ROOM 9
/* A mark is above 65,536. */
#define BELFRY_MARK 10
/* A close or a text has nothing open around it, or something opens after the root has closed. */
#define BELFRY_STRAY 11
/* An element or a text would have a level above 64. */
#define BELFRY_DEEP 12
/* An element is still open after the last mark, or there isn't any mark. */
#define BELFRY_UNCLOSED 13
/* No accepted marks have this table. */
#define BELFRY_TABLE 14
/* A book's contents are wrong: the number of lists, the order of the tags, an offset, a count, or
 * where the book ends. */
#define BELFRY_CONTENTS 15
/* No list of the book has that tag, the book has fewer lists than asked for, or no zone has that
 * index. */
#define BELFRY_ABSENT 16
/* A sample's reading has an unknown kind, or is missing and yet has bits. Or its value is infinite,
 * a NaN or below zero. Or it exceeds 100 percent or 1,000 grams per kilogram. In a sheet: a
 * sample's word is above 10,000 and isn't 65,535. */
#define BELFRY_READING 17
/* The links lent aren't exactly those of the list. In a page call that is the ancestors' list. */
#define BELFRY_LINKS 18

/* A node of a list. */
typedef struct {
    uint32_t document, start, end, level;
} belfry_node;

/* A pair of a listing: the descendant is inside the ancestor. */
typedef struct {
    belfry_node ancestor, descendant;
} belfry_pair;

/* A row of a table: a node, and its tag, which is BELFRY_TEXT for a text. */
typedef struct {
    uint32_t document, start, end, level, tag;
} belfry_row;

/* A node's place in the forest: the indexes of other nodes of its list, or BELFRY_NONE. */
typedef struct {
    uint32_t parent, first_child, next_sibling;
} belfry_link;

/* A list of a book to be written: its tag, and how many nodes it has. */
typedef struct {
    uint32_t tag, count;
} belfry_entry;

/* The lab's reading of a sample: its kind, and the bits of its value, which are 0 when it is
 * missing. belfry_percent, belfry_grams and belfry_no_reading make one. */
typedef struct {
    uint32_t kind, bits;
} belfry_reading;

/* Returns a reading of this kind with the bits of this value. They are copied byte by byte, which C
 * and C++ both define and which needs no library. */
static inline belfry_reading belfry_reading_of(uint32_t kind, float value) {
    belfry_reading reading = {kind, 0};
    const unsigned char *from = (const unsigned char *)&value;
    unsigned char *to = (unsigned char *)&reading.bits;
    for (size_t i = 0; i < sizeof value; i++)
        to[i] = from[i];
    return reading;
}

/* Returns a reading in percent, and one in grams per kilogram. */
static inline belfry_reading belfry_percent(float percent) {
    return belfry_reading_of(BELFRY_PERCENT, percent);
}
static inline belfry_reading belfry_grams(float grams) {
    return belfry_reading_of(BELFRY_GRAMS, grams);
}

/* Returns the reading of a sample that the lab didn't read. A reading of 0 says something else: the
 * lab found no organic matter. */
static inline belfry_reading belfry_no_reading(void) {
    const belfry_reading missing = {BELFRY_MISSING, 0};
    return missing;
}

/* What a zone sheet says of a zone. `samples` is how many samples are inside it, `present` is how
 * many of these have a reading, and `sum` is the sum of those readings in hundredths of a percent.
 * Where `present` is 0, the lab has read none of the samples, and the 0 in `sum` is no reading. */
typedef struct {
    uint32_t samples, present, sum;
} belfry_subtotal;

/* What a check answers. For BELFRY_LEVEL to BELFRY_DEPTH, the list and the index say where the
 * faulty node is. For BELFRY_READING the index is that of the sample, and the list is 0. For every
 * other answer the index is 0, and so is the list, except in the descendants' own BELFRY_RAGGED and
 * BELFRY_LONG. */
typedef struct {
    uint32_t answer, list, index;
} belfry_verdict;

/* A verdict, and where the part lies that starts at the faulty node, in words of the list that the
 * verdict names. Both numbers are 0 when the part is empty. */
typedef struct {
    belfry_verdict verdict;
    size_t from, words;
} belfry_part;

/* The same in nodes: the part has `count` nodes, from index `from` on. */
typedef struct {
    belfry_verdict verdict;
    size_t from, count;
} belfry_node_part;

/* What a caller keeps between two pages: which pairs, in which order, and where the listing
 * has got to, as the last pair's sort key. The key is ignored when the ticket is fresh. Any words
 * make a usable ticket. BELFRY_TICKET makes the first one; belfry_store_ticket and
 * belfry_stored_ticket store it as bytes and read it back. */
typedef struct {
    uint32_t relation, order, placed, document, first, second;
} belfry_ticket;

/* Returns the ticket that starts a listing. Use it rather than filling in the fields. A later
 * version of the library may have more of them, and here they get the values with which every pair
 * is listed. It is a function, since clang doesn't warn of the arguments of an installed header's
 * macro. */
static inline belfry_ticket BELFRY_TICKET(belfry_relation relation, belfry_order order) {
    const belfry_ticket ticket = {relation, order, BELFRY_FRESH, 0, 0, 0};
    return ticket;
}

/* A question to a book: the tag of the list of ancestors, that of the list of descendants, and a
 * ticket. BELFRY_QUESTION makes one that starts a listing. To go on, put the ticket of its page
 * into it. */
typedef struct {
    uint32_t ancestors, descendants;
    belfry_ticket ticket;
} belfry_question;

/* Returns the question that starts a listing of two lists of a book, by their tags. Its ticket is
 * that of BELFRY_TICKET. */
static inline belfry_question BELFRY_QUESTION(uint32_t ancestors, uint32_t descendants,
                                              belfry_relation relation, belfry_order order) {
    const belfry_question question = {ancestors, descendants, BELFRY_TICKET(relation, order)};
    return question;
}

/* A verdict, whether nothing is left (1 or 0), how many pairs were written, and the ticket for the
 * next page. */
typedef struct {
    belfry_verdict verdict;
    uint32_t done;
    size_t count;
    belfry_ticket ticket;
} belfry_page;

/* The answer of the whole call, how many questions it answered, and the page of each question, in
 * their order. Look at `answer` first. A call that is refused as a whole answered 0 questions. The
 * pages after the last question are zero in every field, which reads as BELFRY_TAKEN and not done.
 * So look at the first `questions` pages only. */
typedef struct {
    uint32_t answer, questions;
    belfry_page pages[BELFRY_MOST_QUESTIONS];
} belfry_pages;

/* A verdict, whether the zone has a present reading (1 or 0), and the lowest and the highest of its
 * present readings, in percent. Look at `present` first. Where it is 0, there is no low and no
 * high: the two zeros that stand there are no values. */
typedef struct {
    belfry_verdict verdict;
    uint32_t present;
    float low, high;
} belfry_range;

/* A verdict, and how many rows, nodes, links, subtotals or bytes were written. */
typedef struct {
    belfry_verdict verdict;
    size_t count;
} belfry_result;

/* An answer, the document's number, and how many marks were written. */
typedef struct {
    uint32_t answer, document;
    size_t count;
} belfry_unnumbered;

/* A verdict, and how many lists the book has. */
typedef struct {
    belfry_verdict verdict;
    uint32_t lists;
} belfry_book;

/* A verdict, and where a list's body lies, in bytes of the book. Both numbers are 0 on refusal; an
 * empty list has its place and no bytes. */
typedef struct {
    belfry_verdict verdict;
    size_t from, bytes;
} belfry_body;

/* Whether a stored ticket could be read back. */
typedef enum {
    BELFRY_TICKET_READ,
    /* Its form isn't BELFRY_TICKET_FORM: another version of the library stored it, or none did. */
    BELFRY_TICKET_OTHER_FORM,
    /* It hasn't BELFRY_TICKET_BYTES bytes. */
    BELFRY_TICKET_OTHER_LENGTH
} belfry_ticket_fault;

/* ---- The calls of words, which the archive holds. ---- */

/* Returns the archive's version. It has to be BELFRY_VERSION.
 * Takes at most 8 bytes of stack. */
BELFRY_MUST_USE
uint32_t belfry_version(void);

/* Checks one list. It reads the list and writes nothing.
 * Answers: RAGGED, LONG, then LEVEL to DEPTH for the first node at which one applies, with its
 * index; the list is 0.
 * Takes at most 720 bytes of stack. */
BELFRY_MUST_USE
BELFRY_NONNULL
belfry_verdict belfry_check(const uint32_t *list, size_t words);

/* Checks two lists that are to be joined. It reads both and writes nothing.
 * Answers: those of belfry_check for the ancestors, then for the descendants, with the list at
 * fault; then JOINT.
 * Takes at most 752 bytes of stack. */
BELFRY_MUST_USE
BELFRY_NONNULL
belfry_verdict belfry_check_two(const uint32_t *ancestors, size_t ancestor_words,
                                const uint32_t *descendants, size_t descendant_words);

/* Checks two lists as belfry_check_two does, and says where to repair: the part of the list at
 * fault from the faulty node to its end. It reads both lists and writes nothing; the part is in the
 * caller's own list, from word `from` on. It is empty unless the answer is LEVEL to DEPTH.
 * Takes at most 864 bytes of stack. */
BELFRY_MUST_USE
BELFRY_NONNULL
belfry_part belfry_faulty(const uint32_t *ancestors, size_t ancestor_words,
                          const uint32_t *descendants, size_t descendant_words);

/* Hands out the next page of the pairs with the ticket's relation. It reads both lists and writes
 * the first pairs, in the ticket's order, whose key is above the ticket's place, as many as fit. A
 * pair takes eight words; words at the end that don't make a whole pair stay as they were.
 * The answer's ticket is the one given, except that after a page that wrote something `placed` is 1
 * and the key is that of the last pair written.
 * Done is 1 exactly when everything that remained was written.
 * With room for no pair nothing can be written. Such a call is never done while a pair remains, and
 * returns the ticket as it was: a loop until done would never end. Give room for BELFRY_PAGE_PAIRS.
 * Between two calls the lists may be edited. When a call says done, each pair that stood unaltered
 * in all accepted calls has been handed out, once.
 * Answers: those of belfry_check_two, never ROOM. A refusal returns the ticket as it was and isn't
 * done, so a repaired list goes on from there.
 * Takes at most 1,536 bytes of stack. */
BELFRY_MUST_USE
BELFRY_NONNULL
belfry_page belfry_list(const uint32_t *ancestors, size_t ancestor_words,
                        const uint32_t *descendants, size_t descendant_words, belfry_ticket ticket,
                        uint32_t *out, size_t out_words);

/* Hands out the next page as belfry_list does, for a caller who lends the links of the ancestors
 * too, as belfry_links writes them. With these it passes over a zone together with everything
 * inside it, where no descendant lies in it. The page, the ticket and what is written are those of
 * belfry_list, for every ticket and room. So the pages of a listing may come from both calls.
 * The links may come from anyone, since each call checks them. After an edit of the ancestors they
 * have to be written anew. The descendants have no part in them.
 * On every farm that was measured, checking the links cost more than passing over zones saved. So
 * use belfry_list unless you have measured otherwise.
 * Answers: those of belfry_list. Then LINKS with list 0 and index 0, when the words aren't exactly
 * the links of the ancestors. A refusal with LINKS is one like the others: the ticket comes back as
 * it was, nothing is written, and the call isn't done.
 * Takes at most 1,584 bytes of stack. */
BELFRY_MUST_USE
BELFRY_NONNULL
belfry_page belfry_list_linked(const uint32_t *ancestors, size_t ancestor_words,
                               const uint32_t *descendants, size_t descendant_words,
                               const uint32_t *links, size_t link_words, belfry_ticket ticket,
                               uint32_t *out, size_t out_words);

/* Finds the low and the high of the lab readings in one zone. It reads both lists and the readings,
 * and writes nothing. `zone` is the zone's index. The readings have two words for each sample, in
 * the samples' order: a kind and the bits of a float.
 * The low and the high are the lowest and the highest reading that the zone holds. A sample counts
 * if it is inside the zone, directly or not, and has a reading. Grams per kilogram are divided by
 * ten, once, so both are in percent. Of equal readings the first sample's stays: of -0.0 and then
 * 0.0 alone, -0.0 is the low and the high.
 * A missing reading is never a number. Where no sample inside the zone has a reading, the answer is
 * TAKEN and `present` is 0. Then there is no low and no high, and the zeros there are no values.
 * Answers: those of belfry_check_two. Then RAGGED with list 0, when there aren't as many readings
 * as samples. Then READING with list 0 and the sample's index, for the first faulty reading of any
 * sample, in the zone or not. Then ABSENT, when no zone has that index.
 * Takes at most 864 bytes of stack. */
BELFRY_MUST_USE
BELFRY_NONNULL
belfry_range belfry_zone_range(const uint32_t *zones, size_t zone_words, const uint32_t *samples,
                               size_t sample_words, const uint32_t *readings, size_t reading_words,
                               uint32_t zone);

/* Writes the zone sheet of a whole farm: a subtotal for each zone, in list order. It reads both
 * lists and the hundredths. These have one word for each sample, in the samples' order: a number
 * from 0 to BELFRY_MOST_HUNDREDTHS, or BELFRY_NO_HUNDREDTHS where the reading is missing.
 * The subtotal of a zone is over all samples inside it, directly or not. A node that stands in both
 * lists counts in the zones around it, and not in itself. No sum exceeds
 * BELFRY_MOST_NODES * BELFRY_MOST_HUNDREDTHS. The answer counts zones.
 * Answers: those of belfry_check_two. Then RAGGED with list 0, when there aren't as many hundredths
 * as samples. Then READING with list 0 and the sample's index, for the first faulty word of any
 * sample, in a zone or not. Then ROOM.
 * Takes at most 14,560 bytes of stack. */
BELFRY_MUST_USE
BELFRY_NONNULL
belfry_result belfry_sheet(const uint32_t *zones, size_t zone_words, const uint32_t *samples,
                           size_t sample_words, const uint32_t *hundredths, size_t hundredth_words,
                           uint32_t *out, size_t out_words);

/* Numbers a document's marks. It reads the marks and writes a row for each element and text, in
 * start order; as many rows as there are marks are always enough.
 * Answers: LONG, then MARK, STRAY or DEEP for the first faulty mark, UNCLOSED, ROOM; list and index
 * are 0.
 * Takes at most 352 bytes of stack. */
BELFRY_MUST_USE
BELFRY_NONNULL
belfry_result belfry_number(uint32_t document, const uint32_t *marks, size_t mark_words,
                            uint32_t *out, size_t out_words);

/* Turns a table back into marks. It reads the table and writes the marks, a word each;
 * BELFRY_MOST_NODES words are always enough. The document's number is read from the table, and is 0
 * on refusal.
 * Answers: RAGGED, LONG, TABLE, ROOM.
 * Takes at most 480 bytes of stack. */
BELFRY_MUST_USE
BELFRY_NONNULL
belfry_unnumbered belfry_unnumber(const uint32_t *table, size_t table_words, uint32_t *out,
                                  size_t out_words);

/* Picks a tag's list out of a table. It reads the table and writes the node of every row that has
 * the tag, in the order of the rows. As many nodes as there are rows are always enough. It checks
 * nothing else of the table. Answers: RAGGED, LONG, ROOM; list and index are 0.
 * Takes at most 96 bytes of stack. */
BELFRY_MUST_USE
BELFRY_NONNULL
belfry_result belfry_pick(const uint32_t *table, size_t table_words, uint32_t tag, uint32_t *out,
                          size_t out_words);

/* Links a list's nodes to the forest of what contains what. It reads the list and writes a link for
 * each node. A link has the index of the node's parent, which is the innermost node that contains
 * it, and of its first child. Its third index is that of the next node in its document that has the
 * same parent. BELFRY_NONE says that there is none. Answers: those of belfry_check, then ROOM.
 * Takes at most 768 bytes of stack. */
BELFRY_MUST_USE
BELFRY_NONNULL
belfry_result belfry_links(const uint32_t *list, size_t words, uint32_t *out, size_t out_words);

/* Checks links that may come from anyone. It reads the list and the links, and writes nothing. The
 * answer is TAKEN exactly when the links are those that belfry_links writes for the list, word for
 * word and no word more.
 * Answers: those of belfry_check, then LINKS with list 0 and index 0.
 * Takes at most 736 bytes of stack. */
BELFRY_MUST_USE
BELFRY_NONNULL
belfry_verdict belfry_links_check(const uint32_t *list, size_t words, const uint32_t *links,
                                  size_t link_words);

/* Checks a book. It reads the book and writes nothing.
 * Answers: CONTENTS, then LEVEL to DEPTH for the first body at fault, with the list's place in the
 * book and the node's index in that list.
 * Takes at most 768 bytes of stack. */
BELFRY_MUST_USE
BELFRY_NONNULL
belfry_book belfry_book_check(const uint8_t *book, size_t bytes);

/* Finds the body of a tag's list. It reads the book, checks all of it, and writes nothing; the body
 * is in the caller's own bytes.
 * Answers: those of belfry_book_check, then ABSENT.
 * Takes at most 832 bytes of stack. */
BELFRY_MUST_USE
BELFRY_NONNULL
belfry_body belfry_book_body(const uint8_t *book, size_t bytes, uint32_t tag);

/* Writes a book. It reads the entries, a tag and a number of nodes for each list, and the nodes of
 * all lists one after the other. It writes the book, which takes BELFRY_BOOK_BYTES. There are at
 * most BELFRY_MOST_LISTS lists, their tags must ascend, and the numbers must add up to the nodes.
 * Answers: RAGGED, CONTENTS, then LEVEL to DEPTH for the first list at fault, with its place and
 * the node's index in that list, then ROOM.
 * Takes at most 864 bytes of stack. */
BELFRY_MUST_USE
BELFRY_NONNULL
belfry_result belfry_book_write(const uint32_t *entries, size_t entry_words, const uint32_t *nodes,
                                size_t node_words, uint8_t *out, size_t out_bytes);

/* Asks a book several questions at once, at most BELFRY_MOST_QUESTIONS. It reads the book and the
 * questions, and writes pairs. A question has eight words: the tag of the ancestors, the tag of the
 * descendants, and the six of a ticket.
 * Each question in turn writes its page from where the one before stopped, and has all the room
 * left. So its pairs start after as many as the pages before it count together. Its page is what
 * belfry_list answers for the book's two lists with that room.
 * A question that is refused writes nothing, takes no room and doesn't stop the others. It isn't
 * done, and its page has its own ticket.
 * To go on, ask again with the tickets of the pages, until each question is done or refused. The
 * book may be edited in between: what belfry_list says of pairs that stood unaltered is true of
 * each question. With room for no pair nothing can be written: give room for BELFRY_PAGE_PAIRS.
 * Answers of a question: those of belfry_book_check, whichever list of the book is at fault. The
 * verdict's list is then that list's place in the book, and neither BELFRY_ANCESTORS nor
 * BELFRY_DESCENDANTS. Then ABSENT, when one of its tags isn't in the book. Then JOINT; never ROOM.
 * Answers of the whole call: RAGGED when the words don't make whole questions, then LONG. Each
 * whole question among the first BELFRY_MOST_QUESTIONS then has a page with that answer and its own
 * ticket, and nothing is written.
 * Takes at most 135,712 bytes of stack. */
BELFRY_MUST_USE
BELFRY_NONNULL
belfry_pages belfry_ask(const uint8_t *book, size_t bytes, const uint32_t *questions,
                        size_t question_words, uint32_t *out, size_t out_words);

/* Writes an answer's name into all eight bytes, padded with blanks; eight blanks for a number above
 * BELFRY_LINKS. It is never refused.
 * Takes at most 8 bytes of stack. */
BELFRY_NONNULL
void belfry_name(uint32_t answer, uint8_t out[BELFRY_NAME_BYTES]);

/* ---- What the calls of nodes stand on. ---- */

/* Returns the address that stands in for an array of no words, and of no bytes. */
static inline uint32_t *belfry_no_words(void) {
    static uint32_t none;
    return &none;
}
static inline uint8_t *belfry_no_bytes(void) {
    static uint8_t none;
    return &none;
}

/* Returns how many words `count` structs of `each` words have. A count that has more words than can
 * be counted is taken as the largest that hasn't, which is above every limit too. */
static inline size_t belfry_words_of(size_t count, size_t each) {
    const size_t most = SIZE_MAX / each;
    return (count < most ? count : most) * each;
}

/* An array of structs as two arguments of a call of words: the address of its first word, which is
 * the field `first`, and the number of its words. */
#define BELFRY_WORDS_OF(array, count, first) \
    ((count) != 0 ? &(array)->first : belfry_no_words()), \
        belfry_words_of((count), sizeof *(array) / sizeof(uint32_t))

/* Writes a number as it stands in a book, and reads it. */
static inline void belfry_write_number(uint32_t number, uint8_t *out) {
    for (size_t i = 0; i < BELFRY_NUMBER_BYTES; i++)
        out[i] = (number >> (8 * i)) & 0xff;
}
static inline uint32_t belfry_read_number(const uint8_t *bytes) {
    uint32_t number = 0;
    for (size_t i = BELFRY_NUMBER_BYTES; i > 0; i--)
        number = number << 8 | bytes[i - 1];
    return number;
}

/* ---- The calls of nodes. ----
 *
 * Each takes any count: one above the limit is refused, however large it is. `room` says how many
 * structs, words or bytes the output can hold. */

/* Checks one list, as belfry_check does.
 * Answers: LONG, then LEVEL to DEPTH. */
BELFRY_MUST_USE
static inline belfry_verdict belfry_check_nodes(const belfry_node *list, size_t count) {
    return belfry_check(BELFRY_WORDS_OF(list, count, document));
}

/* Checks two lists that are to be joined, as belfry_check_two does.
 * Answers: those of belfry_check_nodes for the ancestors, then for the descendants, with the list
 * at fault; then JOINT. */
BELFRY_MUST_USE
static inline belfry_verdict belfry_check_two_lists(const belfry_node *ancestors,
                                                    size_t ancestor_count,
                                                    const belfry_node *descendants,
                                                    size_t descendant_count) {
    return belfry_check_two(BELFRY_WORDS_OF(ancestors, ancestor_count, document),
                            BELFRY_WORDS_OF(descendants, descendant_count, document));
}

/* Checks two lists and says where to repair, as belfry_faulty does, in nodes: the part starts at
 * index `from` of the list at fault.
 * Answers: those of belfry_check_two_lists. */
BELFRY_MUST_USE
static inline belfry_node_part belfry_faulty_nodes(const belfry_node *ancestors,
                                                   size_t ancestor_count,
                                                   const belfry_node *descendants,
                                                   size_t descendant_count) {
    const belfry_part words =
        belfry_faulty(BELFRY_WORDS_OF(ancestors, ancestor_count, document),
                      BELFRY_WORDS_OF(descendants, descendant_count, document));
    const belfry_node_part part = {words.verdict, words.from / BELFRY_NODE_WORDS,
                                   words.words / BELFRY_NODE_WORDS};
    return part;
}

/* Hands out the next page of pairs, as belfry_list does. Give room for BELFRY_PAGE_PAIRS: with room
 * for no pair, a loop until done would never end.
 * Answers: those of belfry_check_two_lists. */
BELFRY_MUST_USE
static inline belfry_page belfry_list_pairs(const belfry_node *ancestors, size_t ancestor_count,
                                            const belfry_node *descendants, size_t descendant_count,
                                            belfry_ticket ticket, belfry_pair *out, size_t room) {
    return belfry_list(BELFRY_WORDS_OF(ancestors, ancestor_count, document),
                       BELFRY_WORDS_OF(descendants, descendant_count, document), ticket,
                       BELFRY_WORDS_OF(out, room, ancestor.document));
}

/* Hands out the next page of pairs, as belfry_list_linked does: one link for each ancestor. Give
 * room for BELFRY_PAGE_PAIRS, as to belfry_list_pairs.
 * Answers: those of belfry_check_two_lists, then LINKS. */
BELFRY_MUST_USE
static inline belfry_page belfry_linked_pairs(const belfry_node *ancestors, size_t ancestor_count,
                                              const belfry_node *descendants,
                                              size_t descendant_count, const belfry_link *links,
                                              size_t link_count, belfry_ticket ticket,
                                              belfry_pair *out, size_t room) {
    return belfry_list_linked(BELFRY_WORDS_OF(ancestors, ancestor_count, document),
                              BELFRY_WORDS_OF(descendants, descendant_count, document),
                              BELFRY_WORDS_OF(links, link_count, parent), ticket,
                              BELFRY_WORDS_OF(out, room, ancestor.document));
}

/* Finds the low and the high of the lab readings in the zone at index `zone`, as belfry_zone_range
 * does: one reading for each sample. Where `present` is 0, there is no low and no high.
 * Answers: those of belfry_check_two_lists, RAGGED when there aren't as many readings as samples,
 * READING with the sample's index, ABSENT. */
BELFRY_MUST_USE
static inline belfry_range belfry_zone_range_nodes(const belfry_node *zones, size_t zone_count,
                                                   const belfry_node *samples, size_t sample_count,
                                                   const belfry_reading *readings,
                                                   size_t reading_count, uint32_t zone) {
    return belfry_zone_range(BELFRY_WORDS_OF(zones, zone_count, document),
                             BELFRY_WORDS_OF(samples, sample_count, document),
                             BELFRY_WORDS_OF(readings, reading_count, kind), zone);
}

/* Writes the zone sheet, as belfry_sheet does: one subtotal for each zone. The hundredths have one
 * word for each sample.
 * Answers: those of belfry_check_two_lists, RAGGED when there aren't as many hundredths as samples,
 * READING with the sample's index, ROOM. */
BELFRY_MUST_USE
static inline belfry_result belfry_sheet_nodes(const belfry_node *zones, size_t zone_count,
                                               const belfry_node *samples, size_t sample_count,
                                               const uint32_t *hundredths, size_t hundredth_count,
                                               belfry_subtotal *out, size_t room) {
    return belfry_sheet(BELFRY_WORDS_OF(zones, zone_count, document),
                        BELFRY_WORDS_OF(samples, sample_count, document),
                        hundredth_count != 0 ? hundredths : belfry_no_words(), hundredth_count,
                        BELFRY_WORDS_OF(out, room, samples));
}

/* Numbers a document's marks, as belfry_number does.
 * Answers: LONG, then MARK, STRAY or DEEP for the first faulty mark, UNCLOSED, ROOM. */
BELFRY_MUST_USE
static inline belfry_result belfry_number_rows(uint32_t document, const uint32_t *marks,
                                               size_t mark_count, belfry_row *out, size_t room) {
    return belfry_number(document, mark_count != 0 ? marks : belfry_no_words(), mark_count,
                         BELFRY_WORDS_OF(out, room, document));
}

/* Turns a table back into marks, as belfry_unnumber does.
 * Answers: LONG, TABLE, ROOM. */
BELFRY_MUST_USE
static inline belfry_unnumbered belfry_unnumber_rows(const belfry_row *table, size_t row_count,
                                                     uint32_t *out, size_t room) {
    return belfry_unnumber(BELFRY_WORDS_OF(table, row_count, document),
                           room != 0 ? out : belfry_no_words(), room);
}

/* Picks a tag's list out of a table, as belfry_pick does.
 * Answers: LONG, ROOM. */
BELFRY_MUST_USE
static inline belfry_result belfry_pick_nodes(const belfry_row *table, size_t row_count,
                                              uint32_t tag, belfry_node *out, size_t room) {
    return belfry_pick(BELFRY_WORDS_OF(table, row_count, document), tag,
                       BELFRY_WORDS_OF(out, room, document));
}

/* Links a list's nodes to the forest, as belfry_links does: one link for each node.
 * Answers: those of belfry_check_nodes, then ROOM. */
BELFRY_MUST_USE
static inline belfry_result belfry_link_nodes(const belfry_node *list, size_t count,
                                              belfry_link *out, size_t room) {
    return belfry_links(BELFRY_WORDS_OF(list, count, document), BELFRY_WORDS_OF(out, room, parent));
}

/* Checks links that may come from anyone, as belfry_links_check does: one link for each node.
 * Answers: those of belfry_check_nodes, then LINKS. */
BELFRY_MUST_USE
static inline belfry_verdict belfry_check_node_links(const belfry_node *list, size_t count,
                                                     const belfry_link *links, size_t link_count) {
    return belfry_links_check(BELFRY_WORDS_OF(list, count, document),
                              BELFRY_WORDS_OF(links, link_count, parent));
}

/* Writes a book, as belfry_book_write does: `nodes` holds the nodes of all lists one after the
 * other. The book takes BELFRY_BOOK_BYTES(entry_count, node_count).
 * Answers: CONTENTS, then LEVEL to DEPTH for the first list at fault, with its place and the node's
 * index in that list, then ROOM. */
BELFRY_MUST_USE
static inline belfry_result belfry_write_nodes(const belfry_entry *entries, size_t entry_count,
                                               const belfry_node *nodes, size_t node_count,
                                               uint8_t *out, size_t room) {
    return belfry_book_write(BELFRY_WORDS_OF(entries, entry_count, tag),
                             BELFRY_WORDS_OF(nodes, node_count, document),
                             room != 0 ? out : belfry_no_bytes(), room);
}

/* Checks a book and says how many lists it has, as belfry_book_check does. */
BELFRY_MUST_USE
static inline belfry_book belfry_open_book(const uint8_t *book, size_t bytes) {
    return belfry_book_check(bytes != 0 ? book : belfry_no_bytes(), bytes);
}

/* Returns the node whose sixteen bytes of a book start at `bytes`. */
static inline belfry_node belfry_read_node(const uint8_t *bytes) {
    const belfry_node node = {belfry_read_number(bytes),
                              belfry_read_number(bytes + BELFRY_NUMBER_BYTES),
                              belfry_read_number(bytes + 2 * BELFRY_NUMBER_BYTES),
                              belfry_read_number(bytes + 3 * BELFRY_NUMBER_BYTES)};
    return node;
}

/* Copies a tag's list out of a book. It checks the whole book and writes the list's nodes;
 * BELFRY_MOST_NODES are always enough.
 * Answers: those of belfry_book_check, then ABSENT, then ROOM. */
BELFRY_MUST_USE
static inline belfry_result belfry_read_nodes(const uint8_t *book, size_t bytes, uint32_t tag,
                                              belfry_node *out, size_t room) {
    const size_t node_bytes = BELFRY_NUMBER_BYTES * BELFRY_NODE_WORDS;
    const belfry_body body = belfry_book_body(bytes != 0 ? book : belfry_no_bytes(), bytes, tag);
    belfry_result result = {body.verdict, body.bytes / node_bytes};
    if (result.count > room) {
        result.verdict.answer = BELFRY_ROOM;
        result.count = 0;
    }
    for (size_t i = 0; i < result.count; i++)
        out[i] = belfry_read_node(book + body.from + node_bytes * i);
    return result;
}

/* Asks a book several questions at once, as belfry_ask does. The pairs of a question start at the
 * index that the counts of the pages before it add up to. Give room for BELFRY_PAGE_PAIRS: with
 * room for no pair, a loop until done would never end.
 * Answers of a question: those of belfry_book_check, then ABSENT, then JOINT. Answer of the whole
 * call: LONG. */
BELFRY_MUST_USE
static inline belfry_pages belfry_ask_pairs(const uint8_t *book, size_t bytes,
                                            const belfry_question *questions, size_t count,
                                            belfry_pair *out, size_t room) {
    return belfry_ask(bytes != 0 ? book : belfry_no_bytes(), bytes,
                      BELFRY_WORDS_OF(questions, count, ancestors),
                      BELFRY_WORDS_OF(out, room, ancestor.document));
}

/* Writes an answer's name as a string, without blanks, and returns `out`. */
BELFRY_NONNULL
static inline const char *belfry_answer_name(uint32_t answer, char out[BELFRY_NAME_BYTES + 1]) {
    uint8_t name[BELFRY_NAME_BYTES];
    size_t letters = 0;
    belfry_name(answer, name);
    for (; letters < BELFRY_NAME_BYTES && name[letters] != ' '; letters++)
        out[letters] = (char)name[letters];
    out[letters] = 0;
    return out;
}

/* ---- A ticket that is kept in a file, or while the machine is off. ---- */

/* Stores a ticket as bytes. */
BELFRY_NONNULL
static inline void belfry_store_ticket(belfry_ticket ticket, uint8_t out[BELFRY_TICKET_BYTES]) {
    const uint32_t numbers[] = {BELFRY_TICKET_FORM, ticket.relation, ticket.order, ticket.placed,
                                ticket.document,    ticket.first,    ticket.second};
    for (size_t i = 0; i < sizeof numbers / sizeof *numbers; i++)
        belfry_write_number(numbers[i], out + BELFRY_NUMBER_BYTES * i);
}

/* Reads a stored ticket back into `ticket`, and leaves that as it was when the bytes aren't a
 * ticket of this form. Then start again with BELFRY_TICKET: pairs come twice, but none is lost. */
BELFRY_MUST_USE
static inline belfry_ticket_fault belfry_stored_ticket(const uint8_t *stored, size_t bytes,
                                                       belfry_ticket *ticket) {
    uint32_t words[BELFRY_TICKET_WORDS];
    if (bytes >= BELFRY_NUMBER_BYTES && belfry_read_number(stored) != BELFRY_TICKET_FORM)
        return BELFRY_TICKET_OTHER_FORM;
    if (bytes != BELFRY_TICKET_BYTES)
        return BELFRY_TICKET_OTHER_LENGTH;
    for (size_t i = 0; i < BELFRY_TICKET_WORDS; i++)
        words[i] = belfry_read_number(stored + BELFRY_NUMBER_BYTES * (i + 1));
    const belfry_ticket read = {words[0], words[1], words[2], words[3], words[4], words[5]};
    *ticket = read;
    return BELFRY_TICKET_READ;
}

#undef BELFRY_WORDS_OF

#ifdef __cplusplus
}
#endif

#endif
