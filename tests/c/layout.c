/* Holds the size of every struct and the place of every field against the numbers that are fixed
 * here. Prints those of the structs that the archive answers with: callers of other languages,
 * which lay these out themselves, are held against what is printed (layout.out). Valid as C99 and
 * as C++. */
#include "belfrychest.h" /* First, since it has to stand on its own. */

#include <stdio.h>

typedef struct {
    const char *name;
    size_t found, fixed;
} place;

#define SIZE(type, fixed) \
    { #type, sizeof(type), fixed }
#define FIELD(type, field, fixed) \
    { #type "." #field, offsetof(type, field), fixed }
#define VERDICT(type) \
    FIELD(type, verdict.answer, 0), FIELD(type, verdict.list, 4), FIELD(type, verdict.index, 8)

/* The structs that the archive answers with. */
static const place answers[] = {
    SIZE(belfry_verdict, 12),
    FIELD(belfry_verdict, answer, 0),
    FIELD(belfry_verdict, list, 4),
    FIELD(belfry_verdict, index, 8),
    SIZE(belfry_part, 32),
    VERDICT(belfry_part),
    FIELD(belfry_part, from, 16),
    FIELD(belfry_part, words, 24),
    SIZE(belfry_ticket, 24),
    FIELD(belfry_ticket, relation, 0),
    FIELD(belfry_ticket, order, 4),
    FIELD(belfry_ticket, placed, 8),
    FIELD(belfry_ticket, document, 12),
    FIELD(belfry_ticket, first, 16),
    FIELD(belfry_ticket, second, 20),
    SIZE(belfry_page, 48),
    VERDICT(belfry_page),
    FIELD(belfry_page, done, 12),
    FIELD(belfry_page, count, 16),
    FIELD(belfry_page, ticket, 24),
    SIZE(belfry_pages, 1544),
    FIELD(belfry_pages, answer, 0),
    FIELD(belfry_pages, questions, 4),
    FIELD(belfry_pages, pages, 8),
    SIZE(belfry_range, 24),
    VERDICT(belfry_range),
    FIELD(belfry_range, present, 12),
    FIELD(belfry_range, low, 16),
    FIELD(belfry_range, high, 20),
    SIZE(belfry_result, 24),
    VERDICT(belfry_result),
    FIELD(belfry_result, count, 16),
    SIZE(belfry_unnumbered, 16),
    FIELD(belfry_unnumbered, answer, 0),
    FIELD(belfry_unnumbered, document, 4),
    FIELD(belfry_unnumbered, count, 8),
    SIZE(belfry_book, 16),
    VERDICT(belfry_book),
    FIELD(belfry_book, lists, 12),
    SIZE(belfry_body, 32),
    VERDICT(belfry_body),
    FIELD(belfry_body, from, 16),
    FIELD(belfry_body, bytes, 24),
};

/* The structs that the header makes of words. An array of these is an array of the words. */
static const place words[] = {
    SIZE(belfry_node, BELFRY_NODE_WORDS * sizeof(uint32_t)),
    FIELD(belfry_node, document, 0),
    FIELD(belfry_node, start, 4),
    FIELD(belfry_node, end, 8),
    FIELD(belfry_node, level, 12),
    SIZE(belfry_pair, BELFRY_PAIR_WORDS * sizeof(uint32_t)),
    FIELD(belfry_pair, ancestor, 0),
    FIELD(belfry_pair, descendant, 16),
    SIZE(belfry_row, BELFRY_ROW_WORDS * sizeof(uint32_t)),
    FIELD(belfry_row, document, 0),
    FIELD(belfry_row, start, 4),
    FIELD(belfry_row, end, 8),
    FIELD(belfry_row, level, 12),
    FIELD(belfry_row, tag, 16),
    SIZE(belfry_link, BELFRY_LINK_WORDS * sizeof(uint32_t)),
    FIELD(belfry_link, parent, 0),
    FIELD(belfry_link, first_child, 4),
    FIELD(belfry_link, next_sibling, 8),
    SIZE(belfry_entry, BELFRY_ENTRY_WORDS * sizeof(uint32_t)),
    FIELD(belfry_entry, tag, 0),
    FIELD(belfry_entry, count, 4),
    SIZE(belfry_reading, BELFRY_READING_WORDS * sizeof(uint32_t)),
    FIELD(belfry_reading, kind, 0),
    FIELD(belfry_reading, bits, 4),
    SIZE(belfry_subtotal, BELFRY_SUBTOTAL_WORDS * sizeof(uint32_t)),
    FIELD(belfry_subtotal, samples, 0),
    FIELD(belfry_subtotal, present, 4),
    FIELD(belfry_subtotal, sum, 8),
    SIZE(belfry_ticket, BELFRY_TICKET_WORDS * sizeof(uint32_t)),
    SIZE(belfry_question, BELFRY_QUESTION_WORDS * sizeof(uint32_t)),
    FIELD(belfry_question, ancestors, 0),
    FIELD(belfry_question, descendants, 4),
    FIELD(belfry_question, ticket, 8),
};

/* Says whether the places of a table are those that are fixed. */
static int are_fixed(const place *places, size_t count) {
    int fixed = 1;
    for (size_t i = 0; i < count; i++) {
        if (places[i].found != places[i].fixed) {
            fprintf(stderr, "%s is %zu and has to be %zu\n", places[i].name, places[i].found,
                    places[i].fixed);
            fixed = 0;
        }
    }
    return fixed;
}

static void print_places(const place *places, size_t count) {
    for (size_t i = 0; i < count; i++)
        printf("%s %zu\n", places[i].name, places[i].found);
}

int main(void) {
    const int answers_fixed = are_fixed(answers, sizeof answers / sizeof *answers);
    const int words_fixed = are_fixed(words, sizeof words / sizeof *words);
    print_places(answers, sizeof answers / sizeof *answers);
    return answers_fixed && words_fixed ? 0 : 1;
}
