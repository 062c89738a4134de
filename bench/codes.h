/* The codes that are measured side by side: the archive, and three forms of the twin by two
   compilers. The archive is left out where WITHOUT_ARCHIVE is defined, for a processor that it has
   no code for. */
#ifndef CODES_H
#define CODES_H

#include "calls.h"

#ifdef WITHOUT_ARCHIVE
enum { CODES = 6 };
#else
enum { CODES = 7 };
#endif

struct code {
    const char *name;
    belfry_verdict (*check)(const uint32_t *list, size_t words);
    belfry_verdict (*check_two)(const uint32_t *ancestors, size_t ancestor_words,
                                const uint32_t *descendants, size_t descendant_words);
    belfry_page (*list)(const uint32_t *ancestors, size_t ancestor_words,
                        const uint32_t *descendants, size_t descendant_words, belfry_ticket ticket,
                        uint32_t *out, size_t out_words);
    belfry_range (*zone_range)(const uint32_t *zones, size_t zone_words, const uint32_t *samples,
                               size_t sample_words, const uint32_t *readings, size_t reading_words,
                               uint32_t zone);
    belfry_result (*sheet)(const uint32_t *zones, size_t zone_words, const uint32_t *samples,
                           size_t sample_words, const uint32_t *hundredths, size_t hundredth_words,
                           uint32_t *out, size_t out_words);
    belfry_result (*links)(const uint32_t *list, size_t words, uint32_t *out, size_t out_words);
    belfry_verdict (*links_check)(const uint32_t *list, size_t words, const uint32_t *links,
                                  size_t link_words);
    belfry_page (*list_linked)(const uint32_t *ancestors, size_t ancestor_words,
                               const uint32_t *descendants, size_t descendant_words,
                               const uint32_t *links, size_t link_words, belfry_ticket ticket,
                               uint32_t *out, size_t out_words);
    belfry_result (*number)(uint32_t document, const uint32_t *marks, size_t mark_words,
                            uint32_t *out, size_t out_words);
    belfry_book (*book_check)(const uint8_t *book, size_t bytes);
    belfry_body (*book_body)(const uint8_t *book, size_t bytes, uint32_t tag);
    belfry_result (*book_write)(const uint32_t *entries, size_t entry_words, const uint32_t *nodes,
                                size_t node_words, uint8_t *out, size_t out_bytes);
    belfry_pages (*ask)(const uint8_t *book, size_t bytes, const uint32_t *questions,
                        size_t question_words, uint32_t *out, size_t out_words);
};

extern const struct code codes[CODES];

/* Returns the code of a name, or NULL. */
const struct code *code_named(const char *name);

#endif
