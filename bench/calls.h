/* The calls that the archive and each build of the twin have. The archive's are in its header; a
   twin's have the same types and another prefix. */
#ifndef CALLS_H
#define CALLS_H

#include "../bindings/c/belfrychest.h"

#define TWIN_CALLS(prefix) \
    belfry_verdict prefix##_check(const uint32_t *list, size_t words); \
    belfry_verdict prefix##_check_two(const uint32_t *ancestors, size_t ancestor_words, \
                                      const uint32_t *descendants, size_t descendant_words); \
    belfry_page prefix##_list(const uint32_t *ancestors, size_t ancestor_words, \
                              const uint32_t *descendants, size_t descendant_words, \
                              belfry_ticket ticket, uint32_t *out, size_t out_words); \
    belfry_range prefix##_zone_range( \
        const uint32_t *zones, size_t zone_words, const uint32_t *samples, size_t sample_words, \
        const uint32_t *readings, size_t reading_words, uint32_t zone); \
    belfry_result prefix##_sheet( \
        const uint32_t *zones, size_t zone_words, const uint32_t *samples, size_t sample_words, \
        const uint32_t *hundredths, size_t hundredth_words, uint32_t *out, size_t out_words); \
    belfry_result prefix##_links(const uint32_t *list, size_t words, uint32_t *out, \
                                 size_t out_words); \
    belfry_verdict prefix##_links_check(const uint32_t *list, size_t words, const uint32_t *links, \
                                        size_t link_words); \
    belfry_page prefix##_list_linked(const uint32_t *ancestors, size_t ancestor_words, \
                                     const uint32_t *descendants, size_t descendant_words, \
                                     const uint32_t *links, size_t link_words, \
                                     belfry_ticket ticket, uint32_t *out, size_t out_words); \
    belfry_result prefix##_number(uint32_t document, const uint32_t *marks, size_t mark_words, \
                                  uint32_t *out, size_t out_words); \
    belfry_book prefix##_book_check(const uint8_t *book, size_t bytes); \
    belfry_body prefix##_book_body(const uint8_t *book, size_t bytes, uint32_t tag); \
    belfry_result prefix##_book_write(const uint32_t *entries, size_t entry_words, \
                                      const uint32_t *nodes, size_t node_words, uint8_t *out, \
                                      size_t out_bytes); \
    belfry_pages prefix##_ask(const uint8_t *book, size_t bytes, const uint32_t *questions, \
                              size_t question_words, uint32_t *out, size_t out_words);

/* Declares them under a prefix that may be a macro itself. */
#define DECLARE_CALLS(prefix) TWIN_CALLS(prefix)

#endif
