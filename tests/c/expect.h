/* What the tests in C share: they paint an output, call, and hold what they find against what has
 * to be there. Whatever differs is printed. Valid as C99 and as C++. */
#ifndef EXPECT_H
#define EXPECT_H

#include "belfrychest.h"

#include <stdio.h>
#include <string.h>

#define COUNT(array) (sizeof(array) / sizeof *(array))

/* The byte that outputs are filled with before a call. */
#define PAINT 0xABu

static int differing;

static inline void expect(const char *what, size_t found, size_t wanted) {
    if (found == wanted)
        return;
    printf("%s is %zu and has to be %zu\n", what, found, wanted);
    differing = 1;
}

static inline void expect_verdict(const char *what, belfry_verdict found, uint32_t answer,
                                  uint32_t list, uint32_t index) {
    printf("%s\n", what);
    expect("the answer", found.answer, answer);
    expect("the list", found.list, list);
    expect("the index", found.index, index);
}

static inline void expect_ticket(belfry_ticket found, belfry_ticket wanted) {
    expect("relation", found.relation, wanted.relation);
    expect("order", found.order, wanted.order);
    expect("placed", found.placed, wanted.placed);
    expect("document", found.document, wanted.document);
    expect("first", found.first, wanted.first);
    expect("second", found.second, wanted.second);
}

/* Returns the bits of a float. */
static inline uint32_t bits_of(float value) {
    uint32_t bits;
    memcpy(&bits, &value, sizeof bits);
    return bits;
}

static inline void expect_range(belfry_range found, uint32_t present, float low, float high) {
    expect("present", found.present, present);
    expect("the bits of the low", bits_of(found.low), bits_of(low));
    expect("the bits of the high", bits_of(found.high), bits_of(high));
}

/* Checks that the first `written` bytes of an output are the wanted ones, and that the others are
 * still painted. */
static inline void expect_output(const void *found, size_t bytes, const void *wanted,
                                 size_t written) {
    const unsigned char *output = (const unsigned char *)found;
    const unsigned char *result = (const unsigned char *)wanted;
    for (size_t i = 0; i < bytes; i++)
        expect("a byte of the output", output[i], i < written ? result[i] : PAINT);
}

#endif
