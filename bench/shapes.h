/* The shapes that are measured: two lists, zones as ancestors and samples as descendants, and the
   marks of a document that has them. */
#ifndef SHAPES_H
#define SHAPES_H

#include "../bindings/c/belfrychest.h"

enum { SHAPES = 10, ZONE_TAG = 2, SAMPLE_TAG = 3 };

/* Stands for readings of all three kinds in turn: in percent, in grams and missing. */
enum { IN_TURN = BELFRY_GRAMS + 1 };

struct shape {
    size_t zones, samples, marks;
    uint32_t zone[BELFRY_MOST_NODES * BELFRY_NODE_WORDS],
        sample[BELFRY_MOST_NODES * BELFRY_NODE_WORDS], mark[4 * BELFRY_MOST_NODES + 2];
};

extern const char *const shape_names[SHAPES];

/* Builds the shape of a name with at most `nodes` nodes in each list; it answers 0 where there is
   no such shape. The lists need no root, so the outermost zones have level 1. Four names are
   beside the ten. For ranges and sheets, holds-all is one zone with all samples in it, and
   holds-none is one zone with all samples after it. For the stack, deepest is a nest of as many
   zones as there are levels, with a sample before and a sample after each inner zone. For books,
   empty has neither zones nor samples.
   Farms are beside them too: farm-ZONES-COUNT-PLACE has that many zones with a sample of their own,
   the first of the list, the last, or spread over it. ZONES says how the zones lie: flat, in fields
   of 64, in documents of 64 or in nests. It is side for nests with a small zone first in each zone,
   and barren for one nest with a field first in each zone and small zones in the innermost. */
int build_shape(struct shape *shape, const char *name, size_t nodes);

/* Builds the same within a root, so that the marks are those of one document. There are at most
   `marks`, and a nest has one zone less. Of a shape with many documents it builds one. */
int build_document(struct shape *shape, const char *name, size_t marks);

/* Fills in a reading of this kind for each of `samples` samples. The values are random. */
void build_readings(uint32_t *readings, size_t samples, uint32_t kind);

/* Fills in a word of a zone sheet for each of `samples` samples: every third is missing, and the
   others are random. */
void build_hundredths(uint32_t *hundredths, size_t samples);

/* Builds the book of zones and samples. The zones are its first list, and the samples are dealt to
   all the others. Its tags are ZONE_TAG and the numbers after it. Returns how many bytes it has. */
size_t build_book(uint8_t *book, size_t lists, const uint32_t *zones, size_t zone_count,
                  const uint32_t *samples, size_t sample_count);

/* Returns the next random number after a state, which may begin with any number. The same state
 * gives the same number, which is below 2 to the 31. */
uint32_t random_number(uint64_t *state);

#endif
