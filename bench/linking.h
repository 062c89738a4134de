/* The measures of links that are lent: their check beside that of the list alone, and all page
   calls of a listing. */
#ifndef LINKING_H
#define LINKING_H

#include "measures.h"

/* The links of the zones of the shape that was prepared last. */
extern uint32_t links[];

void build_links(void);

/* Runs one of these measures once, with an output for its pages. Answers how many zones or pairs
   came of it. A refusal ends the program. */
size_t run_linked(const struct measure *measure, const struct code *code, uint32_t *out);

#endif
