/* Processor time, taken over many rounds; what else the machine does counts for little. */
#ifndef TIMING_H
#define TIMING_H

#include <stddef.h>

enum { MOST_ROUNDS = 201, LEAST_ROUNDS = 5 };

/* Returns the nanoseconds that the program has run. */
double now(void);

/* Tells whether there should be another after `rounds` rounds since a moment. There are a few at
 * least, and more until a second has passed. */
int is_round_due(size_t rounds, double begun);

/* Returns the median of times, which it puts in order. */
double median(double *times, size_t count);

#endif
