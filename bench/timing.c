#define _POSIX_C_SOURCE 200809L
#include "timing.h"
#include <stdlib.h>
#include <time.h>

double now(void) {
    struct timespec t;
    clock_gettime(CLOCK_PROCESS_CPUTIME_ID, &t);
    return t.tv_sec * 1e9 + t.tv_nsec;
}

int is_round_due(size_t rounds, double begun) {
    return rounds < LEAST_ROUNDS || (rounds < MOST_ROUNDS && now() - begun < 1e9);
}

static int ascending(const void *x, const void *y) {
    double a = *(const double *)x, b = *(const double *)y;
    return (a > b) - (a < b);
}

double median(double *times, size_t count) {
    qsort(times, count, sizeof times[0], ascending);
    return times[count / 2];
}
