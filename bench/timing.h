/* What the measuring programs in C share: processor time, the order of times, and where answers go, so that no
 * call is left out. */
#ifndef TIMING_H
#define TIMING_H

#include <stdint.h>
#include <time.h>

static volatile uint64_t sum;

/* Microseconds of processor time. */
static double now(void) {
    struct timespec t;
    clock_gettime(CLOCK_PROCESS_CPUTIME_ID, &t);
    return (double)t.tv_sec * 1e6 + (double)t.tv_nsec / 1e3;
}

/* The order of two times, for qsort. */
static int ascending(const void *a, const void *b) {
    double x = *(const double *)a, y = *(const double *)b;
    return (x > y) - (x < y);
}

#endif
