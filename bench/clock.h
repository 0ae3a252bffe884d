/* The processor's time stamp, read so that nothing moves across the reading. */
#ifndef CLOCK_H
#define CLOCK_H

#include <stdint.h>
#include <time.h>
#include <x86intrin.h>

static inline uint64_t clock_begin(void)
{
    _mm_lfence();
    uint64_t t = __rdtsc();
    _mm_lfence();
    return t;
}

static inline uint64_t clock_end(void)
{
    unsigned where;
    uint64_t t = __rdtscp(&where);
    _mm_lfence();
    return t;
}

/* What a reading of nothing takes. */
static inline uint64_t clock_cost(void)
{
    uint64_t least = UINT64_MAX;
    for (int i = 0; i < 100000; i++) {
        uint64_t from = clock_begin(), ticks = clock_end() - from;
        least = ticks < least ? ticks : least;
    }
    return least;
}

/* Ticks in a microsecond. */
static inline double clock_rate(void)
{
    struct timespec a, b;
    clock_gettime(CLOCK_MONOTONIC, &a);
    uint64_t from = clock_begin();
    do
        clock_gettime(CLOCK_MONOTONIC, &b);
    while ((b.tv_sec - a.tv_sec) * 1000000000LL + (b.tv_nsec - a.tv_nsec) < 50000000LL);
    uint64_t ticks = clock_end() - from;
    return (double)ticks * 1000 / (double)((b.tv_sec - a.tv_sec) * 1000000000LL + (b.tv_nsec - a.tv_nsec));
}

#endif
