/*
 * The index of region starts for the two hand-written engines: layers of 64-bit words, searched by the processor's
 * count of leading zeros.
 */
#ifndef MARKS_H
#define MARKS_H

#include "engines.h"

#include <string.h>

/* A start, or none, and the index words that were read to find it. */
typedef struct found {
    uint32_t start;
    uint32_t words;
} found;

#define NO_START UINT32_MAX

static inline uint32_t highest(uint64_t word) { return 63 - (uint32_t)__builtin_clzll(word); }

static inline uint32_t lowest(uint64_t word) { return (uint32_t)__builtin_ctzll(word); }

/* Lays the layers of so many places one after another, and clears them. */
static inline void marks_start(marks *k, uint32_t places)
{
    uint32_t low = (places + 63) / 64, middle = (low + 63) / 64;
    k->layer[1] = k->layer[0] + low;
    k->layer[2] = k->layer[1] + middle;
    k->layers = places <= 64 ? 1 : places <= 4096 ? 2 : 3;
    k->words = k->layers == 1 ? low : k->layers == 2 ? low + middle : low + middle + 1;
    memset(k->layer[0], 0, k->words * sizeof(uint64_t));
}

static inline int marked(const marks *k, uint32_t p) { return k->layer[0][p / 64] >> (p % 64) & 1; }

/* A bit and, where its word was 0, the bits above it. */
static inline void marks_set(marks *k, uint32_t p)
{
    for (uint32_t l = 0; l < k->layers; l++, p /= 64) {
        uint64_t old = k->layer[l][p / 64];
        k->layer[l][p / 64] = old | 1ull << (p % 64);
        if (old != 0)
            return;
    }
}

static inline void marks_clear(marks *k, uint32_t p)
{
    for (uint32_t l = 0; l < k->layers; l++, p /= 64)
        if ((k->layer[l][p / 64] &= ~(1ull << (p % 64))) != 0)
            return;
}

/* The greatest start at most p. */
static inline found marks_find(const marks *k, uint32_t p)
{
    uint32_t at = p / 64;
    uint64_t w = k->layer[0][at] & ~0ull >> (63 - p % 64);
    if (w != 0)
        return (found){at * 64 + highest(w), 1};
    if (k->layers == 1)
        return (found){NO_START, 1};
    uint32_t up = at / 64;
    w = k->layer[1][up] & ((1ull << (at % 64)) - 1);
    if (w != 0) {
        at = up * 64 + highest(w);
        return (found){at * 64 + highest(k->layer[0][at]), 3};
    }
    if (k->layers == 2)
        return (found){NO_START, 2};
    w = k->layer[2][0] & ((1ull << up) - 1);
    if (w == 0)
        return (found){NO_START, 3};
    up = highest(w);
    at = up * 64 + highest(k->layer[1][up]);
    return (found){at * 64 + highest(k->layer[0][at]), 5};
}

/* The least start above p, or `none`. */
static inline uint32_t marks_next(const marks *k, uint32_t p, uint32_t none)
{
    uint32_t at[3];
    for (uint32_t l = 0; l < k->layers; l++, p /= 64) {
        at[l] = p / 64;
        uint64_t w = k->layer[l][at[l]] & (~1ull << (p % 64));
        if (w != 0) {
            uint32_t q = at[l] * 64 + lowest(w);
            while (l-- > 0)
                q = q * 64 + lowest(k->layer[l][q]);
            return q;
        }
    }
    return none;
}

#endif
