/*
 * The two engines that the pager is measured against, written by hand in C and without checks of arguments, sizes,
 * buffer lengths or damaged tables: the same method (method.c), and an ordinary cleared page table whose release
 * walks the region (cleared.c). Their answers are the pager's own.
 */
#ifndef ENGINES_H
#define ENGINES_H

#include "../bindings/c/corwystal.h"

typedef corwystal_answer answer;

/* The index of region starts: one bit a place, and above each layer one bit for each of its words that isn't 0. */
typedef struct marks {
    uint64_t *layer[3];
    uint32_t layers;
    uint32_t words; /* of all layers */
} marks;

/* The same method as the pager's, over the same tables. */
typedef struct method {
    uint32_t pages, frames, shift;
    uint32_t first, many, fresh; /* the pool: `many` frames linked from `first` on, then those from `fresh` on */
    uint32_t places;
    marks marks;
    uint32_t *count, *table, *helper, *stack, *cache, *link;
    uint8_t *ram;
} method;

/* One word a place, 0 or frame + 1, and a stack of free frames. */
typedef struct cleared {
    uint32_t pages, frames, shift;
    uint32_t free; /* how many frames are free */
    uint32_t places;
    marks marks;
    uint32_t *table, *pool;
    uint8_t *ram;
} cleared;

/* The buffers are already in their places; a start sets the sizes and prepares what must be prepared. */
answer method_start(method *m, uint32_t spaces, uint32_t pages, uint32_t frames, uint32_t page);
answer method_mark(method *m, uint32_t space, uint32_t page);
answer method_drop(method *m, uint32_t space, uint32_t page);
answer method_touch(method *m, uint32_t space, uint32_t page);
answer method_look(const method *m, uint32_t space, uint32_t page);
answer method_release(method *m, uint32_t space, uint32_t page);
answer method_give_back(method *m, uint32_t space, uint32_t page);
answer method_translate(const method *m, uint32_t space, size_t address);
answer method_read(const method *m, uint32_t space, size_t address, uint8_t *buffer, size_t n);
answer method_write(method *m, uint32_t space, size_t address, const uint8_t *bytes, size_t n);

answer cleared_start(cleared *c, uint32_t spaces, uint32_t pages, uint32_t frames, uint32_t page);
answer cleared_mark(cleared *c, uint32_t space, uint32_t page);
answer cleared_drop(cleared *c, uint32_t space, uint32_t page);
answer cleared_touch(cleared *c, uint32_t space, uint32_t page);
answer cleared_look(const cleared *c, uint32_t space, uint32_t page);
answer cleared_release(cleared *c, uint32_t space, uint32_t page);
answer cleared_give_back(cleared *c, uint32_t space, uint32_t page);
answer cleared_translate(const cleared *c, uint32_t space, size_t address);
answer cleared_read(const cleared *c, uint32_t space, size_t address, uint8_t *buffer, size_t n);
answer cleared_write(cleared *c, uint32_t space, size_t address, const uint8_t *bytes, size_t n);

#endif
