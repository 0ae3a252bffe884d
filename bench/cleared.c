/*
 * An ordinary page table: one word a place, 0 or frame + 1. A start clears all of it and fills the stack of free
 * frames, a release walks its region's words and gives the frames back one by one. Marks may cut a region with
 * resident pages here, since no stacks can overlap; the index is the same.
 */
#include "marks.h"

#define SAY(kind, words, value) ((answer){(kind), (words), (value)})

/* The region's start, or NO_START where the find ended in a lower space. */
static inline found region(const cleared *c, uint32_t lo, uint32_t p)
{
    found f = marks_find(&c->marks, p);
    if (f.start < lo)
        f.start = NO_START;
    return f;
}

static inline uint32_t map(cleared *c, uint32_t p)
{
    uint32_t frame = c->pool[--c->free];
    c->table[p] = frame + 1;
    return frame;
}

static inline uint8_t *bytes_of(const cleared *c, uint32_t frame) { return c->ram + ((size_t)frame << c->shift); }

/* A new frame's bytes become 0, but for n from an offset on, which are stored over. */
static inline void clear_around(const cleared *c, uint32_t frame, size_t offset, size_t n)
{
    size_t size = (size_t)1 << c->shift, end = offset + n;
    if (offset != 0)
        memset(bytes_of(c, frame), 0, offset);
    if (end != size)
        memset(bytes_of(c, frame) + end, 0, size - end);
}

answer cleared_start(cleared *c, uint32_t spaces, uint32_t pages, uint32_t frames, uint32_t page)
{
    c->pages = pages;
    c->frames = c->free = frames;
    c->shift = lowest(page);
    c->places = spaces * pages;
    marks_start(&c->marks, c->places);
    memset(c->table, 0, c->places * sizeof *c->table);
    for (uint32_t f = 0; f < frames; f++)
        c->pool[f] = frames - 1 - f;
    return SAY(CORWYSTAL_DONE, 0, 0);
}

answer cleared_mark(cleared *c, uint32_t space, uint32_t page)
{
    uint32_t p = space * c->pages + page;
    if (marked(&c->marks, p))
        return SAY(CORWYSTAL_START_ALREADY, 0, 0);
    marks_set(&c->marks, p);
    return SAY(CORWYSTAL_DONE, 0, 0);
}

answer cleared_drop(cleared *c, uint32_t space, uint32_t page)
{
    uint32_t p = space * c->pages + page;
    if (!marked(&c->marks, p))
        return SAY(CORWYSTAL_NO_START, 0, 0);
    marks_clear(&c->marks, p);
    return SAY(CORWYSTAL_DONE, 0, 0);
}

answer cleared_touch(cleared *c, uint32_t space, uint32_t page)
{
    uint32_t lo = space * c->pages, p = lo + page;
    if (c->table[p] != 0)
        return SAY(CORWYSTAL_OLD, 0, c->table[p] - 1);
    found f = region(c, lo, p);
    if (f.start == NO_START)
        return SAY(CORWYSTAL_NO_REGION, f.words, 0);
    if (c->free == 0)
        return SAY(CORWYSTAL_NO_FRAME, f.words, 0);
    uint32_t frame = map(c, p);
    memset(bytes_of(c, frame), 0, (size_t)1 << c->shift);
    return SAY(CORWYSTAL_NEW, f.words, frame);
}

answer cleared_look(const cleared *c, uint32_t space, uint32_t page)
{
    uint32_t lo = space * c->pages, p = lo + page;
    if (c->table[p] != 0)
        return SAY(CORWYSTAL_RESIDENT, 0, c->table[p] - 1);
    found f = region(c, lo, p);
    return SAY(f.start == NO_START ? CORWYSTAL_NO_REGION : CORWYSTAL_ABSENT, f.words, 0);
}

answer cleared_release(cleared *c, uint32_t space, uint32_t page)
{
    uint32_t lo = space * c->pages, a = lo + page;
    if (!marked(&c->marks, a))
        return SAY(CORWYSTAL_NO_START, 0, 0);
    uint32_t end = marks_next(&c->marks, a, c->places), before = c->free;
    if (lo + c->pages < end)
        end = lo + c->pages;
    for (uint32_t p = a; p < end; p++)
        if (c->table[p] != 0) {
            c->pool[c->free++] = c->table[p] - 1;
            c->table[p] = 0;
        }
    return SAY(CORWYSTAL_PAGES, 0, c->free - before);
}

/* The refusal of a page that isn't resident. */
static answer absence(const cleared *c, uint32_t lo, uint32_t p)
{
    return SAY(region(c, lo, p).start == NO_START ? CORWYSTAL_NO_REGION : CORWYSTAL_NOT_RESIDENT, 0, 0);
}

answer cleared_give_back(cleared *c, uint32_t space, uint32_t page)
{
    uint32_t lo = space * c->pages, p = lo + page;
    if (c->table[p] == 0)
        return absence(c, lo, p);
    c->pool[c->free++] = c->table[p] - 1;
    c->table[p] = 0;
    return SAY(CORWYSTAL_DONE, 0, 0);
}

answer cleared_translate(const cleared *c, uint32_t space, size_t address)
{
    uint32_t lo = space * c->pages, p = lo + (uint32_t)(address >> c->shift);
    if (c->table[p] == 0)
        return absence(c, lo, p);
    size_t offset = address & (((size_t)1 << c->shift) - 1);
    return SAY(CORWYSTAL_AT, 0, ((size_t)(c->table[p] - 1) << c->shift) + offset);
}

answer cleared_read(const cleared *c, uint32_t space, size_t address, uint8_t *buffer, size_t n)
{
    if (n == 0)
        return SAY(CORWYSTAL_BYTES, 0, 0);
    uint32_t lo = space * c->pages;
    uint32_t first = lo + (uint32_t)(address >> c->shift), last = lo + (uint32_t)((address + n - 1) >> c->shift);
    for (uint32_t p = first; p <= last; p++)
        if (c->table[p] == 0)
            return absence(c, lo, p);
    size_t size = (size_t)1 << c->shift, offset = address & (size - 1), left = n;
    for (uint32_t p = first; p <= last; p++) {
        size_t part = size - offset < left ? size - offset : left;
        memcpy(buffer, bytes_of(c, c->table[p] - 1) + offset, part);
        buffer += part;
        left -= part;
        offset = 0;
    }
    return SAY(CORWYSTAL_BYTES, 0, n);
}

answer cleared_write(cleared *c, uint32_t space, size_t address, const uint8_t *bytes, size_t n)
{
    if (n == 0)
        return SAY(CORWYSTAL_DONE, 0, 0);
    uint32_t lo = space * c->pages, absent = 0;
    uint32_t first = lo + (uint32_t)(address >> c->shift), last = lo + (uint32_t)((address + n - 1) >> c->shift);
    for (uint32_t p = first; p <= last; p++)
        if (c->table[p] == 0) {
            if (region(c, lo, p).start == NO_START)
                return SAY(CORWYSTAL_NO_REGION, 0, 0);
            absent++;
        }
    if (c->free < absent)
        return SAY(CORWYSTAL_NO_FRAME, 0, 0);
    size_t size = (size_t)1 << c->shift, offset = address & (size - 1);
    for (uint32_t p = first; p <= last; p++) {
        size_t part = size - offset < n ? size - offset : n;
        uint32_t frame;
        if (c->table[p] != 0) {
            frame = c->table[p] - 1;
        } else {
            frame = map(c, p);
            clear_around(c, frame, offset, part);
        }
        memcpy(bytes_of(c, frame) + offset, bytes, part);
        bytes += part;
        n -= part;
        offset = 0;
    }
    return SAY(CORWYSTAL_DONE, 0, 0);
}
