/*
 * The pager's method, written by hand: region marks in an index, a page is resident if cached start, helper and
 * stack agree, a release is one splice. It decides what the method needs to have decided and checks nothing else.
 */
#include "marks.h"

#define SAY(kind, words, value) ((answer){(kind), (words), (value)})

/* A start after the page and an entry above its region's count are what tables hold that nobody cleared. */
static inline int resident(const method *m, uint32_t p)
{
    uint32_t a = m->cache[p], j = m->helper[p];
    return a <= p && j < m->count[a] && m->stack[a + j] == p;
}

/* The region's start, or NO_START where the find ended in a lower space. */
static inline found region(const method *m, uint32_t lo, uint32_t p)
{
    found f = marks_find(&m->marks, p);
    if (f.start < lo)
        f.start = NO_START;
    return f;
}

/* The pool's first frame goes to page p of the region at a. */
static inline uint32_t map(method *m, uint32_t a, uint32_t p)
{
    uint32_t frame, n = m->count[a];
    if (m->many != 0) {
        frame = m->first;
        m->first = m->link[frame];
        m->many--;
    } else {
        frame = m->fresh++;
    }
    if (n != 0)
        m->link[frame] = m->table[m->stack[a + n - 1]];
    m->table[p] = frame;
    m->helper[p] = n;
    m->stack[a + n] = p;
    m->cache[p] = a;
    m->count[a] = n + 1;
    return frame;
}

static inline uint8_t *bytes_of(const method *m, uint32_t frame) { return m->ram + ((size_t)frame << m->shift); }

/* A new frame's bytes become 0, but for n from an offset on, which are stored over. */
static inline void clear_around(const method *m, uint32_t frame, size_t offset, size_t n)
{
    size_t size = (size_t)1 << m->shift, end = offset + n;
    if (offset != 0)
        memset(bytes_of(m, frame), 0, offset);
    if (end != size)
        memset(bytes_of(m, frame) + end, 0, size - end);
}

static inline uint32_t pool(const method *m) { return m->many + (m->frames - m->fresh); }

answer method_start(method *m, uint32_t spaces, uint32_t pages, uint32_t frames, uint32_t page)
{
    m->pages = pages;
    m->frames = frames;
    m->shift = lowest(page);
    m->first = m->many = m->fresh = 0;
    m->places = spaces * pages;
    marks_start(&m->marks, m->places);
    memset(m->count, 0, m->places * sizeof *m->count);
    return SAY(CORWYSTAL_DONE, 0, 0);
}

answer method_mark(method *m, uint32_t space, uint32_t page)
{
    uint32_t lo = space * m->pages, p = lo + page;
    if (marked(&m->marks, p))
        return SAY(CORWYSTAL_START_ALREADY, 0, 0);
    found f = region(m, lo, p);
    if (f.start != NO_START && m->count[f.start] != 0)
        return SAY(CORWYSTAL_RESIDENT_PAGES, 0, 0);
    marks_set(&m->marks, p);
    return SAY(CORWYSTAL_DONE, 0, 0);
}

answer method_drop(method *m, uint32_t space, uint32_t page)
{
    uint32_t p = space * m->pages + page;
    if (!marked(&m->marks, p))
        return SAY(CORWYSTAL_NO_START, 0, 0);
    if (m->count[p] != 0)
        return SAY(CORWYSTAL_RESIDENT_PAGES, 0, 0);
    marks_clear(&m->marks, p);
    return SAY(CORWYSTAL_DONE, 0, 0);
}

answer method_touch(method *m, uint32_t space, uint32_t page)
{
    uint32_t lo = space * m->pages, p = lo + page;
    if (resident(m, p))
        return SAY(CORWYSTAL_OLD, 0, m->table[p]);
    found f = region(m, lo, p);
    if (f.start == NO_START)
        return SAY(CORWYSTAL_NO_REGION, f.words, 0);
    if (pool(m) == 0)
        return SAY(CORWYSTAL_NO_FRAME, f.words, 0);
    uint32_t frame = map(m, f.start, p);
    memset(bytes_of(m, frame), 0, (size_t)1 << m->shift);
    return SAY(CORWYSTAL_NEW, f.words, frame);
}

answer method_look(const method *m, uint32_t space, uint32_t page)
{
    uint32_t lo = space * m->pages, p = lo + page;
    if (resident(m, p))
        return SAY(CORWYSTAL_RESIDENT, 0, m->table[p]);
    found f = region(m, lo, p);
    return SAY(f.start == NO_START ? CORWYSTAL_NO_REGION : CORWYSTAL_ABSENT, f.words, 0);
}

answer method_release(method *m, uint32_t space, uint32_t page)
{
    uint32_t a = space * m->pages + page;
    if (!marked(&m->marks, a))
        return SAY(CORWYSTAL_NO_START, 0, 0);
    uint32_t n = m->count[a];
    if (n != 0) {
        uint32_t oldest = m->table[m->stack[a]], newest = m->table[m->stack[a + n - 1]];
        m->link[oldest] = m->first;
        m->first = newest;
        m->many += n;
        m->count[a] = 0;
    }
    return SAY(CORWYSTAL_PAGES, 0, n);
}

/* The refusal of a page that isn't resident. */
static answer absence(const method *m, uint32_t lo, uint32_t p)
{
    return SAY(region(m, lo, p).start == NO_START ? CORWYSTAL_NO_REGION : CORWYSTAL_NOT_RESIDENT, 0, 0);
}

/* The newest page takes the position of the one that is handed back, and its frame the place in the links. */
answer method_give_back(method *m, uint32_t space, uint32_t page)
{
    uint32_t lo = space * m->pages, p = lo + page;
    if (!resident(m, p))
        return absence(m, lo, p);
    uint32_t frame = m->table[p], a = m->cache[p], i = m->helper[p], n = m->count[a] - 1;
    if (i < n) {
        uint32_t newest = m->stack[a + n], last = m->table[newest];
        uint32_t next = m->table[m->stack[a + i + 1]], before = m->link[frame];
        m->helper[newest] = i;
        m->stack[a + i] = newest;
        m->link[next] = last;
        m->link[last] = before; /* in this order: the page after may be the newest */
    }
    m->count[a] = n;
    m->link[frame] = m->first;
    m->first = frame;
    m->many++;
    return SAY(CORWYSTAL_DONE, 0, 0);
}

answer method_translate(const method *m, uint32_t space, size_t address)
{
    uint32_t lo = space * m->pages, p = lo + (uint32_t)(address >> m->shift);
    if (!resident(m, p))
        return absence(m, lo, p);
    size_t offset = address & (((size_t)1 << m->shift) - 1);
    return SAY(CORWYSTAL_AT, 0, ((size_t)m->table[p] << m->shift) + offset);
}

answer method_read(const method *m, uint32_t space, size_t address, uint8_t *buffer, size_t n)
{
    if (n == 0)
        return SAY(CORWYSTAL_BYTES, 0, 0);
    uint32_t lo = space * m->pages;
    uint32_t first = lo + (uint32_t)(address >> m->shift), last = lo + (uint32_t)((address + n - 1) >> m->shift);
    for (uint32_t p = first; p <= last; p++)
        if (!resident(m, p))
            return absence(m, lo, p);
    size_t size = (size_t)1 << m->shift, offset = address & (size - 1), left = n;
    for (uint32_t p = first; p <= last; p++) {
        size_t part = size - offset < left ? size - offset : left;
        memcpy(buffer, bytes_of(m, m->table[p]) + offset, part);
        buffer += part;
        left -= part;
        offset = 0;
    }
    return SAY(CORWYSTAL_BYTES, 0, n);
}

answer method_write(method *m, uint32_t space, size_t address, const uint8_t *bytes, size_t n)
{
    if (n == 0)
        return SAY(CORWYSTAL_DONE, 0, 0);
    uint32_t lo = space * m->pages, absent = 0;
    uint32_t first = lo + (uint32_t)(address >> m->shift), last = lo + (uint32_t)((address + n - 1) >> m->shift);
    for (uint32_t p = first; p <= last; p++)
        if (!resident(m, p)) {
            if (region(m, lo, p).start == NO_START)
                return SAY(CORWYSTAL_NO_REGION, 0, 0);
            absent++;
        }
    if (pool(m) < absent)
        return SAY(CORWYSTAL_NO_FRAME, 0, 0);
    size_t size = (size_t)1 << m->shift, offset = address & (size - 1);
    for (uint32_t p = first; p <= last; p++) {
        size_t part = size - offset < n ? size - offset : n;
        uint32_t frame;
        if (absent == 0 || resident(m, p)) {
            frame = m->table[p];
        } else {
            frame = map(m, region(m, lo, p).start, p);
            clear_around(m, frame, offset, part);
        }
        memcpy(bytes_of(m, frame) + offset, bytes, part);
        bytes += part;
        n -= part;
        offset = 0;
    }
    return SAY(CORWYSTAL_DONE, 0, 0);
}
