/*
 * What the checks cost any program: ten calls of the pager written by hand in C with all that document 01 demands of
 * every call (refusals 1 to 3 on any head and any lengths, nothing undefined on any tables), through the same long
 * entrance and over the same head and buffers. Instructions are compared with it, and the times of calls on a resident page.
 */
#include "checked.h"

#include <endian.h>
#include <string.h>

#define SAY(kind, words, value) ((answer){(kind), (words), (value)})
#define LIKELY(x) __builtin_expect(!!(x), 1)

static inline size_t lesser(size_t a, size_t b) { return a < b ? a : b; }

static inline uint32_t highest(uint64_t word) { return 63 - (uint32_t)__builtin_clzll(word); }

static inline size_t index_words(size_t t)
{
    size_t low = (t + 63) / 64, middle = (low + 63) / 64;
    return t <= 64 ? low : t <= 4096 ? low + middle : low + middle + 1;
}

static inline int sizes_ok(const corwystal_head *h)
{
    return h->spaces - 1 < CORWYSTAL_MOST_SPACES && h->pages >= 1 &&
           (uint64_t)h->spaces * h->pages <= CORWYSTAL_MOST_PLACES && h->frames - 1 < CORWYSTAL_MOST_FRAMES &&
           h->page_shift - 8 <= 8;
}

/* The number of the refusal, once a call is known to be refused. */
static __attribute__((noinline, cold)) answer refusal(const corwystal_head *h, uint32_t space, size_t index_len,
                                                      size_t tables, size_t link_len)
{
    size_t t = (size_t)h->spaces * h->pages;
    if (!sizes_ok(h) || index_len < index_words(t) || tables < t || link_len < h->frames)
        return SAY(CORWYSTAL_NO_SIZE, 0, 0);
    return SAY(space >= h->spaces ? CORWYSTAL_NO_SPACE : CORWYSTAL_NO_PAGE, 0, 0);
}

static inline int passes(const corwystal_head *h, uint32_t space, size_t index_len, size_t tables, size_t link_len)
{
    size_t t = (size_t)h->spaces * h->pages;
    return LIKELY(space < h->spaces) && LIKELY(sizes_ok(h)) && LIKELY(t <= tables) && LIKELY(h->frames <= link_len) &&
           LIKELY(index_words(t) <= index_len);
}

/* Whether the page at place p is resident. */
static inline int resident(size_t t, size_t p, const uint32_t *count, const uint32_t *helper, const uint32_t *stack,
                           const uint32_t *cache)
{
    size_t a = cache[p];
    if (a > p)
        return 0;
    size_t j = helper[p];
    return j < count[a] && a + j < t && stack[a + j] == p;
}

typedef struct found {
    size_t start;
    uint32_t words;
} found;

/* The greatest start at most p. A word that should not be 0 and is gives none. */
static __attribute__((noinline)) found find(const uint64_t *index, size_t t, size_t p)
{
    size_t at = p / 64, low = (t + 63) / 64, middle = (low + 63) / 64;
    uint64_t w = index[at] & ~0ull >> (63 - p % 64);
    if (w != 0)
        return (found){at * 64 + highest(w), 1};
    if (t <= 64)
        return (found){SIZE_MAX, 1};
    const uint64_t *above = index + low;
    size_t up = at / 64;
    w = above[up] & ((1ull << (at % 64)) - 1);
    if (w != 0) {
        at = up * 64 + highest(w);
        return (found){index[at] == 0 ? SIZE_MAX : at * 64 + highest(index[at]), 3};
    }
    if (t <= 4096)
        return (found){SIZE_MAX, 2};
    w = above[middle] & ((1ull << up) - 1);
    if (w == 0)
        return (found){SIZE_MAX, 3};
    up = highest(w);
    if (above[up] == 0)
        return (found){SIZE_MAX, 4};
    at = up * 64 + highest(above[up]);
    return (found){at >= low || index[at] == 0 ? SIZE_MAX : at * 64 + highest(index[at]), 5};
}

static inline int marked(const uint64_t *index, size_t p) { return index[p / 64] >> (p % 64) & 1; }

answer checked_mark(const corwystal_head *head, uint32_t space, uint32_t page, uint64_t *index, size_t index_len,
                    const uint32_t *count, size_t count_len)
{
    if (!LIKELY(page < head->pages) || !passes(head, space, index_len, count_len, SIZE_MAX))
        return refusal(head, space, index_len, count_len, SIZE_MAX);
    size_t t = (size_t)head->spaces * head->pages, lo = (size_t)space * head->pages, p = lo + page;
    if (marked(index, p))
        return SAY(CORWYSTAL_START_ALREADY, 0, 0);
    size_t start = find(index, t, p).start;
    if (start >= lo && start <= p && count[start] != 0)
        return SAY(CORWYSTAL_RESIDENT_PAGES, 0, 0);
    /* the bit and, where its word was 0, the bits above it */
    uint64_t *word = index + p / 64, old = *word;
    *word = old | 1ull << (p % 64);
    if (old != 0 || t <= 64)
        return SAY(CORWYSTAL_DONE, 0, 0);
    size_t low = (t + 63) / 64;
    word = index + low + p / 4096;
    old = *word;
    *word = old | 1ull << (p / 64 % 64);
    if (old != 0 || t <= 4096)
        return SAY(CORWYSTAL_DONE, 0, 0);
    index[low + (low + 63) / 64] |= 1ull << (p / 4096);
    return SAY(CORWYSTAL_DONE, 0, 0);
}

answer checked_drop(const corwystal_head *head, uint32_t space, uint32_t page, uint64_t *index, size_t index_len,
                    const uint32_t *count, size_t count_len)
{
    if (!LIKELY(page < head->pages) || !passes(head, space, index_len, count_len, SIZE_MAX))
        return refusal(head, space, index_len, count_len, SIZE_MAX);
    size_t t = (size_t)head->spaces * head->pages, p = (size_t)space * head->pages + page;
    if (!marked(index, p))
        return SAY(CORWYSTAL_NO_START, 0, 0);
    if (count[p] != 0)
        return SAY(CORWYSTAL_RESIDENT_PAGES, 0, 0);
    /* the bit and, where its word is 0 then, the bits above it */
    if ((index[p / 64] &= ~(1ull << (p % 64))) != 0 || t <= 64)
        return SAY(CORWYSTAL_DONE, 0, 0);
    size_t low = (t + 63) / 64;
    if ((index[low + p / 4096] &= ~(1ull << (p / 64 % 64))) != 0 || t <= 4096)
        return SAY(CORWYSTAL_DONE, 0, 0);
    index[low + (low + 63) / 64] &= ~(1ull << (p / 4096));
    return SAY(CORWYSTAL_DONE, 0, 0);
}

/*
 * The page at place p of the region at a gets the pool's first frame, which is the answer's value, or the call is refused.
 * Always inlined: clang would call it, and C by hand would be dearer for it.
 */
static inline __attribute__((always_inline)) answer map_page(corwystal_head *head, size_t t, size_t a, size_t p,
                                                             uint32_t words, uint32_t *count, uint32_t *table,
                                                             uint32_t *helper, uint32_t *stack, uint32_t *cache,
                                                             uint32_t *link)
{
    if (head->many == 0 && head->fresh >= head->frames)
        return SAY(CORWYSTAL_NO_FRAME, words, 0);
    size_t n = count[a], newest = 0;
    if (a + n >= t || (head->many != 0 && head->first >= head->frames))
        return SAY(CORWYSTAL_NOT_OURS, words, 0);
    if (n != 0) {
        size_t q = stack[a + n - 1];
        if (q >= t)
            return SAY(CORWYSTAL_NOT_OURS, words, 0);
        newest = table[q];
    }
    uint32_t frame;
    if (head->many != 0) {
        frame = head->first;
        head->first = link[frame];
        head->many--;
    } else {
        frame = head->fresh++;
    }
    link[frame] = (uint32_t)newest;
    table[p] = frame;
    helper[p] = (uint32_t)n;
    stack[a + n] = (uint32_t)p;
    cache[p] = (uint32_t)a;
    count[a] = (uint32_t)n + 1;
    return SAY(CORWYSTAL_NEW, words, frame);
}

answer checked_touch(corwystal_head *head, uint32_t space, uint32_t page, const uint64_t *index, size_t index_len,
                     uint32_t *count, size_t count_len, uint32_t *table, size_t table_len, uint32_t *helper,
                     size_t helper_len, uint32_t *stack, size_t stack_len, uint32_t *cache, size_t cache_len,
                     uint32_t *link, size_t link_len, uint8_t *ram, size_t ram_len)
{
    size_t tables = lesser(lesser(count_len, table_len), lesser(helper_len, lesser(stack_len, cache_len)));
    /* the frames that link and RAM have room for; a shift beyond its limits is refused whatever they are */
    size_t frames = lesser(link_len, ram_len >> (head->page_shift & 31));
    if (!LIKELY(page < head->pages) || !passes(head, space, index_len, tables, frames))
        return refusal(head, space, index_len, tables, frames);
    size_t t = (size_t)head->spaces * head->pages, lo = (size_t)space * head->pages, p = lo + page;
    if (LIKELY(resident(t, p, count, helper, stack, cache))) {
        uint32_t frame = table[p];
        return LIKELY(frame < head->frames) ? SAY(CORWYSTAL_OLD, 0, frame) : SAY(CORWYSTAL_NOT_OURS, 0, 0);
    }
    found f = find(index, t, p);
    if (f.start < lo || f.start > p)
        return SAY(CORWYSTAL_NO_REGION, f.words, 0);
    answer made = map_page(head, t, f.start, p, f.words, count, table, helper, stack, cache, link);
    if (made.kind == CORWYSTAL_NEW)
        memset(ram + ((size_t)made.value << head->page_shift), 0, (size_t)1 << head->page_shift);
    return made;
}

answer checked_look(const corwystal_head *head, uint32_t space, uint32_t page, const uint64_t *index, size_t index_len,
                    const uint32_t *count, size_t count_len, const uint32_t *table, size_t table_len,
                    const uint32_t *helper, size_t helper_len, const uint32_t *stack, size_t stack_len,
                    const uint32_t *cache, size_t cache_len)
{
    size_t tables = lesser(lesser(count_len, table_len), lesser(helper_len, lesser(stack_len, cache_len)));
    if (!LIKELY(page < head->pages) || !passes(head, space, index_len, tables, SIZE_MAX))
        return refusal(head, space, index_len, tables, SIZE_MAX);
    size_t t = (size_t)head->spaces * head->pages, lo = (size_t)space * head->pages, p = lo + page;
    if (LIKELY(resident(t, p, count, helper, stack, cache))) {
        uint32_t frame = table[p];
        return LIKELY(frame < head->frames) ? SAY(CORWYSTAL_RESIDENT, 0, frame) : SAY(CORWYSTAL_NOT_OURS, 0, 0);
    }
    found f = find(index, t, p);
    return SAY(f.start < lo || f.start > p ? CORWYSTAL_NO_REGION : CORWYSTAL_ABSENT, f.words, 0);
}

answer checked_release(corwystal_head *head, uint32_t space, uint32_t page, const uint64_t *index, size_t index_len,
                       uint32_t *count, size_t count_len, const uint32_t *table, size_t table_len,
                       const uint32_t *stack, size_t stack_len, uint32_t *link, size_t link_len)
{
    size_t tables = lesser(count_len, lesser(table_len, stack_len));
    if (!LIKELY(page < head->pages) || !passes(head, space, index_len, tables, link_len))
        return refusal(head, space, index_len, tables, link_len);
    size_t t = (size_t)head->spaces * head->pages, a = (size_t)space * head->pages + page;
    if (!(index[a / 64] >> (a % 64) & 1))
        return SAY(CORWYSTAL_NO_START, 0, 0);
    size_t n = count[a];
    if (n == 0)
        return SAY(CORWYSTAL_PAGES, 0, 0);
    if (a + n > t)
        return SAY(CORWYSTAL_NOT_OURS, 0, 0);
    size_t bottom = stack[a], top = stack[a + n - 1];
    if (bottom >= t || top >= t)
        return SAY(CORWYSTAL_NOT_OURS, 0, 0);
    uint32_t oldest = table[bottom];
    if (oldest >= head->frames || head->many + n > head->frames)
        return SAY(CORWYSTAL_NOT_OURS, 0, 0);
    uint32_t newest = table[top];
    link[oldest] = head->first;
    count[a] = 0;
    head->first = newest;
    head->many += (uint32_t)n;
    return SAY(CORWYSTAL_PAGES, 0, n);
}

/*
 * The frame goes to the front of the pool; unless the page is the newest itself, the newest takes its position in the list, and
 * the newest's frame in the links, which lead from each page's frame to that of the page before it.
 */
answer checked_give_back(corwystal_head *head, uint32_t space, uint32_t page, const uint64_t *index, size_t index_len,
                         uint32_t *count, size_t count_len, const uint32_t *table, size_t table_len, uint32_t *helper,
                         size_t helper_len, uint32_t *stack, size_t stack_len, const uint32_t *cache, size_t cache_len,
                         uint32_t *link, size_t link_len)
{
    size_t tables = lesser(lesser(count_len, table_len), lesser(helper_len, lesser(stack_len, cache_len)));
    if (!LIKELY(page < head->pages) || !passes(head, space, index_len, tables, link_len))
        return refusal(head, space, index_len, tables, link_len);
    size_t t = (size_t)head->spaces * head->pages, lo = (size_t)space * head->pages, p = lo + page;
    if (!LIKELY(resident(t, p, count, helper, stack, cache))) {
        found f = find(index, t, p);
        return SAY(f.start < lo || f.start > p ? CORWYSTAL_NO_REGION : CORWYSTAL_NOT_RESIDENT, 0, 0);
    }
    uint32_t frame = table[p], frames = head->frames;
    size_t a = cache[p], i = helper[p], n = count[a] - 1;
    if (frame >= frames || head->many >= frames)
        return SAY(CORWYSTAL_NOT_OURS, 0, 0);
    if (i < n) {
        if (a + n >= t)
            return SAY(CORWYSTAL_NOT_OURS, 0, 0);
        size_t newest = stack[a + n], after = stack[a + i + 1];
        if (newest >= t || after >= t)
            return SAY(CORWYSTAL_NOT_OURS, 0, 0);
        uint32_t last = table[newest], next = table[after], before = link[frame];
        if (last >= frames || next >= frames)
            return SAY(CORWYSTAL_NOT_OURS, 0, 0);
        helper[newest] = (uint32_t)i;
        stack[a + i] = (uint32_t)newest;
        link[next] = last;
        link[last] = before; /* in this order: the page after may be the newest */
    }
    count[a] = (uint32_t)n;
    link[frame] = head->first;
    head->first = frame;
    head->many++;
    return SAY(CORWYSTAL_DONE, 0, 0);
}

answer checked_translate(const corwystal_head *head, uint32_t space, size_t address, const uint64_t *index,
                         size_t index_len, const uint32_t *count, size_t count_len, const uint32_t *table,
                         size_t table_len, const uint32_t *helper, size_t helper_len, const uint32_t *stack,
                         size_t stack_len, const uint32_t *cache, size_t cache_len)
{
    size_t tables = lesser(lesser(count_len, table_len), lesser(helper_len, lesser(stack_len, cache_len)));
    if (!passes(head, space, index_len, tables, SIZE_MAX) || !LIKELY(address >> head->page_shift < head->pages))
        return refusal(head, space, index_len, tables, SIZE_MAX);
    size_t t = (size_t)head->spaces * head->pages, lo = (size_t)space * head->pages;
    size_t p = lo + (address >> head->page_shift);
    if (LIKELY(resident(t, p, count, helper, stack, cache))) {
        uint32_t frame = table[p];
        size_t offset = address & (((size_t)1 << head->page_shift) - 1);
        return LIKELY(frame < head->frames) ? SAY(CORWYSTAL_AT, 0, ((size_t)frame << head->page_shift) + offset)
                                            : SAY(CORWYSTAL_NOT_OURS, 0, 0);
    }
    found f = find(index, t, p);
    return SAY(f.start < lo || f.start > p ? CORWYSTAL_NO_REGION : CORWYSTAL_NOT_RESIDENT, 0, 0);
}

/* The same for a write. An empty span up to the end of its space isn't refused, and does nothing. */
static __attribute__((noinline, cold)) answer write_refusal(const corwystal_head *h, uint32_t space, size_t address,
                                                            size_t bytes_len, size_t index_len, size_t tables,
                                                            size_t link_len)
{
    answer no = refusal(h, space, index_len, tables, link_len);
    if (no.kind == CORWYSTAL_NO_PAGE && bytes_len == 0 && address <= (size_t)h->pages << h->page_shift)
        return SAY(CORWYSTAL_DONE, 0, 0);
    return no;
}

/*
 * A write of more than one page, once the checks are made: the absent pages are mapped, then all is stored. While pages of
 * one region are mapped, its count, its newest frame and the pool are kept at hand.
 */
static __attribute__((noinline)) answer write_pages(corwystal_head *head, uint32_t space, size_t address,
                                                    const uint8_t *bytes, size_t bytes_len, const uint64_t *index,
                                                    uint32_t *count, uint32_t *table, uint32_t *helper,
                                                    uint32_t *stack, uint32_t *cache, uint32_t *link, uint8_t *ram)
{
    size_t t = (size_t)head->spaces * head->pages, lo = (size_t)space * head->pages;
    uint32_t frames = head->frames, linked = head->first, many = head->many, fresh = head->fresh, shift = head->page_shift;
    size_t size = (size_t)1 << shift, offset = address & (size - 1), final = address + bytes_len - 1;
    size_t first = lo + (address >> shift), last = lo + (final >> shift), tail = (final & (size - 1)) + 1, a = 0;
    int first_is_new = !resident(t, first, count, helper, stack, cache), last_is_new = 0;
    if (first_is_new) {
        /* pages without a region lie below all starts: if the first has one, all have */
        a = find(index, t, first).start;
        if (a < lo || a > first)
            return SAY(CORWYSTAL_NO_REGION, 0, 0);
    }
    if ((size_t)many + frames < fresh + (last - first + 1)) {
        /* too few frames if all were absent: how many are? */
        size_t absent = 0;
        for (size_t p = first; p <= last; p++)
            absent += !resident(t, p, count, helper, stack, cache);
        if ((size_t)many + frames < fresh + absent)
            return SAY(CORWYSTAL_NO_FRAME, 0, 0);
    }
    /* map what is absent */
    int absent = first_is_new; /* whether page p is */
    size_t p = first, n;
    uint32_t newest;
    while (p <= last) {
        if (!absent) {
            /* the cached start of a resident page is that of its region */
            if (table[p] >= frames)
                goto not_ours;
            last_is_new = 0;
            a = cache[p++];
            absent = p <= last && !resident(t, p, count, helper, stack, cache);
            continue;
        }
        /* a page's region is that of the page before it, unless it is a start */
        if (marked(index, p))
            a = p;
        n = count[a];
        newest = 0;
        if (a + n >= t)
            goto not_ours;
        if (n != 0) {
            size_t q = stack[a + n - 1];
            if (q >= t)
                goto not_ours;
            newest = table[q];
        }
        do {
            uint32_t frame;
            if (many != 0) {
                frame = linked;
                if (frame >= frames)
                    goto no_frame;
                linked = link[frame];
                many--;
            } else {
                frame = fresh;
                if (frame >= frames)
                    goto no_frame;
                fresh++;
            }
            link[frame] = newest;
            newest = frame;
            table[p] = frame;
            helper[p] = (uint32_t)n;
            stack[a + n] = (uint32_t)p;
            cache[p] = (uint32_t)a;
            n++;
            p++;
            absent = p <= last && !resident(t, p, count, helper, stack, cache);
        } while (absent && !marked(index, p) && a + n < t);
        count[a] = (uint32_t)n;
        last_is_new = 1;
    }
    goto store;
no_frame: /* what should be the pool's next frame is none */
    count[a] = (uint32_t)n;
not_ours:
    /* a refusal changes nothing, so where pages are mapped already the write ends before this one */
    if (many == head->many && fresh == head->fresh)
        return SAY(CORWYSTAL_NOT_OURS, 0, 0);
    last = p - 1;
    tail = size;
store:
    head->first = linked;
    head->many = many;
    head->fresh = fresh;
    uint8_t *at = ram + ((size_t)table[first] << shift);
    if (first_is_new && offset != 0)
        memset(at, 0, offset);
    memcpy(at + offset, bytes, size - offset);
    bytes += size - offset;
    for (p = first + 1; p < last; p++, bytes += size)
        memcpy(ram + ((size_t)table[p] << shift), bytes, size);
    if (last == first)
        return SAY(CORWYSTAL_DONE, 0, 0);
    at = ram + ((size_t)table[last] << shift);
    if (last_is_new && tail != size)
        memset(at + tail, 0, size - tail);
    memcpy(at, bytes, tail);
    return SAY(CORWYSTAL_DONE, 0, 0);
}

answer checked_write(corwystal_head *head, uint32_t space, size_t address, const uint8_t *bytes, size_t bytes_len,
                     const uint64_t *index, size_t index_len, uint32_t *count, size_t count_len, uint32_t *table,
                     size_t table_len, uint32_t *helper, size_t helper_len, uint32_t *stack, size_t stack_len,
                     uint32_t *cache, size_t cache_len, uint32_t *link, size_t link_len, uint8_t *ram, size_t ram_len)
{
    size_t tables = lesser(lesser(count_len, table_len), lesser(helper_len, lesser(stack_len, cache_len)));
    /* the frames that link and RAM have room for, and the bytes of a space; a shift beyond its limits is refused whatever they are */
    size_t room = lesser(link_len, ram_len >> (head->page_shift & 31)), whole = (size_t)head->pages << (head->page_shift & 31);
    if (!passes(head, space, index_len, tables, room) || !LIKELY(address < whole) ||
        !LIKELY(bytes_len - 1 < whole - address))
        return write_refusal(head, space, address, bytes_len, index_len, tables, room);
    size_t size = (size_t)1 << head->page_shift, offset = address & (size - 1), end = offset + bytes_len;
    if (end > size)
        return write_pages(head, space, address, bytes, bytes_len, index, count, table, helper, stack, cache, link, ram);
    size_t t = (size_t)head->spaces * head->pages, lo = (size_t)space * head->pages;
    size_t p = lo + (address >> head->page_shift);
    if (LIKELY(resident(t, p, count, helper, stack, cache))) {
        uint32_t frame = table[p];
        if (!LIKELY(frame < head->frames))
            return SAY(CORWYSTAL_NOT_OURS, 0, 0);
        memcpy(ram + ((size_t)frame << head->page_shift) + offset, bytes, bytes_len);
        return SAY(CORWYSTAL_DONE, 0, 0);
    }
    size_t a = find(index, t, p).start;
    if (a < lo || a > p)
        return SAY(CORWYSTAL_NO_REGION, 0, 0);
    answer made = map_page(head, t, a, p, 0, count, table, helper, stack, cache, link);
    if (made.kind != CORWYSTAL_NEW)
        return made;
    uint8_t *at = ram + ((size_t)made.value << head->page_shift);
    if (offset != 0)
        memset(at, 0, offset);
    if (end != size)
        memset(at + end, 0, size - end);
    memcpy(at + offset, bytes, bytes_len);
    return SAY(CORWYSTAL_DONE, 0, 0);
}

/* ---- the map file */

/* Little-endian words at any address. By bytes and shifts gcc makes four stores of each. */
static inline uint32_t word_at(const uint8_t *file, size_t at)
{
    uint32_t word;
    memcpy(&word, file + 4 * at, sizeof word);
    return le32toh(word);
}

static inline void put_word(uint8_t *file, size_t at, uint32_t word)
{
    word = htole32(word);
    memcpy(file + 4 * at, &word, sizeof word);
}

/* Sizes, and three words for each space and for the pool. */
static inline size_t contents_words(size_t spaces) { return 3 * spaces + 7; }

static inline void put_row(uint8_t *file, size_t row, size_t start, size_t length, size_t resident)
{
    put_word(file, 3 * row + 4, (uint32_t)start);
    put_word(file, 3 * row + 5, (uint32_t)length);
    put_word(file, 3 * row + 6, (uint32_t)resident);
}

/* The first start from p on, or the end. */
static inline size_t next_start(const uint64_t *index, size_t p, size_t end)
{
    if (p >= end)
        return end;
    size_t at = p / 64, last = (end - 1) / 64;
    uint64_t w = index[at] & ~0ull << (p % 64);
    while (w == 0) {
        if (at == last)
            return end;
        w = index[++at];
    }
    return lesser(at * 64 + (size_t)__builtin_ctzll(w), end);
}

/* The words of all regions and their pairs, or SIZE_MAX where counts aren't ours: they and the pool must make up all frames. */
static size_t bodies_words(const corwystal_head *head, size_t t, size_t pool, const uint64_t *index, const uint32_t *count)
{
    size_t regions = 0, pairs = 0;
    for (size_t at = 0; at < (t + 63) / 64; at++) {
        uint64_t w = at == t / 64 ? index[at] & ((1ull << (t % 64)) - 1) : index[at];
        for (; w != 0; w &= w - 1, regions++) {
            size_t a = at * 64 + (size_t)__builtin_ctzll(w);
            if (count[a] > t - a)
                return SIZE_MAX;
            pairs += count[a];
        }
    }
    return pairs + pool == head->frames ? 3 * regions + 2 * pairs : SIZE_MAX;
}

/* The body of a space and its row in the contents; where the next body starts. */
static __attribute__((noinline)) size_t put_space(uint8_t *file, size_t at, size_t space, size_t pages, size_t t,
                                                  const uint64_t *index, const uint32_t *count, const uint32_t *table,
                                                  const uint32_t *stack)
{
    size_t lo = space * pages, end = lo + pages, body = at, resident = 0;
    for (size_t a = next_start(index, lo, end), next; a < end; a = next) {
        size_t n = count[a];
        next = next_start(index, a + 1, end);
        put_word(file, at, (uint32_t)(a - lo));
        put_word(file, at + 1, (uint32_t)(next - a));
        put_word(file, at + 2, (uint32_t)n);
        at += 3;
        for (size_t j = 0; j < n; j++, at += 2) {
            size_t p = stack[a + j];
            put_word(file, at, (uint32_t)(p - lo));
            put_word(file, at + 1, LIKELY(p < t) ? table[p] : UINT32_MAX);
        }
        resident += n;
    }
    put_row(file, space, body, at - body, resident);
    return at;
}

/* The linked frames in order, then the fresh ones. */
static __attribute__((noinline)) void put_pool(const corwystal_head *head, const uint32_t *link, uint8_t *file, size_t at)
{
    uint32_t frame = head->first, frames = head->frames;
    for (size_t end = at + head->many; at < end; at++) {
        put_word(file, at, frame);
        if (LIKELY(frame < frames))
            frame = link[frame];
    }
    for (frame = head->fresh; frame < frames; frame++)
        put_word(file, at++, frame);
}

/*
 * The length is known before anything is written. A word of stack, table or link that isn't ours goes into the file as it
 * stands, where reading refuses it.
 */
answer checked_write_map(const corwystal_head *head, const uint64_t *index, size_t index_len, const uint32_t *count,
                         size_t count_len, const uint32_t *table, size_t table_len, const uint32_t *stack,
                         size_t stack_len, const uint32_t *link, size_t link_len, uint8_t *file, size_t file_len)
{
    size_t t = (size_t)head->spaces * head->pages, tables = lesser(count_len, lesser(table_len, stack_len));
    if (!sizes_ok(head) || index_len < index_words(t) || tables < t || link_len < head->frames)
        return SAY(CORWYSTAL_NO_SIZE, 0, 0);
    if (head->fresh > head->frames)
        return SAY(CORWYSTAL_NOT_OURS, 0, 0);
    size_t pages = head->pages, frames = head->frames, pool = (size_t)head->many + (frames - head->fresh);
    size_t bodies = bodies_words(head, t, pool, index, count), at = contents_words(head->spaces);
    if (bodies == SIZE_MAX)
        return SAY(CORWYSTAL_NOT_OURS, 0, 0);
    size_t bytes = 4 * (at + bodies + pool);
    if (file_len < bytes)
        return SAY(CHECKED_NO_MAP_ROOM, 0, 0);
    put_word(file, 0, head->spaces);
    put_word(file, 1, head->pages);
    put_word(file, 2, head->frames);
    put_word(file, 3, 1u << head->page_shift);
    for (size_t space = 0; space < head->spaces; space++)
        at = put_space(file, at, space, pages, t, index, count, table, stack);
    put_row(file, head->spaces, at, pool, pool);
    put_pool(head, link, file, at);
    return SAY(CHECKED_MAP, 0, bytes);
}

/* Whether a number wasn't in the set; it is then. */
static inline int adds(uint64_t *set, size_t n)
{
    uint64_t *word = set + n / 64, bit = 1ull << (n % 64);
    int is_new = (*word & bit) == 0;
    *word |= bit;
    return is_new;
}

/* The same of a place, where only those of one window count. */
static inline int adds_place(uint64_t *seen, size_t window, size_t place)
{
    return place / CHECKED_WINDOW != window || adds(seen, place % CHECKED_WINDOW);
}

/*
 * memset, called whatever the length: of a length that it knows gcc makes the processor's block store, and callgrind counts each
 * of its words as an instruction.
 */
static inline void clear(uint64_t *set, size_t bytes)
{
    __asm__("" : "+r"(bytes));
    memset(set, 0, bytes);
}

/* Whether a file whose contents are whole and whose sizes are within their limits is the map of a sound state. */
static __attribute__((noinline)) int is_sound(const uint8_t *file, size_t words, size_t spaces, size_t pages, size_t frames)
{
    uint64_t held[CORWYSTAL_MOST_FRAMES / 64], seen[CHECKED_WINDOW / 64];
    clear(held, (frames + 63) / 64 * sizeof *held);
    size_t at = contents_words(spaces), pairs = 0, window = SIZE_MAX;
    for (size_t space = 0; space < spaces; space++) {
        size_t lo = space * pages, length = word_at(file, 3 * space + 5), before = pairs;
        if (word_at(file, 3 * space + 4) != at || length > words - at)
            return 0;
        size_t end = at + length;
        while (at < end) {
            if (end - at < 3)
                return 0;
            size_t start = word_at(file, at), many = word_at(file, at + 1), n = word_at(file, at + 2), next = pages;
            at += 3;
            if (n > (end - at) / 2)
                return 0;
            size_t after = at + 2 * n;
            /* each region has a page and ends where the next one starts, so starts ascend */
            if (after < end)
                next = word_at(file, after);
            if (many == 0 || start + many != next || next > pages)
                return 0;
            size_t w = (lo + start) / CHECKED_WINDOW, last = (lo + next - 1) / CHECKED_WINDOW;
            if (w != window)
                clear(seen, sizeof seen);
            for (size_t k = at; k < after; k += 2) {
                size_t page = word_at(file, k), frame = word_at(file, k + 1);
                if (page - start >= many || frame >= frames || !adds(held, frame) || !adds_place(seen, w, lo + page))
                    return 0;
            }
            /* a region over several windows is walked once for each */
            while (w < last) {
                w++;
                clear(seen, sizeof seen);
                for (size_t k = at; k < after; k += 2)
                    if (!adds_place(seen, w, lo + word_at(file, k)))
                        return 0;
            }
            window = w;
            pairs += n;
            at = after;
        }
        if (word_at(file, 3 * space + 6) != pairs - before)
            return 0;
    }
    size_t pool = word_at(file, 3 * spaces + 5);
    if (word_at(file, 3 * spaces + 4) != at || pool != words - at || word_at(file, 3 * spaces + 6) != pool ||
        pairs + pool != frames)
        return 0;
    for (; at < words; at++) {
        size_t frame = word_at(file, at);
        if (frame >= frames || !adds(held, frame))
            return 0;
    }
    return 1;
}

/* The layers above the lowest, which is in its place; all of them are clear. */
static void set_layers(uint64_t *index, size_t t)
{
    size_t low = (t + 63) / 64, middle = (low + 63) / 64;
    if (t <= 64)
        return;
    for (size_t at = 0; at < low; at++)
        index[low + at / 64] |= (uint64_t)(index[at] != 0) << (at % 64);
    if (t <= 4096)
        return;
    for (size_t at = 0; at < middle; at++)
        index[low + middle] |= (uint64_t)(index[low + at] != 0) << at;
}

/* The regions and pairs of one space's body, from word at to end; index and count are clear, and all is known to be sound. */
static __attribute__((noinline)) void fill_space(const uint8_t *file, size_t at, size_t end, size_t lo, uint64_t *index,
                                                 uint32_t *count, uint32_t *table, uint32_t *helper, uint32_t *stack,
                                                 uint32_t *cache, uint32_t *link)
{
    while (at < end) {
        size_t a = lo + word_at(file, at), n = word_at(file, at + 2);
        uint32_t newest = 0;
        index[a / 64] |= 1ull << (a % 64);
        count[a] = (uint32_t)n;
        at += 3;
        for (size_t j = 0; j < n; j++, at += 2) {
            size_t p = lo + word_at(file, at);
            uint32_t frame = word_at(file, at + 1);
            link[frame] = newest;
            newest = frame;
            table[p] = frame;
            helper[p] = (uint32_t)j;
            stack[a + j] = (uint32_t)p;
            cache[p] = (uint32_t)a;
        }
    }
}

/* The pool's frames from word at on, linked in order; the first one, or 0. */
static __attribute__((noinline)) uint32_t fill_pool(const uint8_t *file, size_t at, size_t words, uint32_t *link)
{
    if (at == words)
        return 0;
    uint32_t first = word_at(file, at), last = first;
    while (++at < words) {
        uint32_t next = word_at(file, at);
        link[last] = next;
        last = next;
    }
    return first;
}

/* All is judged before anything is stored. */
answer checked_read_map(corwystal_head *head, const uint8_t *file, size_t file_len, uint64_t *index, size_t index_len,
                        uint32_t *count, size_t count_len, uint32_t *table, size_t table_len, uint32_t *helper,
                        size_t helper_len, uint32_t *stack, size_t stack_len, uint32_t *cache, size_t cache_len,
                        uint32_t *link, size_t link_len)
{
    size_t words = file_len / 4, tables = lesser(lesser(count_len, table_len), lesser(helper_len, lesser(stack_len, cache_len)));
    if (words < contents_words(1))
        return SAY(CHECKED_NO_MAP, 0, 0);
    uint32_t spaces = word_at(file, 0), pages = word_at(file, 1), frames = word_at(file, 2), page = word_at(file, 3);
    corwystal_head made = {spaces, pages, frames, page != 0 ? highest(page) : 0, 0, 0, frames};
    if (!sizes_ok(&made) || page != 1u << made.page_shift || words < contents_words(spaces))
        return SAY(CHECKED_NO_MAP, 0, 0);
    size_t t = (size_t)spaces * pages;
    if (index_len < index_words(t) || tables < t || link_len < frames)
        return SAY(CORWYSTAL_NO_SIZE, 0, 0);
    if (file_len % 4 != 0 || !is_sound(file, words, spaces, pages, frames))
        return SAY(CHECKED_NO_MAP, 0, 0);
    memset(index, 0, index_words(t) * sizeof *index);
    memset(count, 0, t * sizeof *count);
    for (size_t space = 0; space < spaces; space++) {
        size_t at = word_at(file, 3 * space + 4), end = at + word_at(file, 3 * space + 5);
        fill_space(file, at, end, space * pages, index, count, table, helper, stack, cache, link);
    }
    set_layers(index, t);
    made.many = word_at(file, 3 * (size_t)spaces + 5);
    made.first = fill_pool(file, words - made.many, words, link);
    *head = made;
    return SAY(CORWYSTAL_DONE, 0, 0);
}

answer checked_how_full(uint32_t space, const uint8_t *contents, size_t contents_len)
{
    uint32_t spaces = contents_len < 4 ? 0 : word_at(contents, 0);
    if (spaces == 0 || spaces > CORWYSTAL_MOST_SPACES || contents_len < 4 * contents_words(spaces))
        return SAY(CORWYSTAL_NO_SIZE, 0, 0);
    if (space >= spaces)
        return SAY(CORWYSTAL_NO_SPACE, 0, 0);
    return SAY(CORWYSTAL_PAGES, 0, word_at(contents, 3 * (size_t)space + 6));
}
