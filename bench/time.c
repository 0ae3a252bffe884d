/*
 * Times of (b), (c) and (d): each engine in turn, many rounds, so that all meet the same machine. Of one span again and
 * again the least counts, without what only some rounds met; of spans in turn the median, since their caches differ.
 * One line a case: what, page size, bytes, where the page comes from ("same": one span again and again; "spread": spans
 * of 8 MiB in turn), engine, ticks. New pages are mapped while the clock runs and given back while it doesn't.
 */
#include "clock.h"
#include "driver.h"

#include <stdio.h>
#include <stdlib.h>
#include <string.h>

/*
 * The spans' and the starts' last engine is a copy or a clearing alone, after which new pages have a memset of all of them;
 * the calls on a page are made by all that are written.
 */
enum { PLACES = 262144, FRAMES = 65536, SPREAD = 8 << 20, PLAIN = ENGINES, ZERO };

static uint8_t *buffer, *plain_ram, *zero_ram, *plain_tables;

static engine e[ALL];

static uint64_t empty;

/* A read or a write by an engine, or a copy alone: the kind of its answer. */
static inline uint32_t span(int engine, int writes, size_t address, size_t n)
{
    if (engine == PLAIN) {
        memcpy(writes ? plain_ram + address : buffer, writes ? buffer : plain_ram + address, n);
        return writes ? CORWYSTAL_DONE : CORWYSTAL_BYTES;
    }
    return writes ? e[engine].write(e[engine].state, 0, address, buffer, n).kind
                  : e[engine].read(e[engine].state, 0, address, buffer, n).kind;
}

/* Timed calls gather the bits in which their answers' kinds differ from what they should be; they are looked at when the clock has stopped. */
static void none_differs(uint32_t differs, const char *what)
{
    if (differs != 0) {
        fprintf(stderr, "%s: an answer of another kind while it was timed; bench/check says which engine is wrong\n", what);
        exit(1);
    }
}

enum { ROUNDS = 4000 };

static uint64_t ticks[ALL][ROUNDS];

static int by_size(const void *a, const void *b)
{
    uint64_t x = *(const uint64_t *)a, y = *(const uint64_t *)b;
    return x < y ? -1 : x > y;
}

static double typical(int engine, size_t rounds, int spread)
{
    qsort(ticks[engine], rounds, sizeof ticks[engine][0], by_size);
    return (double)ticks[engine][spread ? rounds / 2 : 0];
}

static const char *name_of(int engine) { return engine == ZERO ? "zero" : engine == PLAIN ? "plain" : e[engine].name; }

static void spans(size_t page, size_t n, int writes, int spread)
{
    size_t step = n < page ? page : n, rounds = n >= 1 << 20 ? 300 : n >= 65536 ? 2000 : ROUNDS;
    size_t calls = n >= 65536 ? 1 : 16; /* in one reading of the clock */
    uint32_t kind = writes ? CORWYSTAL_DONE : CORWYSTAL_BYTES;
    for (size_t r = 0; r < rounds; r++)
        for (int i = 0; i <= PLAIN; i++) {
            uint32_t differs = 0;
            size_t at = spread ? r * calls * step % SPREAD : 0;
            uint64_t from = clock_begin();
            for (size_t k = 0; k < calls; k++) {
                differs |= span(i, writes, at, n) ^ kind;
                at = spread ? (at + step) % SPREAD : 0;
            }
            ticks[i][r] = clock_end() - from - empty;
            none_differs(differs, writes ? "write" : "read");
        }
    for (int i = 0; i <= PLAIN; i++)
        printf("%s %zu %zu %s %s %.2f\n", writes ? "write" : "read", page, n, spread ? "spread" : "same", name_of(i),
               typical(i, rounds, spread) / (double)calls);
}

/* New pages from an address on: where n is 0 one is touched, else n bytes are written from an offset on; or memset and memcpy alone do the same. */
static inline uint32_t new_span(int engine, size_t page, size_t at, size_t offset, size_t n)
{
    if (engine < ENGINES)
        return n == 0 ? e[engine].touch(e[engine].state, 0, (uint32_t)(at / page)).kind
                      : e[engine].write(e[engine].state, 0, at + offset, buffer, n).kind;
    size_t end = offset + n, rest = n == 0 ? page : (page - end % page) % page;
    if (engine == ZERO) {
        memset(zero_ram + at, 0, end + rest);
        return n == 0 ? CORWYSTAL_NEW : CORWYSTAL_DONE;
    }
    if (offset != 0)
        memset(plain_ram + at, 0, offset);
    if (n != 0)
        memcpy(plain_ram + at + offset, buffer, n);
    if (rest != 0)
        memset(plain_ram + at + end, 0, rest);
    return n == 0 ? CORWYSTAL_NEW : CORWYSTAL_DONE;
}

/*
 * New pages: frames of 64 KiB, at least one, again and again, or those of 8 MiB in turn. They are given back while no clock runs, and
 * come newest first then, so memset and memcpy alone go downward in every second turn too. Their region has no other pages, so that
 * the cleared table's walk doesn't fill the caches.
 */
static void new_spans(const char *what, size_t page, size_t offset, size_t n, int spread)
{
    size_t step = n == 0 ? page : (offset + n + page - 1) / page * page;
    size_t calls = step >= 65536 ? 1 : 65536 / step, rounds = step >= 1 << 20 ? 300 : 2000;
    uint32_t kind = n == 0 ? CORWYSTAL_NEW : CORWYSTAL_DONE, end = (uint32_t)((spread ? SPREAD : calls * step) / page);
    for (int i = 0; i < ENGINES; i++)
        expect(e[i].mark(e[i].state, 0, end), CORWYSTAL_DONE, "mark");
    for (size_t r = 0; r < rounds; r++)
        for (int i = 0; i <= ZERO; i++) {
            uint32_t differs = 0;
            size_t at = spread ? r * calls * step % SPREAD : 0, by = step;
            if (i < ENGINES && at == 0)
                expect(e[i].release(e[i].state, 0, 0), CORWYSTAL_PAGES, "release");
            if (i >= ENGINES && spread && r * calls * step / SPREAD % 2 == 1) {
                at = SPREAD - step - at;
                by = -step;
            }
            uint64_t from = clock_begin();
            for (size_t k = 0; k < calls; k++, at += by)
                differs |= new_span(i, page, at, offset, n) ^ kind;
            ticks[i][r] = clock_end() - from - empty;
            none_differs(differs, what);
        }
    for (int i = 0; i <= ZERO; i++)
        printf("%s %zu %zu %s %s %.2f\n", what, page, n, spread ? "spread" : "same", name_of(i),
               typical(i, rounds, spread) / (double)calls);
    for (int i = 0; i < ENGINES; i++) {
        expect(e[i].release(e[i].state, 0, 0), CORWYSTAL_PAGES, "release");
        expect(e[i].drop(e[i].state, 0, end), CORWYSTAL_DONE, "drop");
    }
}

static void all_new_spans(size_t page)
{
    static const size_t sizes[] = {16, 256, 4096, 65536, 1 << 20};
    for (int spread = 0; spread < 2; spread++) {
        new_spans("touch-new", page, 0, 0, spread);
        if (page != 4096)
            continue;
        for (size_t s = 0; s < sizeof sizes / sizeof *sizes; s++)
            new_spans("write-new", page, 0, sizes[s], spread);
        new_spans("write-new-inside", page, page / 2, 16, spread);
        new_spans("write-new-across", page, page / 2, page, spread);
    }
}

enum { TOUCH, LOOK, TRANSLATE };

/* Calls on one resident page, or on the pages of 8 MiB in turn. */
static void calls_on(int call, int spread)
{
    enum { CALLS = 64 };
    static const char *const names[] = {"touch", "look", "translate"};
    for (uint32_t r = 0; r < ROUNDS; r++)
        for (int i = 0; i < ALL; i++) {
            uint32_t page = spread ? r * CALLS : 0, differs = 0;
            uint64_t from = clock_begin();
            for (int k = 0; k < CALLS; k++) {
                page = spread ? (page + 1) % (SPREAD / 4096) : 0;
                if (call == TOUCH)
                    differs |= e[i].touch(e[i].state, 0, page).kind ^ CORWYSTAL_OLD;
                else if (call == LOOK)
                    differs |= e[i].look(e[i].state, 0, page).kind ^ CORWYSTAL_RESIDENT;
                else
                    differs |= e[i].translate(e[i].state, 0, (size_t)page * 4096 + 5).kind ^ CORWYSTAL_AT;
            }
            ticks[i][r] = clock_end() - from - empty;
            none_differs(differs, names[call]);
        }
    for (int i = 0; i < ALL; i++)
        printf("%s 4096 0 %s %s %.2f\n", names[call], spread ? "spread" : "same", e[i].name,
               typical(i, ROUNDS, spread) / CALLS);
}

/* (d) A start at full size, against memset over what it prepares. */
static void starts(void)
{
    size_t index = CORWYSTAL_INDEX_WORDS(PLACES) * sizeof(uint64_t), count = PLACES * sizeof(uint32_t);
    enum { STARTS = 400 };
    for (int r = 0; r < STARTS; r++)
        for (int i = 0; i <= PLAIN; i++) {
            answer a = {CORWYSTAL_DONE, 0, 0};
            uint64_t from = clock_begin();
            if (i == PLAIN) {
                memset(plain_tables, 0, index);
                memset(plain_tables + (1 << 20), 0, count);
            } else {
                a = e[i].start(e[i].state, 1, PLACES, FRAMES, 4096);
            }
            ticks[i][r] = clock_end() - from - empty;
            expect(a, CORWYSTAL_DONE, "start");
        }
    for (int i = 0; i <= PLAIN; i++)
        printf("start 4096 %zu same %s %.2f\n", index + count, name_of(i), typical(i, STARTS, 0));
}

/* Every engine with pages of this size, one region and no page of it resident. */
static void begin(size_t page, size_t ram)
{
    size_t frames = ram / page < FRAMES ? ram / page : FRAMES;
    for (int i = 0; i < ENGINES; i++) {
        expect(e[i].start(e[i].state, 1, PLACES, (uint32_t)frames, (uint32_t)page), CORWYSTAL_DONE, "start");
        expect(e[i].mark(e[i].state, 0, 0), CORWYSTAL_DONE, "mark");
    }
}

int main(void)
{
    static const size_t pages[] = {256, 4096, 65536}, sizes[] = {1, 16, 0, 65536, 1 << 20};
    size_t ram = (size_t)FRAMES * 4096;
    engines_make(e, PLACES, FRAMES, ram);
    buffer = aligned_alloc(4096, 1 << 20);
    plain_ram = aligned_alloc(4096, SPREAD + (1 << 20));
    zero_ram = aligned_alloc(4096, SPREAD + (1 << 20));
    plain_tables = aligned_alloc(4096, 2 << 20);
    memset(buffer, 1, 1 << 20);
    memset(plain_ram, 2, SPREAD + (1 << 20));
    memset(zero_ram, 2, SPREAD + (1 << 20));
    memset(plain_tables, 3, 2 << 20);
    empty = clock_cost();
    printf("ticks-per-microsecond %.3f\n", clock_rate());
    starts();
    for (size_t p = 0; p < sizeof pages / sizeof *pages; p++) {
        begin(pages[p], ram);
        for (int i = 0; i < ENGINES; i++)
            for (size_t at = 0; at < SPREAD + (1 << 20); at += 1 << 20)
                expect(e[i].write(e[i].state, 0, at, buffer, 1 << 20), CORWYSTAL_DONE, "write");
        for (int call = TOUCH; pages[p] == 4096 && call <= TRANSLATE; call++)
            for (int spread = 0; spread < 2; spread++)
                calls_on(call, spread);
        for (size_t s = 0; s < sizeof sizes / sizeof *sizes; s++)
            for (int writes = 0; writes < 2; writes++)
                for (int spread = 0; spread < 2; spread++)
                    spans(pages[p], sizes[s] == 0 ? pages[p] : sizes[s], writes, spread);
        /* last: they leave the frames in another order, in which memory is slower than in that of the copy alone */
        begin(pages[p], ram);
        all_new_spans(pages[p]);
    }
    free(buffer);
    free(plain_ram);
    free(zero_ram);
    free(plain_tables);
    engines_free(e);
    return 0;
}
