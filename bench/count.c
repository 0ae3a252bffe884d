/*
 * Instruction counts, (a) to (d): run under callgrind, which collects only between the two marks around an action
 * and writes one dump for each case and engine. Without callgrind it does the same and counts nothing.
 */
#include "driver.h"

#include <stdio.h>
#include <stdlib.h>
#include <string.h>
#include <valgrind/callgrind.h>

enum { PLACES = 262144, FRAMES = 65536, PAGE = 4096 };

/* The sizes of new pages. */
static const size_t new_sizes[] = {256, 4096, 65536};

static uint8_t buffer[1 << 20];

static size_t counted;

#define COUNTED(action)                                                                                                \
    do {                                                                                                               \
        CALLGRIND_TOGGLE_COLLECT;                                                                                      \
        a = (action);                                                                                                  \
        CALLGRIND_TOGGLE_COLLECT;                                                                                      \
        counted++;                                                                                                     \
    } while (0)

/* Ends a case: its name, its size, the engine and how many actions were counted go into the dump. */
static void dump(const engine *e, const char *what, size_t n)
{
    char name[96];
    snprintf(name, sizeof name, "%s/%zu/%s/%zu", what, n, e->name, counted);
    CALLGRIND_DUMP_STATS_AT(name);
    counted = 0;
}

/* One region, of pages of a size; as many frames as the RAM has room for, at most all. */
static void fresh(const engine *e, size_t page)
{
    size_t frames = page <= PAGE ? FRAMES : (size_t)FRAMES * PAGE / page;
    expect(e->start(e->state, 1, PLACES, (uint32_t)frames, (uint32_t)page), CORWYSTAL_DONE, "start");
    expect(e->mark(e->state, 0, 0), CORWYSTAL_DONE, "mark");
}

/* The same with a region of 256 pages, so that a release that walks it is soon done. */
static void fresh_few(const engine *e, size_t page)
{
    fresh(e, page);
    expect(e->mark(e->state, 0, 256), CORWYSTAL_DONE, "mark");
}

/* (a) A region of n pages, all resident, released. The pages are the smallest, since each touch before it clears one. */
static void releases(const engine *e, size_t n, int rounds)
{
    answer a;
    fresh(e, CORWYSTAL_LEAST_PAGE);
    expect(e->mark(e->state, 0, (uint32_t)n), CORWYSTAL_DONE, "mark");
    for (int r = 0; r < rounds; r++) {
        for (size_t p = 0; p < n; p++)
            expect(e->touch(e->state, 0, (uint32_t)p), CORWYSTAL_NEW, "touch");
        COUNTED(e->release(e->state, 0, 0));
        expect(a, CORWYSTAL_PAGES, "release");
    }
    dump(e, "release", n);
}

/* (b) A resident page; an absent one whose region is found after 1, 3 and 5 index words. */
static void touches(const engine *e)
{
    answer a;
    static const uint32_t from[3] = {0, 64, 4096};
    fresh(e, PAGE);
    for (uint32_t p = 0; p < 1024; p++)
        expect(e->touch(e->state, 0, p * 37), CORWYSTAL_NEW, "touch");
    for (uint32_t p = 0; p < 1024; p++) {
        COUNTED(e->touch(e->state, 0, p * 37));
        expect(a, CORWYSTAL_OLD, "touch");
    }
    dump(e, "touch resident", 0);
    for (uint32_t p = 0; p < 1024; p++) {
        COUNTED(e->look(e->state, 0, p * 37));
        expect(a, CORWYSTAL_RESIDENT, "look");
    }
    dump(e, "look resident", 0);
    for (uint32_t l = 0; l < 3; l++) {
        for (int r = 0; r < 16; r++) {
            expect(e->release(e->state, 0, 0), CORWYSTAL_PAGES, "release");
            expect(e->touch(e->state, 0, 63), CORWYSTAL_NEW, "touch");
            for (uint32_t p = 0; p < 63; p++) {
                COUNTED(e->touch(e->state, 0, from[l] + p));
                expect(a, CORWYSTAL_NEW, "touch");
                if (a.words != 2 * l + 1)
                    exit(1);
            }
        }
        dump(e, "touch absent", 2 * l + 1);
        expect(e->release(e->state, 0, 0), CORWYSTAL_PAGES, "release");
        for (uint32_t p = 0; p < 63; p++) {
            COUNTED(e->look(e->state, 0, from[l] + p));
            expect(a, CORWYSTAL_ABSENT, "look");
        }
        dump(e, "look absent", 2 * l + 1);
    }
}

/* (b) Pages of a size, each mapped and cleared; the region's start stands in their index word. The first round's frames were never used. */
static void new_pages(const engine *e, size_t page)
{
    answer a;
    fresh_few(e, page);
    for (int r = 0; r < 5; r++) {
        for (uint32_t p = 0; p < 64; p++) {
            if (r == 0)
                a = e->touch(e->state, 0, p);
            else
                COUNTED(e->touch(e->state, 0, p));
            expect(a, CORWYSTAL_NEW, "touch");
        }
        expect(e->release(e->state, 0, 0), CORWYSTAL_PAGES, "release");
    }
    dump(e, "touch new", page);
}

/* A page that is handed back, by its position in a list of so many. */
enum { LISTED = 64 };

typedef struct handed {
    const char *what;
    uint32_t at;
} handed;

static const handed hand_backs[] = {
    {"give back middle", LISTED / 2}, {"give back neighbour", LISTED - 2}, {"give back newest", LISTED - 1},
};

/* (b) One page handed back and, while nothing is counted, touched again: the list is then as long as before, and the page its newest. */
static void gives_back(const engine *e, const handed *h)
{
    answer a;
    uint32_t list[LISTED]; /* the region's pages, the newest last */
    fresh_few(e, CORWYSTAL_LEAST_PAGE);
    for (uint32_t p = 0; p < LISTED; p++) {
        expect(e->touch(e->state, 0, p), CORWYSTAL_NEW, "touch");
        list[p] = p;
    }
    for (int r = 0; r < 256; r++) {
        uint32_t page = list[h->at];
        COUNTED(e->give_back(e->state, 0, page));
        expect(a, CORWYSTAL_DONE, "give back");
        expect(e->touch(e->state, 0, page), CORWYSTAL_NEW, "touch");
        list[h->at] = list[LISTED - 1];
        list[LISTED - 1] = page;
    }
    dump(e, h->what, 0);
}

/*
 * (b) Marks and drops that change one, two or three index words. Place 0 is a start and its region empty; beside it there is
 * no start but the one that is marked or dropped, 1, 64 or 4,096 places and multiples of that further. So a mark's find reads
 * 1, 3 or 5 words.
 */
static void marks_and_drops(const engine *e)
{
    answer a;
    static const uint32_t apart[3] = {1, 64, 4096};
    fresh(e, PAGE);
    for (uint32_t l = 0; l < 3; l++) {
        for (uint32_t p = apart[l]; p < 64 * apart[l]; p += apart[l]) {
            COUNTED(e->mark(e->state, 0, p));
            expect(a, CORWYSTAL_DONE, "mark");
            expect(e->drop(e->state, 0, p), CORWYSTAL_DONE, "drop");
        }
        dump(e, "mark", l + 1);
        for (uint32_t p = apart[l]; p < 64 * apart[l]; p += apart[l]) {
            expect(e->mark(e->state, 0, p), CORWYSTAL_DONE, "mark");
            COUNTED(e->drop(e->state, 0, p));
            expect(a, CORWYSTAL_DONE, "drop");
        }
        dump(e, "drop", l + 1);
    }
}

/* (c) Resident addresses and spans. */
static void translates(const engine *e)
{
    answer a;
    fresh(e, PAGE);
    expect(e->write(e->state, 0, 0, buffer, sizeof buffer), CORWYSTAL_DONE, "write");
    for (size_t i = 0; i < 256; i++) {
        COUNTED(e->translate(e->state, 0, i * PAGE + i));
        expect(a, CORWYSTAL_AT, "translate");
    }
    dump(e, "translate", 0);
}

static void spans(const engine *e)
{
    answer a;
    static const size_t sizes[] = {1, 16, PAGE, 65536, 1 << 20};
    fresh(e, PAGE);
    expect(e->write(e->state, 0, 0, buffer, sizeof buffer), CORWYSTAL_DONE, "write");
    for (size_t s = 0; s < sizeof sizes / sizeof *sizes; s++) {
        size_t n = sizes[s], spans = sizeof buffer / n < 64 ? sizeof buffer / n : 64;
        for (size_t i = 0; i < spans; i++) {
            COUNTED(e->read(e->state, 0, i * (n < PAGE ? PAGE : n), buffer, n));
            expect(a, CORWYSTAL_BYTES, "read");
        }
        dump(e, "read", n);
        for (size_t i = 0; i < spans; i++) {
            COUNTED(e->write(e->state, 0, i * (n < PAGE ? PAGE : n), buffer, n));
            expect(a, CORWYSTAL_DONE, "write");
        }
        dump(e, "write", n);
    }
}

/* Spans of n bytes from an offset in a page on, whose pages are all new. */
typedef struct new_span {
    const char *what;
    size_t offset, n;
} new_span;

static const new_span new_spans[] = {
    {"write new", 0, 16}, {"write new", 0, 256}, {"write new", 0, PAGE}, {"write new", 0, 65536}, {"write new", 0, 1 << 20},
    {"write new inside", PAGE / 2, 16}, {"write new across", PAGE / 2, PAGE},
};

/* (c) Such spans, written one after another into 64 pages and more, in frames that an earlier release gave back. */
static void writes_of_new(const engine *e, const new_span *s)
{
    answer a;
    size_t step = (s->offset + s->n + PAGE - 1) / PAGE * PAGE;
    fresh_few(e, PAGE);
    expect(e->write(e->state, 0, 0, buffer, sizeof buffer), CORWYSTAL_DONE, "write");
    for (int r = 0; r < 4; r++) {
        expect(e->release(e->state, 0, 0), CORWYSTAL_PAGES, "release");
        for (size_t at = 0; at < 64 * PAGE; at += step) {
            COUNTED(e->write(e->state, 0, at + s->offset, buffer, s->n));
            expect(a, CORWYSTAL_DONE, "write");
        }
    }
    dump(e, s->what, s->n);
}

/* A copy alone, of the same bytes. */
static answer plain_copy(uint8_t *to, const uint8_t *from, size_t n)
{
    memcpy(to, from, n);
    return (answer){CORWYSTAL_DONE, 0, 0};
}

/* A page cleared by memset alone. */
static answer plain_zero(uint8_t *at, size_t n)
{
    memset(at, 0, n);
    return (answer){CORWYSTAL_DONE, 0, 0};
}

/* What a start prepares, cleared by memset alone. */
static answer plain_clear(const corwystal_board *b)
{
    memset(b->index, 0, b->index_len * sizeof *b->index);
    memset(b->count, 0, b->count_len * sizeof *b->count);
    return (answer){CORWYSTAL_DONE, 0, 0};
}

int main(void)
{
    engine e[ALL];
    engines_make(e, PLACES, FRAMES, (size_t)FRAMES * PAGE);
    for (int i = 0; i < ALL; i++) {
        static const size_t pages[] = {1, 16, 256, 4096, 65536};
        answer a;
        for (size_t k = 0; k < sizeof pages / sizeof *pages; k++)
            releases(&e[i], pages[k], pages[k] < 4096 ? 16 : 3);
        touches(&e[i]);
        for (size_t k = 0; k < sizeof new_sizes / sizeof *new_sizes; k++)
            new_pages(&e[i], new_sizes[k]);
        for (size_t k = 0; k < sizeof hand_backs / sizeof *hand_backs; k++)
            gives_back(&e[i], &hand_backs[k]);
        marks_and_drops(&e[i]);
        translates(&e[i]);
        for (size_t k = 0; k < sizeof new_spans / sizeof *new_spans; k++)
            writes_of_new(&e[i], &new_spans[k]);
        if (i == CHECKED || i == CLANG_CHECKED)
            continue; /* reads and starts are the pager's, and writes of resident pages are held against C without checks */
        spans(&e[i]);
        for (int r = 0; r < 3; r++) {
            COUNTED(e[i].start(e[i].state, 1, PLACES, FRAMES, PAGE));
            expect(a, CORWYSTAL_DONE, "start");
        }
        dump(&e[i], "start", 0);
    }
    answer a;
    answer (*volatile copy)(uint8_t *, const uint8_t *, size_t) = plain_copy;
    answer (*volatile clear)(const corwystal_board *) = plain_clear;
    answer (*volatile zero)(uint8_t *, size_t) = plain_zero;
    engine plain = {.name = "plain"};
    static const size_t sizes[] = {1, 16, PAGE, 65536, 1 << 20};
    for (size_t s = 0; s < sizeof sizes / sizeof *sizes; s++) {
        COUNTED(copy(buffer, e[PAGER].ram, sizes[s]));
        expect(a, CORWYSTAL_DONE, "copy");
        dump(&plain, "read", sizes[s]);
        COUNTED(copy(e[PAGER].ram, buffer, sizes[s]));
        expect(a, CORWYSTAL_DONE, "copy");
        dump(&plain, "write", sizes[s]);
    }
    for (size_t k = 0; k < sizeof new_sizes / sizeof *new_sizes; k++) {
        COUNTED(zero(e[PAGER].ram, new_sizes[k]));
        expect(a, CORWYSTAL_DONE, "clearing");
        dump(&plain, "touch new", new_sizes[k]);
    }
    COUNTED(clear(e[PAGER].state));
    dump(&plain, "start", 0);
    expect(a, CORWYSTAL_DONE, "start");
    engines_free(e);
    return 0;
}
