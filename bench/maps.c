/*
 * The map file's calls, by the pager and by hand in C with the checks, at sizes from 1 KiB to the largest file:
 *     maps check     each file is read into garbage and written back the same; damaged by chance, all answer alike, a refusal changes nothing, and
 *                    what is accepted is written back the same; how full each space is, all tell alike, of damaged and cut contents too
 *     maps count     the same files once more under callgrind, which collects between the marks only and writes a dump for each case and engine
 */
#include "checked.h"

#include <stdio.h>
#include <stdlib.h>
#include <string.h>
#include <valgrind/callgrind.h>

extern __typeof__(face_write_map) clang_face_write_map;
extern __typeof__(face_read_map) clang_face_read_map;
extern __typeof__(checked_how_full) clang_checked_how_full;

typedef struct maps {
    const char *name;
    answer (*write)(const corwystal_board *, uint8_t *, size_t);
    answer (*read)(corwystal_board *, const uint8_t *, size_t);
    answer (*full)(uint32_t, const uint8_t *, size_t);
} maps;

static const maps engines[] = {
    {"pager", corwystal_board_write_map, corwystal_board_read_map, corwystal_how_full},
    {"checked", face_write_map, face_read_map, checked_how_full},
    {"clang_checked", clang_face_write_map, clang_face_read_map, clang_checked_how_full},
};

enum { ENGINE_COUNT = sizeof engines / sizeof *engines, LARGEST = 3670812 };

/* A state: a start at every so many pages of each space, or none; so many pages resident in each region, as long as there are frames. */
typedef struct shape {
    const char *what;
    uint32_t spaces, pages, frames, every, held;
} shape;

static const shape shapes[] = {
    /* every page a region: 1 KiB, 16 KiB, 256 KiB, and the largest file */
    {"regions", 4, 16, 16, 1, 1},
    {"regions", 64, 16, 256, 1, 1},
    {"regions", 64, 256, 4096, 1, 1},
    {"regions", 64, 4096, 65536, 1, 1},
    /* one region with all frames, its pages in any order, over more and more windows of a reader's set */
    {"pairs", 1, 112, 112, 112, 112},
    {"pairs", 1, 2048, 2048, 2048, 2048},
    {"pairs", 1, 32768, 32768, 32768, 32768},
    {"pairs", 1, 262144, 65536, 262144, 65536},
    /* no region */
    {"pool", 1, 1024, 240, 0, 0},
    {"pool", 1, 1024, 4096, 0, 0},
    {"pool", 1, 1024, 65536, 0, 0},
    /* boards: 8 gauges of 64 pages, 64 of 4,096; half of the frames held */
    {"board", 8, 64, 128, 32, 4},
    {"board", 64, 4096, 65536, 256, 32},
};

enum { SHAPES = sizeof shapes / sizeof *shapes };

static uint64_t state = 1;

static uint32_t draw(uint32_t n)
{
    state = state * 6364136223846793005ull + 1442695040888963407ull;
    return (uint32_t)((state >> 33) % n);
}

static void fail(const char *what, const shape *s, const char *who)
{
    fprintf(stderr, "maps: %s of %u spaces, %u pages, %u frames: %s: %s\n", s->what, s->spaces, s->pages, s->frames, who, what);
    exit(1);
}

/* The numbers below n in any order. */
static void shuffle(uint32_t *numbers, uint32_t n)
{
    for (uint32_t k = 0; k < n; k++)
        numbers[k] = k;
    for (uint32_t k = n; k > 1; k--) {
        uint32_t j = draw(k), old = numbers[k - 1];
        numbers[k - 1] = numbers[j];
        numbers[j] = old;
    }
}

static void put(uint8_t *file, size_t at, uint32_t word)
{
    for (int k = 0; k < 4; k++)
        file[4 * at + k] = (uint8_t)(word >> 8 * k);
}

static uint32_t get(const uint8_t *file, size_t at)
{
    uint32_t word = 0;
    for (int k = 0; k < 4; k++)
        word |= (uint32_t)file[4 * at + k] << 8 * k;
    return word;
}

/* The shape's file, by the format and by no engine; its length in bytes. */
static size_t make(const shape *s, uint8_t *file)
{
    static uint32_t frames[CORWYSTAL_MOST_FRAMES], order[CORWYSTAL_MOST_PLACES];
    const uint32_t head[4] = {s->spaces, s->pages, s->frames, 256};
    size_t at = 3 * (size_t)s->spaces + 7;
    uint32_t used = 0;
    shuffle(frames, s->frames);
    for (size_t k = 0; k < 4; k++)
        put(file, k, head[k]);
    for (size_t space = 0; space <= s->spaces; space++) {
        size_t body = at, before = used;
        if (space == s->spaces)
            for (; used < s->frames; used++)
                put(file, at++, frames[used]);
        else if (s->every != 0)
            for (uint32_t start = 0; start < s->pages; start += s->every) {
                uint32_t length = s->pages - start < s->every ? s->pages - start : s->every;
                uint32_t held = s->held < length ? s->held : length;
                held = s->frames - used < held ? s->frames - used : held;
                put(file, at++, start);
                put(file, at++, length);
                put(file, at++, held);
                shuffle(order, length);
                for (uint32_t k = 0; k < held; k++) {
                    put(file, at++, start + order[k]);
                    put(file, at++, frames[used++]);
                }
            }
        put(file, 3 * space + 4, (uint32_t)body);
        put(file, 3 * space + 5, (uint32_t)(at - body));
        put(file, 3 * space + 6, (uint32_t)(used - before));
    }
    return 4 * at;
}

/* ---- memory */

static uint64_t index_words[CORWYSTAL_INDEX_WORDS(CORWYSTAL_MOST_PLACES)];
static uint32_t count[CORWYSTAL_MOST_PLACES], table[CORWYSTAL_MOST_PLACES], helper[CORWYSTAL_MOST_PLACES], stack[CORWYSTAL_MOST_PLACES],
    cache[CORWYSTAL_MOST_PLACES], frame_link[CORWYSTAL_MOST_FRAMES];
static uint8_t ram[1], file[LARGEST], back[LARGEST + 4], damaged[LARGEST];
static corwystal_board board = CORWYSTAL_BOARD_INIT(index_words, count, table, helper, stack, cache, frame_link, ram);

static void litter(void)
{
    memset(index_words, 0xa5, sizeof index_words);
    memset(count, 0xa5, sizeof count);
    for (size_t k = 0; k < CORWYSTAL_MOST_PLACES; k++)
        table[k] = helper[k] = stack[k] = cache[k] = (uint32_t)k / 2;
    memset(frame_link, 1, sizeof frame_link);
    memset(&board.head, 0, sizeof board.head);
}

static uint64_t sum_of(const void *bytes, size_t n)
{
    const uint32_t *words = bytes;
    uint64_t sum = 1;
    for (size_t k = 0; k < n / 4; k++)
        sum = sum * 0x9E3779B97F4A7C15ull + words[k];
    return sum;
}

/* One number of head, index and tables. */
static uint64_t memory_sum(void)
{
    return sum_of(&board.head, sizeof board.head) + sum_of(index_words, sizeof index_words) + sum_of(count, sizeof count) +
           3 * sum_of(table, sizeof table) + 5 * sum_of(helper, sizeof helper) + 7 * sum_of(stack, sizeof stack) +
           11 * sum_of(cache, sizeof cache) + 13 * sum_of(frame_link, sizeof frame_link);
}

/* ---- held to each other */

static void round_trip(const shape *s, const maps *e, size_t n)
{
    litter();
    if (e->read(&board, file, n).kind != CORWYSTAL_DONE)
        fail("a sound file is refused", s, e->name);
    memset(back, 0x5a, sizeof back);
    if (e->write(&board, back, n - 1).kind != CHECKED_NO_MAP_ROOM || back[0] != 0x5a)
        fail("a buffer a byte short", s, e->name);
    answer a = e->write(&board, back, sizeof back);
    if (a.kind != CHECKED_MAP || a.value != n || memcmp(file, back, n) != 0 || back[n] != 0x5a)
        fail("another file is written", s, e->name);
}

/* All engines tell the same of a space and the one after the last, by so many bytes of a file. */
static void all_full(const shape *s, const uint8_t *bytes, size_t n)
{
    for (uint32_t space = 0; space <= s->spaces; space++)
        for (int i = 1; i < ENGINE_COUNT; i++) {
            answer a = engines[0].full(space, bytes, n), b = engines[i].full(space, bytes, n);
            if (a.kind != b.kind || a.value != b.value || a.words != 0 || b.words != 0)
                fail("another answer of how full a space is than the first engine's", s, engines[i].name);
        }
}

static void by_chance(const shape *s, size_t n, unsigned rounds)
{
    for (unsigned r = 0; r < rounds; r++) {
        memcpy(damaged, file, n);
        for (uint32_t k = draw(2); k < 2; k++) {
            size_t at = draw((uint32_t)(n / 4));
            put(damaged, at, draw(2) == 0 ? draw(8) : get(damaged, at) + draw(3) - 1);
        }
        size_t length = draw(8) == 0 ? draw((uint32_t)n) : n;
        all_full(s, damaged, length);
        all_full(s, damaged, draw((uint32_t)CORWYSTAL_CONTENTS_BYTES(s->spaces) + 2));
        uint32_t kinds[ENGINE_COUNT];
        for (int i = 0; i < ENGINE_COUNT; i++) {
            litter();
            uint64_t before = memory_sum();
            kinds[i] = engines[i].read(&board, damaged, length).kind;
            if (kinds[i] != kinds[0])
                fail("another answer than the first engine's", s, engines[i].name);
            if (kinds[i] < 16 && memory_sum() != before)
                fail("a refusal changed memory", s, engines[i].name);
            if (kinds[i] == CORWYSTAL_DONE && (engines[i].write(&board, back, length).value != length || memcmp(damaged, back, length) != 0))
                fail("another file than the one that was accepted", s, engines[i].name);
        }
    }
}

static void check(void)
{
    unsigned damages = 0;
    size_t least = SIZE_MAX, most = 0;
    for (size_t k = 0; k < SHAPES; k++) {
        size_t n = make(&shapes[k], file);
        unsigned rounds = n < 4096 ? 60 : 3;
        for (int i = 0; i < ENGINE_COUNT; i++)
            round_trip(&shapes[k], &engines[i], n);
        for (uint32_t space = 0; space < shapes[k].spaces; space++)
            if (engines[0].full(space, file, n).value != get(file, 3 * (size_t)space + 6))
                fail("another number of resident pages than the file's", &shapes[k], engines[0].name);
        all_full(&shapes[k], file, CORWYSTAL_CONTENTS_BYTES(shapes[k].spaces));
        all_full(&shapes[k], file, CORWYSTAL_CONTENTS_BYTES(shapes[k].spaces) - 1);
        by_chance(&shapes[k], n, rounds);
        damages += rounds;
        least = n < least ? n : least;
        most = n > most ? n : most;
    }
    printf("maps: %d files of %zu to %zu bytes read and written back, %u damaged by chance: the same answers\n", SHAPES, least, most, damages);
}

/* ---- counted */

static void dump(const char *what, const shape *s, size_t n, const maps *e)
{
    char name[96];
    snprintf(name, sizeof name, "%s map %s/%zu/%s/1", what, s->what, n, e->name);
    CALLGRIND_DUMP_STATS_AT(name);
}

static void count_all(void)
{
    for (size_t k = 0; k < SHAPES; k++) {
        size_t n = make(&shapes[k], file);
        for (int i = 0; i < ENGINE_COUNT; i++) {
            litter();
            CALLGRIND_TOGGLE_COLLECT;
            answer a = engines[i].read(&board, file, n);
            CALLGRIND_TOGGLE_COLLECT;
            dump("read", &shapes[k], n, &engines[i]);
            CALLGRIND_TOGGLE_COLLECT;
            answer b = engines[i].write(&board, back, sizeof back);
            CALLGRIND_TOGGLE_COLLECT;
            dump("write", &shapes[k], n, &engines[i]);
            CALLGRIND_TOGGLE_COLLECT;
            answer c = engines[i].full(shapes[k].spaces - 1, file, CORWYSTAL_CONTENTS_BYTES(shapes[k].spaces));
            CALLGRIND_TOGGLE_COLLECT;
            dump("full", &shapes[k], n, &engines[i]);
            if (a.kind != CORWYSTAL_DONE || b.kind != CHECKED_MAP || b.value != n || c.kind != CORWYSTAL_PAGES)
                fail("refused", &shapes[k], engines[i].name);
        }
    }
}

int main(int argc, char **argv)
{
    if (argc == 2 && strcmp(argv[1], "check") == 0) {
        check();
    } else if (argc == 2 && strcmp(argv[1], "count") == 0) {
        count_all();
    } else {
        fputs("maps check, or maps count\n", stderr);
        return 2;
    }
    return 0;
}
