/*
 * (e) The source paper's synthetic workload: a million actions by chance, 10 % allocations, 10 % releases, 40 % reads
 * and 40 % writes, drawn once from a fixed seed and played alike to every engine. A thousand more before them fill
 * the caches and are not measured.
 *     workload check        every answer of the engines compared
 *     workload time FILE    every action timed, the least of many runs; one line an action: engine kind pages ticks
 *     workload count FILE   under callgrind: instructions by kind, and of the slowest action of each kind (from FILE)
 *     workload some NUMBER  under callgrind: instructions by kind of so many actions, the first ones
 */
#include "clock.h"
#include "driver.h"

#include <stdio.h>
#include <stdlib.h>
#include <string.h>
#include <valgrind/callgrind.h>

enum { PLACES = 262144, FRAMES = 65536, PAGE = 4096, WARM = 1000, ACTIONS = WARM + 1000000, RUNS = 15 };

enum { ALLOCATE, RELEASE, READ, WRITE, KINDS };

static const char *const kind_names[KINDS] = {"allocation", "release", "read", "write"};

/* One action: the region's start and pages, or the access's page; what else there is to do. */
typedef struct action {
    uint8_t kind;
    uint8_t splits;                /* an allocation leaves a rest that becomes a region of its own */
    uint8_t joins_next, joins_last; /* a release's region is joined with a free one after or before it */
    uint32_t page, pages;
    uint32_t next;   /* the start that follows the region */
    uint32_t offset; /* of an access in its page */
} action;

static action actions[ACTIONS];

static uint64_t seed = 20150914;

static uint32_t draw(uint32_t below)
{
    seed = seed * 6364136223846793005ull + 1442695040888963407ull;
    return (uint32_t)((seed >> 33) * below >> 31);
}

/* ---- the blocks of the address space, as a plain first-fit allocator above the pager keeps them */

static uint32_t length[PLACES], last[PLACES]; /* by start: a block's pages, and the start before it */
static uint8_t live[PLACES];
static uint32_t lives[PLACES], place_of[PLACES], living; /* the live blocks, and where in that list each is */

/* One to 4,095 pages, each power of two as often as any other. */
static uint32_t draw_pages(void)
{
    uint32_t bits = draw(12);
    return (1u << bits) + draw(1u << bits);
}

static int draw_allocation(action *a)
{
    uint32_t want = draw_pages(), b = 0;
    while (b < PLACES && (live[b] || length[b] < want))
        b += length[b];
    if (b >= PLACES)
        return 0;
    uint32_t rest = length[b] - want;
    *a = (action){ALLOCATE, rest != 0, 0, 0, b, want, b + want, 0};
    if (rest != 0) {
        uint32_t after = b + length[b];
        length[b + want] = rest;
        last[b + want] = b;
        if (after < PLACES)
            last[after] = b + want;
    }
    length[b] = want;
    live[b] = 1;
    place_of[b] = living;
    lives[living++] = b;
    return 1;
}

static int draw_release(action *a)
{
    if (living == 0)
        return 0;
    uint32_t b = lives[draw(living)], next = b + length[b];
    *a = (action){RELEASE, 0, next < PLACES && !live[next], b > 0 && !live[last[b]], b, length[b], next, 0};
    live[b] = 0;
    lives[place_of[b]] = lives[--living];
    place_of[lives[place_of[b]]] = place_of[b];
    if (a->joins_next)
        length[b] += length[next];
    if (a->joins_last)
        length[last[b]] += length[b];
    uint32_t joined = a->joins_last ? last[b] : b, after = joined + length[joined];
    if (after < PLACES)
        last[after] = joined;
    return 1;
}

static int draw_access(action *a, uint8_t kind)
{
    if (living == 0)
        return 0;
    uint32_t b = lives[draw(living)];
    *a = (action){kind, 0, 0, 0, b + draw(length[b]), 0, 0, draw(PAGE / 4) * 4};
    return 1;
}

/* An action that can't be had (nothing to release, no room) becomes its opposite. */
static void draw_all(size_t end)
{
    length[0] = PLACES;
    for (size_t i = 0; i < end; i++) {
        uint32_t which = draw(10);
        if (which == 0 || (which > 1 && living == 0)) {
            if (!draw_allocation(&actions[i]))
                draw_release(&actions[i]);
        } else if (which == 1) {
            if (!draw_release(&actions[i]))
                draw_allocation(&actions[i]);
        } else {
            draw_access(&actions[i], which < 6 ? READ : WRITE);
        }
    }
}

/* ---- the actions as calls */

/* The rest behind the region becomes a region, and the first page is touched, where the paper's allocator keeps its tag. */
static __attribute__((noipa)) answer allocation(const engine *e, const action *a)
{
    if (a->splits) {
        answer r = e->mark(e->state, 0, a->next);
        if (corwystal_refused(r))
            return r;
    }
    return e->touch(e->state, 0, a->page);
}

/* All pages at once; then the region is joined with its free neighbours. */
static __attribute__((noipa)) answer release(const engine *e, const action *a)
{
    answer r = e->release(e->state, 0, a->page), joined = r;
    if (a->joins_next)
        joined = e->drop(e->state, 0, a->next);
    if (a->joins_last && !corwystal_refused(joined))
        joined = e->drop(e->state, 0, a->page);
    return corwystal_refused(joined) ? joined : r;
}

/* A word; a page not yet mapped is mapped first, as the paper's page fault does. */
static __attribute__((noipa)) answer read_word(const engine *e, const action *a)
{
    uint8_t word[4];
    size_t address = (size_t)a->page * PAGE + a->offset;
    answer r = e->read(e->state, 0, address, word, sizeof word);
    if (r.kind == CORWYSTAL_NOT_RESIDENT) {
        r = e->touch(e->state, 0, a->page);
        if (!corwystal_refused(r))
            r = e->read(e->state, 0, address, word, sizeof word);
    }
    return r;
}

static __attribute__((noipa)) answer write_word(const engine *e, const action *a)
{
    uint32_t word = a->page ^ a->offset;
    return e->write(e->state, 0, (size_t)a->page * PAGE + a->offset, (const uint8_t *)&word, sizeof word);
}

static inline answer act(const engine *e, const action *a)
{
    switch (a->kind) {
    case ALLOCATE:
        return allocation(e, a);
    case RELEASE:
        return release(e, a);
    case READ:
        return read_word(e, a);
    default:
        return write_word(e, a);
    }
}

static void begin(const engine *e)
{
    expect(e->start(e->state, 1, PLACES, FRAMES, PAGE), CORWYSTAL_DONE, "start");
    expect(e->mark(e->state, 0, 0), CORWYSTAL_DONE, "mark");
}

/* ---- the three ways to play them */

static int check(const engine e[ENGINES])
{
    for (int i = 0; i < ENGINES; i++)
        begin(&e[i]);
    size_t each[KINDS] = {0}, refused = 0, most = 0, mapped = 0;
    for (size_t n = 0; n < ACTIONS; n++) {
        answer r[ENGINES];
        for (int i = 0; i < ENGINES; i++)
            r[i] = act(&e[i], &actions[n]);
        /* the order of the frames in the cleared table's pool is its own; all else is the pager's */
        int frames = r[PAGER].kind == CORWYSTAL_OLD || r[PAGER].kind == CORWYSTAL_NEW;
        if (memcmp(&r[PAGER], &r[METHOD], sizeof r[PAGER]) != 0 || r[PAGER].kind != r[CLEARED].kind ||
            r[PAGER].words != r[CLEARED].words || (!frames && r[PAGER].value != r[CLEARED].value)) {
            fprintf(stderr, "workload: action %zu answered differently\n", n);
            return 1;
        }
        each[actions[n].kind] += n >= WARM;
        refused += corwystal_refused(r[PAGER]);
        answer left = corwystal_board_free_count(e[PAGER].state);
        expect(left, CORWYSTAL_FRAMES, "free_count");
        mapped = FRAMES - left.value;
        most = mapped > most ? mapped : most;
    }
    printf("workload actions");
    for (int k = 0; k < KINDS; k++)
        printf(" %s %zu", kind_names[k], each[k]);
    printf(" refused %zu most-resident %zu live-at-end %u\n", refused, most, living);
    return 0;
}

/* Engines that refuse other actions than the pager do other work, and can't be compared with it. */
static void same_refusals(const engine e[ENGINES], const size_t refused[ENGINES])
{
    for (int i = 0; i < ENGINES; i++)
        if (refused[i] != refused[PAGER]) {
            fprintf(stderr, "workload: %s refused %zu actions, the pager %zu; `workload check` says where they differ\n", e[i].name, refused[i],
                    refused[PAGER]);
            exit(1);
        }
}

static uint32_t least[ENGINES][ACTIONS];

static int timed(const engine e[ENGINES], const char *name)
{
    uint64_t empty = clock_cost();
    size_t refused[ENGINES] = {0};
    memset(least, 0xff, sizeof least);
    for (int run = 0; run < RUNS; run++)
        for (int i = 0; i < ENGINES; i++) {
            begin(&e[i]);
            for (size_t n = 0; n < ACTIONS; n++) {
                uint64_t from = clock_begin();
                answer r = act(&e[i], &actions[n]);
                uint64_t ticks = clock_end() - from;
                refused[i] += corwystal_refused(r);
                ticks = ticks > empty ? ticks - empty : 0;
                if (ticks < least[i][n])
                    least[i][n] = (uint32_t)ticks;
            }
        }
    same_refusals(e, refused);
    FILE *f = fopen(name, "w");
    if (f == NULL)
        return 1;
    fprintf(f, "ticks-per-microsecond %.3f\n", clock_rate());
    for (int i = 0; i < ENGINES; i++)
        for (size_t n = WARM; n < ACTIONS; n++)
            fprintf(f, "%s %s %u %u\n", e[i].name, kind_names[actions[n].kind], actions[n].pages, least[i][n]);
    /* the slowest action of each kind, for the count */
    for (int i = 0; i < ENGINES; i++)
        for (int k = 0; k < KINDS; k++) {
            size_t slowest = ACTIONS;
            for (size_t n = WARM; n < ACTIONS; n++)
                if (actions[n].kind == k && (slowest == ACTIONS || least[i][n] > least[i][slowest]))
                    slowest = n;
            fprintf(f, "slowest %d %d %zu\n", i, k, slowest);
        }
    return fclose(f);
}

/* The instructions of the actions before `end`, by kind: each kind is a function of its own. */
static size_t sum(const engine *e, size_t end)
{
    size_t each[KINDS] = {0}, refused = 0, n;
    char line[128];
    begin(e);
    for (n = 0; n < WARM; n++)
        refused += corwystal_refused(act(e, &actions[n]));
    CALLGRIND_TOGGLE_COLLECT;
    for (n = WARM; n < end; n++)
        refused += corwystal_refused(act(e, &actions[n]));
    CALLGRIND_TOGGLE_COLLECT;
    for (n = WARM; n < end; n++)
        each[actions[n].kind]++;
    snprintf(line, sizeof line, "workload %zu %zu %zu %zu/0/%s/1", each[0], each[1], each[2], each[3], e->name);
    CALLGRIND_DUMP_STATS_AT(line);
    return refused;
}

/* The pager and the method by both compilers. */
static int some(const engine e[ALL], size_t end)
{
    size_t refused = sum(&e[PAGER], end);
    if (sum(&e[METHOD], end) == refused && sum(&e[CLANG_METHOD], end) == refused)
        return 0;
    fputs("workload: an engine refused other actions than the pager; `workload check` says where they differ\n", stderr);
    return 1;
}

static int counted(const engine e[ALL], const char *name)
{
    size_t slowest[ENGINES][KINDS] = {{0}}, refused[ENGINES] = {0}, n;
    char line[128];
    int i, k;
    FILE *f = fopen(name, "r");
    if (f == NULL)
        return 1;
    while (fgets(line, sizeof line, f) != NULL)
        if (sscanf(line, "slowest %d %d %zu", &i, &k, &n) == 3)
            slowest[i][k] = n;
    fclose(f);
    for (i = 0; i < ENGINES; i++) {
        refused[i] = sum(&e[i], ACTIONS);
        begin(&e[i]);
        for (n = 0; n < ACTIONS; n++) {
            k = actions[n].kind;
            if (slowest[i][k] != n) {
                refused[i] += corwystal_refused(act(&e[i], &actions[n]));
                continue;
            }
            CALLGRIND_TOGGLE_COLLECT;
            refused[i] += corwystal_refused(act(&e[i], &actions[n]));
            CALLGRIND_TOGGLE_COLLECT;
            snprintf(line, sizeof line, "slowest %s/0/%s/1", kind_names[k], e[i].name);
            CALLGRIND_DUMP_STATS_AT(line);
        }
    }
    same_refusals(e, refused);
    sum(&e[CLANG_METHOD], ACTIONS);
    return 0;
}

int main(int argc, char **argv)
{
    engine e[ALL];
    int failed = 2;
    size_t end = argc == 3 && strcmp(argv[1], "some") == 0 ? WARM + strtoul(argv[2], NULL, 10) : ACTIONS;
    if (end <= WARM || end > ACTIONS) {
        fprintf(stderr, "workload: some NUMBER: from 1 to %d\n", ACTIONS - WARM);
        return 2;
    }
    draw_all(end);
    engines_make(e, PLACES, FRAMES, (size_t)FRAMES * PAGE);
    if (argc == 2 && strcmp(argv[1], "check") == 0)
        failed = check(e);
    else if (argc == 3 && strcmp(argv[1], "time") == 0)
        failed = timed(e, argv[2]);
    else if (argc == 3 && strcmp(argv[1], "count") == 0)
        failed = counted(e, argv[2]);
    else if (argc == 3 && strcmp(argv[1], "some") == 0)
        failed = some(e, end);
    else
        fputs("usage: workload check | time FILE | count FILE | some NUMBER\n", stderr);
    engines_free(e);
    return failed;
}
