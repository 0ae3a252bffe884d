/*
 * Holds the hand-written engines to the pager, so that equal work is compared: the same calls by chance, on garbage
 * tables and on RAM that each engine has filled with a byte of its own, at sizes of one, two and three index layers. A new
 * page is 0 wherever nothing was stored, and each resident page shows the same bytes in all engines. The method must give
 * the pager's every answer, byte and frame, and leave the pager's RAM.
 * The cleared table doesn't know the order of a region's list, so its pool's order is the pager's only where each region's
 * pages are mapped ascending and only the newest is handed back; there it must give every answer too, elsewhere all but frames.
 * Then all of it again with the eight calls that have the checks in C in the pager's place; and everything once more with
 * what clang compiled. Then the refusals of these eight calls against the pager's own, on heads, lengths and tables by chance.
 * Last writes and hand-backs by the pager and by the checks in C from the same memory: they leave the same, and a refusal
 * leaves what was.
 */
#include "driver.h"

#include <stdio.h>
#include <stdlib.h>
#include <string.h>

enum { PLACES = 8192, FRAMES = 512, PAGE = 256, CALLS = 40000, MOST = 4 * PAGE };

/* The sizes for the refusals; their RAM is the larger one. */
enum { ODD_FRAMES = 300, ODD_SHIFT = 9, RAM = ODD_FRAMES << ODD_SHIFT };

static uint64_t seed = 1;

static uint32_t draw(uint32_t below)
{
    seed = seed * 6364136223846793005ull + 1442695040888963407ull;
    return (uint32_t)((seed >> 33) * below >> 31);
}

/* All of them, and the three that are held to each other now. */
static engine all[ALL], e[ENGINES];

static uint8_t bytes[MOST], got[ENGINES][MOST];

static uint32_t spaces, pages, frames;

/* The next page to map in each space, where pages are mapped ascending. */
static uint32_t rising[64];

static void fail(const char *call, const engine *who, uint32_t space, uint32_t page, answer want, answer is)
{
    fprintf(stderr, "%s of %s differs at space %u, page %u: %u %u %llu instead of %u %u %llu\n", call, who->name,
            space, page, is.kind, is.words, (unsigned long long)is.value, want.kind, want.words,
            (unsigned long long)want.value);
    exit(1);
}

static void same(const char *call, uint32_t space, uint32_t page, const answer r[ENGINES], int ascending)
{
    for (int i = METHOD; i < ENGINES; i++) {
        uint32_t k = r[PAGER].kind;
        int free_choice = i == CLEARED && !ascending &&
                          (k == CORWYSTAL_OLD || k == CORWYSTAL_NEW || k == CORWYSTAL_RESIDENT || k == CORWYSTAL_AT);
        if (k != r[i].kind || r[PAGER].words != r[i].words || (!free_choice && r[PAGER].value != r[i].value))
            fail(call, &e[i], space, page, r[PAGER], r[i]);
    }
}

static void fail_clearing(const char *call, const engine *who, uint32_t space, uint32_t page)
{
    fprintf(stderr, "%s of %s left bytes of a new page that aren't 0, at space %u, page %u\n", call, who->name, space, page);
    exit(1);
}

static int all_are(uint8_t byte, const uint8_t *at, size_t n)
{
    for (size_t k = 0; k < n; k++)
        if (at[k] != byte)
            return 0;
    return 1;
}

static void touch(uint32_t space, uint32_t page, int ascending)
{
    answer r[ENGINES];
    for (int i = 0; i < ENGINES; i++)
        r[i] = e[i].touch(e[i].state, space, page);
    same("touch", space, page, r, ascending);
    for (int i = 0; i < ENGINES && r[PAGER].kind == CORWYSTAL_NEW; i++)
        if (!all_are(0, e[i].ram + r[i].value * PAGE, PAGE))
            fail_clearing("touch", &e[i], space, page);
}

/* The bytes of a page that a write just mapped, around those of its span. */
static void cleared_around(uint32_t space, uint32_t page, size_t address, size_t n)
{
    size_t from = (size_t)page * PAGE, end = from + PAGE;
    for (int i = 0; i < ENGINES; i++) {
        answer at = e[i].translate(e[i].state, space, from);
        expect(at, CORWYSTAL_AT, "translate of a page just written");
        const uint8_t *frame = e[i].ram + at.value;
        if ((address > from && !all_are(0, frame, address - from)) ||
            (address + n < end && !all_are(0, frame + (address + n - from), end - (address + n))))
            fail_clearing("write", &e[i], space, page);
    }
}

static void write_span(uint32_t space, size_t address, size_t n)
{
    answer r[ENGINES];
    uint8_t is_new[MOST / PAGE + 1];
    uint32_t first = (uint32_t)(address / PAGE), many = n == 0 ? 0 : (uint32_t)((address + n - 1) / PAGE) - first + 1;
    for (uint32_t k = 0; k < many; k++)
        is_new[k] = e[PAGER].look(e[PAGER].state, space, first + k).kind == CORWYSTAL_ABSENT;
    for (size_t k = 0; k < n; k++)
        bytes[k] = (uint8_t)draw(256);
    for (int i = 0; i < ENGINES; i++)
        r[i] = e[i].write(e[i].state, space, address, bytes, n);
    same("write", space, first, r, 1);
    for (uint32_t k = 0; k < many && r[PAGER].kind == CORWYSTAL_DONE; k++)
        if (is_new[k])
            cleared_around(space, first + k, address, n);
}

static void read_span(uint32_t space, size_t address, size_t n)
{
    answer r[ENGINES];
    uint32_t page = (uint32_t)(address / PAGE);
    for (int i = 0; i < ENGINES; i++)
        r[i] = e[i].read(e[i].state, space, address, got[i], n);
    same("read", space, page, r, 1);
    for (int i = METHOD; i < ENGINES && r[PAGER].kind == CORWYSTAL_BYTES; i++)
        if (memcmp(got[PAGER], got[i], n) != 0)
            fail("bytes", &e[i], space, page, r[PAGER], r[i]);
}

/* What an engine's RAM is full of before its start: no two have the same. */
static uint8_t filling(int engine) { return (uint8_t)(7 + engine); }

/* Every page shows the same bytes; each frame of the method is the pager's, or neither has mapped it. */
static void same_ram(void)
{
    for (uint32_t space = 0; space < spaces; space++)
        for (uint32_t page = 0; page < pages; page++)
            read_span(space, (size_t)page * PAGE, PAGE);
    for (size_t f = 0; f < FRAMES; f++) {
        const uint8_t *is = e[PAGER].ram + f * PAGE, *by_hand = e[METHOD].ram + f * PAGE;
        int untouched = all_are(filling(PAGER), is, PAGE) && all_are(filling(METHOD), by_hand, PAGE);
        if (!untouched && memcmp(is, by_hand, PAGE) != 0) {
            fprintf(stderr, "frame %zu of %s and of %s differ; see their writes and what they clear\n", f, e[PAGER].name, e[METHOD].name);
            exit(1);
        }
    }
}

static void mark_or_drop(int marks, uint32_t space, uint32_t page)
{
    answer r[ENGINES];
    /* the cleared table allows cuts that the pager refuses with 7: it gets the accepted ones */
    for (int i = 0; i < ENGINES; i++)
        if (i == CLEARED && r[PAGER].kind == CORWYSTAL_RESIDENT_PAGES)
            r[i] = r[PAGER];
        else
            r[i] = marks ? e[i].mark(e[i].state, space, page) : e[i].drop(e[i].state, space, page);
    same(marks ? "mark" : "drop", space, page, r, 1);
}

/* Every region is released and every start dropped. */
static void empty(void)
{
    answer r[ENGINES];
    for (uint32_t space = 0; space < spaces; space++)
        for (uint32_t page = 0; page < pages; page++) {
            for (int i = 0; i < ENGINES; i++)
                r[i] = e[i].release(e[i].state, space, page);
            same("release", space, page, r, 1);
            mark_or_drop(0, space, page);
        }
}

/* Few starts, far apart, so that words of the upper layers become 0 and are set again. */
static void few_starts(void)
{
    answer r[ENGINES];
    for (int k = 0; k < 2000; k++) {
        uint32_t space = draw(spaces), page = draw(8) * pages / 8;
        mark_or_drop(draw(2) == 0, space, page);
        page = draw(pages);
        for (int i = 0; i < ENGINES; i++)
            r[i] = e[i].look(e[i].state, space, page);
        same("look", space, page, r, 1);
    }
}

/* The index is the same, word for word. */
static void same_index(void)
{
    const corwystal_board *b = e[PAGER].state;
    const method *m = e[METHOD].state;
    const cleared *c = e[CLEARED].state;
    if (memcmp(b->index, m->marks.layer[0], m->marks.words * sizeof(uint64_t)) != 0 ||
        memcmp(b->index, c->marks.layer[0], c->marks.words * sizeof(uint64_t)) != 0) {
        fprintf(stderr, "the index of %s and of %s differ; see their marks and drops\n", e[PAGER].name, e[METHOD].name);
        exit(1);
    }
}

static void play(int ascending)
{
    answer r[ENGINES];
    uint32_t space = draw(spaces), page = draw(pages), which = draw(18);
    size_t address = (size_t)page * PAGE + draw(PAGE), n = draw(MOST);
    if (address + n > (size_t)pages * PAGE)
        n = (size_t)pages * PAGE - address;
    if (ascending && which >= 4) {
        /* page by page, so that none that is handed back has a newer one; and all is released before a space begins anew */
        if (rising[space] == pages) {
            rising[space] = 0;
            for (uint32_t p = 0; p < pages; p++) {
                for (int i = 0; i < ENGINES; i++)
                    r[i] = e[i].release(e[i].state, space, p);
                same("release", space, p, r, 1);
            }
        }
        page = rising[space];
        rising[space] += which < 8;
        address = (size_t)page * PAGE;
        n = PAGE;
    }
    if (which == 0 || which == 1) {
        mark_or_drop(which == 0, space, page);
    } else if (which == 2 || which == 3) {
        for (int i = 0; i < ENGINES; i++)
            r[i] = e[i].release(e[i].state, space, page);
        same("release", space, page, r, 1);
    } else if (which < 8) {
        touch(space, page, ascending);
    } else if (which < 10) {
        for (int i = 0; i < ENGINES; i++)
            r[i] = e[i].look(e[i].state, space, page);
        same("look", space, page, r, ascending);
    } else if (which < 12) {
        for (int i = 0; i < ENGINES; i++)
            r[i] = e[i].translate(e[i].state, space, address);
        same("translate", space, page, r, ascending);
    } else if (which < 14) {
        read_span(space, address, n);
    } else if (which < 16) {
        write_span(space, address, n);
    } else {
        for (int i = 0; i < ENGINES; i++)
            r[i] = e[i].give_back(e[i].state, space, page);
        same("hand-back", space, page, r, 1);
    }
}

/* One of a few numbers around the limits. */
static uint32_t odd(uint32_t usual)
{
    static const uint32_t few[] = {0, 1, 2, 7, 8, 9, 16, 17, 63, 64, 65, 128, 262144, 262145, 65536, 65537, UINT32_MAX};
    return draw(4) != 0 ? usual : few[draw(sizeof few / sizeof *few)];
}

/* A length that suffices or just doesn't. */
static size_t nearly(size_t enough) { return draw(12) != 0 ? enough : draw(2) == 0 ? enough - 1 : draw(enough); }

/* Tables that no call left: what stands in them is near what they could hold, so that some of it is believed. */
static void damage(const corwystal_board *b, size_t n, uint32_t many)
{
    uint32_t *tables[] = {b->count, b->table, b->helper, b->stack, b->cache};
    for (size_t k = 0; k < CORWYSTAL_INDEX_WORDS(n); k++)
        b->index[k] = draw(3) == 0 ? 0 : (uint64_t)draw(UINT32_MAX) << draw(64);
    for (size_t t = 0; t < sizeof tables / sizeof *tables; t++)
        for (size_t k = 0; k < n; k++)
            tables[t][k] = odd(draw(draw(2) == 0 ? 4 : (uint32_t)n));
    for (size_t k = 0; k < many; k++)
        b->link[k] = odd(draw(many));
}

/* The pager, and the checks in C by both compilers. */
static const int with_checks[] = {PAGER, CHECKED, CLANG_CHECKED};

/* An address from which so many bytes end at the end of a space, just before it or just after it. */
static size_t near_end(const corwystal_head *h, size_t many) { return ((size_t)h->pages << (h->page_shift & 31)) - many + draw(3) - 1; }

/* Refusals 1 to 3 of the eight calls, on any head, lengths and tables, by the pager and by the checks in C of both compilers. */
static void refusals(void)
{
    static const char *const calls[] = {"mark", "drop", "touch", "look", "release", "hand-back", "translate", "write"};
    corwystal_board *b = all[PAGER].state, whole = *b;
    size_t n = PLACES / 2;
    for (int k = 0; k < 400000; k++) {
        corwystal_head h = {odd(4), odd(1024), odd(ODD_FRAMES), odd(ODD_SHIFT), odd(draw(ODD_FRAMES)), odd(draw(ODD_FRAMES)), odd(draw(ODD_FRAMES))};
        uint32_t space = odd(draw(4)), page = odd(draw(1024));
        size_t address = draw(8) == 0 ? SIZE_MAX - draw(512) : (size_t)page << ODD_SHIFT | draw(1 << ODD_SHIFT);
        size_t many = draw(4) == 0 ? 0 : draw(MOST + 1), from = draw(4) == 0 ? near_end(&h, many) : address;
        if (k % 1000 == 0)
            damage(b, n, ODD_FRAMES);
        b->index_len = nearly(CORWYSTAL_INDEX_WORDS(n));
        b->count_len = nearly(n);
        b->table_len = nearly(n);
        b->helper_len = nearly(n);
        b->stack_len = nearly(n);
        b->cache_len = nearly(n);
        b->link_len = nearly(ODD_FRAMES);
        b->ram_len = nearly(RAM);
        for (size_t c = 0; c < sizeof calls / sizeof *calls; c++) {
            answer r[3];
            for (int i = 0; i < 3; i++) {
                const engine *x = &all[with_checks[i]];
                answer (*const of[])(void *, uint32_t, uint32_t) = {x->mark, x->drop, x->touch, x->look, x->release, x->give_back};
                b->head = h;
                r[i] = c < 6 ? of[c](b, space, page) : c == 6 ? x->translate(b, space, address) : x->write(b, space, from, bytes, many);
                if ((r[0].kind <= 3 || r[i].kind <= 3) && r[0].kind != r[i].kind)
                    fail(calls[c], x, space, page, r[0], r[i]);
            }
        }
    }
    *b = whole;
}

/* A small memory, that can be kept and compared at each call. */
enum { FEW_SPACES = 3, FEW_PAGES = 43, FEW = FEW_SPACES * FEW_PAGES, FEW_FRAMES = 24 };

typedef struct small {
    corwystal_head head;
    uint64_t index[CORWYSTAL_INDEX_WORDS(FEW)];
    uint32_t count[FEW], table[FEW], helper[FEW], stack[FEW], cache[FEW], link[FEW_FRAMES];
    uint8_t ram[FEW_FRAMES * PAGE];
} small;

/* A few calls by the pager that leave some regions, some pages and some frames. */
static void some_calls(const engine *pager, corwystal_board *b)
{
    for (int k = 0; k < 6; k++) {
        uint32_t space = draw(FEW_SPACES), page = draw(FEW_PAGES), which = draw(14);
        answer a = which < 3    ? pager->mark(b, space, page)
                   : which == 3 ? pager->drop(b, space, page)
                   : which < 6  ? pager->release(b, space, page)
                   : which < 12 ? pager->touch(b, space, page)
                                : pager->give_back(b, space, page);
        if (a.kind <= 3 || a.kind == CORWYSTAL_NOT_OURS)
            fail("a call", pager, space, page, (answer){CORWYSTAL_DONE, 0, 0}, a);
    }
}

/* A write, or a hand-back. */
typedef struct asked {
    const char *call;
    int writes;
    uint32_t space, page;
    size_t address, n;
} asked;

static answer ask(const engine *x, corwystal_board *b, const asked *c)
{
    return c->writes ? x->write(b, c->space, c->address, bytes, c->n) : x->give_back(b, c->space, c->page);
}

static void fail_memory(const char *what, const engine *who, const asked *c)
{
    fprintf(stderr, "%s at space %u, page %u, address %zu, of %zu bytes: %s of %s\n", c->call, c->space, c->page, c->address, c->n, what, who->name);
    exit(1);
}

/* Where in its region's list a resident page stands, as a bit: last, just before that, or further up. */
static uint32_t position(const small *is, const asked *c)
{
    uint32_t p = c->space * FEW_PAGES + c->page, newer = is->count[is->cache[p]] - 1 - is->helper[p];
    return 1u << (newer < 2 ? newer : 2);
}

/*
 * Writes or hand-backs by the pager and by the checks in C, each from the same memory. As calls left it, all answers are the
 * same, and so is every word of head, index and tables and every byte; damaged, refusals 1 to 3 are. Either way a refusal leaves
 * all as it was.
 */
static void from_the_same(int writes, int damaged)
{
    static small is, was, left[3];
    corwystal_board b;
    uint32_t seen = 0, positions = 0;
    for (int k = 0; k < 60000; k++) {
        b = (corwystal_board)CORWYSTAL_BOARD_INIT(is.index, is.count, is.table, is.helper, is.stack, is.cache, is.link, is.ram);
        b.head = is.head;
        if (damaged) {
            b.head = (corwystal_head){odd(FEW_SPACES), odd(FEW_PAGES), odd(FEW_FRAMES), odd(8), odd(draw(FEW_FRAMES)),
                                      odd(draw(FEW_FRAMES)), odd(draw(FEW_FRAMES))};
            damage(&b, FEW, FEW_FRAMES);
        } else {
            if (k % 200 == 0)
                expect(all[PAGER].start(&b, FEW_SPACES, FEW_PAGES, FEW_FRAMES, PAGE), CORWYSTAL_DONE, "start");
            some_calls(&all[PAGER], &b);
        }
        is.head = b.head;
        was = is;
        b.index_len = nearly(b.index_len);
        b.count_len = nearly(FEW);
        b.table_len = nearly(FEW);
        b.helper_len = nearly(FEW);
        b.stack_len = nearly(FEW);
        b.cache_len = nearly(FEW);
        b.link_len = nearly(FEW_FRAMES);
        b.ram_len = nearly(sizeof is.ram);
        asked c = {.call = writes ? "write" : "hand-back", .writes = writes};
        c.space = odd(draw(FEW_SPACES));
        c.page = odd(draw(FEW_PAGES));
        c.n = draw(8) == 0 ? 0 : draw(2) == 0 ? draw(PAGE) : draw(MOST + 1);
        c.address = draw(16) == 0 ? SIZE_MAX - draw(512) : draw(8) == 0 ? near_end(&b.head, c.n) : draw(FEW_PAGES * PAGE);
        for (size_t i = 0; i < c.n; i++)
            bytes[i] = (uint8_t)draw(256);
        answer r[3];
        for (int i = 0; i < 3; i++) {
            const engine *x = &all[with_checks[i]];
            is = was;
            b.head = was.head;
            r[i] = ask(x, &b, &c);
            is.head = b.head;
            left[i] = is;
            int exact = !damaged || r[0].kind <= 3 || r[i].kind <= 3;
            if (exact && (r[0].kind != r[i].kind || r[0].words != r[i].words || r[0].value != r[i].value))
                fail(c.call, x, c.space, writes ? (uint32_t)(c.address / PAGE) : c.page, r[0], r[i]);
            if (corwystal_refused(r[i]) && memcmp(&was, &is, sizeof is) != 0)
                fail_memory("a refusal that changed memory", x, &c);
            if (!damaged && memcmp(&left[0], &is, sizeof is) != 0)
                fail_memory("other memory than the pager's is left by that", x, &c);
        }
        seen |= 1u << r[0].kind;
        if (!writes && !damaged && r[0].kind == CORWYSTAL_DONE)
            positions |= position(&was, &c);
    }
    uint32_t wanted = 1u << CORWYSTAL_NO_SIZE | 1u << CORWYSTAL_NO_SPACE | 1u << CORWYSTAL_NO_PAGE | 1u << CORWYSTAL_NO_REGION |
                      1u << (writes ? CORWYSTAL_NO_FRAME : CORWYSTAL_NOT_RESIDENT) | 1u << CORWYSTAL_DONE;
    if (!damaged && (seen != wanted || (!writes && positions != 7))) {
        fprintf(stderr, "%s: kinds of answers %x instead of %x, or pages at few positions: draw others\n", writes ? "writes" : "hand-backs", seen, wanted);
        exit(1);
    }
}

int main(void)
{
    static const uint32_t sizes[][3] = {{1, 64, 40},   {1, 65, 512},  {3, 21, 30},   {4, 1024, 512},
                                        {1, 4097, 300}, {2, 4096, 512}, {64, 128, 512}};
    engines_make(all, PLACES, FRAMES, RAM);
    size_t calls = 0;
    for (int pass = 0; pass < 8; pass++) {
        int ascending = pass % 2, checks = pass / 2 % 2, clang = pass / 4;
        e[PAGER] = all[!checks ? PAGER : clang ? CLANG_CHECKED : CHECKED];
        e[METHOD] = all[clang ? CLANG_METHOD : METHOD];
        e[CLEARED] = all[clang ? CLANG_CLEARED : CLEARED];
        for (size_t s = 0; s < sizeof sizes / sizeof *sizes; s++) {
            spaces = sizes[s][0];
            pages = sizes[s][1];
            frames = sizes[s][2];
            memset(rising, 0, sizeof rising);
            for (int i = 0; i < ENGINES; i++) {
                memset(e[i].ram, filling(i), FRAMES * PAGE);
                expect(e[i].start(e[i].state, spaces, pages, frames, PAGE), CORWYSTAL_DONE, "start");
                for (uint32_t k = 0; ascending && k < spaces; k++)
                    expect(e[i].mark(e[i].state, k, 0), CORWYSTAL_DONE, "mark");
            }
            for (int k = 0; k < CALLS; k++, calls++)
                play(ascending);
            same_ram();
            same_index();
            empty();
            same_index();
            few_starts();
            same_index();
        }
    }
    refusals();
    for (int damaged = 0; damaged < 2; damaged++)
        for (int writes = 0; writes < 2; writes++)
            from_the_same(writes, damaged);
    printf("check: %zu calls, the same answers\n", calls);
    engines_free(all);
    return 0;
}
