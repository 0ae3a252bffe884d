/* The engines' buffers, and their calls behind one face. */
#include "driver.h"

#include "checked.h"

#include <stdio.h>
#include <stdlib.h>
#include <string.h>
#include <valgrind/valgrind.h>

/* One face for all: a call through a pointer to a function of the engine's own record. */
#define FACE(f) ((void *)(f))

/* The same units by the other compiler: bench/build gives each of their names this prefix. */
#define TWIN(f) extern __typeof__(f) clang_##f
#define TWINS(unit)                                                                                                    \
    TWIN(unit##_start);                                                                                                \
    TWIN(unit##_mark);                                                                                                 \
    TWIN(unit##_drop);                                                                                                 \
    TWIN(unit##_touch);                                                                                                \
    TWIN(unit##_look);                                                                                                 \
    TWIN(unit##_release);                                                                                              \
    TWIN(unit##_give_back);                                                                                            \
    TWIN(unit##_translate);                                                                                            \
    TWIN(unit##_read);                                                                                                 \
    TWIN(unit##_write)

TWINS(method);
TWINS(cleared);
TWIN(face_mark);
TWIN(face_drop);
TWIN(face_touch);
TWIN(face_look);
TWIN(face_release);
TWIN(face_give_back);
TWIN(face_translate);
TWIN(face_write);

/* An engine with all its calls, in the order of the record. */
#define WHOLE(unit)                                                                                                    \
    FACE(unit##_start), FACE(unit##_mark), FACE(unit##_drop), FACE(unit##_touch), FACE(unit##_look),                   \
        FACE(unit##_release), FACE(unit##_give_back), FACE(unit##_translate), FACE(unit##_read), FACE(unit##_write)

/* What the calls with the checks haven't of their own is the pager's. */
#define CHECKS(unit)                                                                                                   \
    FACE(corwystal_board_start), FACE(unit##_mark), FACE(unit##_drop), FACE(unit##_touch), FACE(unit##_look),          \
        FACE(unit##_release), FACE(unit##_give_back), FACE(unit##_translate), FACE(corwystal_board_read), FACE(unit##_write)

/* ---- buffers */

static void *aligned(size_t bytes)
{
    void *p = aligned_alloc(65536, (bytes + 65535) / 65536 * 65536);
    if (p == NULL) {
        fputs("no memory\n", stderr);
        exit(1);
    }
    return p;
}

/* A page-aligned buffer full of one byte: no first access is left to be paid for while something is measured. */
static void *full(size_t bytes, int with) { return memset(aligned(bytes), with, bytes); }

/* The RAM, which may hold anything. Where instructions are counted nobody pays for first accesses, and a fill takes seconds. */
static void *full_ram(size_t bytes) { return RUNNING_ON_VALGRIND ? aligned(bytes) : full(bytes, 0); }

void engines_make(engine e[ALL], size_t places, size_t frames, size_t ram)
{
    size_t words = CORWYSTAL_INDEX_WORDS(places), entries = places * sizeof(uint32_t);

    corwystal_board *b = calloc(1, sizeof *b);
    b->index = full(words * sizeof(uint64_t), 0xa5);
    b->count = full(entries, 0xa5);
    b->table = full(entries, 0xa5);
    b->helper = full(entries, 0x01);
    b->stack = full(entries, 0xa5);
    b->cache = full(entries, 0x01);
    b->link = full(frames * sizeof(uint32_t), 0xa5);
    b->ram = full_ram(ram);
    b->index_len = words;
    b->count_len = b->table_len = b->helper_len = b->stack_len = b->cache_len = places;
    b->link_len = frames;
    b->ram_len = ram;
    e[PAGER] = (engine){"pager", b, WHOLE(corwystal_board), b->ram};
    e[CHECKED] = (engine){"checked", b, CHECKS(face), b->ram};
    e[CLANG_CHECKED] = (engine){"clang_checked", b, CHECKS(clang_face), b->ram};

    method *m = calloc(1, sizeof *m);
    m->marks.layer[0] = full(words * sizeof(uint64_t), 0xa5);
    m->count = full(entries, 0xa5);
    m->table = full(entries, 0xa5);
    m->helper = full(entries, 0x01);
    m->stack = full(entries, 0xa5);
    m->cache = full(entries, 0x01);
    m->link = full(frames * sizeof(uint32_t), 0xa5);
    m->ram = full_ram(ram);
    e[METHOD] = (engine){"method", m, WHOLE(method), m->ram};
    e[CLANG_METHOD] = (engine){"clang_method", m, WHOLE(clang_method), m->ram};

    cleared *c = calloc(1, sizeof *c);
    c->marks.layer[0] = full(words * sizeof(uint64_t), 0xa5);
    c->table = full(entries, 0xa5);
    c->pool = full(frames * sizeof(uint32_t), 0xa5);
    c->ram = full_ram(ram);
    e[CLEARED] = (engine){"cleared", c, WHOLE(cleared), c->ram};
    e[CLANG_CLEARED] = (engine){"clang_cleared", c, WHOLE(clang_cleared), c->ram};
}

void engines_free(engine e[ALL])
{
    corwystal_board *b = e[PAGER].state;
    method *m = e[METHOD].state;
    cleared *c = e[CLEARED].state;
    void *all[] = {b->index, b->count, b->table, b->helper, b->stack, b->cache, b->link, b->ram,
                   m->marks.layer[0], m->count, m->table, m->helper, m->stack, m->cache, m->link, m->ram,
                   c->marks.layer[0], c->table, c->pool, c->ram, b, m, c};
    for (size_t i = 0; i < sizeof all / sizeof *all; i++)
        free(all[i]);
}

void expect(answer a, uint32_t kind, const char *what)
{
    if (a.kind != kind) {
        fprintf(stderr, "%s: answer %u (%s) instead of %u\n", what, a.kind, corwystal_text(a), kind);
        exit(1);
    }
}
