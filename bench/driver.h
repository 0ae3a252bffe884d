/*
 * The engines behind one face, so that one piece of code drives them all: the pager and two others, each with buffers of its
 * own; the calls with the checks, over the pager's buffers; and all that is written by hand once more, by the other compiler.
 * The pager's face is corwystal_board.h: head and buffers in one record, handed over at each call, as a kernel would.
 */
#ifndef DRIVER_H
#define DRIVER_H

#include "../bindings/c/corwystal_board.h"
#include "engines.h"

typedef struct engine {
    const char *name;
    void *state;
    answer (*start)(void *, uint32_t spaces, uint32_t pages, uint32_t frames, uint32_t page);
    answer (*mark)(void *, uint32_t space, uint32_t page);
    answer (*drop)(void *, uint32_t space, uint32_t page);
    answer (*touch)(void *, uint32_t space, uint32_t page);
    answer (*look)(void *, uint32_t space, uint32_t page);
    answer (*release)(void *, uint32_t space, uint32_t page);
    answer (*give_back)(void *, uint32_t space, uint32_t page);
    answer (*translate)(void *, uint32_t space, size_t address);
    answer (*read)(void *, uint32_t space, size_t address, uint8_t *buffer, size_t n);
    answer (*write)(void *, uint32_t space, size_t address, const uint8_t *bytes, size_t n);
    uint8_t *ram;
} engine;

/* Those after the third use the memory of one of the three. Start and read of those with the checks are the pager's. */
enum { PAGER, METHOD, CLEARED, ENGINES, CHECKED = ENGINES, CLANG_METHOD, CLANG_CLEARED, CLANG_CHECKED, ALL };

/* Engines with room for these sizes, every table full of garbage. */
void engines_make(engine e[ALL], size_t places, size_t frames, size_t ram);

void engines_free(engine e[ALL]);

/* Whether the answer is of the kind that the case is about: one that measures another thing ends the program. */
void expect(answer a, uint32_t kind, const char *what);

#endif
