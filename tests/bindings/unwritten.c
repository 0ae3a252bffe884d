/*
 * Calls on memory that malloc gave and nobody has written. The answers are those on any other memory; memcheck has to be told that reads of words never
 * written are meant (bindings/c/valgrind.supp). What is read of a new page was written, by the call that mapped it: of that memcheck is told nothing.
 */
#include "corwystal_board.h"

#include <stdio.h>
#include <stdlib.h>
#include <string.h>

enum { SPACES = 2, PAGES = 2500, FRAMES = 64, PAGE = 256 };

static void *unwritten(size_t n) {
    void *at = malloc(n);
    if (!at) exit(2);
    return at;
}

static uint32_t *words(size_t n) { return unwritten(n * sizeof(uint32_t)); }

/* A board of which only the head is written. */
static corwystal_board board(corwystal_needs n) {
    corwystal_board b = {CORWYSTAL_HEAD_INIT, unwritten(n.index * sizeof(uint64_t)), n.index, words(n.places), n.places, words(n.places), n.places,
                         words(n.places), n.places, words(n.places), n.places, words(n.places), n.places, words(n.link), n.link, unwritten(n.ram), n.ram};
    return b;
}

static int wrong;

static void expect(corwystal_answer a, uint32_t kind, const char *what) {
    if (a.kind == kind) return;
    printf("unwritten: %s answers %u, not %u\n", what, (unsigned)a.kind, (unsigned)kind);
    wrong = 1;
}

/* A page is zeros from a place on to its end. */
static void expect_zeros(const corwystal_board *b, uint32_t space, uint32_t page, size_t from, const char *what) {
    uint8_t bytes[PAGE];
    expect(corwystal_board_read(b, space, (size_t)page * PAGE, bytes, PAGE), CORWYSTAL_BYTES, "read of a new page");
    for (size_t k = from; k < PAGE; k++)
        if (bytes[k]) {
            printf("unwritten: byte %zu of a page that %s mapped is %u, not 0\n", k, what, bytes[k]);
            wrong = 1;
            return;
        }
}

/* A map is read into tables that nobody has written, and comes back from them as it was; a page that it has is resident, one that it hasn't is mapped. */
static void maps(const corwystal_board *b, corwystal_needs n, uint32_t resident, uint32_t absent) {
    uint8_t *file = unwritten(n.map), *again = unwritten(n.map);
    corwystal_answer a = corwystal_board_write_map(b, file, n.map);
    expect(a, CORWYSTAL_MAP, "write_map");
    corwystal_board other = board(n);
    expect(corwystal_board_read_map(&other, file, a.value), CORWYSTAL_DONE, "read_map");
    expect(corwystal_board_write_map(&other, again, a.value), CORWYSTAL_MAP, "write_map of what was read");
    if (memcmp(file, again, a.value) != 0) {
        puts("unwritten: a map that was read is written otherwise");
        wrong = 1;
    }
    expect(corwystal_board_touch(&other, 0, resident), CORWYSTAL_OLD, "touch of a page in the map");
    expect(corwystal_board_look(&other, 0, absent), CORWYSTAL_ABSENT, "look after read_map");
    expect(corwystal_board_touch(&other, 0, absent), CORWYSTAL_NEW, "touch after read_map");
    expect_zeros(&other, 0, absent, 0, "touch after read_map");
}

int main(void) {
    corwystal_needs n = corwystal_sizes(SPACES, PAGES, FRAMES, PAGE);
    uint8_t bytes[PAGE] = {1, 2, 3};
    corwystal_board b = board(n);
    expect(corwystal_board_start(&b, SPACES, PAGES, FRAMES, PAGE), CORWYSTAL_DONE, "start");
    for (uint32_t s = 0; s < SPACES; s++)
        for (uint32_t page = 0; page < PAGES; page += 100) expect(corwystal_board_mark(&b, s, page), CORWYSTAL_DONE, "mark");
    for (uint32_t round = 0; round < 3; round++) {
        for (uint32_t k = 0; k < 20; k++) {
            expect(corwystal_board_look(&b, 0, 7 * k), CORWYSTAL_ABSENT, "look");
            expect(corwystal_board_touch(&b, 0, 7 * k), CORWYSTAL_NEW, "touch");
            expect_zeros(&b, 0, 7 * k, 0, "touch");
            expect(corwystal_board_touch(&b, 0, 7 * k), CORWYSTAL_OLD, "touch again");
            expect(corwystal_board_translate(&b, 1, 7 * k * PAGE), CORWYSTAL_NOT_RESIDENT, "translate");
            expect(corwystal_board_give_back(&b, 1, 7 * k), CORWYSTAL_NOT_RESIDENT, "hand-back of an absent page");
        }
        /* of the first region's pages, 0 to 98, one in the middle; the frame is mapped again */
        expect(corwystal_board_give_back(&b, 0, 49), CORWYSTAL_DONE, "hand-back");
        expect(corwystal_board_look(&b, 0, 49), CORWYSTAL_ABSENT, "look after a hand-back");
        expect(corwystal_board_touch(&b, 0, 50), CORWYSTAL_NEW, "touch after a hand-back");
        expect_zeros(&b, 0, 50, 0, "touch after a hand-back");
        expect(corwystal_board_write(&b, 1, 99 * PAGE + 100, bytes, sizeof bytes), CORWYSTAL_DONE, "write");
        expect(corwystal_board_read(&b, 1, 99 * PAGE + 100, bytes, sizeof bytes), CORWYSTAL_BYTES, "read");
        expect_zeros(&b, 1, 100, 100, "write");
        maps(&b, n, 7, 8);
        for (uint32_t page = 0; page < 200; page += 100) {
            expect(corwystal_board_release(&b, 0, page), CORWYSTAL_PAGES, "release");
            expect(corwystal_board_release(&b, 1, page), CORWYSTAL_PAGES, "release");
        }
    }
    return wrong;
}
