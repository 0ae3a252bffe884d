/*
 * Document 01's session through the C entrance: each call's answer on a line of its own, as the session program writes it.
 * Build: bindings/build
 */
#include "corwystal_board.h"

#include <inttypes.h>
#include <stdio.h>

enum { SPACES = 1, PAGES = 8, FRAMES = 3, PAGE = 256, PLACES = SPACES * PAGES };

/* All that the pager works on. Only the head must be zero; the rest may hold anything. */
static uint64_t index_words[CORWYSTAL_INDEX_WORDS(PLACES)];
static uint32_t count[PLACES], table[PLACES], helper[PLACES], stack[PLACES], cache[PLACES], frame_link[FRAMES];
static uint8_t ram[FRAMES * PAGE];

static corwystal_board board = CORWYSTAL_BOARD_INIT(index_words, count, table, helper, stack, cache, frame_link, ram);

static void say(corwystal_answer a) {
    switch (a.kind) {
    case CORWYSTAL_DONE:
        puts("ok");
        break;
    case CORWYSTAL_OLD:
    case CORWYSTAL_NEW:
        printf("frame %" PRIu64 " %s %" PRIu32 "\n", a.value, a.kind == CORWYSTAL_NEW ? "new" : "old", a.words);
        break;
    case CORWYSTAL_RESIDENT:
        printf("resident %" PRIu64 " %" PRIu32 "\n", a.value, a.words);
        break;
    case CORWYSTAL_ABSENT:
        printf("absent %" PRIu32 "\n", a.words);
        break;
    case CORWYSTAL_PAGES:
        printf("pages %" PRIu64 "\n", a.value);
        break;
    default:
        printf("no %" PRIu32 "\n", a.kind);
    }
}

/* A refused touch or look tells the index words too. */
static void say_with_words(corwystal_answer a) {
    if (corwystal_refused(a))
        printf("no %" PRIu32 " %" PRIu32 "\n", a.kind, a.words);
    else
        say(a);
}

static void mark(uint32_t page) { say(corwystal_board_mark(&board, 0, page)); }

static void touch(uint32_t page) { say_with_words(corwystal_board_touch(&board, 0, page)); }

static void look(uint32_t page) { say_with_words(corwystal_board_look(&board, 0, page)); }

static void release(uint32_t page) { say(corwystal_board_release(&board, 0, page)); }

int main(void) {
    say(corwystal_board_start(&board, SPACES, PAGES, FRAMES, PAGE));
    mark(0);
    mark(4);
    touch(5);
    touch(1);
    touch(6);
    touch(5);
    touch(7);
    mark(6);
    release(4);
    look(5);
    touch(2);
    look(9);
    say(corwystal_board_drop(&board, 0, 4));
    touch(7);
    release(0);
    mark(0);
    return 0;
}
