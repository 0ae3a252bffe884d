/*
 * A new page reads as zeros, whatever its frame held: mapped by touch or by write, at first, after a release and after a hand-back; and nothing else of
 * the RAM changes. It is held to a copy of it, to the byte, after each call. Touch with RAM that is too short is refused with 1, and before any other
 * refusal.
 */
#include "corwystal_board.h"

#include <stdio.h>
#include <string.h>

enum { SPACES = 2, PAGES = 8, FRAMES = 4, PAGE = 256, PLACES = SPACES * PAGES, RAM = FRAMES * PAGE, EXCESS = 64 };

static uint64_t index_words[CORWYSTAL_INDEX_WORDS(PLACES)];
static uint32_t count[PLACES], table[PLACES], helper[PLACES], stack[PLACES], cache[PLACES], frame_link[FRAMES];
static uint8_t ram[RAM + EXCESS], expected[RAM + EXCESS], bytes[RAM], got[RAM];
static corwystal_board board;
static int wrong;

static void fault(const char *what, const char *why) {
    printf("zeros: %s: %s\n", what, why);
    wrong = 1;
}

/* An answer's kind and value, and the whole RAM. */
static void expect(const char *what, corwystal_answer a, uint32_t kind, uint64_t value) {
    if (a.kind != kind || a.value != value) {
        printf("zeros: %s answers %u with value %u, not %u with %u\n", what, (unsigned)a.kind, (unsigned)a.value, (unsigned)kind, (unsigned)value);
        wrong = 1;
    }
    if (memcmp(ram, expected, sizeof ram) != 0) fault(what, "the RAM is not what it should be");
    memcpy(expected, ram, sizeof ram); /* so that one fault is told once */
}

static void expect_done(const char *what, corwystal_answer a) { expect(what, a, CORWYSTAL_DONE, 0); }

static void zeros_in(uint64_t frame) { memset(expected + frame * PAGE, 0, PAGE); }

static void stored(uint64_t at, size_t n) { memcpy(expected + at, bytes, n); }

/* What is read through the addresses is what the RAM should have there. */
static void reads(const char *what, uint32_t space, size_t address, uint64_t at, size_t n) {
    memset(got, 0xff, sizeof got);
    expect(what, corwystal_board_read(&board, space, address, got, n), CORWYSTAL_BYTES, n);
    if (memcmp(got, expected + at, n) != 0) fault(what, "other bytes are read");
}

/* Garbage in all of the RAM, as other gauges or the time before the start left it; no byte of it is 0. */
static void garbage(uint8_t from) {
    for (size_t k = 0; k < sizeof ram; k++) ram[k] = expected[k] = (uint8_t)(1 + (from + k) % 255);
}

static void begin(void) {
    corwystal_board all = CORWYSTAL_BOARD_INIT(index_words, count, table, helper, stack, cache, frame_link, ram);
    board = all;
    garbage(0);
    expect_done("start", corwystal_board_start(&board, SPACES, PAGES, FRAMES, PAGE));
    expect_done("mark", corwystal_board_mark(&board, 0, 0));
    expect_done("mark", corwystal_board_mark(&board, 1, 0));
}

static void touches(void) {
    begin();
    zeros_in(0);
    expect("touch", corwystal_board_touch(&board, 0, 3), CORWYSTAL_NEW, 0);
    reads("read of a new page", 0, 3 * PAGE, 0, PAGE);
    zeros_in(1);
    expect("second touch", corwystal_board_touch(&board, 0, 4), CORWYSTAL_NEW, 1);
    garbage(7);
    expect("touch of a resident page", corwystal_board_touch(&board, 0, 3), CORWYSTAL_OLD, 0);
    expect("release", corwystal_board_release(&board, 0, 0), CORWYSTAL_PAGES, 2);
    expect("look", corwystal_board_look(&board, 0, 3), CORWYSTAL_ABSENT, 0);
    /* the newest page's frame comes first */
    zeros_in(1);
    expect("touch after a release", corwystal_board_touch(&board, 1, 5), CORWYSTAL_NEW, 1);
    reads("read of another space's new page", 1, 5 * PAGE, PAGE, PAGE);
    zeros_in(0);
    expect("second touch after a release", corwystal_board_touch(&board, 1, 6), CORWYSTAL_NEW, 0);
    for (uint32_t frame = 2; frame < FRAMES; frame++) {
        zeros_in(frame);
        expect("touch with a frame never used", corwystal_board_touch(&board, 0, frame), CORWYSTAL_NEW, frame);
    }
    garbage(11);
    expect("touch with an empty pool", corwystal_board_touch(&board, 0, 7), CORWYSTAL_NO_FRAME, 0);
}

static void writes(void) {
    begin();
    zeros_in(0), stored(100, 20);
    expect_done("write inside a new page", corwystal_board_write(&board, 0, 100, bytes, 20));
    reads("read of all of it", 0, 0, 0, PAGE);
    /* page 0 is resident and stays but for the span's bytes; page 1 is covered, page 2 begun */
    garbage(3);
    zeros_in(1), zeros_in(2), stored(PAGE - 5, PAGE + 10);
    expect_done("write over a resident and two new pages", corwystal_board_write(&board, 0, PAGE - 5, bytes, PAGE + 10));
    reads("read of all three", 0, 0, 0, 3 * PAGE);
    garbage(5);
    expect("write that needs a frame too many", corwystal_board_write(&board, 1, 9, bytes, 2 * PAGE), CORWYSTAL_NO_FRAME, 0);
    expect_done("write of nothing", corwystal_board_write(&board, 1, 9, bytes, 0));
    expect("release", corwystal_board_release(&board, 0, 0), CORWYSTAL_PAGES, 3);
    zeros_in(2), stored(2 * PAGE + 9, 1);
    expect_done("write after a release", corwystal_board_write(&board, 1, 9, bytes, 1));
    reads("read of another space's new page", 1, 0, 2 * PAGE, PAGE);
}

/* A hand-back leaves the RAM, and the next new page, in whichever space, gets its frame. */
static void hand_backs(void) {
    begin();
    for (uint32_t page = 0; page < FRAMES; page++) {
        zeros_in(page);
        expect("touch", corwystal_board_touch(&board, 0, page), CORWYSTAL_NEW, page);
    }
    garbage(13);
    expect_done("hand-back of a page in the middle", corwystal_board_give_back(&board, 0, 1));
    expect("look", corwystal_board_look(&board, 0, 1), CORWYSTAL_ABSENT, 0);
    reads("read of the page that took its position", 0, (FRAMES - 1) * PAGE, (FRAMES - 1) * PAGE, PAGE);
    zeros_in(1);
    expect("touch after a hand-back", corwystal_board_touch(&board, 1, 5), CORWYSTAL_NEW, 1);
    reads("read of another space's new page", 1, 5 * PAGE, PAGE, PAGE);
    garbage(17);
    expect_done("hand-back of the only page", corwystal_board_give_back(&board, 1, 5));
    zeros_in(1), stored(PAGE + 9, 1);
    expect_done("write after a hand-back", corwystal_board_write(&board, 0, 6 * PAGE + 9, bytes, 1));
    reads("read of all of it", 0, 6 * PAGE, PAGE, PAGE);
    expect("hand-back of an absent page", corwystal_board_give_back(&board, 0, 1), CORWYSTAL_NOT_RESIDENT, 0);
}

/* Touch is lent the whole RAM, also where it maps nothing, and says so before it looks at space and page. */
static void too_short(void) {
    begin();
    zeros_in(0);
    expect("touch", corwystal_board_touch(&board, 0, 3), CORWYSTAL_NEW, 0);
    garbage(0);
    board.ram_len = RAM - 1;
    corwystal_head head = board.head;
    expect("touch of a new page with RAM too short", corwystal_board_touch(&board, 0, 4), CORWYSTAL_NO_SIZE, 0);
    expect("touch of a resident page with RAM too short", corwystal_board_touch(&board, 0, 3), CORWYSTAL_NO_SIZE, 0);
    expect("touch in no space with RAM too short", corwystal_board_touch(&board, SPACES, 3), CORWYSTAL_NO_SIZE, 0);
    expect("touch of no page with RAM too short", corwystal_board_touch(&board, 0, PAGES), CORWYSTAL_NO_SIZE, 0);
    expect("touch with no RAM", corwystal_touch(&board.head, 0, 3, CORWYSTAL_LENT(index_words), CORWYSTAL_LENT(count), CORWYSTAL_LENT(table),
                                                CORWYSTAL_LENT(helper), CORWYSTAL_LENT(stack), CORWYSTAL_LENT(cache), CORWYSTAL_LENT(frame_link),
                                                ram, 0), CORWYSTAL_NO_SIZE, 0);
    expect("look, which isn't lent it", corwystal_board_look(&board, 0, 3), CORWYSTAL_RESIDENT, 0);
    expect("hand-back, which isn't lent it either", corwystal_board_give_back(&board, 0, 4), CORWYSTAL_NOT_RESIDENT, 0);
    if (memcmp(&head, &board.head, sizeof head) != 0) fault("touch with RAM too short", "the head is another");
    board.ram_len = RAM;
    zeros_in(1);
    expect("touch with just enough RAM", corwystal_board_touch(&board, 0, 4), CORWYSTAL_NEW, 1);
}

int main(void) {
    for (size_t k = 0; k < sizeof bytes; k++) bytes[k] = (uint8_t)(255 - k % 251);
    touches();
    writes();
    hand_backs();
    too_short();
    return wrong;
}
