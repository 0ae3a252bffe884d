/*
 * An interrupt at each instruction of each call. Every scene below is a call on memory that other calls have left. It is made
 *   once undisturbed, which gives the answer and the memory that every later time is held to; its RAM is held to what the call should make of garbage;
 *   with a trap before each instruction that leaves everything alone, which tells how many there are, which, and how deep the stack goes;
 *   with such a trap that doesn't;
 *   with the vector registers turned off, so that any use of one is a fault;
 *   with a stack that is not aligned;
 *   and then once for each of its instructions, with the timer's interrupt just before that one.
 * But for the telling ones, traps and interrupts come on the stack of the call, and their handler changes all that it may: the memory below the stack
 * pointer, the vector registers, and every other register before it puts it back. A scene has passed if every answer and every byte is as
 * undisturbed, and if the timer's interrupts came at just the instructions that the traps told of, each in its turn: so none was left out, but for an
 * instruction that repeats itself hundreds of times, as a memset's does: it gets them at its first and at its last turns. Needs QEMU's -icount shift=0,
 * by which the timer counts instructions.
 */
#include "corwystal_board.h"
#include "machine.h"

/* ---- the memory of a scene: all that a call may change, in one piece */

enum { MOST_PLACES = 4097, FRAMES = 8, MANY_FRAMES = 100, PAGE = 256, RECORDS = 8, FILE = CORWYSTAL_CONTENTS_BYTES(65) };

static struct memory {
    corwystal_head head;
    uint32_t gap; /* so that all of it is a number of 8 bytes */
    uint64_t index_words[CORWYSTAL_INDEX_WORDS(MOST_PLACES)];
    uint32_t link[MANY_FRAMES];
    uint8_t ram[FRAMES * PAGE];
    uint8_t bytes[2 * PAGE];
    corwystal_region records[RECORDS];
    uint8_t file[FILE];
    corwystal_answer answer;
    corwystal_needs needs;
    uint32_t tables[5 * MOST_PLACES + 1];
} now, before, after;

static size_t used; /* bytes of it, from its start, that a scene's sizes use */

static corwystal_board lent;

static void copy(struct memory *to, const struct memory *from) {
    uint64_t n = used / 8;
    __asm__ volatile("rep movsq" : "+D"(to), "+S"(from), "+c"(n)::"memory");
}

static int same(const struct memory *one, const struct memory *other) {
    const uint64_t *x = (const uint64_t *)one, *y = (const uint64_t *)other;
    for (size_t k = 0; k < used / 8; k++)
        if (x[k] != y[k]) return 0;
    return 1;
}

/* A scene that is prepared wrongly tests nothing: a preparing call that is refused ends the sweep. */
static void ready(corwystal_answer a) {
    if (!corwystal_refused(a)) return;
    say("sweep: a call that prepares the next scene is refused with %u: %s\n", (uint64_t)a.kind, corwystal_text(a));
    leave(1);
}

static int damaged; /* somebody else has written the memory */

/* A start with so many pages in each space, on tables full of garbage. */
static void begin(uint32_t spaces, uint32_t pages) {
    size_t places = (size_t)spaces * pages;
    uint32_t *t = now.tables;
    damaged = 0;
    memset(&now, 0xA5, sizeof now);
    used = (offsetof(struct memory, tables) + 5 * places * sizeof *t + 7) / 8 * 8;
    lent = (corwystal_board){CORWYSTAL_HEAD_INIT, CORWYSTAL_LENT(now.index_words), t, places, t + places, places, t + 2 * places, places,
                             t + 3 * places, places, t + 4 * places, places, CORWYSTAL_LENT(now.link), CORWYSTAL_LENT(now.ram)};
    ready(corwystal_board_start(&lent, spaces, pages, FRAMES, PAGE));
}

/* ---- what stands before the call */

/* Two spaces of 64 pages: two layers of index. Space 0 has two regions, the first with 3 pages; space 1 has one from page 8 on, with 1 page. The pool has
   2 frames that were used and 2 that never were. */
static void two_gauges(void) {
    begin(2, 64);
    ready(corwystal_board_mark(&lent, 0, 0)), ready(corwystal_board_mark(&lent, 0, 32)), ready(corwystal_board_mark(&lent, 1, 8));
    for (uint32_t page = 0; page < 3; page++) ready(corwystal_board_touch(&lent, 0, page));
    for (uint32_t page = 40; page < 42; page++) ready(corwystal_board_touch(&lent, 0, page));
    ready(corwystal_board_touch(&lent, 1, 10));
    ready(corwystal_board_release(&lent, 0, 32));
}

/* The same with a fourth page in the first region. */
static void four_pages(void) {
    two_gauges();
    ready(corwystal_board_touch(&lent, 0, 3));
}

/* Two gauges with a pool of frames that were never used. */
static void fresh_pool(void) {
    begin(2, 64);
    ready(corwystal_board_mark(&lent, 0, 0));
    for (uint32_t page = 0; page < 3; page++) ready(corwystal_board_touch(&lent, 0, page));
}

static void empty_pool(void) {
    two_gauges();
    for (uint32_t page = 11; page < 15; page++) ready(corwystal_board_touch(&lent, 1, page));
}

/* One space of 64 pages: the index has one word. */
static void one_layer(void) {
    begin(1, 64);
    ready(corwystal_board_mark(&lent, 0, 0));
    ready(corwystal_board_touch(&lent, 0, 5));
}

/* One space of 100 pages: two layers, also in the set of pages that a map's reading keeps. */
static void two_layers(void) {
    begin(1, 100);
    ready(corwystal_board_mark(&lent, 0, 0)), ready(corwystal_board_mark(&lent, 0, 80));
    ready(corwystal_board_touch(&lent, 0, 5)), ready(corwystal_board_touch(&lent, 0, 70)), ready(corwystal_board_touch(&lent, 0, 90));
}

/* More frames than one word of a set has bits; their RAM is not there, and no call with a map is lent it. */
static void many_frames(void) {
    begin(1, 64);
    ready(corwystal_board_start(&lent, 1, 64, MANY_FRAMES, PAGE));
    ready(corwystal_board_mark(&lent, 0, 0));
}

/* One space of 4,097 pages with one region: three layers, and a find from the last page reads five words. */
static void three_layers(void) {
    begin(1, MOST_PLACES);
    ready(corwystal_board_mark(&lent, 0, 0));
    ready(corwystal_board_touch(&lent, 0, 5)), ready(corwystal_board_touch(&lent, 0, 9));
    ready(corwystal_board_release(&lent, 0, 0));
    ready(corwystal_board_touch(&lent, 0, 7));
}

/* The same with starts at both ends and no page. */
static void two_ends(void) {
    begin(1, MOST_PLACES);
    ready(corwystal_board_mark(&lent, 0, 0)), ready(corwystal_board_mark(&lent, 0, MOST_PLACES - 1));
}

static void one_end(void) {
    two_ends();
    ready(corwystal_board_drop(&lent, 0, MOST_PLACES - 1));
}

static void no_starts(void) { begin(1, MOST_PLACES); }

static void never_started(void) {
    begin(2, 64);
    lent.head = (corwystal_head)CORWYSTAL_HEAD_INIT;
}

static void short_ram(void) {
    two_gauges();
    lent.ram_len--;
}

static void short_link(void) {
    two_gauges();
    lent.link_len = FRAMES - 1;
}

/* Memory that somebody else has written: a pool, counts, frames that can't be. */
static void broken_pool(void) {
    two_gauges();
    lent.head.first = FRAMES;
    damaged = 1;
}

static void broken_counts(void) {
    two_gauges();
    lent.count[0] = lent.count[32] = 65;
    damaged = 1;
}

static void broken_frames(void) {
    two_gauges();
    for (uint32_t page = 0; page < 3; page++) lent.table[page] = FRAMES;
    damaged = 1;
}

static void broken_head(void) {
    two_gauges();
    lent.head.many = FRAMES + 1;
    damaged = 1;
}

/* The same of a region with four pages: a count that no list has room for; the newest page without a frame; the third without one, and without a place. */
static void broken_count(void) {
    four_pages();
    lent.count[0] = 2 * 64 + 1;
    damaged = 1;
}

static void newest_without_frame(void) {
    four_pages();
    lent.table[3] = FRAMES;
    damaged = 1;
}

static void third_without_frame(void) {
    four_pages();
    lent.table[2] = FRAMES;
    damaged = 1;
}

static void third_without_place(void) {
    four_pages();
    lent.stack[2] = UINT32_MAX;
    damaged = 1;
}

/* The places of the pages that two regions have: behind every table, and before the space of the second. */
static void broken_stack(void) {
    two_gauges();
    lent.stack[0] = UINT32_MAX, lent.stack[1] = 128;
    lent.stack[64 + 8] = 0;
    damaged = 1;
}

/* A map that a board has written, with its length, lent to a board that has never started; and to one that has another state. */
static size_t map_len;

static void map_of(void (*writer)(void), void (*reader)(void)) {
    static uint8_t map[FILE];
    writer();
    corwystal_answer a = corwystal_board_write_map(&lent, map, sizeof map);
    ready(a);
    reader();
    map_len = (size_t)a.value;
    memmove(now.file, map, sizeof map);
}

static void a_map(void) { map_of(two_gauges, never_started); }

static void another_map(void) { map_of(two_gauges, fresh_pool); }

static void a_full_map(void) { map_of(empty_pool, never_started); }

static void a_small_map(void) { map_of(one_layer, one_layer); }

static void a_map_of_two_layers(void) { map_of(two_layers, two_layers); }

static void a_map_of_many_frames(void) { map_of(many_frames, many_frames); }

static void a_map_of_three_layers(void) { map_of(three_layers, two_ends); }

static void a_map_without_pages(void) { map_of(two_ends, no_starts); }

/* Its number of spaces is none. */
static void a_map_of_no_spaces(void) {
    a_map();
    now.file[0] = 0;
}

static void a_map_of_65_spaces(void) {
    a_map();
    now.file[0] = 65;
}

/* A table is too short for it. */
static void short_tables(void) {
    a_map();
    lent.cache_len--;
}

/* ---- the call */

enum call { START, MARK, DROP, TOUCH, LOOK, RELEASE, GIVE_BACK, FREE_COUNT, TRANSLATE, READ, WRITE, LIST, WRITE_MAP, READ_MAP, HOW_FULL, SIZES };

/* Of a map that is read, a word is made another: its place, counted from 1, in `at`, the word in `space`. That of two gauges has sizes in words 0 to 3, rows
   up to word 12, two regions with 3 and 0 pages from word 13 on, one with 1 page from word 25 on, and four frames from word 30 on. */
static const struct scene {
    const char *call, *how;
    void (*prepare)(void);
    enum call which;
    uint32_t space;
    size_t at, n;  /* page or address; how many bytes or records, a start's frames, or how many bytes of a map are left out */
    uint32_t kind; /* of its answer */
} scenes[] = {
    {"start", "", never_started, START, 2, 64, FRAMES, CORWYSTAL_DONE},
    {"start", "again", two_gauges, START, 2, 64, FRAMES, CORWYSTAL_DONE},
    {"start", "refused", two_gauges, START, 2, 64, 0, CORWYSTAL_NO_SIZE},
    {"mark", "", two_gauges, MARK, 0, 40, 0, CORWYSTAL_DONE},
    {"mark", "the first of a space", fresh_pool, MARK, 1, 63, 0, CORWYSTAL_DONE},
    {"mark", "in one layer", one_layer, MARK, 0, 7, 0, CORWYSTAL_RESIDENT_PAGES},
    {"mark", "in three layers", one_end, MARK, 0, 4096, 0, CORWYSTAL_DONE},
    {"mark", "the first in three layers", no_starts, MARK, 0, 4096, 0, CORWYSTAL_DONE},
    {"mark", "of a start", two_gauges, MARK, 0, 32, 0, CORWYSTAL_START_ALREADY},
    {"mark", "over resident pages", two_gauges, MARK, 0, 1, 0, CORWYSTAL_RESIDENT_PAGES},
    {"mark", "over the pages of three layers", three_layers, MARK, 0, 4096, 0, CORWYSTAL_RESIDENT_PAGES},
    {"mark", "outside", two_gauges, MARK, 0, 64, 0, CORWYSTAL_NO_PAGE},
    {"drop", "", two_gauges, DROP, 0, 32, 0, CORWYSTAL_DONE},
    {"drop", "in three layers", two_ends, DROP, 0, 4096, 0, CORWYSTAL_DONE},
    {"drop", "of the last in three layers", one_end, DROP, 0, 0, 0, CORWYSTAL_DONE},
    {"drop", "of a region with pages", two_gauges, DROP, 0, 0, 0, CORWYSTAL_RESIDENT_PAGES},
    {"drop", "of no start", two_gauges, DROP, 0, 1, 0, CORWYSTAL_NO_START},
    {"drop", "outside", two_gauges, DROP, 2, 0, 0, CORWYSTAL_NO_SPACE},
    {"touch", "of a resident page", two_gauges, TOUCH, 0, 2, 0, CORWYSTAL_OLD},
    {"touch", "of an absent page", two_gauges, TOUCH, 0, 33, 0, CORWYSTAL_NEW},
    {"touch", "behind other pages", two_gauges, TOUCH, 0, 3, 0, CORWYSTAL_NEW},
    {"touch", "with a frame never used", fresh_pool, TOUCH, 0, 33, 0, CORWYSTAL_NEW},
    {"touch", "in one layer", one_layer, TOUCH, 0, 63, 0, CORWYSTAL_NEW},
    {"touch", "in three layers", three_layers, TOUCH, 0, 4096, 0, CORWYSTAL_NEW},
    {"touch", "with an empty pool", empty_pool, TOUCH, 0, 33, 0, CORWYSTAL_NO_FRAME},
    {"touch", "without a region", two_gauges, TOUCH, 1, 7, 0, CORWYSTAL_NO_REGION},
    {"touch", "without a start in three layers", no_starts, TOUCH, 0, 4096, 0, CORWYSTAL_NO_REGION},
    {"touch", "outside", two_gauges, TOUCH, 2, 0, 0, CORWYSTAL_NO_SPACE},
    {"touch", "of a resident page with RAM too short", short_ram, TOUCH, 0, 2, 0, CORWYSTAL_NO_SIZE},
    {"touch", "with a broken pool", broken_pool, TOUCH, 0, 33, 0, CORWYSTAL_NOT_OURS},
    {"touch", "with broken counts", broken_counts, TOUCH, 0, 33, 0, CORWYSTAL_NOT_OURS},
    {"touch", "with broken frames", broken_frames, TOUCH, 0, 1, 0, CORWYSTAL_NOT_OURS},
    {"look", "at a resident page", two_gauges, LOOK, 0, 2, 0, CORWYSTAL_RESIDENT},
    {"look", "at an absent page", two_gauges, LOOK, 0, 63, 0, CORWYSTAL_ABSENT},
    {"look", "in one layer", one_layer, LOOK, 0, 63, 0, CORWYSTAL_ABSENT},
    {"look", "in three layers", three_layers, LOOK, 0, 4096, 0, CORWYSTAL_ABSENT},
    {"look", "without a region", two_gauges, LOOK, 1, 7, 0, CORWYSTAL_NO_REGION},
    {"look", "outside", two_gauges, LOOK, 0, 64, 0, CORWYSTAL_NO_PAGE},
    {"look", "with broken frames", broken_frames, LOOK, 0, 1, 0, CORWYSTAL_NOT_OURS},
    {"release", "", two_gauges, RELEASE, 0, 0, 0, CORWYSTAL_PAGES},
    {"release", "onto an unlinked pool", fresh_pool, RELEASE, 0, 0, 0, CORWYSTAL_PAGES},
    {"release", "of an empty region", two_gauges, RELEASE, 0, 32, 0, CORWYSTAL_PAGES},
    {"release", "of no start", two_gauges, RELEASE, 0, 1, 0, CORWYSTAL_NO_START},
    {"release", "outside", two_gauges, RELEASE, 2, 0, 0, CORWYSTAL_NO_SPACE},
    {"release", "with broken counts", broken_counts, RELEASE, 0, 0, 0, CORWYSTAL_NOT_OURS},
    {"release", "with broken frames", broken_frames, RELEASE, 0, 0, 0, CORWYSTAL_NOT_OURS},
    {"give_back", "of the oldest page", two_gauges, GIVE_BACK, 0, 0, 0, CORWYSTAL_DONE},
    {"give_back", "of a page in the middle", four_pages, GIVE_BACK, 0, 1, 0, CORWYSTAL_DONE},
    {"give_back", "of the page before the newest", two_gauges, GIVE_BACK, 0, 1, 0, CORWYSTAL_DONE},
    {"give_back", "of the newest page", two_gauges, GIVE_BACK, 0, 2, 0, CORWYSTAL_DONE},
    {"give_back", "of the only page", two_gauges, GIVE_BACK, 1, 10, 0, CORWYSTAL_DONE},
    {"give_back", "onto an unlinked pool", fresh_pool, GIVE_BACK, 0, 0, 0, CORWYSTAL_DONE},
    {"give_back", "onto an empty pool", empty_pool, GIVE_BACK, 1, 11, 0, CORWYSTAL_DONE},
    {"give_back", "of an absent page", two_gauges, GIVE_BACK, 0, 33, 0, CORWYSTAL_NOT_RESIDENT},
    {"give_back", "of an absent page in one layer", one_layer, GIVE_BACK, 0, 63, 0, CORWYSTAL_NOT_RESIDENT},
    {"give_back", "of an absent page in three layers", three_layers, GIVE_BACK, 0, 4096, 0, CORWYSTAL_NOT_RESIDENT},
    {"give_back", "without a region", two_gauges, GIVE_BACK, 1, 7, 0, CORWYSTAL_NO_REGION},
    {"give_back", "without a start in three layers", no_starts, GIVE_BACK, 0, 4096, 0, CORWYSTAL_NO_REGION},
    {"give_back", "outside", two_gauges, GIVE_BACK, 2, 0, 0, CORWYSTAL_NO_SPACE},
    {"give_back", "of no page", two_gauges, GIVE_BACK, 0, 64, 0, CORWYSTAL_NO_PAGE},
    {"give_back", "with a link too short", short_link, GIVE_BACK, 0, 1, 0, CORWYSTAL_NO_SIZE},
    {"give_back", "with RAM too short", short_ram, GIVE_BACK, 0, 1, 0, CORWYSTAL_DONE},
    {"give_back", "with broken frames", broken_frames, GIVE_BACK, 0, 1, 0, CORWYSTAL_NOT_OURS},
    {"give_back", "with a broken count", broken_count, GIVE_BACK, 0, 1, 0, CORWYSTAL_NOT_OURS},
    {"give_back", "with broken counts", broken_counts, GIVE_BACK, 0, 1, 0, CORWYSTAL_NOT_OURS},
    {"give_back", "with the newest without a frame", newest_without_frame, GIVE_BACK, 0, 1, 0, CORWYSTAL_NOT_OURS},
    {"give_back", "with the next without a place", third_without_place, GIVE_BACK, 0, 1, 0, CORWYSTAL_NOT_OURS},
    {"give_back", "with the next without a frame", third_without_frame, GIVE_BACK, 0, 1, 0, CORWYSTAL_NOT_OURS},
    {"give_back", "with a broken head", broken_head, GIVE_BACK, 0, 1, 0, CORWYSTAL_NOT_OURS},
    {"free_count", "", two_gauges, FREE_COUNT, 0, 0, 0, CORWYSTAL_FRAMES},
    {"free_count", "before a start", never_started, FREE_COUNT, 0, 0, 0, CORWYSTAL_NO_SIZE},
    {"free_count", "with a broken head", broken_head, FREE_COUNT, 0, 0, 0, CORWYSTAL_NOT_OURS},
    {"translate", "", two_gauges, TRANSLATE, 0, 2 * PAGE + 9, 0, CORWYSTAL_AT},
    {"translate", "of an absent page", two_gauges, TRANSLATE, 0, 33 * PAGE, 0, CORWYSTAL_NOT_RESIDENT},
    {"translate", "without a region", two_gauges, TRANSLATE, 1, 0, 0, CORWYSTAL_NO_REGION},
    {"translate", "outside", two_gauges, TRANSLATE, 0, 64 * PAGE, 0, CORWYSTAL_NO_PAGE},
    {"translate", "with broken frames", broken_frames, TRANSLATE, 0, 0, 0, CORWYSTAL_NOT_OURS},
    {"read", "over two pages", two_gauges, READ, 0, 2 * PAGE - 8, 16, CORWYSTAL_BYTES},
    {"read", "of no byte", two_gauges, READ, 0, 64 * PAGE, 0, CORWYSTAL_BYTES},
    {"read", "into an absent page", two_gauges, READ, 0, 3 * PAGE - 8, 16, CORWYSTAL_NOT_RESIDENT},
    {"read", "without a region", two_gauges, READ, 1, 0, 16, CORWYSTAL_NO_REGION},
    {"read", "outside", two_gauges, READ, 0, 64 * PAGE, 1, CORWYSTAL_NO_PAGE},
    {"read", "with broken frames", broken_frames, READ, 0, 0, 16, CORWYSTAL_NOT_OURS},
    {"write", "over two resident pages", two_gauges, WRITE, 0, 2 * PAGE - 8, 16, CORWYSTAL_DONE},
    {"write", "over a resident and an absent page", two_gauges, WRITE, 0, 3 * PAGE - 8, 16, CORWYSTAL_DONE},
    {"write", "over an absent and a resident page", two_gauges, WRITE, 1, 10 * PAGE - 8, 16, CORWYSTAL_DONE},
    {"write", "inside an absent page", two_gauges, WRITE, 0, 33 * PAGE + 8, 16, CORWYSTAL_DONE},
    {"write", "over three absent pages", two_gauges, WRITE, 0, 33 * PAGE - 4, PAGE + 8, CORWYSTAL_DONE},
    {"write", "of no byte", two_gauges, WRITE, 0, 64 * PAGE, 0, CORWYSTAL_DONE},
    {"write", "with an empty pool", empty_pool, WRITE, 0, 3 * PAGE - 8, 16, CORWYSTAL_NO_FRAME},
    {"write", "into a page with an empty pool", empty_pool, WRITE, 0, 33 * PAGE, 16, CORWYSTAL_NO_FRAME},
    {"write", "without a region", two_gauges, WRITE, 1, 0, 16, CORWYSTAL_NO_REGION},
    {"write", "outside", two_gauges, WRITE, 0, 64 * PAGE, 1, CORWYSTAL_NO_PAGE},
    {"write", "with a broken pool", broken_pool, WRITE, 0, 33 * PAGE, 16, CORWYSTAL_NOT_OURS},
    {"write", "with broken counts", broken_counts, WRITE, 0, 33 * PAGE, 16, CORWYSTAL_NOT_OURS},
    {"write", "over two pages with a broken pool", broken_pool, WRITE, 0, 34 * PAGE - 8, 16, CORWYSTAL_DONE},
    {"write", "over two pages with broken counts", broken_counts, WRITE, 0, 34 * PAGE - 8, 16, CORWYSTAL_DONE},
    {"write", "with broken frames", broken_frames, WRITE, 0, 0, 16, CORWYSTAL_NOT_OURS},
    {"list", "", two_gauges, LIST, 0, 0, RECORDS, CORWYSTAL_REGIONS},
    {"list", "without room", two_gauges, LIST, 0, 0, 1, CORWYSTAL_NO_ROOM},
    {"list", "of no region", no_starts, LIST, 0, 0, RECORDS, CORWYSTAL_REGIONS},
    {"list", "in three layers", two_ends, LIST, 0, 0, RECORDS, CORWYSTAL_REGIONS},
    {"list", "outside", two_gauges, LIST, 2, 0, RECORDS, CORWYSTAL_NO_SPACE},
    {"write_map", "", two_gauges, WRITE_MAP, 0, 0, FILE, CORWYSTAL_MAP},
    {"write_map", "with a pool never used", fresh_pool, WRITE_MAP, 0, 0, FILE, CORWYSTAL_MAP},
    {"write_map", "with an empty pool", empty_pool, WRITE_MAP, 0, 0, FILE, CORWYSTAL_MAP},
    {"write_map", "in one layer", one_layer, WRITE_MAP, 0, 0, FILE, CORWYSTAL_MAP},
    {"write_map", "in two layers", two_layers, WRITE_MAP, 0, 0, FILE, CORWYSTAL_MAP},
    {"write_map", "of many frames", many_frames, WRITE_MAP, 0, 0, FILE, CORWYSTAL_MAP},
    {"write_map", "in three layers", three_layers, WRITE_MAP, 0, 0, FILE, CORWYSTAL_MAP},
    {"write_map", "with a broken pool", broken_pool, WRITE_MAP, 0, 0, FILE, CORWYSTAL_MAP},
    {"write_map", "with a broken stack", broken_stack, WRITE_MAP, 0, 0, FILE, CORWYSTAL_MAP},
    {"write_map", "without room", two_gauges, WRITE_MAP, 0, 0, 132, CORWYSTAL_NO_MAP_ROOM},
    {"write_map", "with broken counts", broken_counts, WRITE_MAP, 0, 0, FILE, CORWYSTAL_NOT_OURS},
    {"write_map", "with a broken head", broken_head, WRITE_MAP, 0, 0, FILE, CORWYSTAL_NOT_OURS},
    {"write_map", "before a start", never_started, WRITE_MAP, 0, 0, FILE, CORWYSTAL_NO_SIZE},
    {"read_map", "", a_map, READ_MAP, 0, 0, 0, CORWYSTAL_DONE},
    {"read_map", "over another state", another_map, READ_MAP, 0, 0, 0, CORWYSTAL_DONE},
    {"read_map", "with an empty pool", a_full_map, READ_MAP, 0, 0, 0, CORWYSTAL_DONE},
    {"read_map", "in one layer", a_small_map, READ_MAP, 0, 0, 0, CORWYSTAL_DONE},
    {"read_map", "in two layers", a_map_of_two_layers, READ_MAP, 0, 0, 0, CORWYSTAL_DONE},
    {"read_map", "of many frames", a_map_of_many_frames, READ_MAP, 0, 0, 0, CORWYSTAL_DONE},
    {"read_map", "of many frames, one of them twice", a_map_of_many_frames, READ_MAP, 70, 113, 0, CORWYSTAL_NO_MAP},
    {"read_map", "in three layers", a_map_of_three_layers, READ_MAP, 0, 0, 0, CORWYSTAL_DONE},
    {"read_map", "without pages", a_map_without_pages, READ_MAP, 0, 0, 0, CORWYSTAL_DONE},
    {"read_map", "of no byte", a_map, READ_MAP, 0, 0, 136, CORWYSTAL_NO_MAP},
    {"read_map", "cut in its contents", a_map, READ_MAP, 0, 0, 136 - 51, CORWYSTAL_NO_MAP},
    {"read_map", "cut in its pool", a_map, READ_MAP, 0, 0, 4, CORWYSTAL_NO_MAP},
    {"read_map", "cut in a word", a_map, READ_MAP, 0, 0, 1, CORWYSTAL_NO_MAP},
    {"read_map", "with a word more", a_map, READ_MAP, 0, 0, (size_t)-4, CORWYSTAL_NO_MAP},
    {"read_map", "of too many spaces", a_map, READ_MAP, 65, 1, 0, CORWYSTAL_NO_MAP},
    {"read_map", "of too many pages", a_map, READ_MAP, UINT32_MAX, 2, 0, CORWYSTAL_NO_MAP},
    {"read_map", "of no frame", a_map, READ_MAP, 0, 3, 0, CORWYSTAL_NO_MAP},
    {"read_map", "of no page size", a_map, READ_MAP, 300, 4, 0, CORWYSTAL_NO_MAP},
    {"read_map", "with a body elsewhere", a_map, READ_MAP, 14, 5, 0, CORWYSTAL_NO_MAP},
    {"read_map", "with a body of another length", a_map, READ_MAP, 11, 6, 0, CORWYSTAL_NO_MAP},
    {"read_map", "with another count of pages", a_map, READ_MAP, 4, 7, 0, CORWYSTAL_NO_MAP},
    {"read_map", "with another count of frames", a_map, READ_MAP, 5, 13, 0, CORWYSTAL_NO_MAP},
    {"read_map", "with a region of another length", a_map, READ_MAP, 31, 15, 0, CORWYSTAL_NO_MAP},
    {"read_map", "with a region of no page", a_map, READ_MAP, 0, 15, 0, CORWYSTAL_NO_MAP},
    {"read_map", "with a region cut", a_map, READ_MAP, 200, 16, 0, CORWYSTAL_NO_MAP},
    {"read_map", "with a page outside", a_map, READ_MAP, 40, 17, 0, CORWYSTAL_NO_MAP},
    {"read_map", "with a page twice", a_map, READ_MAP, 0, 19, 0, CORWYSTAL_NO_MAP},
    {"read_map", "with a page before its region", a_map, READ_MAP, 7, 29, 0, CORWYSTAL_NO_MAP},
    {"read_map", "with a frame twice", a_map, READ_MAP, 0, 34, 0, CORWYSTAL_NO_MAP},
    {"read_map", "with a page's frame outside", a_map, READ_MAP, FRAMES, 18, 0, CORWYSTAL_NO_MAP},
    {"read_map", "with a frame outside", a_map, READ_MAP, FRAMES, 34, 0, CORWYSTAL_NO_MAP},
    {"read_map", "with a table too short", short_tables, READ_MAP, 0, 0, 0, CORWYSTAL_NO_SIZE},
    {"how_full", "", a_map, HOW_FULL, 0, 0, 0, CORWYSTAL_PAGES},
    {"how_full", "from the contents alone", a_map, HOW_FULL, 1, 0, 136 - 52, CORWYSTAL_PAGES},
    {"how_full", "of the pool", a_map, HOW_FULL, 2, 0, 0, CORWYSTAL_NO_SPACE},
    {"how_full", "from contents that are cut", a_map, HOW_FULL, 0, 0, 136 - 51, CORWYSTAL_NO_SIZE},
    {"how_full", "from no byte", a_map, HOW_FULL, 0, 0, 136, CORWYSTAL_NO_SIZE},
    {"how_full", "of no spaces", a_map_of_no_spaces, HOW_FULL, 0, 0, 0, CORWYSTAL_NO_SIZE},
    {"how_full", "of too many spaces", a_map_of_65_spaces, HOW_FULL, 0, 0, (size_t)136 - CORWYSTAL_CONTENTS_BYTES(65), CORWYSTAL_NO_SIZE},
    {"sizes", "", never_started, SIZES, 2, 0, 0, 0},
    {"sizes", "refused", never_started, SIZES, 65, 0, 0, 0},
};

enum { SCENES = sizeof scenes / sizeof scenes[0] };
static const struct scene *scene;

/* Number by number: what lies between them is nobody's. */
static void keep_needs(corwystal_needs n) {
    now.needs.refusal = n.refusal;
    now.needs.index = n.index, now.needs.places = n.places, now.needs.link = n.link, now.needs.ram = n.ram, now.needs.map = n.map;
}

static corwystal_answer answer_of(const struct scene *s) {
    uint32_t page = (uint32_t)s->at;
    switch (s->which) {
    case START: return corwystal_board_start(&lent, s->space, page, (uint32_t)s->n, PAGE);
    case MARK: return corwystal_board_mark(&lent, s->space, page);
    case DROP: return corwystal_board_drop(&lent, s->space, page);
    case TOUCH: return corwystal_board_touch(&lent, s->space, page);
    case LOOK: return corwystal_board_look(&lent, s->space, page);
    case RELEASE: return corwystal_board_release(&lent, s->space, page);
    case GIVE_BACK: return corwystal_board_give_back(&lent, s->space, page);
    case FREE_COUNT: return corwystal_board_free_count(&lent);
    case TRANSLATE: return corwystal_board_translate(&lent, s->space, s->at);
    case READ: return corwystal_board_read(&lent, s->space, s->at, now.bytes, s->n);
    case WRITE: return corwystal_board_write(&lent, s->space, s->at, now.bytes, s->n);
    case LIST: return corwystal_board_list(&lent, s->space, now.records, s->n);
    case WRITE_MAP: return corwystal_board_write_map(&lent, now.file, s->n);
    case READ_MAP: return corwystal_board_read_map(&lent, now.file, map_len - s->n);
    case HOW_FULL: return corwystal_how_full(s->space, now.file, map_len - s->n);
    default: keep_needs(corwystal_sizes(s->space, 64, FRAMES, PAGE)); return (corwystal_answer){0, 0, 0};
    }
}

static void make_call(void) { now.answer = answer_of(scene); }

/* ---- the RAM that it should leave: a page that it maps is zeros but for what it stores, and no other byte changes */

enum { MOST_SPAN = sizeof now.bytes / PAGE + 1 };
static uint32_t span_first, span_pages; /* the pages that a touch or a write may map */
static int absent[MOST_SPAN];           /* before the call */

static corwystal_answer look_at(uint32_t k) { return corwystal_board_look(&lent, scene->space, span_first + k); }

/* Garbage in every frame, whatever prepared it, and in what is to be stored: no byte of it is 0, and no two frames have the same. */
static void soil(void) {
    for (size_t k = 0; k < sizeof now.ram; k++) now.ram[k] = (uint8_t)(1 + k % 251);
    for (size_t k = 0; k < sizeof now.bytes; k++) now.bytes[k] = (uint8_t)(255 - k % 253);
}

static void note_absent(void) {
    size_t at = scene->at, n = scene->n;
    span_first = (uint32_t)(scene->which == WRITE ? at / PAGE : at);
    span_pages = scene->which == TOUCH ? 1 : scene->which == WRITE && n ? (uint32_t)((at + n - 1) / PAGE - at / PAGE + 1) : 0;
    for (uint32_t k = 0; k < span_pages; k++) absent[k] = look_at(k).kind == CORWYSTAL_ABSENT;
}

static void spoil_map(void) {
    uint32_t w = scene->space;
    for (size_t k = 0; scene->which == READ_MAP && scene->at && k < 4; k++) now.file[4 * (scene->at - 1) + k] = (uint8_t)(w >> 8 * k);
}

static int ram_is_right(void) {
    static uint8_t ram[sizeof now.ram];
    uint64_t frames[MOST_SPAN];
    int accepted = !corwystal_refused(after.answer);
    if (accepted && damaged) return 1; /* which frame a page has is then not told by a look */
    memmove(ram, before.ram, sizeof ram);
    for (uint32_t k = 0; accepted && k < span_pages; k++) {
        corwystal_answer a = look_at(k);
        if (a.kind != CORWYSTAL_RESIDENT) return 0;
        frames[k] = a.value;
        if (absent[k]) memset(ram + a.value * PAGE, 0, PAGE);
    }
    for (size_t k = 0; accepted && scene->which == WRITE && k < scene->n; k++) {
        size_t x = scene->at + k;
        ram[frames[x / PAGE - span_first] * PAGE + x % PAGE] = before.bytes[k];
    }
    for (size_t k = 0; k < sizeof ram; k++)
        if (ram[k] != after.ram[k]) return 0;
    return 1;
}

/* ---- a call, disturbed, and what became of it */

static uint64_t wrong, interrupts;

static void put_back(void) {
    copy(&now, &before);
    lent.head = now.head;
}

/* Says what went wrong, the first few times of a scene. */
static void judge(const char *how) {
    now.head = lent.head;
    if (same(&now, &after)) return;
    if (wrong++ < 3)
        say("sweep: %s %s, %s, the last at +%x of the library: answer %u for %u, value %u for %u\n", scene->call, scene->how, how,
            last_rip - (uint64_t)pager_from, (uint64_t)now.answer.kind, (uint64_t)after.answer.kind, now.answer.value, after.answer.value);
}

/* Makes the call by a way of making it; a fault comes back here. */
static void disturbed(const char *how, void (*way)(void)) {
    static struct place here;
    put_back();
    if (save(&here)) {
        interrupts_off();
        if (wrong++ < 3)
            say("sweep: %s %s, %s: trap %u at +%x of the library\n", scene->call, scene->how, how, fault.vector,
                fault.rip - (uint64_t)pager_from);
        return;
    }
    on_fault = &here;
    way();
    on_fault = 0;
    judge(how);
}

/* ---- each instruction that the call runs, as the traps tell it */

enum { MOST_STEPS = 65536 };
static uint64_t steps[MOST_STEPS];
static uint64_t many, inside, entry_stack, deepest;

static int in_library(uint64_t rip) { return rip >= (uint64_t)pager_from && rip < (uint64_t)pager_to; }
static int in_call(uint64_t rip) { return rip >= (uint64_t)pager_from && rip < (uint64_t)copies_to; }

static void note_step(const struct trap_frame *f) {
    if (!in_call(f->rip) || many == MOST_STEPS) return;
    if (!many) entry_stack = deepest = f->rsp;
    if (f->rsp < deepest) deepest = f->rsp;
    inside += (uint64_t)in_library(f->rip);
    steps[many++] = f->rip;
}

static void note_steps(void) {
    many = inside = 0;
    step_each(note_step, 1);
    make_call();
    step_each(0, 0);
}

static void pass(const struct trap_frame *f) { (void)f; }

static void trap_each(void) {
    step_each(pass, 0);
    make_call();
    step_each(0, 0);
}

static void without_vectors(void) {
    vector_registers(0);
    make_call();
    vector_registers(1);
}

static void off_by_8(void) { call_off_by_8(make_call); }

/* ---- the timer's interrupt at each of them */

static uint32_t delay;

static void with_interrupt(void) {
    uint64_t n = aimed;
    interrupts_on();
    timer_aim(delay);
    make_call();
    while (aimed == n) {}
    interrupts_off();
}

static uint8_t met[65536]; /* instructions of the library at which an interrupt came, by their place */

/* How many of the steps before this one and from it on are the same instruction again. */
static uint64_t behind(uint64_t turn) {
    uint64_t n = 0;
    while (n < turn && steps[turn - n - 1] == steps[turn]) n++;
    return n;
}

static uint64_t ahead(uint64_t turn) {
    uint64_t n = 0;
    while (turn + n + 1 < many && steps[turn + n + 1] == steps[turn]) n++;
    return n;
}

/* How many turns of an instruction that repeats itself are passed over from this one on: of its first 64 and its last 16 none is. */
static uint64_t passed(uint64_t turn) {
    enum { FIRST = 64, LAST = 16 };
    return behind(turn) == FIRST && ahead(turn) > LAST ? ahead(turn) - LAST : 0;
}

static uint64_t passed_over; /* of a scene's turns */

/* The delays go up by one instruction: so interrupts come at the first, the second, .. instruction of the call. Answers how many turns it came to. */
static uint64_t interrupt_each(void) {
    uint64_t turn = 0;
    passed_over = 0;
    for (delay = 1; turn < many && delay < many + 400; delay++) {
        uint64_t over = passed(turn);
        turn += over, delay += (uint32_t)over, passed_over += over;
        disturbed("with an interrupt", with_interrupt);
        if (last_rip != steps[turn]) continue; /* before the call */
        if (in_library(last_rip)) met[last_rip - (uint64_t)pager_from] = 1;
        turn++;
    }
    return turn;
}

/* A line for each scene: call, how; instructions of the library, bytes of stack, interrupts. One that is too long to be noted whole has not passed. */
static int play(const struct scene *s) {
    scene = s;
    wrong = 0;
    s->prepare();
    soil();
    spoil_map();
    now.head = lent.head;
    copy(&before, &now);
    note_absent();
    make_call();
    now.head = lent.head;
    copy(&after, &now);
    if (after.answer.kind != s->kind) {
        say("sweep: %s %s answers %u, not %u\n", s->call, s->how, (uint64_t)after.answer.kind, (uint64_t)s->kind);
        return 0;
    }
    if (!ram_is_right()) {
        say("sweep: %s %s leaves other RAM than it should\n", s->call, s->how);
        return 0;
    }
    wrecking = 0;
    disturbed("step by step", note_steps);
    wrecking = 1;
    disturbed("with a trap before each instruction", trap_each);
    step_each(0, 0);
    disturbed("without vector registers", without_vectors);
    vector_registers(1);
    disturbed("with a stack off by 8", off_by_8);
    uint64_t otherwise = wrong;
    uint64_t turns = interrupt_each();
    interrupts += turns - passed_over;
    say("scene %s: %s: %u instructions, %u bytes of stack, %u interrupts, %u wrong, %u otherwise wrong\n", s->call, s->how, inside,
        entry_stack - deepest + 8, turns - passed_over, wrong - otherwise, otherwise);
    if (turns != many) say("sweep: %s %s: no interrupt at %u of its %u instructions\n", s->call, s->how, many - turns, many);
    if (!many || many == MOST_STEPS) say("sweep: %s %s: %u instructions can't be noted whole\n", s->call, s->how, many);
    return !wrong && turns == many && many && many < MOST_STEPS;
}

_Noreturn void sweep(void) {
    int good = 1;
    uint64_t places = 0;
    if ((size_t)(pager_to - pager_from) > sizeof met) {
        say("sweep: the library has %u bytes of code, more than are noted: make met longer\n", (uint64_t)(pager_to - pager_from));
        leave(1);
    }
    vector_registers(1);
    for (size_t k = 0; k < SCENES; k++) good &= play(&scenes[k]);
    for (size_t k = 0; k < sizeof met; k++) places += met[k];
    say("sweep: %u scenes, %u interrupts, at %u instructions of the library: %s\n", (uint64_t)SCENES, interrupts, places, good ? "good" : "BAD");
    leave(good ? 0 : 1);
}
