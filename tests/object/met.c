/*
 * Each exported call in several situations, refused ones among them, to see how much stack it uses and how many instructions it runs.
 *     met stack    (built with PAINT) a line for each: the call, a slash, the situation, a colon, and the bytes of stack that it wrote, counted from
 *                  its caller's stack pointer down: the stack below is painted before the call (paint.S), and what is no longer painted counts
 *     met count    under callgrind: a dump for each, of the call alone
 * Every situation is made anew from a start, with garbage in the tables wherever the call looks. An answer of another kind than expected is a failure:
 * another thing would be measured than is named.
 */
#include "../../bindings/c/corwystal_board.h"

#include <stdio.h>
#include <string.h>
#include <valgrind/callgrind.h>

enum { PLACES = CORWYSTAL_MOST_PLACES, FRAMES = 64, PAGE = 256, SPAN = FRAMES * PAGE, LAST = PLACES - 1 };

static uint64_t index_words[CORWYSTAL_INDEX_WORDS(PLACES)];
static uint32_t count[PLACES], table[PLACES], helper[PLACES], stack[PLACES], cache[PLACES], links[FRAMES];
static uint8_t ram[SPAN], bytes[SPAN];
static corwystal_region records[4];
static uint8_t file[CORWYSTAL_MAP_BYTES(1, PLACES, FRAMES)];

static corwystal_board b;

/* ---- what stands before a call */

static void ready(corwystal_answer a, uint32_t line)
{
    if (!corwystal_refused(a))
        return;
    fprintf(stderr, "met: line %u: a call that prepares a situation is refused with %u: %s\n", line, a.kind, corwystal_text(a));
    _Exit(1);
}

#define READY(call) ready((call), __LINE__)

/* Words that nobody wrote, in some places of the tables. */
static void garbage(size_t from, size_t places)
{
    size_t n = places * sizeof *count;
    memset(count + from, 0xa5, n), memset(table + from, 0xa5, n), memset(helper + from, 1, n), memset(stack + from, 0xa5, n), memset(cache + from, 1, n);
}

/* The situations' places are below 8,192 and at the end; to fill all would take callgrind a second each time. */
static void begin(uint32_t spaces, uint32_t pages)
{
    corwystal_board all = CORWYSTAL_BOARD_INIT(index_words, count, table, helper, stack, cache, links, ram);
    b = all;
    garbage(0, 8192), garbage(PLACES - 64, 64);
    memset(index_words, 0xa5, sizeof index_words);
    memset(links, 0xa5, sizeof links);
    READY(corwystal_board_start(&b, spaces, pages, FRAMES, PAGE));
}

static void touches(uint32_t from, uint32_t many)
{
    for (uint32_t page = from; page < from + many; page++)
        READY(corwystal_board_touch(&b, 0, page));
}

/* One space of all places; and the same with a region of it from place 0 on; with three pages resident in it; with as many as there are frames. */
static void empty(void) { begin(1, PLACES); }

static void region(void) { empty(), READY(corwystal_board_mark(&b, 0, 0)); }

static void pages(void) { region(), touches(0, 3); }

static void full(void) { region(), touches(0, FRAMES); }

/* The last page is the only one that is resident. */
static void alone(void) { region(), touches(LAST, 1); }

/* The pool's next frame is one that a release gave back. */
static void used(void) { full(), READY(corwystal_board_release(&b, 0, 0)); }

/* The last page was resident once, so that its words are as good as those of a resident page, but for the one in the stack. */
static void left(void) { alone(), READY(corwystal_board_release(&b, 0, 0)), touches(0, 3); }

/* Two regions, the second empty. */
static void two(void) { region(), READY(corwystal_board_mark(&b, 0, 4096)), touches(0, 3); }

static void three(void) { two(), READY(corwystal_board_mark(&b, 0, LAST)); }

/* The second of two spaces has no region, the first has one. */
static void spaces(void) { begin(2, PLACES / 2), READY(corwystal_board_mark(&b, 0, 0)); }

/* One index word, and two layers. */
static void small(void) { begin(1, 64), READY(corwystal_board_mark(&b, 0, 0)), touches(0, 3); }

static void middle(void) { begin(1, 4096), READY(corwystal_board_mark(&b, 0, 0)), touches(0, 3); }

/* Pages 0 to 9 and those from 20 on are resident, the last four frames are free. */
static void holes(void) { region(), touches(0, 10), touches(20, FRAMES - 14); }

/* Nobody has started. */
static void never(void) { empty(), memset(&b.head, 0, sizeof b.head); }

/* The head is not what a call left: a pool that is larger than it can be. */
static void damaged(void) { pages(), b.head.many = UINT32_MAX; }

/* A buffer is too short, and the same of the RAM. */
static void shorter(void) { pages(), b.count_len--; }

static void less_ram(void) { pages(), b.ram_len--; }

/* A map in the file, of one of the situations above; before its tables are again as in `left`, with garbage elsewhere. */
static size_t file_len;

static void map_of(void (*situation)(void))
{
    situation();
    corwystal_answer a = corwystal_board_write_map(&b, file, sizeof file);
    READY(a);
    file_len = (size_t)a.value;
    left();
}

static void small_map(void) { map_of(small); }

static void pages_map(void) { map_of(pages); }

static void full_map(void) { map_of(full); }

static void three_map(void) { map_of(three); }

/* Contents and nothing else; nothing at all; and another number of spaces in them. */
static void contents(void) { pages_map(), file_len = CORWYSTAL_CONTENTS_BYTES(1); }

static void nothing(void) { pages_map(), file_len = 0; }

static void no_spaces(void) { pages_map(), file[0] = 0; }

static void many_spaces(void) { pages_map(), file[0] = 65, file_len = CORWYSTAL_CONTENTS_BYTES(65); }

/* Less than contents; less than all of it; more; and the pool's last frame is one that a page holds. */
static void no_contents(void) { pages_map(), file_len = 39; }

static void cut_map(void) { pages_map(), file_len -= 4; }

static void long_map(void) { pages_map(), file_len += 4; }

static void twice_map(void) { pages_map(), memset(file + file_len - 4, 0, 4); }

static void short_map(void) { pages_map(), b.count_len--; }

/* ---- the situations: call, name, what stands before, the kind of its answer, and the call as it is made */

#define ALL                                                                                                                                    \
    IS(start, accepted, empty, CORWYSTAL_DONE, corwystal_board_start(&b, 1, PLACES, FRAMES, PAGE))                                             \
    IS(start, small, empty, CORWYSTAL_DONE, corwystal_board_start(&b, 1, 64, FRAMES, PAGE))                                                    \
    IS(start, no size, empty, CORWYSTAL_NO_SIZE, corwystal_board_start(&b, 1, PLACES, FRAMES, PAGE + 1))                                       \
    IS(mark, same word, region, CORWYSTAL_DONE, corwystal_board_mark(&b, 0, 5))                                                                \
    IS(mark, same block, region, CORWYSTAL_DONE, corwystal_board_mark(&b, 0, 640))                                                             \
    IS(mark, last place, region, CORWYSTAL_DONE, corwystal_board_mark(&b, 0, LAST))                                                            \
    IS(mark, first, empty, CORWYSTAL_DONE, corwystal_board_mark(&b, 0, LAST))                                                                  \
    IS(mark, second space, spaces, CORWYSTAL_DONE, corwystal_board_mark(&b, 1, PLACES / 2 - 1))                                                \
    IS(mark, already, small, CORWYSTAL_START_ALREADY, corwystal_board_mark(&b, 0, 0))                                                          \
    IS(mark, cut, pages, CORWYSTAL_RESIDENT_PAGES, corwystal_board_mark(&b, 0, LAST))                                                          \
    IS(mark, no page, region, CORWYSTAL_NO_PAGE, corwystal_board_mark(&b, 0, PLACES))                                                          \
    IS(mark, too short, shorter, CORWYSTAL_NO_SIZE, corwystal_board_mark(&b, 0, 5))                                                            \
    IS(drop, one word, three, CORWYSTAL_DONE, corwystal_board_drop(&b, 0, 4096))                                                               \
    IS(drop, last place, three, CORWYSTAL_DONE, corwystal_board_drop(&b, 0, LAST))                                                             \
    IS(drop, only start, region, CORWYSTAL_DONE, corwystal_board_drop(&b, 0, 0))                                                               \
    IS(drop, no start, two, CORWYSTAL_NO_START, corwystal_board_drop(&b, 0, 4095))                                                             \
    IS(drop, resident, pages, CORWYSTAL_RESIDENT_PAGES, corwystal_board_drop(&b, 0, 0))                                                        \
    IS(drop, no space, region, CORWYSTAL_NO_SPACE, corwystal_board_drop(&b, 1, 0))                                                             \
    IS(touch, resident, pages, CORWYSTAL_OLD, corwystal_board_touch(&b, 0, 1))                                                                 \
    IS(touch, same word, pages, CORWYSTAL_NEW, corwystal_board_touch(&b, 0, 5))                                                                \
    IS(touch, last place, pages, CORWYSTAL_NEW, corwystal_board_touch(&b, 0, LAST))                                                            \
    IS(touch, used frame, used, CORWYSTAL_NEW, corwystal_board_touch(&b, 0, LAST))                                                             \
    IS(touch, small, small, CORWYSTAL_NEW, corwystal_board_touch(&b, 0, 63))                                                                   \
    IS(touch, middle, middle, CORWYSTAL_NEW, corwystal_board_touch(&b, 0, 4095))                                                               \
    IS(touch, left before, left, CORWYSTAL_NEW, corwystal_board_touch(&b, 0, LAST))                                                            \
    IS(touch, no region, empty, CORWYSTAL_NO_REGION, corwystal_board_touch(&b, 0, LAST))                                                       \
    IS(touch, second space, spaces, CORWYSTAL_NO_REGION, corwystal_board_touch(&b, 1, PLACES / 2 - 1))                                         \
    IS(touch, no frame, full, CORWYSTAL_NO_FRAME, corwystal_board_touch(&b, 0, LAST))                                                          \
    IS(touch, never, never, CORWYSTAL_NO_SIZE, corwystal_board_touch(&b, 0, 1))                                                                \
    IS(touch, too short, shorter, CORWYSTAL_NO_SIZE, corwystal_board_touch(&b, 0, 1))                                                          \
    IS(touch, less RAM, less_ram, CORWYSTAL_NO_SIZE, corwystal_board_touch(&b, 0, 1))                                                          \
    IS(look, resident, pages, CORWYSTAL_RESIDENT, corwystal_board_look(&b, 0, 1))                                                              \
    IS(look, same word, pages, CORWYSTAL_ABSENT, corwystal_board_look(&b, 0, 5))                                                               \
    IS(look, last place, pages, CORWYSTAL_ABSENT, corwystal_board_look(&b, 0, LAST))                                                           \
    IS(look, left before, left, CORWYSTAL_ABSENT, corwystal_board_look(&b, 0, LAST))                                                           \
    IS(look, no region, empty, CORWYSTAL_NO_REGION, corwystal_board_look(&b, 0, LAST))                                                         \
    IS(look, no space, pages, CORWYSTAL_NO_SPACE, corwystal_board_look(&b, 1, 1))                                                              \
    IS(release, three pages, small, CORWYSTAL_PAGES, corwystal_board_release(&b, 0, 0))                                                        \
    IS(release, all frames, full, CORWYSTAL_PAGES, corwystal_board_release(&b, 0, 0))                                                          \
    IS(release, no pages, region, CORWYSTAL_PAGES, corwystal_board_release(&b, 0, 0))                                                          \
    IS(release, no start, pages, CORWYSTAL_NO_START, corwystal_board_release(&b, 0, 1))                                                        \
    IS(release, damaged, damaged, CORWYSTAL_NOT_OURS, corwystal_board_release(&b, 0, 0))                                                       \
    IS(release, too short, shorter, CORWYSTAL_NO_SIZE, corwystal_board_release(&b, 0, 0))                                                      \
    IS(give_back, oldest, pages, CORWYSTAL_DONE, corwystal_board_give_back(&b, 0, 0))                                                          \
    IS(give_back, middle, full, CORWYSTAL_DONE, corwystal_board_give_back(&b, 0, 31))                                                          \
    IS(give_back, before the newest, pages, CORWYSTAL_DONE, corwystal_board_give_back(&b, 0, 1))                                               \
    IS(give_back, newest, pages, CORWYSTAL_DONE, corwystal_board_give_back(&b, 0, 2))                                                          \
    IS(give_back, only page, alone, CORWYSTAL_DONE, corwystal_board_give_back(&b, 0, LAST))                                                    \
    IS(give_back, small, small, CORWYSTAL_DONE, corwystal_board_give_back(&b, 0, 1))                                                           \
    IS(give_back, same word, pages, CORWYSTAL_NOT_RESIDENT, corwystal_board_give_back(&b, 0, 5))                                               \
    IS(give_back, last place, pages, CORWYSTAL_NOT_RESIDENT, corwystal_board_give_back(&b, 0, LAST))                                           \
    IS(give_back, left before, left, CORWYSTAL_NOT_RESIDENT, corwystal_board_give_back(&b, 0, LAST))                                           \
    IS(give_back, no region, empty, CORWYSTAL_NO_REGION, corwystal_board_give_back(&b, 0, LAST))                                               \
    IS(give_back, second space, spaces, CORWYSTAL_NO_REGION, corwystal_board_give_back(&b, 1, PLACES / 2 - 1))                                 \
    IS(give_back, damaged, damaged, CORWYSTAL_NOT_OURS, corwystal_board_give_back(&b, 0, 1))                                                   \
    IS(give_back, no page, pages, CORWYSTAL_NO_PAGE, corwystal_board_give_back(&b, 0, PLACES))                                                 \
    IS(give_back, no space, pages, CORWYSTAL_NO_SPACE, corwystal_board_give_back(&b, 1, 1))                                                    \
    IS(give_back, never, never, CORWYSTAL_NO_SIZE, corwystal_board_give_back(&b, 0, 1))                                                        \
    IS(give_back, too short, shorter, CORWYSTAL_NO_SIZE, corwystal_board_give_back(&b, 0, 1))                                                  \
    IS(free_count, accepted, used, CORWYSTAL_FRAMES, corwystal_board_free_count(&b))                                                           \
    IS(free_count, never, never, CORWYSTAL_NO_SIZE, corwystal_board_free_count(&b))                                                            \
    IS(translate, resident, pages, CORWYSTAL_AT, corwystal_board_translate(&b, 0, PAGE + 5))                                                   \
    IS(translate, last place, pages, CORWYSTAL_NOT_RESIDENT, corwystal_board_translate(&b, 0, (size_t)LAST * PAGE))                            \
    IS(translate, left before, left, CORWYSTAL_NOT_RESIDENT, corwystal_board_translate(&b, 0, (size_t)LAST * PAGE))                            \
    IS(translate, no region, empty, CORWYSTAL_NO_REGION, corwystal_board_translate(&b, 0, (size_t)LAST * PAGE))                                \
    IS(translate, no page, pages, CORWYSTAL_NO_PAGE, corwystal_board_translate(&b, 0, (size_t)PLACES * PAGE))                                  \
    IS(read, a byte, full, CORWYSTAL_BYTES, corwystal_board_read(&b, 0, 5, bytes, 1))                                                          \
    IS(read, two pages, full, CORWYSTAL_BYTES, corwystal_board_read(&b, 0, PAGE - 5, bytes, 10))                                               \
    IS(read, a page, full, CORWYSTAL_BYTES, corwystal_board_read(&b, 0, 0, bytes, PAGE))                                                       \
    IS(read, all frames, full, CORWYSTAL_BYTES, corwystal_board_read(&b, 0, 0, bytes, SPAN))                                                   \
    IS(read, nothing, full, CORWYSTAL_BYTES, corwystal_board_read(&b, 0, 5, bytes, 0))                                                         \
    IS(read, absent, holes, CORWYSTAL_NOT_RESIDENT, corwystal_board_read(&b, 0, 0, bytes, SPAN))                                               \
    IS(read, last place, pages, CORWYSTAL_NOT_RESIDENT, corwystal_board_read(&b, 0, (size_t)LAST * PAGE, bytes, PAGE))                         \
    IS(read, beyond, pages, CORWYSTAL_NO_PAGE, corwystal_board_read(&b, 0, (size_t)LAST * PAGE, bytes, SPAN))                                  \
    IS(read, never, never, CORWYSTAL_NO_SIZE, corwystal_board_read(&b, 0, 0, bytes, 1))                                                        \
    IS(write, a byte, full, CORWYSTAL_DONE, corwystal_board_write(&b, 0, 5, bytes, 1))                                                         \
    IS(write, two pages, full, CORWYSTAL_DONE, corwystal_board_write(&b, 0, PAGE - 5, bytes, 10))                                              \
    IS(write, a page, full, CORWYSTAL_DONE, corwystal_board_write(&b, 0, 0, bytes, PAGE))                                                      \
    IS(write, all frames, full, CORWYSTAL_DONE, corwystal_board_write(&b, 0, 0, bytes, SPAN))                                                  \
    IS(write, nothing, full, CORWYSTAL_DONE, corwystal_board_write(&b, 0, 5, bytes, 0))                                                        \
    IS(write, maps a page, pages, CORWYSTAL_DONE, corwystal_board_write(&b, 0, 5 * PAGE, bytes, 1))                                            \
    IS(write, maps around, pages, CORWYSTAL_DONE, corwystal_board_write(&b, 0, 5 * PAGE + 5, bytes, 1))                                        \
    IS(write, maps the last place, pages, CORWYSTAL_DONE, corwystal_board_write(&b, 0, (size_t)LAST * PAGE, bytes, PAGE))                      \
    IS(write, clears the last place, pages, CORWYSTAL_DONE, corwystal_board_write(&b, 0, (size_t)LAST * PAGE + 5, bytes, 1))                   \
    IS(write, maps two of three, pages, CORWYSTAL_DONE, corwystal_board_write(&b, 0, 2 * PAGE + 5, bytes, 2 * PAGE))                           \
    IS(write, maps all frames, used, CORWYSTAL_DONE, corwystal_board_write(&b, 0, 0, bytes, SPAN))                                             \
    IS(write, no frame, holes, CORWYSTAL_NO_FRAME, corwystal_board_write(&b, 0, 0, bytes, SPAN))                                               \
    IS(write, no region, empty, CORWYSTAL_NO_REGION, corwystal_board_write(&b, 0, (size_t)LAST * PAGE, bytes, PAGE))                           \
    IS(write, beyond, pages, CORWYSTAL_NO_PAGE, corwystal_board_write(&b, 0, (size_t)LAST * PAGE, bytes, SPAN))                                \
    IS(write, too short, shorter, CORWYSTAL_NO_SIZE, corwystal_board_write(&b, 0, 0, bytes, 1))                                                \
    IS(list, no region, empty, CORWYSTAL_REGIONS, corwystal_board_list(&b, 0, records, 4))                                                     \
    IS(list, one region, pages, CORWYSTAL_REGIONS, corwystal_board_list(&b, 0, records, 4))                                                    \
    IS(list, three regions, three, CORWYSTAL_REGIONS, corwystal_board_list(&b, 0, records, 4))                                                 \
    IS(list, no room, three, CORWYSTAL_NO_ROOM, corwystal_board_list(&b, 0, records, 2))                                                       \
    IS(list, no space, three, CORWYSTAL_NO_SPACE, corwystal_board_list(&b, 1, records, 4))                                                     \
    IS(write_map, no region, empty, CORWYSTAL_MAP, corwystal_board_write_map(&b, file, sizeof file))                                           \
    IS(write_map, three pages, pages, CORWYSTAL_MAP, corwystal_board_write_map(&b, file, sizeof file))                                         \
    IS(write_map, three regions, three, CORWYSTAL_MAP, corwystal_board_write_map(&b, file, sizeof file))                                       \
    IS(write_map, all frames, full, CORWYSTAL_MAP, corwystal_board_write_map(&b, file, sizeof file))                                           \
    IS(write_map, used frames, used, CORWYSTAL_MAP, corwystal_board_write_map(&b, file, sizeof file))                                          \
    IS(write_map, small, small, CORWYSTAL_MAP, corwystal_board_write_map(&b, file, sizeof file))                                               \
    IS(write_map, no room, pages, CORWYSTAL_NO_MAP_ROOM, corwystal_board_write_map(&b, file, 39))                                              \
    IS(write_map, damaged, damaged, CORWYSTAL_NOT_OURS, corwystal_board_write_map(&b, file, sizeof file))                                      \
    IS(write_map, too short, shorter, CORWYSTAL_NO_SIZE, corwystal_board_write_map(&b, file, sizeof file))                                     \
    IS(write_map, never, never, CORWYSTAL_NO_SIZE, corwystal_board_write_map(&b, file, sizeof file))                                           \
    IS(read_map, small, small_map, CORWYSTAL_DONE, corwystal_board_read_map(&b, file, file_len))                                               \
    IS(read_map, three pages, pages_map, CORWYSTAL_DONE, corwystal_board_read_map(&b, file, file_len))                                         \
    IS(read_map, all frames, full_map, CORWYSTAL_DONE, corwystal_board_read_map(&b, file, file_len))                                           \
    IS(read_map, three regions, three_map, CORWYSTAL_DONE, corwystal_board_read_map(&b, file, file_len))                                       \
    IS(read_map, no contents, no_contents, CORWYSTAL_NO_MAP, corwystal_board_read_map(&b, file, file_len))                                     \
    IS(read_map, cut, cut_map, CORWYSTAL_NO_MAP, corwystal_board_read_map(&b, file, file_len))                                                 \
    IS(read_map, too long, long_map, CORWYSTAL_NO_MAP, corwystal_board_read_map(&b, file, file_len))                                           \
    IS(read_map, a frame twice, twice_map, CORWYSTAL_NO_MAP, corwystal_board_read_map(&b, file, file_len))                                     \
    IS(read_map, too short, short_map, CORWYSTAL_NO_SIZE, corwystal_board_read_map(&b, file, file_len))                                        \
    IS(how_full, the file, pages_map, CORWYSTAL_PAGES, corwystal_how_full(0, file, file_len))                                                  \
    IS(how_full, its contents, contents, CORWYSTAL_PAGES, corwystal_how_full(0, file, file_len))                                               \
    IS(how_full, no space, contents, CORWYSTAL_NO_SPACE, corwystal_how_full(1, file, file_len))                                                \
    IS(how_full, cut, no_contents, CORWYSTAL_NO_SIZE, corwystal_how_full(0, file, file_len))                                                   \
    IS(how_full, no byte, nothing, CORWYSTAL_NO_SIZE, corwystal_how_full(0, file, file_len))                                                   \
    IS(how_full, no spaces, no_spaces, CORWYSTAL_NO_SIZE, corwystal_how_full(0, file, file_len))                                               \
    IS(how_full, too many spaces, many_spaces, CORWYSTAL_NO_SIZE, corwystal_how_full(0, file, file_len))                                       \
    IS(sizes, accepted, empty, 0, sizes(1, PLACES, FRAMES, PAGE))                                                                              \
    IS(sizes, small, empty, 0, sizes(1, 64, FRAMES, PAGE))                                                                                     \
    IS(sizes, no size, empty, CORWYSTAL_NO_SIZE, sizes(1, PLACES, FRAMES, PAGE + 1))

static corwystal_needs needs;

/* What it needs stays in `needs`; its refusal is the kind. */
static corwystal_answer sizes(uint32_t n, uint32_t in_each, uint32_t frames, uint32_t page)
{
    needs = corwystal_sizes(n, in_each, frames, page);
    return (corwystal_answer){needs.refusal, 0, 0};
}

#ifdef PAINT
extern uint64_t paint;            /* what the stack is painted with */
extern volatile size_t painted_over; /* bytes below the stack pointer of the last call's caller that no longer have it */
size_t deep_104(void);            /* writes to the 104th byte, its return address counted, and to nothing between */

/* The painting itself must tell what is known. */
static void try_painting(void)
{
    size_t (*volatile deep)(void) = deep_104;
    if (deep() == 104 && painted_over == 104)
        return;
    fprintf(stderr, "met: a function that writes 104 bytes deep is told to write %zu deep: see paint.S\n", painted_over);
    _Exit(1);
}
#endif

int main(int argc, char **argv)
{
    int counts = argc == 2 && strcmp(argv[1], "count") == 0, wrong = 0;
    corwystal_answer a;
#ifdef PAINT
    static const uint64_t colours[] = {0x5a5ac3c33c3ca5a5, 0xfedcba9876543210};
    size_t most;
    try_painting();
#define MEASURED(call, name, before, is)                                                                                                       \
    most = 0;                                                                                                                                  \
    for (int k = 0; k < 2; k++) {                                                                                                              \
        before();                                                                                                                              \
        paint = colours[k];                                                                                                                    \
        a = is;                                                                                                                                \
        most = painted_over > most ? painted_over : most;                                                                                      \
    }                                                                                                                                          \
    printf(#call "/" #name ": %zu\n", most);
    if (counts || argc != 2 || strcmp(argv[1], "stack") != 0) {
#else
#define MEASURED(call, name, before, is)                                                                                                       \
    before();                                                                                                                                  \
    CALLGRIND_TOGGLE_COLLECT;                                                                                                                  \
    a = is;                                                                                                                                    \
    CALLGRIND_TOGGLE_COLLECT;                                                                                                                  \
    CALLGRIND_DUMP_STATS_AT(#call " " #name "/0/pager/1");
    if (!counts) {
#endif
        fputs("usage: met stack (built with PAINT), or met count under callgrind (built without)\n", stderr);
        return 2;
    }
#define IS(call, name, before, expected, is)                                                                                                   \
    MEASURED(call, name, before, is)                                                                                                           \
    if (a.kind != (expected)) {                                                                                                                \
        fprintf(stderr, "met: " #call "/" #name ": answer %u (%s) instead of %u\n", a.kind, corwystal_text(a), (uint32_t)(expected));          \
        wrong = 1;                                                                                                                             \
    }
    ALL
    return wrong;
}
