/*
 * Reads map files through a C entrance, for hold.py: a line has how long index and six tables are that a reading is lent, and the file in
 * hex; its answer is `no` and the refusal, or `ok` and in hex the map that is written back. Buffers are exactly as long as is said and full
 * of garbage that could be places and frames. Beside the answer it looks whether a refusal changed anything, an accepted reading anything
 * behind what its sizes need, whether every page of the file is found with its frame and no other, and what a writing does that is lent too
 * little or too much; what is wrong then is told on standard error, with status 1.
 * `lent bytes PLACES FRAMES` reads one file's bytes instead, into tables for so many places and frames.
 * `lent full` asks how full spaces are: a line has a space and the front of a file in hex, its answer is `pages` and the number, or `no` and the
 * refusal; the bytes must stay.
 * `lent calls PLACES FRAMES` plays lines on such tables, which stay from line to line: `read` and a file in hex, mark, drop, touch, look, release
 * and give with space and page, `map`. A new page must be zeros, and no other byte of the RAM may change.
 *
 * The calls are those of corwystal.h; with BY_HAND they are those of bench/checked.h.
 */
#include <stdio.h>
#include <stdlib.h>
#include <string.h>

#ifdef BY_HAND
#include "../../bench/checked.h"
#define read_map checked_read_map
#define write_map checked_write_map
#define how_full checked_how_full
#define look checked_look
#define mark checked_mark
#define unmark checked_drop
#define touch checked_touch
#define release checked_release
#define give_back checked_give_back
#else
#include "../../bindings/c/corwystal.h"
#define read_map corwystal_read_map
#define write_map corwystal_write_map
#define how_full corwystal_how_full
#define look corwystal_look
#define mark corwystal_mark
#define unmark corwystal_drop
#define touch corwystal_touch
#define release corwystal_release
#define give_back corwystal_give_back
#endif

enum { INDEX, COUNT, TABLE, HELPER, STACK, CACHE, LINK, BUFFERS };
enum { NO_ROOM_FOR_MAP = 13, BEHIND = 16 };

typedef struct memory {
    corwystal_head head;
    size_t len[BUFFERS];
    void *at[BUFFERS];
} memory;

static uint64_t state = 1;

static uint64_t draw(void)
{
    state += 0x9E3779B97F4A7C15ull;
    uint64_t x = (state ^ state >> 30) * 0xBF58476D1CE4E5B9ull;
    x = (x ^ x >> 27) * 0x94D049BB133111EBull;
    return x ^ x >> 31;
}

static void fail(const char *what)
{
    fprintf(stderr, "lent: %s\n", what);
    exit(1);
}

static size_t entry(int buffer) { return buffer == INDEX ? sizeof(uint64_t) : sizeof(uint32_t); }

/* A block of its own, as long as is said: what is read or written behind it, an address checker finds. */
static void *block(size_t bytes)
{
    void *p = malloc(bytes != 0 ? bytes : 1);
    if (p == NULL)
        fail("no memory");
    return p;
}

static void litter(memory *m)
{
    uint32_t *head = (uint32_t *)&m->head;
    for (size_t k = 0; k < sizeof m->head / 4; k++)
        head[k] = (uint32_t)draw() % 9;
    for (int b = 0; b < BUFFERS; b++) {
        m->at[b] = block(m->len[b] * entry(b));
        uint32_t *words = m->at[b];
        size_t many = m->len[b] * entry(b) / 4;
        for (size_t k = 0; k < many; k++)
            words[k] = (uint32_t)(draw() % (k % 3 == 0 ? many + 2 : 5));
    }
}

static memory copy(const memory *m)
{
    memory c = *m;
    for (int b = 0; b < BUFFERS; b++)
        c.at[b] = memcpy(block(m->len[b] * entry(b)), m->at[b], m->len[b] * entry(b));
    return c;
}

static void drop(memory *m)
{
    for (int b = 0; b < BUFFERS; b++)
        free(m->at[b]);
}

/* Whether two memories are the same from so many entries of each buffer on. */
static int same_from(const memory *m, const memory *c, const size_t from[BUFFERS])
{
    for (int b = 0; b < BUFFERS; b++) {
        size_t skip = from[b] * entry(b), bytes = m->len[b] * entry(b);
        if (skip < bytes && memcmp((char *)m->at[b] + skip, (char *)c->at[b] + skip, bytes - skip) != 0)
            return 0;
    }
    return 1;
}

static int same(const memory *m, const memory *c)
{
    static const size_t all[BUFFERS];
    return memcmp(&m->head, &c->head, sizeof m->head) == 0 && same_from(m, c, all);
}

#define LENT(m, b) (m)->at[b], (m)->len[b]

static corwystal_answer written(const memory *m, uint8_t *file, size_t n)
{
    return write_map(&m->head, LENT(m, INDEX), LENT(m, COUNT), LENT(m, TABLE), LENT(m, STACK), LENT(m, LINK), file, n);
}

static uint32_t word_at(const uint8_t *file, size_t at)
{
    return file[4 * at] | (uint32_t)file[4 * at + 1] << 8 | (uint32_t)file[4 * at + 2] << 16 | (uint32_t)file[4 * at + 3] << 24;
}

static corwystal_answer look_at(const memory *m, uint32_t space, uint32_t page)
{
    return look(&m->head, space, page, LENT(m, INDEX), LENT(m, COUNT), LENT(m, TABLE), LENT(m, HELPER), LENT(m, STACK), LENT(m, CACHE));
}

/* Every pair of an accepted file is found, and no more pages than these; the other pages have a region or none, as the file has it. */
static void check_pages(const memory *m, const uint8_t *file)
{
    size_t spaces = word_at(file, 0), pages = word_at(file, 1), at = 3 * spaces + 7, pairs = 0, found = 0;
    for (uint32_t space = 0; space < spaces; space++) {
        size_t end = at + word_at(file, 3 * space + 5), first = at < end ? word_at(file, at) : pages;
        while (at < end) {
            size_t n = word_at(file, at + 2);
            for (at += 3; n > 0; n--, at += 2, pairs++) {
                corwystal_answer a = look_at(m, space, word_at(file, at));
                if (a.kind != CORWYSTAL_RESIDENT || a.value != word_at(file, at + 1))
                    fail("a page of the file isn't found with its frame");
            }
        }
        for (uint32_t page = 0; page < pages; page++) {
            corwystal_answer a = look_at(m, space, page);
            found += a.kind == CORWYSTAL_RESIDENT;
            if (a.kind != CORWYSTAL_RESIDENT && a.kind != (page < first ? CORWYSTAL_NO_REGION : CORWYSTAL_ABSENT))
                fail("a page has no region, or should have none");
        }
    }
    if (found != pairs)
        fail("more pages are resident than the file has");
}

static void needed(const uint8_t *file, size_t need[BUFFERS])
{
    size_t places = (size_t)word_at(file, 0) * word_at(file, 1);
    for (int b = 0; b < BUFFERS; b++)
        need[b] = b == INDEX ? CORWYSTAL_INDEX_WORDS(places) : b == LINK ? word_at(file, 2) : places;
}

/* The map as it is written, after it was refused for a buffer of no bytes and for one a byte short, and with more room than it needs. */
static void write_back(memory *m, size_t expected)
{
    memory before = copy(m);
    uint8_t *file = block(expected + BEHIND), *as_it_was = block(expected + BEHIND);
    for (size_t k = 0; k < expected + BEHIND; k++)
        as_it_was[k] = file[k] = (uint8_t)draw();
    if (written(m, file, 0).kind != NO_ROOM_FOR_MAP || written(m, file, expected - 1).kind != NO_ROOM_FOR_MAP)
        fail("a writing without room isn't refused with 13");
    if (memcmp(file, as_it_was, expected + BEHIND) != 0)
        fail("a refused writing wrote");
    corwystal_answer a = written(m, file, expected + BEHIND);
    if (corwystal_refused(a) || a.value != expected || a.words != 0)
        fail("a writing answers another length than the file's that was read");
    if (memcmp(file + expected, as_it_was + expected, BEHIND) != 0)
        fail("a writing wrote behind the file");
    memcpy(as_it_was, file, expected);
    memset(file, 0xa5, expected);
    if (written(m, file, expected).value != expected || memcmp(file, as_it_was, expected) != 0)
        fail("written a second time, with just enough room, the map is another");
    if (!same(m, &before))
        fail("a writing changed head, index or tables");
    printf("ok ");
    for (size_t k = 0; k < expected; k++) {
        static const char digits[] = "0123456789abcdef";
        putchar(digits[file[k] / 16]);
        putchar(digits[file[k] % 16]);
    }
    putchar('\n');
    free(file);
    free(as_it_was);
    drop(&before);
}

/* One file, its bytes in a block of their own, into tables that are as long as is said. */
static void answer_file(const size_t len[BUFFERS], const uint8_t *bytes, size_t n)
{
    memory m;
    memcpy(m.len, len, sizeof m.len);
    litter(&m);
    memory before = copy(&m);
    uint8_t *file = memcpy(block(n), bytes, n);
    corwystal_answer a = read_map(&m.head, file, n, LENT(&m, INDEX), LENT(&m, COUNT), LENT(&m, TABLE), LENT(&m, HELPER), LENT(&m, STACK),
                                  LENT(&m, CACHE), LENT(&m, LINK));
    if (memcmp(file, bytes, n) != 0)
        fail("a reading changed the file");
    if (corwystal_refused(a)) {
        if (!same(&m, &before))
            fail("a refused reading changed head, index or tables");
        printf("no %u\n", (unsigned)a.kind);
    } else {
        size_t need[BUFFERS];
        needed(file, need);
        if (!same_from(&m, &before, need))
            fail("a reading wrote behind what its sizes need");
        check_pages(&m, file);
        write_back(&m, n);
    }
    free(file);
    drop(&m);
    drop(&before);
}

/* What a line's call answers, without index words. */
static void tell(corwystal_answer a)
{
    static const char *const texts[] = {"ok", "frame %u old", "frame %u new", "resident %u", "absent", "pages %u"};
    unsigned value = (unsigned)a.value;
    if (corwystal_refused(a))
        printf("no %u\n", (unsigned)a.kind);
    else if (a.kind - CORWYSTAL_DONE < sizeof texts / sizeof *texts)
        printf(texts[a.kind - CORWYSTAL_DONE], value), putchar('\n');
    else
        printf("kind %u\n", (unsigned)a.kind);
}

static int digit(char c) { return c <= '9' ? c - '0' : c - 'a' + 10; }

/* The bytes that stand in hex from a place of the line to its end, put at the line's front; how many there are. */
static size_t unhex(char *line, const char *at, const char *end)
{
    size_t n = 0;
    for (; at + 1 < end; at += 2)
        ((uint8_t *)line)[n++] = (uint8_t)(digit(at[0]) * 16 + digit(at[1]));
    return n;
}

static void answer_fullness(uint32_t space, const uint8_t *bytes, size_t n)
{
    uint8_t *contents = memcpy(block(n), bytes, n);
    corwystal_answer a = how_full(space, contents, n);
    if (memcmp(contents, bytes, n) != 0)
        fail("the contents were changed");
    if (a.words != 0 || a.value > UINT32_MAX || (corwystal_refused(a) && a.value != 0))
        fail("an answer of how full a space is has other numbers too");
    free(contents);
    tell(a);
}

/* Each line of standard input: numbers, a blank, bytes in hex. */
static void lines(int numbers)
{
    char *line = NULL;
    size_t room = 0;
    ssize_t read;
    while ((read = getline(&line, &room, stdin)) > 0) {
        size_t number[BUFFERS];
        char *at = line;
        for (int b = 0; b < numbers; b++)
            number[b] = strtoull(at, &at, 10);
        size_t n = unhex(line, at + 1, line + read);
        if (numbers == BUFFERS)
            answer_file(number, (uint8_t *)line, n);
        else
            answer_fullness((uint32_t)number[0], (uint8_t *)line, n);
        /* told before the next one ends the program */
        fflush(stdout);
    }
    free(line);
}

/* ---- histories */

static uint8_t *ram, *ram_before;
static size_t ram_len;

/* Of the RAM only a new page's frame has changed, and it is zeros; it is littered then, as if it had been written. */
static void check_ram(const memory *m, corwystal_answer a)
{
    if (a.kind == CORWYSTAL_NEW) {
        size_t size = (size_t)1 << m->head.page_shift, at = (size_t)a.value << m->head.page_shift;
        for (size_t k = 0; k < size; k++)
            if (ram[at + k] != 0)
                fail("a new page isn't zeros");
        memset(ram + at, 0xc3, size);
        memset(ram_before + at, 0xc3, size);
    }
    if (memcmp(ram, ram_before, ram_len) != 0)
        fail("a call changed bytes of the RAM that aren't a new page's");
}

static void play(memory *m, char *line, size_t length)
{
    static uint8_t back[1 << 16];
    unsigned space = 0, page = 0;
    char name[16];
    if (strncmp(line, "read ", 5) == 0) {
        size_t n = unhex(line, line + 5, line + length);
        uint8_t *file = memcpy(block(n), line, n);
        tell(read_map(&m->head, file, n, LENT(m, INDEX), LENT(m, COUNT), LENT(m, TABLE), LENT(m, HELPER), LENT(m, STACK), LENT(m, CACHE),
                      LENT(m, LINK)));
        free(file);
        return;
    }
    if (strncmp(line, "map", 3) == 0) {
        corwystal_answer a = written(m, back, sizeof back);
        printf("map ");
        for (size_t k = 0; k < a.value; k++)
            printf("%02x", back[k]);
        putchar('\n');
        return;
    }
    if (sscanf(line, "%15s %u %u", name, &space, &page) != 3)
        fail("no such line");
    corwystal_answer a = {0, 0, 0};
    if (strcmp(name, "mark") == 0)
        a = mark(&m->head, space, page, LENT(m, INDEX), LENT(m, COUNT));
    else if (strcmp(name, "drop") == 0)
        a = unmark(&m->head, space, page, LENT(m, INDEX), LENT(m, COUNT));
    else if (strcmp(name, "touch") == 0)
        a = touch(&m->head, space, page, LENT(m, INDEX), LENT(m, COUNT), LENT(m, TABLE), LENT(m, HELPER), LENT(m, STACK), LENT(m, CACHE),
                  LENT(m, LINK), ram, ram_len);
    else if (strcmp(name, "look") == 0)
        a = look_at(m, space, page);
    else if (strcmp(name, "release") == 0)
        a = release(&m->head, space, page, LENT(m, INDEX), LENT(m, COUNT), LENT(m, TABLE), LENT(m, STACK), LENT(m, LINK));
    else if (strcmp(name, "give") == 0)
        a = give_back(&m->head, space, page, LENT(m, INDEX), LENT(m, COUNT), LENT(m, TABLE), LENT(m, HELPER), LENT(m, STACK), LENT(m, CACHE),
                      LENT(m, LINK));
    tell(a);
    check_ram(m, a);
}

static void calls(const size_t len[BUFFERS])
{
    memory m;
    char *line = NULL;
    size_t room = 0;
    ssize_t read;
    memcpy(m.len, len, sizeof m.len);
    litter(&m);
    ram_len = len[LINK] * CORWYSTAL_MOST_PAGE;
    ram = memset(block(ram_len), 0xc3, ram_len);
    ram_before = memset(block(ram_len), 0xc3, ram_len);
    while ((read = getline(&line, &room, stdin)) > 0)
        play(&m, line, (size_t)read - 1);
    free(line);
    free(ram);
    free(ram_before);
    drop(&m);
}

int main(int argc, char **argv)
{
    if (argc != 4) {
        lines(argc == 2 && strcmp(argv[1], "full") == 0 ? 1 : BUFFERS);
        return 0;
    }
    size_t places = strtoull(argv[2], NULL, 10), frames = strtoull(argv[3], NULL, 10);
    size_t len[BUFFERS] = {CORWYSTAL_INDEX_WORDS(places), places, places, places, places, places, frames}, room = 4 << 20;
    if (strcmp(argv[1], "calls") == 0) {
        calls(len);
        return 0;
    }
    uint8_t *bytes = block(room);
    answer_file(len, bytes, fread(bytes, 1, room, stdin));
    free(bytes);
    return 0;
}
