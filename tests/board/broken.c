/*
 * Boards that are wrong in one way each, to try the plays on: the linker puts these calls in the place of the library's (--wrap), and FAULT chooses which
 * of them is wrong. Each must be found by the day.
 */
#include "corwystal.h"
#include "../../examples/board/machine.h"

#define WRITE_TAKES                                                                                                                                    \
    corwystal_head *head, uint32_t space, size_t address, const uint8_t *bytes, size_t n, const uint64_t *index, size_t index_len, uint32_t *count,      \
        size_t count_len, uint32_t *table, size_t table_len, uint32_t *helper, size_t helper_len, uint32_t *stack, size_t stack_len, uint32_t *cache,    \
        size_t cache_len, uint32_t *link, size_t link_len, uint8_t *ram, size_t ram_len
#define WRITE_GETS(space, n)                                                                                                                           \
    head, space, address, bytes, n, index, index_len, count, count_len, table, table_len, helper, helper_len, stack, stack_len, cache, cache_len, link,  \
        link_len, ram, ram_len
#define READ_TAKES                                                                                                                                     \
    const corwystal_head *head, uint32_t space, size_t address, uint8_t *buffer, size_t n, const uint64_t *index, size_t index_len,                     \
        const uint32_t *count, size_t count_len, const uint32_t *table, size_t table_len, const uint32_t *helper, size_t helper_len,                    \
        const uint32_t *stack, size_t stack_len, const uint32_t *cache, size_t cache_len, const uint8_t *ram, size_t ram_len
#define READ_GETS(address)                                                                                                                             \
    head, space, address, buffer, n, index, index_len, count, count_len, table, table_len, helper, helper_len, stack, stack_len, cache, cache_len, ram,  \
        ram_len
#define RELEASE_TAKES                                                                                                                                  \
    corwystal_head *head, uint32_t space, uint32_t page, const uint64_t *index, size_t index_len, uint32_t *count, size_t count_len,                    \
        const uint32_t *table, size_t table_len, const uint32_t *stack, size_t stack_len, uint32_t *link, size_t link_len
#define RELEASE_GETS head, space, page, index, index_len, count, count_len, table, table_len, stack, stack_len, link, link_len
#define TOUCH_TAKES                                                                                                                                    \
    corwystal_head *head, uint32_t space, uint32_t page, const uint64_t *index, size_t index_len, uint32_t *count, size_t count_len, uint32_t *table,   \
        size_t table_len, uint32_t *helper, size_t helper_len, uint32_t *stack, size_t stack_len, uint32_t *cache, size_t cache_len, uint32_t *link,    \
        size_t link_len, uint8_t *ram, size_t ram_len
#define TOUCH_GETS                                                                                                                                     \
    head, space, page, index, index_len, count, count_len, table, table_len, helper, helper_len, stack, stack_len, cache, cache_len, link, link_len,    \
        ram, ram_len

corwystal_answer __real_corwystal_write(WRITE_TAKES);
corwystal_answer __real_corwystal_read(READ_TAKES);
corwystal_answer __real_corwystal_release(RELEASE_TAKES);
corwystal_answer __real_corwystal_touch(TOUCH_TAKES);

static int now_and_then(void) {
    static uint32_t turn;
    return ++turn % 301 == 0; /* odd: a reading is two writes */
}

/* 1: into the next gauge's space. 2: says done, and stores nothing. 7: clears the page also if it is no new one. */
corwystal_answer __wrap_corwystal_write(WRITE_TAKES) {
    size_t size = (size_t)1 << head->page_shift;
    corwystal_answer at = corwystal_translate(head, space, address, index, index_len, count, count_len, table, table_len, helper, helper_len, stack,
                                              stack_len, cache, cache_len);
    if (FAULT == 7 && at.kind == CORWYSTAL_AT && now_and_then()) memset(ram + at.value / size * size, 0, size);
    if (FAULT == 1 && now_and_then()) return __real_corwystal_write(WRITE_GETS((space + 1) % head->spaces, n));
    if (FAULT == 2 && now_and_then()) return __real_corwystal_write(WRITE_GETS(space, 0));
    return __real_corwystal_write(WRITE_GETS(space, n));
}

/* 3: one reading late. */
corwystal_answer __wrap_corwystal_read(READ_TAKES) {
    static uint32_t turn;
    return __real_corwystal_read(READ_GETS(FAULT == 3 && address >= 16 && ++turn % 20 == 0 ? address - 16 : address));
}

/* 4: the count is not cleared, so the released pages stay and their frames are given away too. 5: one frame of the pool is lost. */
corwystal_answer __wrap_corwystal_release(RELEASE_TAKES) {
    static uint32_t turn;
    uint32_t *of_region = &count[space * head->pages + page], before = *of_region;
    corwystal_answer a = __real_corwystal_release(RELEASE_GETS);
    if (FAULT == 4 && ++turn == 3) *of_region = before;
    if (FAULT == 5 && ++turn == 3) head->first = link[head->first], head->many--;
    return a;
}

/* 6: the frame of a new page, the pool's first, holds what it held. */
corwystal_answer __wrap_corwystal_touch(TOUCH_TAKES) {
    static uint8_t held[CORWYSTAL_MOST_PAGE];
    size_t size = (size_t)1 << head->page_shift;
    uint8_t *frame = ram + (head->many ? head->first : head->fresh) * size;
    if (FAULT == 6) memmove(held, frame, size);
    corwystal_answer a = __real_corwystal_touch(TOUCH_GETS);
    if (FAULT == 6 && a.kind == CORWYSTAL_NEW) memmove(frame, held, size);
    return a;
}
