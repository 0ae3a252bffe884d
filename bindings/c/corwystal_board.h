/*
 * Corwystal's calls on one record of head and buffers, for a kernel that keeps them in one place. Each hands the head and
 * the buffers that its call is lent on to it, and adds nothing: the calls are those of corwystal.h.
 */
#ifndef CORWYSTAL_BOARD_H
#define CORWYSTAL_BOARD_H

#include "corwystal.h"

#ifdef __cplusplus
extern "C" {
#endif

/* A buffer that is an array, and its length. */
#define CORWYSTAL_LENT(array) (array), sizeof(array) / sizeof((array)[0])

typedef struct corwystal_board {
    corwystal_head head; /* all zeros before the first start or the first map read */
    uint64_t *index;
    size_t index_len;
    uint32_t *count;
    size_t count_len;
    uint32_t *table;
    size_t table_len;
    uint32_t *helper;
    size_t helper_len;
    uint32_t *stack;
    size_t stack_len;
    uint32_t *cache;
    size_t cache_len;
    uint32_t *link;
    size_t link_len;
    uint8_t *ram;
    size_t ram_len;
} corwystal_board;

/* A board before its first start, whose buffers are arrays. */
#define CORWYSTAL_BOARD_INIT(index, count, table, helper, stack, cache, link, ram)                                     \
    {                                                                                                                  \
        CORWYSTAL_HEAD_INIT, CORWYSTAL_LENT(index), CORWYSTAL_LENT(count), CORWYSTAL_LENT(table),                      \
            CORWYSTAL_LENT(helper), CORWYSTAL_LENT(stack), CORWYSTAL_LENT(cache), CORWYSTAL_LENT(link),                \
            CORWYSTAL_LENT(ram)                                                                                        \
    }

CORWYSTAL_USE_ANSWER
static inline corwystal_answer corwystal_board_start(corwystal_board *b, uint32_t spaces, uint32_t pages, uint32_t frames,
                                                     uint32_t page) {
    return corwystal_start(&b->head, spaces, pages, frames, page, b->index, b->index_len, b->count, b->count_len);
}

CORWYSTAL_USE_ANSWER
static inline corwystal_answer corwystal_board_mark(corwystal_board *b, uint32_t space, uint32_t page) {
    return corwystal_mark(&b->head, space, page, b->index, b->index_len, b->count, b->count_len);
}

CORWYSTAL_USE_ANSWER
static inline corwystal_answer corwystal_board_drop(corwystal_board *b, uint32_t space, uint32_t page) {
    return corwystal_drop(&b->head, space, page, b->index, b->index_len, b->count, b->count_len);
}

CORWYSTAL_USE_ANSWER
static inline corwystal_answer corwystal_board_touch(corwystal_board *b, uint32_t space, uint32_t page) {
    return corwystal_touch(&b->head, space, page, b->index, b->index_len, b->count, b->count_len, b->table, b->table_len,
                           b->helper, b->helper_len, b->stack, b->stack_len, b->cache, b->cache_len, b->link,
                           b->link_len, b->ram, b->ram_len);
}

CORWYSTAL_USE_ANSWER
static inline corwystal_answer corwystal_board_look(const corwystal_board *b, uint32_t space, uint32_t page) {
    return corwystal_look(&b->head, space, page, b->index, b->index_len, b->count, b->count_len, b->table, b->table_len,
                          b->helper, b->helper_len, b->stack, b->stack_len, b->cache, b->cache_len);
}

CORWYSTAL_USE_ANSWER
static inline corwystal_answer corwystal_board_release(corwystal_board *b, uint32_t space, uint32_t page) {
    return corwystal_release(&b->head, space, page, b->index, b->index_len, b->count, b->count_len, b->table,
                             b->table_len, b->stack, b->stack_len, b->link, b->link_len);
}

CORWYSTAL_USE_ANSWER
static inline corwystal_answer corwystal_board_give_back(corwystal_board *b, uint32_t space, uint32_t page) {
    return corwystal_give_back(&b->head, space, page, b->index, b->index_len, b->count, b->count_len, b->table,
                               b->table_len, b->helper, b->helper_len, b->stack, b->stack_len, b->cache, b->cache_len,
                               b->link, b->link_len);
}

CORWYSTAL_USE_ANSWER
static inline corwystal_answer corwystal_board_free_count(const corwystal_board *b) {
    return corwystal_free_count(&b->head);
}

CORWYSTAL_USE_ANSWER
static inline corwystal_answer corwystal_board_translate(const corwystal_board *b, uint32_t space, size_t address) {
    return corwystal_translate(&b->head, space, address, b->index, b->index_len, b->count, b->count_len, b->table,
                               b->table_len, b->helper, b->helper_len, b->stack, b->stack_len, b->cache, b->cache_len);
}

CORWYSTAL_USE_ANSWER
static inline corwystal_answer corwystal_board_read(const corwystal_board *b, uint32_t space, size_t address,
                                                    uint8_t *buffer, size_t n) {
    return corwystal_read(&b->head, space, address, buffer, n, b->index, b->index_len, b->count, b->count_len, b->table,
                          b->table_len, b->helper, b->helper_len, b->stack, b->stack_len, b->cache, b->cache_len, b->ram,
                          b->ram_len);
}

CORWYSTAL_USE_ANSWER
static inline corwystal_answer corwystal_board_write(corwystal_board *b, uint32_t space, size_t address,
                                                     const uint8_t *bytes, size_t n) {
    return corwystal_write(&b->head, space, address, bytes, n, b->index, b->index_len, b->count, b->count_len, b->table,
                           b->table_len, b->helper, b->helper_len, b->stack, b->stack_len, b->cache, b->cache_len,
                           b->link, b->link_len, b->ram, b->ram_len);
}

CORWYSTAL_USE_ANSWER
static inline corwystal_answer corwystal_board_list(const corwystal_board *b, uint32_t space, corwystal_region *records,
                                                    size_t n) {
    return corwystal_list(&b->head, space, records, n, b->index, b->index_len, b->count, b->count_len);
}

CORWYSTAL_USE_ANSWER
static inline corwystal_answer corwystal_board_write_map(const corwystal_board *b, uint8_t *file, size_t n) {
    return corwystal_write_map(&b->head, b->index, b->index_len, b->count, b->count_len, b->table, b->table_len, b->stack,
                               b->stack_len, b->link, b->link_len, file, n);
}

/* The RAM isn't lent: if it is shorter than the map's frames, touch, read and write are refused with 1 from then on. */
CORWYSTAL_USE_ANSWER
static inline corwystal_answer corwystal_board_read_map(corwystal_board *b, const uint8_t *file, size_t n) {
    return corwystal_read_map(&b->head, file, n, b->index, b->index_len, b->count, b->count_len, b->table, b->table_len,
                              b->helper, b->helper_len, b->stack, b->stack_len, b->cache, b->cache_len, b->link,
                              b->link_len);
}

#ifdef __cplusplus
}
#endif

#endif
