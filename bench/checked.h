/*
 * Ten of the pager's calls, and how full a space is, by hand in C with the pager's checks: the arguments are those of
 * corwystal.h. The faces hand over the pager's own record (faces.c).
 */
#ifndef CHECKED_H
#define CHECKED_H

#include "../bindings/c/corwystal_board.h"
#include "engines.h"

answer checked_mark(const corwystal_head *head, uint32_t space, uint32_t page, uint64_t *index, size_t index_len,
                    const uint32_t *count, size_t count_len);

answer checked_drop(const corwystal_head *head, uint32_t space, uint32_t page, uint64_t *index, size_t index_len,
                    const uint32_t *count, size_t count_len);

answer checked_touch(corwystal_head *head, uint32_t space, uint32_t page, const uint64_t *index, size_t index_len,
                     uint32_t *count, size_t count_len, uint32_t *table, size_t table_len, uint32_t *helper,
                     size_t helper_len, uint32_t *stack, size_t stack_len, uint32_t *cache, size_t cache_len,
                     uint32_t *link, size_t link_len, uint8_t *ram, size_t ram_len);

answer checked_look(const corwystal_head *head, uint32_t space, uint32_t page, const uint64_t *index, size_t index_len,
                    const uint32_t *count, size_t count_len, const uint32_t *table, size_t table_len,
                    const uint32_t *helper, size_t helper_len, const uint32_t *stack, size_t stack_len,
                    const uint32_t *cache, size_t cache_len);

answer checked_release(corwystal_head *head, uint32_t space, uint32_t page, const uint64_t *index, size_t index_len,
                       uint32_t *count, size_t count_len, const uint32_t *table, size_t table_len,
                       const uint32_t *stack, size_t stack_len, uint32_t *link, size_t link_len);

answer checked_give_back(corwystal_head *head, uint32_t space, uint32_t page, const uint64_t *index, size_t index_len,
                         uint32_t *count, size_t count_len, const uint32_t *table, size_t table_len, uint32_t *helper,
                         size_t helper_len, uint32_t *stack, size_t stack_len, const uint32_t *cache, size_t cache_len,
                         uint32_t *link, size_t link_len);

answer checked_translate(const corwystal_head *head, uint32_t space, size_t address, const uint64_t *index,
                         size_t index_len, const uint32_t *count, size_t count_len, const uint32_t *table,
                         size_t table_len, const uint32_t *helper, size_t helper_len, const uint32_t *stack,
                         size_t stack_len, const uint32_t *cache, size_t cache_len);

answer checked_write(corwystal_head *head, uint32_t space, size_t address, const uint8_t *bytes, size_t bytes_len,
                     const uint64_t *index, size_t index_len, uint32_t *count, size_t count_len, uint32_t *table,
                     size_t table_len, uint32_t *helper, size_t helper_len, uint32_t *stack, size_t stack_len,
                     uint32_t *cache, size_t cache_len, uint32_t *link, size_t link_len, uint8_t *ram, size_t ram_len);

/* The map's refusals and answer. */
enum { CHECKED_NO_MAP = 12, CHECKED_NO_MAP_ROOM = 13, CHECKED_MAP = 26 };

/* Places in one window of the set of pages that a reading has seen: with 32,768 and the frames' 8 KiB it is 12 KiB of stack. */
#ifndef CHECKED_WINDOW
#define CHECKED_WINDOW 32768
#endif

answer checked_write_map(const corwystal_head *head, const uint64_t *index, size_t index_len, const uint32_t *count,
                         size_t count_len, const uint32_t *table, size_t table_len, const uint32_t *stack,
                         size_t stack_len, const uint32_t *link, size_t link_len, uint8_t *file, size_t file_len);

answer checked_read_map(corwystal_head *head, const uint8_t *file, size_t file_len, uint64_t *index, size_t index_len,
                        uint32_t *count, size_t count_len, uint32_t *table, size_t table_len, uint32_t *helper,
                        size_t helper_len, uint32_t *stack, size_t stack_len, uint32_t *cache, size_t cache_len,
                        uint32_t *link, size_t link_len);

answer checked_how_full(uint32_t space, const uint8_t *contents, size_t contents_len);

answer face_mark(corwystal_board *b, uint32_t space, uint32_t page);
answer face_drop(corwystal_board *b, uint32_t space, uint32_t page);
answer face_touch(corwystal_board *b, uint32_t space, uint32_t page);
answer face_look(corwystal_board *b, uint32_t space, uint32_t page);
answer face_release(corwystal_board *b, uint32_t space, uint32_t page);
answer face_give_back(corwystal_board *b, uint32_t space, uint32_t page);
answer face_translate(corwystal_board *b, uint32_t space, size_t address);
answer face_write(corwystal_board *b, uint32_t space, size_t address, const uint8_t *bytes, size_t n);
answer face_write_map(const corwystal_board *b, uint8_t *file, size_t n);
answer face_read_map(corwystal_board *b, const uint8_t *file, size_t n);

#endif
