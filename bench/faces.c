/* The calls of checked.c with all that they are lent, as corwystal_board.h has the pager's: a unit of its own, so that none is inlined. */
#include "checked.h"

answer face_mark(corwystal_board *b, uint32_t space, uint32_t page)
{
    return checked_mark(&b->head, space, page, b->index, b->index_len, b->count, b->count_len);
}

answer face_drop(corwystal_board *b, uint32_t space, uint32_t page)
{
    return checked_drop(&b->head, space, page, b->index, b->index_len, b->count, b->count_len);
}

answer face_touch(corwystal_board *b, uint32_t space, uint32_t page)
{
    return checked_touch(&b->head, space, page, b->index, b->index_len, b->count, b->count_len, b->table,
                         b->table_len, b->helper, b->helper_len, b->stack, b->stack_len, b->cache, b->cache_len,
                         b->link, b->link_len, b->ram, b->ram_len);
}

answer face_look(corwystal_board *b, uint32_t space, uint32_t page)
{
    return checked_look(&b->head, space, page, b->index, b->index_len, b->count, b->count_len, b->table,
                        b->table_len, b->helper, b->helper_len, b->stack, b->stack_len, b->cache, b->cache_len);
}

answer face_release(corwystal_board *b, uint32_t space, uint32_t page)
{
    return checked_release(&b->head, space, page, b->index, b->index_len, b->count, b->count_len, b->table,
                           b->table_len, b->stack, b->stack_len, b->link, b->link_len);
}

answer face_give_back(corwystal_board *b, uint32_t space, uint32_t page)
{
    return checked_give_back(&b->head, space, page, b->index, b->index_len, b->count, b->count_len, b->table,
                             b->table_len, b->helper, b->helper_len, b->stack, b->stack_len, b->cache, b->cache_len,
                             b->link, b->link_len);
}

answer face_translate(corwystal_board *b, uint32_t space, size_t address)
{
    return checked_translate(&b->head, space, address, b->index, b->index_len, b->count, b->count_len, b->table,
                             b->table_len, b->helper, b->helper_len, b->stack, b->stack_len, b->cache, b->cache_len);
}

answer face_write(corwystal_board *b, uint32_t space, size_t address, const uint8_t *bytes, size_t n)
{
    return checked_write(&b->head, space, address, bytes, n, b->index, b->index_len, b->count, b->count_len, b->table,
                         b->table_len, b->helper, b->helper_len, b->stack, b->stack_len, b->cache, b->cache_len,
                         b->link, b->link_len, b->ram, b->ram_len);
}

answer face_write_map(const corwystal_board *b, uint8_t *file, size_t n)
{
    return checked_write_map(&b->head, b->index, b->index_len, b->count, b->count_len, b->table, b->table_len, b->stack,
                             b->stack_len, b->link, b->link_len, file, n);
}

answer face_read_map(corwystal_board *b, const uint8_t *file, size_t n)
{
    return checked_read_map(&b->head, file, n, b->index, b->index_len, b->count, b->count_len, b->table, b->table_len,
                            b->helper, b->helper_len, b->stack, b->stack_len, b->cache, b->cache_len, b->link,
                            b->link_len);
}
