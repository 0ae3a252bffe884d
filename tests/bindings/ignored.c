/* Every function of the C headers with what it answers ignored, one a line: compilers must warn of each. Compiled as C and as C++, never run. */
#include "corwystal_board.h"

#define LENT(buffer) b->buffer, b->buffer##_len
#define TABLES LENT(index), LENT(count), LENT(table), LENT(helper), LENT(stack), LENT(cache)

void ignore(corwystal_board *b, corwystal_region *records, uint8_t *bytes);

void ignore(corwystal_board *b, corwystal_region *records, uint8_t *bytes) {
    corwystal_head *head = &b->head;
    corwystal_answer a = {CORWYSTAL_DONE, 0, 0};
    corwystal_refused(a);
    corwystal_text(a);
    corwystal_sizes(1, 8, 3, 256);
    corwystal_start(head, 1, 8, 3, 256, LENT(index), LENT(count));
    corwystal_mark(head, 0, 0, LENT(index), LENT(count));
    corwystal_drop(head, 0, 0, LENT(index), LENT(count));
    corwystal_touch(head, 0, 0, TABLES, LENT(link), LENT(ram));
    corwystal_look(head, 0, 0, TABLES);
    corwystal_release(head, 0, 0, LENT(index), LENT(count), LENT(table), LENT(stack), LENT(link));
    corwystal_give_back(head, 0, 0, TABLES, LENT(link));
    corwystal_free_count(head);
    corwystal_translate(head, 0, 0, TABLES);
    corwystal_read(head, 0, 0, bytes, 1, TABLES, LENT(ram));
    corwystal_write(head, 0, 0, bytes, 1, TABLES, LENT(link), LENT(ram));
    corwystal_list(head, 0, records, 1, LENT(index), LENT(count));
    corwystal_write_map(head, LENT(index), LENT(count), LENT(table), LENT(stack), LENT(link), bytes, 1);
    corwystal_read_map(head, bytes, 1, TABLES, LENT(link));
    corwystal_how_full(0, bytes, 1);
    corwystal_board_start(b, 1, 8, 3, 256);
    corwystal_board_mark(b, 0, 0);
    corwystal_board_drop(b, 0, 0);
    corwystal_board_touch(b, 0, 0);
    corwystal_board_look(b, 0, 0);
    corwystal_board_release(b, 0, 0);
    corwystal_board_give_back(b, 0, 0);
    corwystal_board_free_count(b);
    corwystal_board_translate(b, 0, 0);
    corwystal_board_read(b, 0, 0, bytes, 1);
    corwystal_board_write(b, 0, 0, bytes, 1);
    corwystal_board_list(b, 0, records, 1);
    corwystal_board_write_map(b, bytes, 1);
    corwystal_board_read_map(b, bytes, 1);
}
