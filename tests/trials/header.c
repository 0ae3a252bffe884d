/* What bindings/c/corwystal.h says of layouts, kinds of answers and the index's words, for the trials to compare with. */
#include "corwystal.h"

const size_t header_layout[] = {
    sizeof(corwystal_head), offsetof(corwystal_head, pages), offsetof(corwystal_head, frames),
    offsetof(corwystal_head, page_shift), offsetof(corwystal_head, first), offsetof(corwystal_head, many),
    offsetof(corwystal_head, fresh), sizeof(corwystal_region), offsetof(corwystal_region, length),
    offsetof(corwystal_region, resident), sizeof(corwystal_answer), offsetof(corwystal_answer, words),
    offsetof(corwystal_answer, value), sizeof(corwystal_needs), offsetof(corwystal_needs, index),
    offsetof(corwystal_needs, places), offsetof(corwystal_needs, link), offsetof(corwystal_needs, ram),
    offsetof(corwystal_needs, map),
};

const uint32_t header_kinds[] = {
    CORWYSTAL_DONE,   CORWYSTAL_OLD, CORWYSTAL_NEW,   CORWYSTAL_RESIDENT, CORWYSTAL_ABSENT, CORWYSTAL_PAGES,
    CORWYSTAL_FRAMES, CORWYSTAL_AT,  CORWYSTAL_BYTES, CORWYSTAL_REGIONS, CORWYSTAL_MAP,
};

size_t header_index_words(size_t places) { return CORWYSTAL_INDEX_WORDS(places); }
