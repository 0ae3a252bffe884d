/* Holds the header's constants, its structs, its version and corwystal_sizes to each other and to document 01's figures. */
#include "corwystal.h"

#include <stdio.h>
#include <string.h>

_Static_assert(CORWYSTAL_INDEX_WORDS(64) == 1, "T = 64 takes 1 word");
_Static_assert(CORWYSTAL_INDEX_WORDS(65) == 3, "T = 65 takes 3");
_Static_assert(CORWYSTAL_INDEX_WORDS(4097) == 68, "T = 4,097 takes 68");
_Static_assert(CORWYSTAL_INDEX_WORDS(262144) == 4161, "T = 262,144 takes 4,161");
_Static_assert(CORWYSTAL_MAP_BYTES(64, 262144, 65536) == 3670812, "the longest map");
_Static_assert(CORWYSTAL_CONTENTS_BYTES(1) == 40, "S, N, F, P and two rows");
_Static_assert(CORWYSTAL_CONTENTS_BYTES(64) == 796, "the longest contents");
_Static_assert(sizeof(corwystal_head) == 28, "seven 32-bit numbers");
_Static_assert(sizeof(corwystal_answer) == 16, "two 32-bit numbers and one of 64 bits");
_Static_assert(sizeof(corwystal_region) == 12, "three 32-bit numbers");

static int wrong;

static void accepted(uint32_t spaces, uint32_t pages, uint32_t frames, uint32_t page) {
    corwystal_needs n = corwystal_sizes(spaces, pages, frames, page);
    size_t t = (size_t)spaces * pages;
    if (n.refusal || n.index != CORWYSTAL_INDEX_WORDS(t) || n.places != t || n.link != frames || n.ram != (size_t)frames * page ||
        n.map != CORWYSTAL_MAP_BYTES(spaces, t, frames)) {
        printf("sizes %u %u %u %u: refusal %u, index %zu, places %zu, link %zu, ram %zu, map %zu\n", spaces, pages, frames, page, n.refusal,
               n.index, n.places, n.link, n.ram, n.map);
        wrong = 1;
    }
}

static void refused(uint32_t spaces, uint32_t pages, uint32_t frames, uint32_t page) {
    corwystal_needs n = corwystal_sizes(spaces, pages, frames, page);
    if (n.refusal != 1 || n.index || n.places || n.link || n.ram || n.map) {
        printf("sizes %u %u %u %u: not refused\n", spaces, pages, frames, page);
        wrong = 1;
    }
}

static void one_version(void) {
    char version[32];
    snprintf(version, sizeof version, "%d.%d.%d", CORWYSTAL_VERSION_MAJOR, CORWYSTAL_VERSION_MINOR, CORWYSTAL_VERSION_PATCH);
    if (strcmp(version, CORWYSTAL_VERSION) != 0) {
        printf("version %s in three numbers, %s as a text\n", version, CORWYSTAL_VERSION);
        wrong = 1;
    }
}

int main(void) {
    one_version();
    for (uint32_t t = 1; t <= CORWYSTAL_MOST_PLACES; t = t < 5000 ? t + 1 : t + 997)
        accepted(1, t, 1, 256);
    accepted(1, CORWYSTAL_MOST_PLACES, CORWYSTAL_MOST_FRAMES, CORWYSTAL_MOST_PAGE);
    accepted(CORWYSTAL_MOST_SPACES, 4096, 1, CORWYSTAL_LEAST_PAGE);
    for (uint32_t page = CORWYSTAL_LEAST_PAGE; page <= CORWYSTAL_MOST_PAGE; page *= 2) {
        accepted(7, 9, 11, page);
        refused(7, 9, 11, page + 1);
        refused(7, 9, 11, page - 1);
    }
    refused(0, 8, 3, 256);
    refused(65, 8, 3, 256);
    refused(1, 0, 3, 256);
    refused(1, 262145, 3, 256);
    refused(2, 131073, 3, 256);
    refused(64, 0xffffffff, 3, 256);
    refused(1, 8, 0, 256);
    refused(1, 8, 65537, 256);
    refused(1, 8, 3, 128);
    refused(1, 8, 3, 131072);
    return wrong;
}
