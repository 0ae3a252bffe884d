/*
 * Corwystal: the page manager of the collector boards, for C.
 *
 * Link target/bindings/libcorwystal.a, which bindings/library builds; no other build of it is fit for a kernel. It
 * keeps no state of its own, allocates nothing, uses the general registers and no memory below the stack pointer,
 * and needs of the C library memmove and memset only. docs/KERNEL.md says what to lend, what each refusal means, what
 * each call costs and what interrupts may do.
 *
 * Every call may be given any numbers, any head and any buffer contents. What C cannot check is asked of the
 * caller: a pointer is aligned for its type and good for as many entries as the length after it says, it is not
 * null (for a length of 0 any address will do, such as that of the head), and no two buffers of one call overlap,
 * nor one and the head.
 */
#ifndef CORWYSTAL_H
#define CORWYSTAL_H

#include <stddef.h>
#include <stdint.h>

#define CORWYSTAL_VERSION_MAJOR 0
#define CORWYSTAL_VERSION_MINOR 2
#define CORWYSTAL_VERSION_PATCH 0
#define CORWYSTAL_VERSION "0.2.0"

/* An answer that nobody looks at may be a refusal, and then nothing was done: compilers that can, warn of it. */
#if defined(__cplusplus)
#if __cplusplus >= 201703L
#define CORWYSTAL_USE_ANSWER [[nodiscard]]
#endif
#elif defined(__STDC_VERSION__) && __STDC_VERSION__ >= 202000L && defined(__has_c_attribute)
#if __has_c_attribute(nodiscard)
#define CORWYSTAL_USE_ANSWER [[nodiscard]]
#endif
#endif
#if !defined(CORWYSTAL_USE_ANSWER) && defined(__GNUC__)
#define CORWYSTAL_USE_ANSWER __attribute__((warn_unused_result))
#elif !defined(CORWYSTAL_USE_ANSWER)
#define CORWYSTAL_USE_ANSWER
#endif

#ifdef __cplusplus
extern "C" {
#endif

/* ---- sizes */

#define CORWYSTAL_MOST_SPACES 64u
#define CORWYSTAL_MOST_PLACES 262144u /* T = spaces x pages */
#define CORWYSTAL_MOST_FRAMES 65536u
#define CORWYSTAL_LEAST_PAGE 256u
#define CORWYSTAL_MOST_PAGE 65536u

/*
 * Entries of each buffer, as constants, for memory that is laid out when the kernel is built:
 *     index                             CORWYSTAL_INDEX_WORDS(T)   uint64_t
 *     count, table, helper, stack, cache             T entries each, uint32_t
 *     link                                           F entries,      uint32_t
 *     ram                                            F x P bytes
 *     file                              CORWYSTAL_MAP_BYTES(S, T, F) bytes, enough for every map
 */
#define CORWYSTAL_LAYER_WORDS(bits) (((size_t)(bits) + 63) / 64)
#define CORWYSTAL_LAYER_ABOVE(words) ((words) > 1 ? CORWYSTAL_LAYER_WORDS(words) : 0)
#define CORWYSTAL_INDEX_WORDS(t)                                                                                       \
    (CORWYSTAL_LAYER_WORDS(t) + CORWYSTAL_LAYER_ABOVE(CORWYSTAL_LAYER_WORDS(t)) +                                      \
     CORWYSTAL_LAYER_ABOVE(CORWYSTAL_LAYER_ABOVE(CORWYSTAL_LAYER_WORDS(t))))
#define CORWYSTAL_MAP_BYTES(s, t, f) (CORWYSTAL_CONTENTS_BYTES(s) + 4 * (3 * (size_t)(t) + 2 * (size_t)(f)))

/* Bytes of the contents, with which a map of S spaces begins; of 64 spaces 796, the most. */
#define CORWYSTAL_CONTENTS_BYTES(s) (4 * (3 * (size_t)(s) + 7))

/* Entries of each buffer, computed; refusal is 1 for sizes outside their limits, and the rest is then 0. */
typedef struct corwystal_needs {
    uint32_t refusal;
    size_t index;  /* 64-bit words */
    size_t places; /* 32-bit words of count, table, helper, stack and cache each */
    size_t link;   /* 32-bit words */
    size_t ram;    /* bytes */
    size_t map;    /* bytes of a map file, at most */
} corwystal_needs;

CORWYSTAL_USE_ANSWER
corwystal_needs corwystal_sizes(uint32_t spaces, uint32_t pages, uint32_t frames, uint32_t page);

/* ---- what is lent */

/* The head record. All zeros before the first start or the first map read; only the calls change it. */
typedef struct corwystal_head {
    uint32_t spaces;
    uint32_t pages;
    uint32_t frames;
    uint32_t page_shift; /* the page size as a power of two */
    uint32_t first;      /* the pool: `many` frames linked from `first` on, then those from `fresh` on */
    uint32_t many;
    uint32_t fresh;
} corwystal_head;

/* A head before any start. Every number is named, since C++ warns of those that are left out. */
#define CORWYSTAL_HEAD_INIT {0, 0, 0, 0, 0, 0, 0}

/* One region of a space. */
typedef struct corwystal_region {
    uint32_t start;
    uint32_t length;
    uint32_t resident;
} corwystal_region;

/* ---- answers */

typedef struct corwystal_answer {
    uint32_t kind;  /* 1 to 13: the number of a refusal; from 16 on: what was answered */
    uint32_t words; /* index words read by touch and look; 0 in every other answer */
    uint64_t value; /* see the kinds; 0 where none is named, and in every refusal */
} corwystal_answer;

enum {
    CORWYSTAL_NO_SIZE = 1,      /* a size outside its limits, a buffer or map contents too short, or no start made */
    CORWYSTAL_NO_SPACE = 2,     /* no such space */
    CORWYSTAL_NO_PAGE = 3,      /* no such page or address, or the span ends beyond its space */
    CORWYSTAL_NO_REGION = 4,    /* the page lies below every start of its space */
    CORWYSTAL_NO_START = 5,     /* the page is no start */
    CORWYSTAL_START_ALREADY = 6, /* the page is a start already */
    CORWYSTAL_RESIDENT_PAGES = 7, /* the region has resident pages */
    CORWYSTAL_NO_FRAME = 8,     /* the pool has too few frames */
    CORWYSTAL_NOT_OURS = 9,     /* head or tables are not what these calls left */
    CORWYSTAL_NOT_RESIDENT = 10, /* the page is in a region, but absent */
    CORWYSTAL_NO_ROOM = 11,     /* fewer records than regions */
    CORWYSTAL_NO_MAP = 12,      /* the bytes are no map file */
    CORWYSTAL_NO_MAP_ROOM = 13, /* the buffer is shorter than the map */

    CORWYSTAL_DONE = 16,     /* start, mark, drop, give_back, write, read_map */
    CORWYSTAL_OLD = 17,      /* touch: value is the frame; the page was resident */
    CORWYSTAL_NEW = 18,      /* touch: value is the frame; it was mapped just now and is all zeros */
    CORWYSTAL_RESIDENT = 19, /* look: value is the frame */
    CORWYSTAL_ABSENT = 20,   /* look */
    CORWYSTAL_PAGES = 21,    /* release: value is the number of pages given back; how_full: of resident pages */
    CORWYSTAL_FRAMES = 22,   /* free_count: value is the number of frames in the pool */
    CORWYSTAL_AT = 23,       /* translate: value is the place in RAM */
    CORWYSTAL_BYTES = 24,    /* read: value is the number of bytes, all of the buffer */
    CORWYSTAL_REGIONS = 25,  /* list: value is the number of records filled */
    CORWYSTAL_MAP = 26       /* write_map: value is the map's length in bytes, at the buffer's front */
};

CORWYSTAL_USE_ANSWER
static inline int corwystal_refused(corwystal_answer a) { return a.kind < 16; }

/* Why an answer is a refusal and what to do about it, for a log; docs/KERNEL.md says more. Never null, whatever the answer. */
CORWYSTAL_USE_ANSWER
static inline const char *corwystal_text(corwystal_answer a) {
    switch (a.kind) {
    case CORWYSTAL_NO_SIZE:
        return "a size outside its limits, a buffer or map contents too short, or no start: lend what the sizes need, then start; or fetch more of the map";
    case CORWYSTAL_NO_SPACE:
        return "no such space: name one below the number of spaces";
    case CORWYSTAL_NO_PAGE:
        return "no such page or address, or the span ends beyond its space: stay within the space";
    case CORWYSTAL_NO_REGION:
        return "the page has no region: mark a start at it or before it";
    case CORWYSTAL_NO_START:
        return "the page is no start: name one that the list of regions has";
    case CORWYSTAL_START_ALREADY:
        return "the page is a start already: use its region as it is";
    case CORWYSTAL_RESIDENT_PAGES:
        return "the region has resident pages: release it first";
    case CORWYSTAL_NO_FRAME:
        return "the pool has too few frames: release a region or give back a page, then try again";
    case CORWYSTAL_NOT_OURS:
        return "head or tables are not what these calls left: trust no page and start anew";
    case CORWYSTAL_NOT_RESIDENT:
        return "the page is in a region, but absent: touch or write it before it is read; there is nothing to give back";
    case CORWYSTAL_NO_ROOM:
        return "fewer records than regions: lend more records";
    case CORWYSTAL_NO_MAP:
        return "the bytes are no map file: read it again, all of it and nothing more, or start";
    case CORWYSTAL_NO_MAP_ROOM:
        return "the buffer is shorter than the map: lend as many bytes as the sizes need";
    default:
        return corwystal_refused(a) ? "no call answers so: look where this answer comes from" : "done";
    }
}

/* ---- the calls */

/* Sets the sizes: no starts, every frame in the pool. Prepares index and count; the rest may hold anything. */
CORWYSTAL_USE_ANSWER
corwystal_answer corwystal_start(corwystal_head *head, uint32_t spaces, uint32_t pages, uint32_t frames, uint32_t page,
                                 uint64_t *index, size_t index_len, uint32_t *count, size_t count_len);

/* Makes a page a region's start. The region that it cuts must have no resident page. */
CORWYSTAL_USE_ANSWER
corwystal_answer corwystal_mark(const corwystal_head *head, uint32_t space, uint32_t page, uint64_t *index,
                                size_t index_len, const uint32_t *count, size_t count_len);

/* Makes a start none any more. Its region must have no resident page. */
CORWYSTAL_USE_ANSWER
corwystal_answer corwystal_drop(const corwystal_head *head, uint32_t space, uint32_t page, uint64_t *index,
                                size_t index_len, const uint32_t *count, size_t count_len);

/*
 * The frame of a page, mapped if need be. A new page reads as zeros: with what its frame last held, another harbour's
 * levels would be filed as this gauge's. So the RAM is lent, all of it; that of a resident page stays as it is.
 */
CORWYSTAL_USE_ANSWER
corwystal_answer corwystal_touch(corwystal_head *head, uint32_t space, uint32_t page, const uint64_t *index,
                                 size_t index_len, uint32_t *count, size_t count_len, uint32_t *table,
                                 size_t table_len, uint32_t *helper, size_t helper_len, uint32_t *stack,
                                 size_t stack_len, uint32_t *cache, size_t cache_len, uint32_t *link, size_t link_len,
                                 uint8_t *ram, size_t ram_len);

/* Whether a page is resident, and its frame. */
CORWYSTAL_USE_ANSWER
corwystal_answer corwystal_look(const corwystal_head *head, uint32_t space, uint32_t page, const uint64_t *index,
                                size_t index_len, const uint32_t *count, size_t count_len, const uint32_t *table,
                                size_t table_len, const uint32_t *helper, size_t helper_len, const uint32_t *stack,
                                size_t stack_len, const uint32_t *cache, size_t cache_len);

/* Gives back every page of the region that starts at a page, in constant time. The start stays, and so does the RAM. */
CORWYSTAL_USE_ANSWER
corwystal_answer corwystal_release(corwystal_head *head, uint32_t space, uint32_t page, const uint64_t *index,
                                   size_t index_len, uint32_t *count, size_t count_len, const uint32_t *table,
                                   size_t table_len, const uint32_t *stack, size_t stack_len, uint32_t *link,
                                   size_t link_len);

/*
 * Gives back one page, in constant time, as when a corrected page has made it useless; the other pages of its region stay. Its frame goes to
 * the front of the pool, so that the next new page gets it. The region's newest page, which is the last in its list, takes the position of the
 * page there; if it is the newest itself, the list just gets shorter. Release and map go by that list, whatever was mapped when. The start
 * stays, also where the region is empty then, and so does the RAM, which isn't lent. Refused with 1 to 3, then with 4 if the page has no
 * region, with 9 if head or tables are not what these calls left, and with 10 if the page isn't resident.
 */
CORWYSTAL_USE_ANSWER
corwystal_answer corwystal_give_back(corwystal_head *head, uint32_t space, uint32_t page, const uint64_t *index,
                                     size_t index_len, uint32_t *count, size_t count_len, const uint32_t *table,
                                     size_t table_len, uint32_t *helper, size_t helper_len, uint32_t *stack,
                                     size_t stack_len, const uint32_t *cache, size_t cache_len, uint32_t *link,
                                     size_t link_len);

/* How many frames the pool has. Nothing is freed: that is release and give_back. */
CORWYSTAL_USE_ANSWER
corwystal_answer corwystal_free_count(const corwystal_head *head);

/* The place in RAM of an address. */
CORWYSTAL_USE_ANSWER
corwystal_answer corwystal_translate(const corwystal_head *head, uint32_t space, size_t address, const uint64_t *index,
                                     size_t index_len, const uint32_t *count, size_t count_len, const uint32_t *table,
                                     size_t table_len, const uint32_t *helper, size_t helper_len,
                                     const uint32_t *stack, size_t stack_len, const uint32_t *cache,
                                     size_t cache_len);

/* Fills the buffer from an address on. A refusal leaves the buffer. */
CORWYSTAL_USE_ANSWER
corwystal_answer corwystal_read(const corwystal_head *head, uint32_t space, size_t address, uint8_t *buffer,
                                size_t buffer_len, const uint64_t *index, size_t index_len, const uint32_t *count,
                                size_t count_len, const uint32_t *table, size_t table_len, const uint32_t *helper,
                                size_t helper_len, const uint32_t *stack, size_t stack_len, const uint32_t *cache,
                                size_t cache_len, const uint8_t *ram, size_t ram_len);

/* Stores the bytes from an address on, mapping pages that are absent: all or nothing. The rest of a new page is zeros. */
CORWYSTAL_USE_ANSWER
corwystal_answer corwystal_write(corwystal_head *head, uint32_t space, size_t address, const uint8_t *bytes,
                                 size_t bytes_len, const uint64_t *index, size_t index_len, uint32_t *count,
                                 size_t count_len, uint32_t *table, size_t table_len, uint32_t *helper,
                                 size_t helper_len, uint32_t *stack, size_t stack_len, uint32_t *cache,
                                 size_t cache_len, uint32_t *link, size_t link_len, uint8_t *ram, size_t ram_len);

/* One record a region of a space, ascending. Records after the last stay. */
CORWYSTAL_USE_ANSWER
corwystal_answer corwystal_list(const corwystal_head *head, uint32_t space, corwystal_region *records,
                                size_t records_len, const uint64_t *index, size_t index_len, const uint32_t *count,
                                size_t count_len);

/*
 * The whole state but for the RAM as a map file at the buffer's front; the bytes after it stay, and so does all else. Refused with 1,
 * then with 9 if head or tables are not what these calls left (start anew, or read an older map), then with 13 if the buffer is shorter
 * than the map (CORWYSTAL_MAP_BYTES are always enough). A refusal leaves the buffer.
 */
CORWYSTAL_USE_ANSWER
corwystal_answer corwystal_write_map(const corwystal_head *head, const uint64_t *index, size_t index_len,
                                     const uint32_t *count, size_t count_len, const uint32_t *table, size_t table_len,
                                     const uint32_t *stack, size_t stack_len, const uint32_t *link, size_t link_len,
                                     uint8_t *file, size_t file_len);

/*
 * Begins anew with the state that a map file tells, as a start does with an empty one: it sets the head, needs no start before it, and
 * index and tables may hold anything. The RAM is not lent and stays: pages that are resident in the map show what stands there, later
 * ones are zeros. The file is all of the bytes lent. Refused with 12 if its contents are cut short or name sizes outside their limits,
 * with 1 if a buffer is too short for those sizes, and with 12 if it is no map otherwise (read it again, or start). A refusal leaves
 * all as it was, an earlier start too. Takes up to 12 KiB of stack, more than any other call: docs/KERNEL.md.
 */
CORWYSTAL_USE_ANSWER
corwystal_answer corwystal_read_map(corwystal_head *head, const uint8_t *file, size_t file_len, uint64_t *index,
                                    size_t index_len, uint32_t *count, size_t count_len, uint32_t *table,
                                    size_t table_len, uint32_t *helper, size_t helper_len, uint32_t *stack,
                                    size_t stack_len, uint32_t *cache, size_t cache_len, uint32_t *link,
                                    size_t link_len);

/*
 * How full a space is, from the contents of a map file alone: its first CORWYSTAL_CONTENTS_BYTES, or more, as all of the file; what follows
 * them is not read. Takes no head and no tables, so it works where no pager is. The answer is the number of resident pages that the contents
 * tell, as it stands: right for every file that read_map accepts, any number in a damaged one. Refused with 1 if the contents are cut short
 * or their number of spaces is outside its limits (fetch more of the file, or fetch it again), then with 2 if there is no such space.
 */
CORWYSTAL_USE_ANSWER
corwystal_answer corwystal_how_full(uint32_t space, const uint8_t *contents, size_t contents_len);

#ifdef __cplusplus
}
#endif

#endif
