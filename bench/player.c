/*
 * A player of session scripts by hand in C: what a line costs a program that nobody proved. It reads blocks, takes the
 * lines of docs/SESSION.md, makes the calls by the method of method.c after the checks that a session needs, and
 * answers what session_program answers, byte for byte (bench/lines.sh holds the two to each other). A field ends at a
 * byte that can't belong to it and each line of the block at its LF, so a good line is passed over once.
 */
#define _GNU_SOURCE
#include "marks.h"

#include <unistd.h>

#define INPUT 65536
#define OUT 65536
#define LONGEST 65536 /* more than any answer is long */
#define SLACK 16      /* bytes behind the input that a name may be compared with */
#define PLACES 1024
#define FRAMES 128
#define RAM 32768
#define BYTES 256
#define LIKELY(x) __builtin_expect(!!(x), 1)

static uint64_t index_words[PLACES / 64 + 1];
static uint32_t count[PLACES], table[PLACES], helper[PLACES], stack[PLACES], cache[PLACES], links[FRAMES];
static uint8_t ram[RAM], bytes[BYTES];
static uint8_t input[INPUT + SLACK];
static char output[OUT + LONGEST];
static uint32_t spaces; /* 0 before the first start */
static method machine = {
    .marks = {.layer = {index_words}},
    .count = count,
    .table = table,
    .helper = helper,
    .stack = stack,
    .cache = cache,
    .link = links,
    .ram = ram,
};

/* ---- text */

#define SAY(out, text) (memcpy((out), (text), sizeof(text) - 1), (out) + sizeof(text) - 1)

static inline char *say_digit(char *out, uint32_t n)
{
    *out = (char)('0' + n);
    return out + 1;
}

/* Nearly all numbers of a session are short, and the longest is an address of RAM. */
static inline char *say_number(char *out, uint32_t n)
{
    if (n >= 10) {
        if (n >= 100) {
            if (n >= 1000) {
                if (n >= 10000)
                    out = say_digit(out, n / 10000);
                out = say_digit(out, n / 1000 % 10);
            }
            out = say_digit(out, n / 100 % 10);
        }
        out = say_digit(out, n / 10 % 10);
    }
    return say_digit(out, n % 10);
}

static char *say_refusal(char *out, uint32_t k) { return say_number(SAY(out, "no "), k); }

static char *say_bytes(char *out, size_t n)
{
    out = SAY(out, "bytes");
    if (n != 0)
        *out++ = ' ';
    for (size_t i = 0; i < n; i++) {
        *out++ = "0123456789abcdef"[bytes[i] >> 4];
        *out++ = "0123456789abcdef"[bytes[i] & 15];
    }
    return out;
}

static char *say_answer(char *out, answer a)
{
    switch (a.kind) {
    case CORWYSTAL_DONE:
        return SAY(out, "ok");
    case CORWYSTAL_OLD:
        out = say_number(SAY(out, "frame "), (uint32_t)a.value);
        return SAY(out, " old 0");
    case CORWYSTAL_NEW:
        out = say_number(SAY(out, "frame "), (uint32_t)a.value);
        return say_number(SAY(out, " new "), a.words);
    case CORWYSTAL_RESIDENT:
        out = say_number(SAY(out, "resident "), (uint32_t)a.value);
        return SAY(out, " 0");
    case CORWYSTAL_ABSENT:
        return say_number(SAY(out, "absent "), a.words);
    case CORWYSTAL_PAGES:
        return say_number(SAY(out, "pages "), (uint32_t)a.value);
    case CORWYSTAL_AT:
        return say_number(SAY(out, "at "), (uint32_t)a.value);
    case CORWYSTAL_BYTES:
        return say_bytes(out, a.value);
    default:
        return say_refusal(out, a.kind);
    }
}

/* The same for touch and look, which tell the index words of a refusal too. */
static char *say_found(char *out, answer a)
{
    out = say_answer(out, a);
    return a.kind < CORWYSTAL_DONE ? say_number(SAY(out, " "), a.words) : out;
}

/* The same for a hand-back, which is answered by another word than document 01's calls. */
static char *say_given(char *out, answer a) { return a.kind == CORWYSTAL_DONE ? SAY(out, "done") : say_answer(out, a); }

/* ---- the fields of a line: where they end, or NULL */

/* A number after a blank, of at most 9 digits. */
static inline const uint8_t *number(const uint8_t *at, uint32_t *value)
{
    if (*at++ != ' ')
        return NULL;
    uint32_t n = 0, digit;
    const uint8_t *first = at;
    while ((digit = (uint32_t)*at - '0') < 10) {
        n = 10 * n + digit;
        at++;
    }
    *value = n;
    return LIKELY((size_t)(at - first) - 1 < 9) ? at : NULL;
}

static inline const uint8_t *pair(const uint8_t *at, uint32_t *one, uint32_t *two)
{
    at = number(at, one);
    return LIKELY(at != NULL) ? number(at, two) : NULL;
}

/* The line's end. */
static inline const uint8_t *end_of(const uint8_t *at) { return LIKELY(at != NULL && *at == '\n') ? at : NULL; }

/* One more than a hex digit's value, 0 for any other byte. */
static const uint8_t hex[256] = {
    ['0'] = 1, ['1'] = 2,  ['2'] = 3,  ['3'] = 4,  ['4'] = 5,  ['5'] = 6,  ['6'] = 7,  ['7'] = 8,
    ['8'] = 9, ['9'] = 10, ['a'] = 11, ['b'] = 12, ['c'] = 13, ['d'] = 14, ['e'] = 15, ['f'] = 16,
};

/* The bytes of a write after a blank; none where the line ends. */
static inline const uint8_t *take_bytes(const uint8_t *at, uint32_t *many)
{
    uint32_t n = 0, high, low;
    if (*at == ' ') {
        for (at++; (high = hex[at[0]]) != 0 && (low = hex[at[1]]) != 0 && n < BYTES; at += 2)
            bytes[n++] = (uint8_t)((high - 1) << 4 | (low - 1));
        if (n == 0)
            return NULL;
    }
    *many = n;
    return end_of(at);
}

/* ---- the calls with the checks that the method leaves out */

static inline uint32_t refused_page(uint32_t space, uint32_t page)
{
    if (LIKELY(space < spaces && page < machine.pages))
        return 0;
    return spaces == 0 ? 1 : space >= spaces ? 2 : 3;
}

static inline uint32_t refused_span(uint32_t space, uint32_t address, uint32_t n)
{
    if (LIKELY(space < spaces && address + n <= machine.pages << machine.shift))
        return 0;
    return spaces == 0 ? 1 : space >= spaces ? 2 : 3;
}

static char *start(char *out, uint32_t s, uint32_t n, uint32_t f, uint32_t p)
{
    if (s - 1 >= CORWYSTAL_MOST_SPACES || n == 0 || (uint64_t)s * n > PLACES || f == 0 || (uint64_t)f * p > RAM ||
        p < CORWYSTAL_LEAST_PAGE || (p & (p - 1)) != 0)
        return say_refusal(out, 1);
    spaces = s;
    return say_answer(out, method_start(&machine, s, n, f, p));
}

static char *list(char *out, uint32_t space)
{
    if (space >= spaces)
        return say_refusal(out, spaces == 0 ? 1 : 2);
    uint32_t lo = space * machine.pages, hi = lo + machine.pages, many = 0, next;
    uint32_t first = marked(&machine.marks, lo) ? lo : marks_next(&machine.marks, lo, hi);
    for (uint32_t a = first; a < hi; a = marks_next(&machine.marks, a, hi))
        many++;
    out = say_number(SAY(out, "regions "), many);
    for (uint32_t a = first; a < hi; a = next) {
        next = marks_next(&machine.marks, a, hi);
        if (next > hi)
            next = hi;
        out = say_number(SAY(out, " "), a - lo);
        out = say_number(SAY(out, " "), next - a);
        out = say_number(SAY(out, " "), count[a]);
    }
    return out;
}

/* ---- a line from behind its name: its answer, and at `end` its LF or NULL for a bad line */

#define LINE(name) static char *name##_line(char *out, const uint8_t *at, const uint8_t **end)

#define PAGE_LINE(name, call, say)                                                                                     \
    LINE(name)                                                                                                         \
    {                                                                                                                  \
        uint32_t i, b, k;                                                                                              \
        if ((*end = end_of(pair(at, &i, &b))) == NULL)                                                                 \
            return out;                                                                                                \
        if ((k = refused_page(i, b)) != 0)                                                                             \
            return say(out, (answer){k, 0, 0});                                                                        \
        return say(out, call(&machine, i, b));                                                                         \
    }
PAGE_LINE(mark, method_mark, say_answer)
PAGE_LINE(drop, method_drop, say_answer)
PAGE_LINE(touch, method_touch, say_found)
PAGE_LINE(look, method_look, say_found)
PAGE_LINE(release, method_release, say_answer)
PAGE_LINE(give, method_give_back, say_given)

LINE(start)
{
    uint32_t s, n, f, p;
    if ((at = pair(at, &s, &n)) == NULL || (*end = end_of(pair(at, &f, &p))) == NULL)
        return out;
    return start(out, s, n, f, p);
}

LINE(free)
{
    if ((*end = end_of(at)) == NULL)
        return out;
    if (spaces == 0)
        return say_refusal(out, 1);
    return say_number(SAY(out, "free "), machine.many + (machine.frames - machine.fresh));
}

LINE(translate)
{
    uint32_t i, x, k;
    if ((*end = end_of(pair(at, &i, &x))) == NULL)
        return out;
    if ((k = refused_span(i, x, 1)) != 0)
        return say_refusal(out, k);
    return say_answer(out, method_translate(&machine, i, x));
}

LINE(read)
{
    uint32_t i, x, n, k;
    if ((at = pair(at, &i, &x)) == NULL || (at = end_of(number(at, &n))) == NULL || n > BYTES)
        return out;
    *end = at;
    if ((k = refused_span(i, x, n)) != 0)
        return say_refusal(out, k);
    return say_answer(out, method_read(&machine, i, x, bytes, n));
}

LINE(write)
{
    uint32_t i, x, n, k;
    if ((at = pair(at, &i, &x)) == NULL || (*end = take_bytes(at, &n)) == NULL)
        return out;
    if ((k = refused_span(i, x, n)) != 0)
        return say_refusal(out, k);
    return say_answer(out, method_write(&machine, i, x, bytes, n));
}

LINE(list)
{
    uint32_t i;
    if ((*end = end_of(number(at, &i))) == NULL)
        return out;
    return list(out, i);
}

#define IF_NAMED(name)                                                                                                 \
    if (memcmp(at, #name, sizeof(#name) - 1) == 0)                                                                     \
    return name##_line(out, at + sizeof(#name) - 1, end)

/* The line that begins at `at`, as above. */
static char *call_line(char *out, const uint8_t *at, const uint8_t **end)
{
    *end = NULL;
    switch (*at) {
    case 't':
        IF_NAMED(touch);
        IF_NAMED(translate);
        return out;
    case 'l':
        IF_NAMED(look);
        IF_NAMED(list);
        return out;
    case 'r':
        IF_NAMED(read);
        IF_NAMED(release);
        return out;
    case 'w':
        IF_NAMED(write);
        return out;
    case 'm':
        IF_NAMED(mark);
        return out;
    case 'd':
        IF_NAMED(drop);
        return out;
    case 'f':
        IF_NAMED(free);
        return out;
    case 'g':
        IF_NAMED(give);
        return out;
    case 's':
        IF_NAMED(start);
        return out;
    default:
        return out;
    }
}

/* ---- blocks */

/* Writes all answers before `out`; answers whether it did. */
static int flush(const char *out)
{
    for (const char *at = output; at < out;) {
        ssize_t n = write(1, at, (size_t)(out - at));
        if (n <= 0)
            return 0;
        at += n;
    }
    return 1;
}

/* Answers the lines from `at` to before `stop`, each of which ends in LF; NULL where answers were lost. */
static char *answer_lines(char *out, const uint8_t *at, const uint8_t *stop)
{
    while (at < stop) {
        const uint8_t *end;
        out = call_line(out, at, &end);
        if (end == NULL) {
            end = rawmemchr(at, '\n');
            out = SAY(out, "bad line");
        }
        *out++ = '\n';
        at = end + 1;
        if (out - output > OUT - 1) {
            if (!flush(out))
                return NULL;
            out = output;
        }
    }
    return out;
}

int main(void)
{
    size_t kept = 0;
    int is_long = 0, is_last = 0; /* more came of a line than is kept; the input has ended */
    while (!is_last) {
        ssize_t got = read(0, input + kept, INPUT - kept);
        size_t n = kept + (got > 0 ? (size_t)got : 0);
        is_last = got <= 0;
        if (is_last && (n != 0 || is_long))
            input[n++] = '\n';
        const uint8_t *at = input, *last = memrchr(input, '\n', n), *stop = last == NULL ? input : last + 1;
        char *out = output;
        if (is_long && at < stop) {
            is_long = 0;
            out = SAY(out, "bad line\n");
            at = (const uint8_t *)rawmemchr(at, '\n') + 1;
        }
        if ((out = answer_lines(out, at, stop)) == NULL || !flush(out))
            return 1;
        kept = n - (size_t)(stop - input);
        memmove(input, stop, kept);
        if (kept == INPUT) {
            is_long = 1;
            kept = 0;
        }
    }
    return 0;
}
