/*
 * A collector board: readings of tide gauges come by radio, go up the line in batches, and their memory is released when the line has confirmed
 * them. All memory for readings is the pager's. Each gauge has a space of its own with three regions: two for batches, filled in turn, so
 * that readings are taken while a batch goes up; and a page with the latest reading, for the harbour desk.
 *
 * All calls of the pager are made from the main loop. Interrupts only fill the serial ports' rings; they come at any instruction of a call, on
 * the same stack.
 *
 * Command line: frames=N, batch=N readings, seed=N, aim (each call of the pager gets an interrupt of the timer at a moment drawn by chance), vectors
 * (the vector registers are on; without it any use of one ends the board).
 */
#include "corwystal_board.h"
#include "frames.h"

enum { GAUGES = 8, PAGES = 64, MOST_FRAMES = 128, PAGE = 1024, PLACES = GAUGES * PAGES };
enum { BATCH_PAGES = 24, LATEST = 2 * BATCH_PAGES }; /* the regions' starts: 0, BATCH_PAGES and LATEST */
enum { READING = 16, ROOM = BATCH_PAGES * PAGE / READING, PART = MOST_PAYLOAD / READING, PATIENCE = 200 /* ms */ };

static uint64_t index_words[CORWYSTAL_INDEX_WORDS(PLACES)];
static uint32_t count[PLACES], table[PLACES], helper[PLACES], stack[PLACES], cache[PLACES], frame_link[MOST_FRAMES];
static uint8_t ram[MOST_FRAMES * PAGE];
static corwystal_board memory = CORWYSTAL_BOARD_INIT(index_words, count, table, helper, stack, cache, frame_link, ram);

/* ---- the pager's calls */

static int aiming;
static uint32_t chance;

/* With `aim`: the timer's interrupt comes some 1 to 512 instructions from here, so mostly inside the call that is made next. */
static void aim(void) {
    if (!aiming) return;
    chance = chance * 1664525 + 1013904223;
    timer_aim(1 + (chance >> 16) % 512);
}

#define PAGER(call) (aim(), (call))

/* An answer that can't be other on a sound board. One that is other all the same ends it: nothing that it holds can be trusted. */
static uint64_t must(corwystal_answer a, uint32_t kind, const char *what) {
    if (a.kind == kind) return a.value;
    say("board: %s answered %u, value %u: %s\n", what, (uint64_t)a.kind, a.value, corwystal_text(a));
    leave(1);
}

/* ---- gauges */

static struct gauge {
    int known;     /* it has sent a reading since the board started */
    int filling;   /* the batch that is being filled, 0 or 1 */
    int rising;    /* the other one is going up the line */
    uint16_t next; /* the number of the reading that is expected */
    uint16_t gone; /* readings below this number have gone up */
    uint16_t up;   /* how many readings of the rising batch have arrived there */
    struct batch { uint16_t first, many; } batch[2];
} gauges[GAUGES];

static uint64_t releases, refusals;
static int short_of_frames; /* a reading was refused for want of one since the last release */

static size_t address_of(int batch, uint32_t reading) { return (size_t)batch * BATCH_PAGES * PAGE + (size_t)reading * READING; }

static void acknowledge(uint8_t g, uint16_t number) {
    uint8_t gone[2] = {(uint8_t)gauges[g].gone, (uint8_t)(gauges[g].gone >> 8)};
    frame_give(RADIO, 'A', g, number, gone, 2);
}

static void refuse(uint8_t g, uint16_t number, uint32_t why) {
    uint8_t told[3] = {(uint8_t)why, (uint8_t)gauges[g].next, (uint8_t)(gauges[g].next >> 8)};
    frame_give(RADIO, 'N', g, number, told, 3);
}

/* Stores a reading behind its batch and as the gauge's latest: 0, or 8 where there is no room for it now. */
static uint32_t store(uint8_t g, const uint8_t *bytes) {
    struct gauge *s = &gauges[g];
    struct batch *b = &s->batch[s->filling];
    /* the pager writes where it is told to: that a batch stays in its region is for the board to see to */
    if (b->many == ROOM) return CORWYSTAL_NO_FRAME;
    corwystal_answer a = PAGER(corwystal_board_write(&memory, g, address_of(s->filling, b->many), bytes, READING));
    if (a.kind == CORWYSTAL_NO_FRAME) return a.kind; /* nothing was stored: the gauge will send it again */
    must(a, CORWYSTAL_DONE, "write");
    must(PAGER(corwystal_board_write(&memory, g, (size_t)LATEST * PAGE, bytes, READING)), CORWYSTAL_DONE, "write of the latest");
    b->many++, s->next++;
    return 0;
}

/* A reading is acknowledged after its bytes are stored, and never before. */
static void reading_came(const struct frame *f) {
    if (f->gauge >= GAUGES || f->length != 2 + READING) return;
    struct gauge *s = &gauges[f->gauge];
    if (!s->known) {
        /* The board has just started and knows nothing. What the gauge no longer keeps has gone, or is lost with the RAM. */
        s->known = 1;
        s->next = s->gone = s->batch[s->filling].first = two_bytes(f->payload);
    }
    uint16_t ahead = (uint16_t)(f->number - s->next);
    uint32_t no = ahead == 0 ? store(f->gauge, f->payload + 2) : 0;
    if (no) refusals++, short_of_frames = 1;
    if (ahead == 0 ? !no : ahead >= 0x8000) acknowledge(f->gauge, f->number); /* stored now, or before and the answer was lost */
    else refuse(f->gauge, f->number, no);
}

/* ---- the line: one part of one batch at a time, sent again until the shore confirms it */

static struct { int waiting, gauge; uint16_t number, many, checksum; uint64_t sent_at; } part;
static uint64_t batch_size;
static int day_ends;

static void part_send(void) {
    uint8_t bytes[PART * READING];
    struct gauge *s = &gauges[part.gauge];
    uint32_t n = (uint32_t)part.many * READING;
    must(PAGER(corwystal_board_read(&memory, (uint32_t)part.gauge, address_of(!s->filling, s->up), bytes, n)), CORWYSTAL_BYTES, "read of a batch");
    part.sent_at = milliseconds;
    part.checksum = frame_give(LINE, 'B', (uint8_t)part.gauge, part.number, bytes, n);
}

/* A batch that is full enough begins to rise, if the one before it has gone; the gauge goes on in the other region. Where frames are short any
   batch will do: if all waited to be fuller, none would be released. */
static void rise_if_ready(struct gauge *s) {
    uint16_t many = s->batch[s->filling].many;
    if (s->rising || !many || (many < batch_size && !day_ends && !short_of_frames)) return;
    s->rising = 1, s->up = 0;
    s->filling = !s->filling;
    s->batch[s->filling] = (struct batch){s->next, 0};
}

static void part_next(void) {
    static int turn;
    for (int k = 0; k < GAUGES; k++) {
        turn = (turn + 1) % GAUGES;
        struct gauge *s = &gauges[turn];
        rise_if_ready(s);
        if (!s->rising) continue;
        const struct batch *b = &s->batch[!s->filling];
        uint16_t left = (uint16_t)(b->many - s->up);
        part.waiting = 1, part.gauge = turn;
        part.number = (uint16_t)(b->first + s->up), part.many = left < PART ? left : PART;
        part_send();
        return;
    }
}

/* The whole batch has arrived: its region is released, and the gauge may forget its readings. */
static void batch_gone(uint8_t g) {
    struct gauge *s = &gauges[g];
    struct batch *b = &s->batch[!s->filling];
    uint64_t pages = ((uint64_t)b->many * READING + PAGE - 1) / PAGE;
    uint64_t released = must(PAGER(corwystal_board_release(&memory, g, (uint32_t)!s->filling * BATCH_PAGES)), CORWYSTAL_PAGES, "release");
    if (released != pages) {
        say("board: a release gave back %u pages of %u\n", released, pages);
        leave(1);
    }
    releases++;
    s->rising = short_of_frames = 0;
    s->gone = (uint16_t)(b->first + b->many);
    frame_give(RADIO, 'G', g, s->gone, 0, 0);
}

static void part_arrived(const struct frame *f) {
    if (!part.waiting || f->gauge != part.gauge || f->number != part.number || f->length != 2 || two_bytes(f->payload) != part.checksum) return;
    struct gauge *s = &gauges[f->gauge];
    part.waiting = 0;
    s->up = (uint16_t)(s->up + part.many);
    if (s->up == s->batch[!s->filling].many) batch_gone(f->gauge);
}

/* A gauge that has sent nothing yet has a new page, which reads as zeros: the desk can't take another's level for its own. */
static void tell_desk(void) {
    for (uint8_t g = 0; g < GAUGES; g++) {
        uint8_t bytes[READING];
        must(PAGER(corwystal_board_read(&memory, g, (size_t)LATEST * PAGE, bytes, READING)), CORWYSTAL_BYTES, "read of the latest");
        frame_give(LINE, 'L', g, (uint16_t)(gauges[g].next - 1), bytes, READING);
    }
}

/* ---- the day */

/* Every frame is in the pool or in a region: what the lists tell and what is free make F. */
static _Noreturn void stop(void) {
    static corwystal_region regions[PAGES];
    uint64_t resident = 0, free_frames = must(corwystal_board_free_count(&memory), CORWYSTAL_FRAMES, "free_count");
    for (uint32_t g = 0; g < GAUGES; g++) {
        uint64_t n = must(corwystal_board_list(&memory, g, regions, PAGES), CORWYSTAL_REGIONS, "list");
        for (uint64_t k = 0; k < n; k++) resident += regions[k].resident;
    }
    say("board: %u releases, %u readings refused for want of a frame, %u spoilt frames; %u pages resident, %u frames free\n", releases, refusals,
        spoilt_frames, resident, free_frames);
    say("board: %u interrupts of the timer, %u of them inside the pager's calls\n", aimed, aimed_inside);
    leave(resident + free_frames == memory.head.frames ? 0 : 1);
}

static void start(void) {
    /* RAM holds anything when the power comes, but an emulator's is zeros: so that the desk would see it, all of it is something else */
    memset(ram, 0xA5, sizeof ram);
    must(corwystal_board_start(&memory, GAUGES, PAGES, (uint32_t)option("frames", MOST_FRAMES), PAGE), CORWYSTAL_DONE, "start");
    for (uint8_t g = 0; g < GAUGES; g++) {
        for (uint32_t page = 0; page <= LATEST; page += BATCH_PAGES) must(corwystal_board_mark(&memory, g, page), CORWYSTAL_DONE, "mark");
        /* the latest reading's frame is taken now, for good: storing it is then never refused, and until then the desk reads zeros there */
        must(corwystal_board_touch(&memory, g, LATEST), CORWYSTAL_NEW, "first touch");
    }
}

_Noreturn void collect(void) {
    struct frame f;
    aiming = chosen("aim"), wrecking = (uint32_t)aiming, chance = (uint32_t)option("seed", 1);
    vector_registers(chosen("vectors"));
    batch_size = option("batch", 80);
    start();
    clock_start();
    interrupts_on();
    frame_give(RADIO, 'H', NOBODY, 0, 0, 0), frame_give(LINE, 'H', NOBODY, 0, 0, 0);
    for (;;) {
        int idle = 1;
        for (; frame_take(RADIO, &f); idle = 0)
            if (f.kind == 'R') reading_came(&f);
        for (; frame_take(LINE, &f); idle = 0) {
            if (f.kind == 'K') part_arrived(&f);
            else if (f.kind == 'Q') tell_desk();
            else if (f.kind == 'F') day_ends = 1;
            else if (f.kind == 'X') stop();
        }
        if (!part.waiting) part_next();
        else if (milliseconds - part.sent_at >= PATIENCE) part_send();
        if (idle) sleep_until_interrupt();
    }
}
