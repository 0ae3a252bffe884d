/* Frames of the radio and the line; frames.h says what they are. */
#include "frames.h"

enum { END = 0xC0, ESCAPE = 0xDB, ESCAPED_END = 0xDC, ESCAPED_ESCAPE = 0xDD };

static uint16_t checksum_of(const uint8_t *bytes, uint32_t n) {
    uint16_t c = 0xFFFF;
    while (n--) {
        c ^= (uint16_t)(*bytes++ << 8);
        for (int bit = 0; bit < 8; bit++) c = (uint16_t)(c & 0x8000 ? c << 1 ^ 0x1021 : c << 1);
    }
    return c;
}

uint16_t frame_give(int port, uint8_t kind, uint8_t gauge, uint16_t number, const uint8_t *payload, uint32_t length) {
    uint8_t body[MOST_BODY] = {(uint8_t)(length + 7), kind, gauge, (uint8_t)number, (uint8_t)(number >> 8)};
    memmove(body + 5, payload, length);
    uint16_t checksum = checksum_of(body, length + 5);
    body[length + 5] = (uint8_t)checksum, body[length + 6] = (uint8_t)(checksum >> 8);
    serial_give(port, END);
    for (uint32_t k = 0; k < length + 7; k++) {
        if (body[k] == END) serial_give(port, ESCAPE), serial_give(port, ESCAPED_END);
        else if (body[k] == ESCAPE) serial_give(port, ESCAPE), serial_give(port, ESCAPED_ESCAPE);
        else serial_give(port, body[k]);
    }
    serial_give(port, END);
    return checksum;
}

/* A body as it comes in, byte by byte. */
static struct inbox { uint8_t body[MOST_BODY]; uint32_t length; int escaped, spoilt, done; } inbox[2];
uint64_t spoilt_frames;

static int sound(const struct inbox *i) {
    uint32_t n = i->length;
    return !i->spoilt && !i->escaped && n >= 7 && i->body[0] == n && checksum_of(i->body, n - 2) == two_bytes(i->body + n - 2);
}

static void put(struct inbox *i, uint8_t byte) {
    if (byte == ESCAPE && !i->escaped) {
        i->escaped = 1;
        return;
    }
    if (i->escaped) {
        if (byte == ESCAPED_END) byte = END;
        else if (byte == ESCAPED_ESCAPE) byte = ESCAPE;
        else i->spoilt = 1;
        i->escaped = 0;
    }
    if (i->length < MOST_BODY) i->body[i->length++] = byte;
    else i->spoilt = 1;
}

int frame_take(int port, struct frame *f) {
    struct inbox *i = &inbox[port];
    for (int byte; (byte = serial_take(port)) >= 0;) {
        if (i->done) i->length = 0, i->escaped = 0, i->spoilt = 0, i->done = 0;
        if (byte != END) {
            put(i, (uint8_t)byte);
            continue;
        }
        i->done = 1;
        if (sound(i)) {
            const uint8_t *b = i->body;
            *f = (struct frame){b[1], b[2], two_bytes(b + 3), two_bytes(b + b[0] - 2), b[0] - 7u, b + 5};
            return 1;
        }
        if (i->length || i->spoilt) spoilt_frames++;
    }
    return 0;
}
