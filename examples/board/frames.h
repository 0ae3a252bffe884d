/*
 * What goes over the radio and the line. A frame is C0, a body in which C0 stands as DB DC and DB as DB DD, and C0 again. A body is its length,
 * a kind, a gauge, a number (two bytes, the lower first), up to 224 bytes of payload, and a checksum (CRC-16/CCITT of all before it, the lower
 * byte first). A body that isn't whole and sound is as if it had not come.
 *
 *   radio  R  to the board: reading `number`; payload: the number of the oldest reading that the gauge still keeps (2), the reading (16)
 *          A  to the gauge: reading `number` is stored; payload: readings below this number have gone up the line (2)
 *          N  to the gauge: it is not stored; payload: the refusal's number, 0 for a number out of turn (1), the number expected (2)
 *          G  to the gauge: readings below `number` have gone up the line
 *   line   B  to the shore: readings of a gauge from `number` on, 16 bytes each
 *          K  to the board: that part has arrived; payload: the part's own checksum (2)
 *          Q  to the board: the desk asks for the latest levels
 *          L  to the desk: the latest reading of a gauge, `number`; zeros if the gauge has sent none since the board started
 *          F  to the board: the day ends, send all that is left
 *          X  to the board: stop, and say on the console what was done
 *   both   H  from the board: it has just started
 */
#ifndef FRAMES_H
#define FRAMES_H
#include "machine.h"

enum { MOST_PAYLOAD = 224, MOST_BODY = MOST_PAYLOAD + 7, NOBODY = 0xFF };

struct frame {
    uint8_t kind, gauge;
    uint16_t number, checksum;
    uint32_t length; /* of the payload */
    const uint8_t *payload;
};

/* Sends a frame; answers its checksum. */
uint16_t frame_give(int port, uint8_t kind, uint8_t gauge, uint16_t number, const uint8_t *payload, uint32_t length);

/* Takes what came at a port up to the next sound frame; 0 if there is none yet. The payload stays until the next call. */
int frame_take(int port, struct frame *);

extern uint64_t spoilt_frames;

static inline uint16_t two_bytes(const uint8_t *b) { return (uint16_t)(b[0] | b[1] << 8); }
#endif
