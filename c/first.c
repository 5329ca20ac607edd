/* SPDX-License-Identifier: Apache-2.0 */
#include <stdio.h>

#include "hart.h"

/* A request of command 1, the response to it, and the response again with one bit turned. */
static const unsigned char line[] = {
    0xFF, 0xFF, 0xFF, 0xFF, 0xFF, 0x02, 0x80, 0x01, 0x00, 0x83,

    0xFF, 0xFF, 0xFF, 0xFF, 0xFF, 0x06, 0x80, 0x01, 0x07,
    0x00, 0x00, 0x27, 0x41, 0x20, 0x00, 0x00, 0xC6,

    0xFF, 0xFF, 0xFF, 0xFF, 0xFF, 0x06, 0x80, 0x01, 0x07,
    0x00, 0x00, 0x27, 0x41, 0x21, 0x00, 0x00, 0xC6,
};
static const char *const types[] = {"request", "response", "burst frame"};

int main(void)
{
    unsigned char block[HART_BLOCK_SIZE]; /* what is known of the line so far */
    unsigned char room[HART_ROOM_SIZE];   /* where a record goes */
    unsigned int place, number;

    hart_clear(block, sizeof block); /* before the line's first byte */
    for (place = 0; place < sizeof line; place++) {
        number = hart_feed(block, sizeof block, room, sizeof room, line[place]);
        if (number == 0)
            continue; /* silence: nothing ended with this byte */
        if (number >= HART_REFUSED)
            return 1; /* 1008 no block of ours, 1002 room below 263 bytes: see hart.h */
        switch (HART_KIND(room)) {
        case HART_FRAME: /* its data are at HART_DATA(room) */
            printf("%u: %s, command %d, %d data bytes\n", place, types[HART_TYPE(room)],
                   HART_COMMAND(room), HART_DATA_LENGTH(room));
            break;
        case HART_BAD_DELIMITER:
            printf("%u: no delimiter: %02X\n", place, HART_BAD_BYTE(room));
            break;
        case HART_BAD_CHECK: /* as after no delimiter: go on feeding */
            printf("%u: wrong check: %02X expected, %02X came\n", place, HART_EXPECTED(room),
                   HART_ACTUAL(room));
            break;
        }
    }
    return 0;
}
