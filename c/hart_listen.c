/* SPDX-License-Identifier: Apache-2.0 */
/* Listens to the bytes of a line on standard input and prints what they say, as the program `dump`
 * of this repository does:
 *
 *     F 9 Q 80 0 -    a frame: the place of its last byte, Q request, R response or B burst, the
 *                     address, the command, the data or '-'
 *     D 15 03         after a preamble no delimiter: the place, and the byte there
 *     C 9 82 83       a frame with a wrong check: the place, the check expected, the one that came
 *     end 16 1 1      bytes, frames, refusals (lines with D and C)
 *
 * Places count from 0. Places, commands and totals are decimal, bytes are hexadecimal.
 */
#include <signal.h>
#include <stdio.h>
#include <unistd.h>

#include "hart.h"

static unsigned char block[HART_BLOCK_SIZE]; /* a gateway has one for each of its lines */
static unsigned char room[HART_ROOM_SIZE];
static unsigned char bytes[65536];

static void print_bytes(const unsigned char *from, unsigned int count)
{
    while (count-- > 0)
        printf("%02X", *from++);
}

static void print_record(unsigned long place, const unsigned char *record)
{
    switch (HART_KIND(record)) {
    case HART_FRAME:
        printf("F %lu %c ", place, "QRB"[HART_TYPE(record)]);
        print_bytes(HART_ADDRESS(record), HART_ADDRESS_LENGTH(record));
        printf(" %d ", HART_COMMAND(record));
        print_bytes(HART_DATA(record), HART_DATA_LENGTH(record));
        printf(HART_DATA_LENGTH(record) == 0 ? "-\n" : "\n");
        break;
    case HART_BAD_DELIMITER:
        printf("D %lu %02X\n", place, HART_BAD_BYTE(record));
        break;
    case HART_BAD_CHECK:
        printf("C %lu %02X %02X\n", place, HART_EXPECTED(record), HART_ACTUAL(record));
        break;
    }
}

/* Sends what was printed on its way, and says so where that fails. */
static int sent(void)
{
    if (fflush(stdout) == 0 && !ferror(stdout))
        return 1;
    perror("hart_listen: standard output");
    return 0;
}

/* A call comes back with such a number only if this program or its memory is broken. */
static int refused(unsigned int number, unsigned long place)
{
    fprintf(stderr, "hart_listen: refused with %u at place %lu\n", number, place);
    return 1;
}

int main(int argc, char **argv)
{
    unsigned long place = 0, frames = 0, refusals = 0;
    unsigned int number;
    ssize_t count, i;

    if (argc > 1) {
        fprintf(stderr, "usage: %s, with the bytes of a line on standard input\n", argv[0]);
        return 2;
    }
    signal(SIGPIPE, SIG_IGN); /* a closed pipe is then a failed write, which gets its message */

    number = hart_clear(block, sizeof block);
    if (number >= HART_REFUSED)
        return refused(number, place);
    while ((count = read(STDIN_FILENO, bytes, sizeof bytes)) > 0) {
        for (i = 0; i < count; i++, place++) {
            number = hart_feed(block, sizeof block, room, sizeof room, bytes[i]);
            if (number == 0)
                continue;
            if (number >= HART_REFUSED)
                return refused(number, place);
            print_record(place, room);
            if (HART_KIND(room) == HART_FRAME)
                frames++;
            else
                refusals++;
        }
        if (!sent())
            return 1;
    }
    if (count < 0) {
        perror("hart_listen: standard input");
        return 1;
    }
    printf("end %lu %lu %lu\n", place, frames, refusals);
    return sent() ? 0 : 1;
}
