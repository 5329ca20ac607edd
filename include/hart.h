/* SPDX-License-Identifier: Apache-2.0 */
/* hart.h: HART lines, decoded byte by byte, for C and C++ programs on x86-64 Linux.
 *
 *     unsigned char block[HART_BLOCK_SIZE];    what is known of one line so far
 *     unsigned char room[HART_ROOM_SIZE];      where a record goes
 *
 *     hart_clear(block, sizeof block);         before the line's first byte
 *     n = hart_feed(block, sizeof block, room, sizeof room, byte);    for each byte of it
 *
 * c/hart_listen.c is a whole program. Nothing is included here and nothing is allocated; to link,
 * the library needs the C library's memset alone. On this platform the types below are uint8_t,
 * size_t and uint32_t.
 *
 * What the caller must keep; neither call can test any of it:
 *
 * - A pointer is good for reading and writing as many bytes as the length beside it says, also if
 *   the call will be refused. It is never null, not even with length 0. Any alignment will do.
 * - Block and room do not overlap.
 * - Each line has a block of its own. No two calls are at work on one block, or with one room, at
 *   the same time, be it from threads or from a signal handler; otherwise they may be.
 *
 * A block is just its 266 bytes: no pointer is in it, nothing is kept elsewhere, and it needs no
 * clean-up. It may be copied, moved or stored, and the copy goes on from where it was taken. Leave
 * its content to the two calls: any other is refused, unless some line would have led to it.
 *
 * The calls know no time. Where a line falls silent within a frame, clear its block; otherwise the
 * next frame is taken for the rest of this one.
 *
 * Proved, for every length and every content of block and room: each call ends, reads and writes
 * nothing outside the two, and gives the number and leaves the bytes that are told here. Not
 * proved: that the caller keeps these rules, the compilers' last step to machine code, the linker,
 * the size of the stack, and that this header says what the proved contracts say.
 */
#ifndef HART_H
#define HART_H

#ifdef __cplusplus
extern "C" {
#endif

/* Lengths have 64 bits in the library. Where unsigned long is shorter, this does not compile. */
typedef char hart_needs_a_64_bit_long[sizeof(unsigned long) == 8 ? 1 : -1];

#define HART_BLOCK_SIZE 266 /* of every block, exactly */
#define HART_ROOM_SIZE 263  /* of every room, at least: the longest record */

/* Takes one byte of the line. The number that comes back is
 *
 *     0              silence: nothing ended with this byte. The block has taken it, the room is as
 *                    it was.
 *     2, 3, 4..263   something ended with this byte. Its record is that many bytes, from the room's
 *                    first on; those behind them are as they were. The block is clear again: go on
 *                    with the next byte.
 *     1008           HART_BAD_STATE: the block is not of 266 bytes, or its content is one that no
 *                    line leads to. If the length was right, clear it before it is used again.
 *     1002           HART_ROOM_TOO_SMALL: the room is below 263 bytes. They are asked of every
 *                    call, also where silence would follow. 1008 comes before it.
 *
 * and no other. After 1008 and 1002 nothing was written, to the block or to the room, and the byte
 * was not taken: it may be fed again. What was in the room before plays no part. */
unsigned int hart_feed(unsigned char *block, unsigned long block_length, unsigned char *room,
                       unsigned long room_length, unsigned char byte);

/* Makes the block that of a line with no byte yet, whatever it held: 266 zeros, and 0 comes back.
 * For another length it is 1008, and nothing was written. */
unsigned int hart_clear(unsigned char *block, unsigned long block_length);

#define HART_REFUSED 1000 /* from here on a number refuses the call: 1000 and the refusal's own */
#define HART_ROOM_TOO_SMALL 1002
#define HART_BAD_STATE 1008

/* A record. Its first byte, the most significant bits first, has
 *
 *     2 bits   kind
 *     2 bits   type of the frame    (0 in the kinds 1 and 2)
 *     1 bit    address is long      (0 in the kinds 1 and 2)
 *     3 bits   zero
 *
 * and behind it come, by the kind,
 *
 *     0   a frame with a right check: the address (1 byte, or 5 if long), the command, the count of
 *         the data, the data. 4 to 263 bytes in all.
 *     1   five FF or more, then a byte that is no delimiter: that byte. 2 bytes in all.
 *     2   a frame with a wrong check: the check that was expected, the one that came. 3 bytes.
 *
 * The address's first byte has bit 7 for the primary master and bit 6 for burst mode. A short one
 * has the polling address in its low 4 bits and zeros between, whatever the line sent there. A long
 * one has the manufacturer in the low 6 bits, then the device type, then the device number in 3
 * bytes, high byte first.
 *
 * These take a record apart. They use their argument more than once. */
#define HART_KIND(record) ((record)[0] >> 6)
#define HART_TYPE(record) ((record)[0] >> 4 & 3)
#define HART_IS_LONG(record) ((record)[0] >> 3 & 1)

#define HART_FRAME 0 /* kinds */
#define HART_BAD_DELIMITER 1
#define HART_BAD_CHECK 2

#define HART_REQUEST 0 /* types */
#define HART_RESPONSE 1
#define HART_BURST 2

/* of a frame */
#define HART_ADDRESS_LENGTH(record) (HART_IS_LONG(record) ? 5 : 1)
#define HART_ADDRESS(record) ((record) + 1)
#define HART_COMMAND(record) ((record)[1 + HART_ADDRESS_LENGTH(record)])
#define HART_DATA_LENGTH(record) ((record)[2 + HART_ADDRESS_LENGTH(record)])
#define HART_DATA(record) ((record) + 3 + HART_ADDRESS_LENGTH(record))

/* of a bad delimiter */
#define HART_BAD_BYTE(record) ((record)[1])

/* of a bad check */
#define HART_EXPECTED(record) ((record)[1])
#define HART_ACTUAL(record) ((record)[2])

/* What is in a block, for those who look into one or test this library; callers need none of it.
 * HART_HEADER_SIZE bytes of fields come first, the most significant bit of each byte first:
 *
 *     bits 0..2     phase: 0 hunting, 1 preamble, 2 address, 3 command, 4 byte count, 5 data,
 *                   6 check
 *     bits 3..4     type: 0 request, 1 response, 2 burst
 *     bit  5        address is long
 *     bits 6..8     preamble bytes seen, 5 for any more; 0 outside the preamble phase
 *     bits 9..11    address bytes received
 *     bits 12..19   data bytes expected
 *     bits 20..27   data bytes received
 *     bits 28..35   command
 *     bits 36..43   exclusive or of the bytes from the delimiter on
 *     bits 44..47   zero
 *
 * then HART_ADDRESS_SIZE bytes of the address as the line sent them, then HART_DATA_SIZE of data.
 * Type, long and the exclusive or are set from the address phase on; the address bytes received stay
 * 1 or 5 until the piece ends; both counts of data are set from the data phase on, and are equal in
 * the check phase. Whatever is not yet read is zero, and a block that is hunting is all zeros. */
#define HART_HEADER_SIZE 6
#define HART_ADDRESS_SIZE 5
#define HART_DATA_SIZE 255

#ifdef __cplusplus
}
#endif

#endif
