/* SPDX-License-Identifier: Apache-2.0 */
/* Tries the two calls at their edges. Prints how many checks were made, or each that failed. */
#include <stdio.h>
#include <string.h>

#include "hart.h"

#define GUARD 33 /* bytes on either side that no call may touch; odd, so that nothing is aligned */

struct memory {
    unsigned char blocks[GUARD + HART_BLOCK_SIZE + GUARD];
    unsigned char rooms[GUARD + HART_ROOM_SIZE + GUARD];
};

static struct memory now, before;
static unsigned char *const block = now.blocks + GUARD;
static unsigned char *const room = now.rooms + GUARD;
static unsigned long checks, failures;

#define CHECK(fact) check(fact, #fact, __LINE__)

static void check(int holds, const char *fact, int line)
{
    checks++;
    if (!holds) {
        failures++;
        printf("test_calls.c:%d: not so: %s\n", line, fact);
    }
}

/* Writes the bytes that a text has in hexadecimal, and says how many. */
static unsigned int bytes_of(const char *text, unsigned char *to)
{
    unsigned int digits = 0, value = 0;

    for (; *text != '\0'; text++) {
        if (*text == ' ')
            continue;
        value = value * 16 + (unsigned int)(*text <= '9' ? *text - '0' : *text - 'A' + 10);
        if (++digits % 2 == 0)
            to[digits / 2 - 1] = (unsigned char)value;
    }
    return digits / 2;
}

/* Feeds one byte, and sees that only the record and the block were written, and by a refused call
 * nothing at all. */
static unsigned int feed_in(unsigned long block_length, unsigned long room_length,
                            unsigned char byte)
{
    unsigned int number;

    before = now;
    number = hart_feed(block, block_length, room, room_length, byte);
    if (number <= HART_ROOM_SIZE) {
        memcpy(before.blocks + GUARD, block, HART_BLOCK_SIZE);
        memcpy(before.rooms + GUARD, room, number);
    } else {
        CHECK(number == HART_BAD_STATE || number == HART_ROOM_TOO_SMALL);
    }
    CHECK(memcmp(&before, &now, sizeof now) == 0);
    return number;
}

static unsigned int feed(unsigned char byte)
{
    return feed_in(HART_BLOCK_SIZE, HART_ROOM_SIZE, byte);
}

/* Feeds bytes of which all but the last are silence, and gives the last one's number. */
static unsigned int feed_all(const char *text)
{
    unsigned char line[64];
    unsigned int i, count = bytes_of(text, line);

    for (i = 0; i + 1 < count; i++)
        CHECK(feed(line[i]) == 0);
    return feed(line[i]);
}

static int is_record(unsigned int number, const char *text)
{
    unsigned char record[64];

    return number == bytes_of(text, record) && memcmp(room, record, number) == 0;
}

/* Fills a block: fields, then address and data from the front, zeros behind. */
static void make_block(unsigned char *to, const char *header, const char *address, const char *data)
{
    memset(to, 0, HART_BLOCK_SIZE);
    bytes_of(header, to);
    bytes_of(address, to + HART_HEADER_SIZE);
    bytes_of(data, to + HART_HEADER_SIZE + HART_ADDRESS_SIZE);
}

static int is_block(const char *header, const char *address, const char *data)
{
    unsigned char expected[HART_BLOCK_SIZE];

    make_block(expected, header, address, data);
    return memcmp(block, expected, HART_BLOCK_SIZE) == 0;
}

static void clear(void)
{
    CHECK(hart_clear(block, HART_BLOCK_SIZE) == 0);
}

static void test_clear(void)
{
    static const unsigned long lengths[] = {0, 1, HART_BLOCK_SIZE - 1, HART_BLOCK_SIZE + 1};
    unsigned int i;

    memset(&now, 0xA7, sizeof now);
    before = now;
    for (i = 0; i < sizeof lengths / sizeof lengths[0]; i++) {
        CHECK(hart_clear(block, lengths[i]) == HART_BAD_STATE);
        CHECK(memcmp(&before, &now, sizeof now) == 0);
    }
    memset(before.blocks + GUARD, 0, HART_BLOCK_SIZE);
    clear();
    CHECK(memcmp(&before, &now, sizeof now) == 0);
}

static void test_lengths(void)
{
    static const unsigned long wrong[] = {0, 1, HART_BLOCK_SIZE - 1, HART_BLOCK_SIZE + 1};
    unsigned int i;

    clear();
    for (i = 0; i < sizeof wrong / sizeof wrong[0]; i++) {
        CHECK(feed_in(wrong[i], HART_ROOM_SIZE, 0xFF) == HART_BAD_STATE);
        CHECK(feed_in(wrong[i], 0, 0xFF) == HART_BAD_STATE); /* the block comes before the room */
    }
    CHECK(feed_in(HART_BLOCK_SIZE, 0, 0xFF) == HART_ROOM_TOO_SMALL);
    CHECK(feed_in(HART_BLOCK_SIZE, HART_ROOM_SIZE - 1, 0xFF) == HART_ROOM_TOO_SMALL);

    /* A byte that was refused was not taken: fed again, it ends the frame. */
    CHECK(feed_all("FF FF FF FF FF 02 80 00 00") == 0);
    CHECK(feed_in(HART_BLOCK_SIZE, HART_ROOM_SIZE - 1, 0x82) == HART_ROOM_TOO_SMALL);
    CHECK(feed_in(HART_BLOCK_SIZE + 1, HART_ROOM_SIZE, 0x82) == HART_BAD_STATE);
    CHECK(is_record(feed_in(HART_BLOCK_SIZE, HART_ROOM_SIZE + GUARD, 0x82), "00 80 00 00"));
}

/* Each record bit for bit, and the block clear after it. */
static void test_records(void)
{
    static const struct {
        const char *line, *record;
    } cases[] = {
        {"FF FF FF FF FF 02 80 00 00 82", "00 80 00 00"},
        {"FF FF FF FF FF 06 80 00 00 86", "10 80 00 00"},
        {"FF FF FF FF FF 01 80 00 00 81", "20 80 00 00"},
        {"FF FF FF FF FF 82 A6 0A 01 02 03 09 02 00 01 24", "08 A6 0A 01 02 03 09 02 00 01"},
        {"FF FF FF FF FF 86 FF FF FF FF FF FF 01 FF 78", "18 FF FF FF FF FF FF 01 FF"},
        {"FF FF FF FF FF 81 00 00 00 00 00 00 00 81", "28 00 00 00 00 00 00 00"},
        {"FF FF FF FF FF 02 B3 03 00 B2", "00 83 03 00"}, /* bits 5 and 4 are no address */
        {"FF FF FF FF FF 02 80 00 00 83", "80 82 83"},
        {"FF FF FF FF FF 02 80 00 00 FF", "80 82 FF"},
        {"FF FF FF FF FF 81 00 00 00 00 00 00 00 00", "80 81 00"},
        {"FF FF FF FF FF 02 7D 80 00 FF", "00 4D 80 00"}, /* FF is the right check */
        {"FF FF FF FF FF 03", "40 03"},
        {"FF FF FF FF FF FF FF 00", "40 00"},
        {"00 FF FF FF FF 02 FF 01 7F FF FF FF FF FF FE", "40 FE"}, /* noise, and short runs of FF */
    };
    unsigned int i;

    clear();
    for (i = 0; i < sizeof cases / sizeof cases[0]; i++) {
        check(is_record(feed_all(cases[i].line), cases[i].record), cases[i].line, __LINE__);
        CHECK(is_block("", "", ""));
    }
    /* A check byte FF starts no preamble: four more of them are too few. */
    CHECK(feed_all("FF FF FF FF FF 02 80 00 00 FF") == 3);
    CHECK(feed_all("FF FF FF FF 02 80 00 00 82") == 0);
    CHECK(is_block("", "", ""));
}

static void test_parts(void)
{
    feed_all("FF FF FF FF FF 86 A6 0A 01 02 03 09");
    feed(2);
    feed(0xDE);
    feed(0xAD);
    CHECK(feed(0x86 ^ 0xA6 ^ 0x0A ^ 0x01 ^ 0x02 ^ 0x03 ^ 0x09 ^ 2 ^ 0xDE ^ 0xAD) == 10);
    CHECK(HART_KIND(room) == HART_FRAME && HART_TYPE(room) == HART_RESPONSE && HART_IS_LONG(room));
    CHECK(HART_ADDRESS_LENGTH(room) == 5);
    CHECK(HART_ADDRESS(room)[0] == 0xA6 && HART_ADDRESS(room)[4] == 3);
    CHECK(HART_COMMAND(room) == 9 && HART_DATA_LENGTH(room) == 2);
    CHECK(HART_DATA(room)[0] == 0xDE && HART_DATA(room)[1] == 0xAD);

    feed_all("FF FF FF FF FF 01 C5 21 01 EE 0A");
    CHECK(HART_KIND(room) == HART_FRAME && HART_TYPE(room) == HART_BURST && !HART_IS_LONG(room));
    CHECK(HART_ADDRESS_LENGTH(room) == 1 && HART_ADDRESS(room)[0] == 0xC5);
    CHECK(HART_COMMAND(room) == 0x21 && HART_DATA_LENGTH(room) == 1 && HART_DATA(room)[0] == 0xEE);

    feed_all("FF FF FF FF FF 03");
    CHECK(HART_KIND(room) == HART_BAD_DELIMITER && HART_BAD_BYTE(room) == 3);
    feed_all("FF FF FF FF FF 02 80 00 00 83");
    CHECK(HART_KIND(room) == HART_BAD_CHECK);
    CHECK(HART_EXPECTED(room) == 0x82 && HART_ACTUAL(room) == 0x83);
}

/* The block after each byte of a frame, bit for bit. */
static void test_blocks(void)
{
    static const struct {
        unsigned char byte;
        const char *header, *address, *data;
    } steps[] = {
        {0xFF, "20 80 00 00 00 00", "", ""},
        {0xFF, "21 00 00 00 00 00", "", ""},
        {0xFF, "21 80 00 00 00 00", "", ""},
        {0xFF, "22 00 00 00 00 00", "", ""},
        {0xFF, "22 80 00 00 00 00", "", ""},
        {0xFF, "22 80 00 00 00 00", "", ""},
        {0x86, "4C 00 00 00 08 60", "", ""},
        {0xA6, "4C 10 00 00 02 00", "A6", ""},
        {0x0A, "4C 20 00 00 02 A0", "A6 0A", ""},
        {0x01, "4C 30 00 00 02 B0", "A6 0A 01", ""},
        {0x02, "4C 40 00 00 02 90", "A6 0A 01 02", ""},
        {0x03, "6C 50 00 00 02 A0", "A6 0A 01 02 03", ""},
        {0x9D, "8C 50 00 09 DB 70", "A6 0A 01 02 03", ""},
        {0x03, "AC 50 30 09 DB 40", "A6 0A 01 02 03", ""},
        {0x71, "AC 50 30 19 DC 50", "A6 0A 01 02 03", "71"},
        {0x00, "AC 50 30 29 DC 50", "A6 0A 01 02 03", "71 00"},
        {0xFF, "CC 50 30 39 D3 A0", "A6 0A 01 02 03", "71 00 FF"},
    };
    unsigned int i;

    clear();
    for (i = 0; i < sizeof steps / sizeof steps[0]; i++) {
        CHECK(feed(steps[i].byte) == 0);
        CHECK(is_block(steps[i].header, steps[i].address, steps[i].data));
    }
    CHECK(feed(0x3A) == 11);
    CHECK(is_block("", "", ""));

    /* A short address, and no data: from the byte count straight to the check. */
    CHECK(feed_all("FF FF FF FF FF 01 B3 2A") == 0);
    CHECK(is_block("90 10 00 02 A9 80", "B3", ""));
    CHECK(feed(0) == 0);
    CHECK(is_block("D0 10 00 02 A9 80", "B3", ""));
}

/* Blocks that no line leads to, and beside them some that a line does lead to. */
static void test_states(void)
{
    static const unsigned char delimiters[2][3] = {{0x02, 0x06, 0x01}, {0x82, 0x86, 0x81}};
    static const struct {
        const char *header;
        unsigned int least, most; /* address bytes received */
    } received[] = {
        {"40 00 00 00 00 20", 0, 0}, /* in a short address */
        {"60 00 00 00 00 20", 1, 1}, /* behind it */
        {"44 00 00 00 08 20", 0, 4}, /* in a long one */
        {"64 00 00 00 08 20", 5, 5},
    };
    static const struct {
        const char *what, *header, *address, *data;
        unsigned int number;
    } cases[] = {
        {"a preamble", "22 80", "", "", 2},
        {"a preamble with a type", "2A 80", "", "", HART_BAD_STATE},
        {"a preamble with a check", "22 80 00 00 00 10", "", "", HART_BAD_STATE},
        {"a preamble with an address", "22 80", "01", "", HART_BAD_STATE},
        {"before the command", "60 10 00 00 08 20", "80", "", 0},
        {"its check is of other bytes", "60 10 00 00 08 20", "81", "", HART_BAD_STATE},
        {"a byte behind a short address", "60 10 00 00 08 20", "80 01", "", HART_BAD_STATE},
        {"a command not yet read", "60 10 00 02 A8 20", "80", "", HART_BAD_STATE},
        {"before the byte count", "80 10 00 02 AA 80", "80", "", 0},
        {"a count not yet read", "80 10 10 02 AA 80", "80", "", HART_BAD_STATE},
        {"no data read yet", "A0 10 20 02 AA A0", "80", "", 0},
        {"data not yet read", "A0 10 20 02 AA A0", "80", "01", HART_BAD_STATE},
        {"one of two read", "A0 10 20 12 AF B0", "80", "51", 0},
        {"data behind them", "A0 10 20 12 AF B0", "80", "51 01", HART_BAD_STATE},
        {"all read and in the data", "A0 10 20 22 AF B0", "80", "51", HART_BAD_STATE},
        {"none to read and in the data", "A0 10 00 02 AA 80", "80", "", HART_BAD_STATE},
        {"at the check", "C0 10 20 22 AF B0", "80", "51", 3},
        {"too few read at the check", "C0 10 20 12 AF B0", "80", "51", HART_BAD_STATE},
        {"too many read at the check", "C0 10 20 32 AF B0", "80", "51", HART_BAD_STATE},
        {"at the check, no data", "C0 10 00 02 AA 80", "80", "", 3},
        {"a preamble count behind it", "C0 90 00 02 AA 80", "80", "", HART_BAD_STATE},
        {"a spare bit", "C0 10 00 02 AA 88", "80", "", HART_BAD_STATE},
        {"phase 7", "E0 10 00 02 AA 80", "80", "", HART_BAD_STATE},
    };
    unsigned int i, count, type, is_long, code;

    for (i = 0; i < HART_BLOCK_SIZE * 8; i++) { /* hunting, with one bit that is not zero */
        make_block(block, "", "", "");
        block[i / 8] = (unsigned char)(0x80 >> i % 8);
        CHECK(feed(0x55) == HART_BAD_STATE);
    }
    for (count = 0; count < 8; count++) { /* preamble bytes seen */
        make_block(block, "20", "", "");
        block[0] |= (unsigned char)(count >> 1);
        block[1] = (unsigned char)(count << 7);
        CHECK((feed(0xFF) == 0) == (1 <= count && count <= 5));
    }
    for (type = 0; type < 4; type++) /* the check starts as the delimiter of type and length */
        for (is_long = 0; is_long < 2; is_long++)
            for (code = 0; code < 256; code++) {
                make_block(block, "40", "", "");
                block[0] |= (unsigned char)(type << 3 | is_long << 2);
                block[4] = (unsigned char)(code >> 4);
                block[5] = (unsigned char)(code << 4);
                CHECK((feed(0x55) == 0) == (type < 3 && code == delimiters[is_long][type]));
            }
    for (i = 0; i < sizeof received / sizeof received[0]; i++)
        for (count = 0; count < 8; count++) {
            make_block(block, received[i].header, "", "");
            block[1] = (unsigned char)(count << 4);
            CHECK((feed(0x55) == 0) == (received[i].least <= count && count <= received[i].most));
        }
    for (i = 0; i < sizeof cases / sizeof cases[0]; i++) {
        make_block(block, cases[i].header, cases[i].address, cases[i].data);
        check(feed(0x55) == cases[i].number, cases[i].what, __LINE__);
    }
}

/* Every byte where a delimiter is due, and every byte where the check is. */
static void test_bytes(void)
{
    unsigned int i;

    for (i = 0; i < 256; i++) {
        unsigned char byte = (unsigned char)i;
        int is_delimiter = (byte & 0x7F) == 2 || (byte & 0x7F) == 6 || (byte & 0x7F) == 1;

        clear();
        CHECK(feed_all("FF FF FF FF FF") == 0);
        if (is_delimiter || byte == 0xFF)
            CHECK(feed(byte) == 0);
        else
            CHECK(feed(byte) == 2 && room[0] == 0x40 && room[1] == byte);

        clear();
        CHECK(feed_all("FF FF FF FF FF 02 80 00 00") == 0);
        if (byte == 0x82)
            CHECK(is_record(feed(byte), "00 80 00 00"));
        else
            CHECK(feed(byte) == 3 && room[0] == 0x80 && room[1] == 0x82 && room[2] == byte);
        CHECK(is_block("", "", ""));
    }
}

/* More preamble bytes than fit a byte, and the longest frame; then nothing of it in the next. */
static void test_long(void)
{
    unsigned int i, code = 0x86 ^ 0x11 ^ 0x22 ^ 0x33 ^ 0x44 ^ 0x55 ^ 0x30 ^ 0xFF;

    clear();
    for (i = 0; i < 300; i++)
        CHECK(feed(0xFF) == 0);
    CHECK(is_record(feed_all("02 80 00 00 82"), "00 80 00 00"));
    CHECK(feed_all("FF FF FF FF FF 86 11 22 33 44 55 30 FF") == 0);
    for (i = 0; i < HART_DATA_SIZE; i++) {
        CHECK(feed((unsigned char)(i + 1)) == 0);
        code ^= i + 1;
    }
    CHECK(feed((unsigned char)code) == HART_ROOM_SIZE);
    CHECK(HART_DATA_LENGTH(room) == HART_DATA_SIZE);
    for (i = 0; i < HART_DATA_SIZE; i++)
        CHECK(HART_DATA(room)[i] == i + 1);
    CHECK(is_block("", "", ""));
    memset(room, 0xA7, HART_ROOM_SIZE);
    CHECK(is_record(feed_all("FF FF FF FF FF 02 80 00 01 00 83"), "00 80 00 01 00"));
    CHECK(is_block("", "", ""));
}

/* A copy of a block goes on by itself, and two lines do not disturb each other. */
static void test_copies(void)
{
    unsigned char other[HART_BLOCK_SIZE], copy[HART_BLOCK_SIZE], other_room[HART_ROOM_SIZE];

    clear();
    CHECK(feed_all("FF FF FF FF FF 02 80 00") == 0);
    memcpy(copy, block, sizeof copy);
    memcpy(other, block, sizeof other);
    CHECK(feed(0) == 0);
    CHECK(hart_feed(other, sizeof other, other_room, sizeof other_room, 1) == 0);
    CHECK(is_record(feed(0x82), "00 80 00 00"));
    CHECK(hart_feed(other, sizeof other, other_room, sizeof other_room, 0x77) == 0);
    CHECK(hart_feed(other, sizeof other, other_room, sizeof other_room, 0x82 ^ 1 ^ 0x77) == 5);
    CHECK(other_room[4] == 0x77);
    memcpy(block, copy, sizeof copy);
    CHECK(feed(0) == 0);
    CHECK(is_record(feed(0x83), "80 82 83"));
}

int main(void)
{
    test_clear();
    test_lengths();
    test_records();
    test_parts();
    test_blocks();
    test_states();
    test_bytes();
    test_long();
    test_copies();
    if (failures > 0) {
        printf("%lu of %lu checks failed\n", failures, checks);
        return 1;
    }
    printf("%lu checks\n", checks);
    return 0;
}
