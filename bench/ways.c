#include "ways.h"
#include "hart.h"
#include "streams.h"
#include <stddef.h>
#include <stdio.h>
#include <stdlib.h>
#include <string.h>

/* Ours: crates/bench_loops and the program dump, exported by bench/run. A slice is its start and its length. */
uint64_t bench_by_step(const uint8_t *run, size_t length);
uint64_t bench_lent(const uint8_t *run, size_t length, size_t n);
uint64_t bench_by_value(const uint8_t *run, size_t length);
uint64_t bench_written(_Bool is_long, const uint8_t *data, size_t length, uint8_t preambles, uint32_t count,
                       uint8_t *room, size_t size);
int bench_dump(void);

/* The Rust's: bench/rust, built twice by bench/run. */
uint64_t rust_feed(const uint8_t *run, size_t n);
uint64_t rust_last(const uint8_t *run, size_t n);
uint64_t rust_write(_Bool is_long, const uint8_t *data, size_t n, uint8_t preambles, uint32_t count,
                    uint8_t *room, size_t size);
int rust_dump(void);
uint64_t lto_feed(const uint8_t *run, size_t n);
uint64_t lto_write(_Bool is_long, const uint8_t *data, size_t n, uint8_t preambles, uint32_t count,
                   uint8_t *room, size_t size);
int lto_dump(void);

void die(const char *what, const char *name)
{
    fprintf(stderr, "speed: %s: %s\n", what, name);
    exit(1);
}

/* The sums of crates/bench_loops: frames from 2^44 on, refusals from 2^28 on. */

static const uint64_t frame_weight = (uint64_t)1 << 44, refusal_weight = (uint64_t)1 << 28;

unsigned frames_of(uint64_t sum)
{
    return (unsigned)(sum >> 44);
}

unsigned refusals_of(uint64_t sum)
{
    return (unsigned)(sum >> 28 & 0xFFFF);
}

/* Feeding. */

static uint64_t feed_rust(void)
{
    return rust_feed(stream, STREAM_SIZE);
}

static uint64_t feed_lto(void)
{
    return lto_feed(stream, STREAM_SIZE);
}

static uint64_t feed_step(void)
{
    return bench_by_step(stream, STREAM_SIZE);
}

/* More is asked for than is heard, so that the whole run is listened to. */
static uint64_t feed_lent(void)
{
    return bench_lent(stream, STREAM_SIZE, STREAM_SIZE);
}

static uint64_t feed_value(void)
{
    return bench_by_value(stream, STREAM_SIZE);
}

static uint64_t weight_of(const uint8_t *record)
{
    unsigned length;
    if (HART_KIND(record) != HART_FRAME)
        return refusal_weight;
    length = HART_DATA_LENGTH(record);
    return frame_weight + HART_COMMAND(record) + length +
           (length > 0 ? HART_DATA(record)[length / 2] : 0);
}

static uint64_t feed_c(void)
{
    static uint8_t block[HART_BLOCK_SIZE], room[HART_ROOM_SIZE];
    uint64_t sum = 0;
    size_t i;
    hart_clear(block, sizeof block);
    for (i = 0; i < STREAM_SIZE; i++) {
        unsigned n = hart_feed(block, sizeof block, room, sizeof room, stream[i]);
        if (n >= HART_REFUSED)
            die("hart_feed", "refused");
        if (n > 0)
            sum += weight_of(room);
    }
    return sum;
}

const struct feed feeds[FEEDS] = {
    {"feed-rust", feed_rust}, {"feed-lto", feed_lto},     {"feed-step", feed_step},
    {"feed-lent", feed_lent}, {"feed-value", feed_value}, {"feed-c", feed_c},
};

void compare_feeds(const char *stream_name)
{
    uint64_t sum = feed_rust();
    size_t heard = (size_t)frames_of(sum) + refusals_of(sum);
    if (feed_lto() != sum)
        die("the Rust hears something else when built with LTO", stream_name);
    if (feed_step() != sum)
        die("step hears something else than the Rust", stream_name);
    if (feed_value() != sum)
        die("the decoder by value hears something else than the Rust", stream_name);
    if (feed_c() != sum)
        die("the C call hears something else than the Rust", stream_name);
    if (bench_lent(stream, STREAM_SIZE, heard) != 0)
        die("the lent decoder hears more than the Rust", stream_name);
    if (heard > 0 && bench_lent(stream, STREAM_SIZE, heard - 1) != rust_last(stream, STREAM_SIZE))
        die("the lent decoder hears something else than the Rust", stream_name);
}

/* Writing. */

const struct frame frames[FRAMES] = {
    {"short address, no data", 0, 0},          {"long address, no data", 1, 0},
    {"short address, 20 data bytes", 0, 20},   {"long address, 20 data bytes", 1, 20},
    {"short address, 255 data bytes", 0, 255}, {"long address, 255 data bytes", 1, 255},
};

static uint8_t data[255], our_room[300], rust_room[300], lto_room[300];

static uint64_t write_rust(const struct frame *frame)
{
    return rust_write(frame->is_long, data, frame->length, 5, WRITTEN, rust_room, sizeof rust_room);
}

static uint64_t write_lto(const struct frame *frame)
{
    return lto_write(frame->is_long, data, frame->length, 5, WRITTEN, lto_room, sizeof lto_room);
}

static uint64_t write_ours(const struct frame *frame)
{
    return bench_written(frame->is_long, data, frame->length, 5, WRITTEN, our_room, sizeof our_room);
}

const struct write writes[WRITES] = {
    {"write-rust", write_rust}, {"write-lto", write_lto}, {"write-ours", write_ours}};

void compare_writes(const struct frame *frame)
{
    uint64_t total;
    make_bytes(data, sizeof data);
    total = write_rust(frame);
    if (write_lto(frame) != total || memcmp(lto_room, rust_room, sizeof lto_room) != 0)
        die("the Rust writes something else when built with LTO", frame->name);
    if (write_ours(frame) != total || memcmp(our_room, rust_room, sizeof our_room) != 0)
        die("the encoder writes something else than the Rust", frame->name);
}

const struct dump dumps[DUMPS] = {
    {"dump-rust", rust_dump}, {"dump-lto", lto_dump}, {"dump-ours", bench_dump}};
