/* Measures our code beside the Rust's, over the same bytes and in turns, and sees that both come to
 * the same.
 *
 *     speed FOLDER                prints the times; FOLDER gets the streams, for the dump
 *     speed FOLDER WAY N TIMES    goes one way TIMES times, over stream or frame N
 *
 * The second is for counting instructions.
 *
 * Times are of the processor, for this process alone; each is the median of its repetitions. */
#include "streams.h"
#include "ways.h"
#include <fcntl.h>
#include <stdio.h>
#include <stdlib.h>
#include <string.h>
#include <time.h>
#include <unistd.h>

enum { REPETITIONS = 31 };

static double now(void)
{
    struct timespec t;
    clock_gettime(CLOCK_PROCESS_CPUTIME_ID, &t);
    return (double)t.tv_sec * 1e9 + (double)t.tv_nsec;
}

static int by_size(const void *a, const void *b)
{
    double x = *(const double *)a, y = *(const double *)b;
    return (x > y) - (x < y);
}

static double median(double *times)
{
    qsort(times, REPETITIONS, sizeof times[0], by_size);
    return times[REPETITIONS / 2];
}

/* A row's end: the Rust's two times for one of `parts`, the others' with their ratio to either. */
static void print_times(double times[][REPETITIONS], int ways, double parts)
{
    double rust = median(times[0]), lto = median(times[1]);
    int w;
    printf(" %.2f | %.2f |", rust / parts, lto / parts);
    for (w = 2; w < ways; w++) {
        double time = median(times[w]);
        printf(" %.2f (%.2f, %.2f) |", time / parts, time / rust, time / lto);
    }
    printf("\n");
    fflush(stdout);
}

/* How well copies go depends on where the stack lies: each repetition has it elsewhere. */
static void feed_deeper(const struct feed *way, int repetition)
{
    volatile char space[16 * repetition + 1];
    space[0] = 0;
    (void)space;
    way->run();
}

static void time_feeds(void)
{
    static double times[FEEDS][REPETITIONS];
    int s, w, r;
    printf("Feeding a stream, a byte of it\n\n"
           "| Stream | frames, refusals | Rust | Rust, LTO | step | lent | by value | C call |\n"
           "|---|---|---|---|---|---|---|---|\n");
    for (s = 0; s < STREAMS; s++) {
        uint64_t sum;
        make_stream(s);
        compare_feeds(stream_names[s]);
        sum = feeds[0].run();
        for (r = 0; r < REPETITIONS; r++)
            for (w = 0; w < FEEDS; w++) {
                double start = now();
                feed_deeper(&feeds[w], r);
                times[w][r] = now() - start;
            }
        printf("| %s | %u, %u |", stream_names[s], frames_of(sum), refusals_of(sum));
        print_times(times, FEEDS, STREAM_SIZE);
    }
}

static void time_writes(void)
{
    static double times[WRITES][REPETITIONS];
    int f, w, r;
    printf("\nWriting a frame\n\n"
           "| Frame | bytes | Rust | Rust, LTO | ours |\n"
           "|---|---|---|---|---|\n");
    for (f = 0; f < FRAMES; f++) {
        uint64_t bytes;
        compare_writes(&frames[f]);
        bytes = writes[0].run(&frames[f]);
        for (r = 0; r < REPETITIONS; r++)
            for (w = 0; w < WRITES; w++) {
                double start = now();
                writes[w].run(&frames[f]);
                times[w][r] = now() - start;
            }
        printf("| %s | %u |", frames[f].name, (unsigned)(bytes / WRITTEN));
        print_times(times, WRITES, WRITTEN);
    }
}

/* The dump reads and writes where a program does. */
static void take_place(const char *file, int flags, int place)
{
    int opened = open(file, flags);
    if (opened < 0 || dup2(opened, place) < 0)
        die("cannot open", file);
    close(opened);
}

static const char *stream_file(const char *folder, int s)
{
    static char name[4096];
    snprintf(name, sizeof name, "%s/stream.%d", folder, s);
    return name;
}

static void write_stream(const char *folder, int s)
{
    const char *name = stream_file(folder, s);
    FILE *file = fopen(name, "wb");
    make_stream(s);
    if (!file || fwrite(stream, 1, STREAM_SIZE, file) != STREAM_SIZE || fclose(file) != 0)
        die("cannot write", name);
}

static void dump_stream(const struct dump *way, const char *folder, int s)
{
    take_place(stream_file(folder, s), O_RDONLY, STDIN_FILENO);
    if (way->run() != 0)
        die("the dump did not come to its end", way->name);
}

static void time_dumps(const char *folder)
{
    static double times[DUMPS][REPETITIONS];
    int table = dup(STDOUT_FILENO);
    int s, w, r;
    printf("\nThe dump of a stream, a byte of it\n\n"
           "| Stream | Rust | Rust, LTO | ours |\n"
           "|---|---|---|---|\n");
    for (s = 0; s < STREAMS; s++) {
        write_stream(folder, s);
        fflush(stdout);
        take_place("/dev/null", O_WRONLY, STDOUT_FILENO);
        for (r = 0; r < REPETITIONS; r++)
            for (w = 0; w < DUMPS; w++) {
                double start = now();
                dump_stream(&dumps[w], folder, s);
                times[w][r] = now() - start;
            }
        dup2(table, STDOUT_FILENO);
        printf("| %s |", stream_names[s]);
        print_times(times, DUMPS, STREAM_SIZE);
    }
}

static void go(const char *folder, const char *way, int n, int times)
{
    int w;
    for (w = 0; w < FEEDS; w++)
        if (strcmp(way, feeds[w].name) == 0 && n < STREAMS) {
            make_stream(n);
            while (times-- > 0)
                feeds[w].run();
            return;
        }
    for (w = 0; w < WRITES; w++)
        if (strcmp(way, writes[w].name) == 0 && n < FRAMES) {
            while (times-- > 0)
                writes[w].run(&frames[n]);
            return;
        }
    for (w = 0; w < DUMPS; w++)
        if (strcmp(way, dumps[w].name) == 0 && n < STREAMS) {
            write_stream(folder, n);
            while (times-- > 0)
                dump_stream(&dumps[w], folder, n);
            return;
        }
    die("no such way, stream or frame", way);
}

int main(int argc, char **argv)
{
    if (argc == 5 && atoi(argv[3]) >= 0)
        go(argv[1], argv[2], atoi(argv[3]), atoi(argv[4]));
    else if (argc == 2) {
        time_feeds();
        time_writes();
        time_dumps(argv[1]);
    } else
        die("usage", "speed FOLDER [WAY N TIMES]");
    return 0;
}
