/* What is measured: ways to feed a stream to a decoder, to write frames, and to dump a stream. In
 * each list the Rust comes first, then the Rust built with LTO. */
#include <stdint.h>

enum { FEEDS = 6, FRAMES = 6, WRITES = 3, DUMPS = 3 };

/* How many frames a call of a way to write makes. */
enum { WRITTEN = 4096 };

struct feed {
    const char *name;
    uint64_t (*run)(void); /* over the stream made last: what is heard, added up */
};
extern const struct feed feeds[FEEDS];

struct frame {
    const char *name;
    int is_long;
    unsigned length;
};
extern const struct frame frames[FRAMES];

struct write {
    const char *name;
    uint64_t (*run)(const struct frame *); /* how many bytes the frames have */
};
extern const struct write writes[WRITES];

struct dump {
    const char *name;
    int (*run)(void); /* standard input to standard output; 0 if all went well */
};
extern const struct dump dumps[DUMPS];

unsigned frames_of(uint64_t sum);
unsigned refusals_of(uint64_t sum);

/* These end the program where ours and the Rust's do not come to the same. */
void compare_feeds(const char *stream_name);
void compare_writes(const struct frame *frame);

void die(const char *what, const char *name);
