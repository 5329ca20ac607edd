/* The bytes that are fed: five streams, the same in every run. */
#include <stdint.h>

enum { STREAMS = 5, STREAM_SIZE = 256 * 1024 };

extern const char *const stream_names[STREAMS];

/* What make_stream made last. */
extern uint8_t stream[STREAM_SIZE];
void make_stream(int number);

/* Bytes by chance, the same in every run. */
void make_bytes(uint8_t *bytes, unsigned count);
