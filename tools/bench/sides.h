/* The sides of a row: the library, plain C, and the Rust crate where its side is linked. */
#include "crate.h"
#include "exports.h"
#include "measure.h"
#include "plain.h"
#include "values.h"
#include <stdbool.h>
#include <string.h>

#define MOST 16777216

/* Nanoseconds of the best runs. The crate's are 0 if the row has none. */
typedef struct { double here, plain, crate; } Times;

/* What all rows write into and read from: `room` has 2 * MOST bytes, `source` MOST, and `numbers` 10,000,000 numbers. */
extern uint8_t *room, *source;
extern uint32_t *numbers;

/* Fills `numbers`: "mixed" has numbers of every length that a varint of 32 bits can have, "one byte" and "five bytes" of one, and
 * "random sizes" of 1 to 5 bytes in no order that a processor can learn. */
void fill(const char *kind);

/* Prints a row: the times of one of `items` items, and the ratios of the library's to the others'. */
void tell(const char *row, Times times, double items, const char *unit);

/* The time of copying 16 MiB by memcpy, which is measured at the first call. */
double copying(void);

/* Forgets what was requested of the allocator, and requires that nothing is held since then. */
void forget(void);
void require_freed(const char *what);

/* Requires that a call gave `each` in each round. */
static inline void require(uint64_t sum, uint32_t rounds, uint64_t each) {
    if (sum != rounds * each) fail("a message was refused, or another one was written");
}

void rows_of_records(void);
void rows_of_frames(void);
void rows_of_lists(void);
void rows_of_checksums(void);
void rows_of_kinds(void);

/* Sets the times of the library and of the crate, by their functions `name`, each after `prepare`. Both must answer the same. */
#define BOTH_AFTER(times, prepare, name, ...)                                       \
    do {                                                                            \
        prepare;                                                                    \
        uint64_t first = port_##name(__VA_ARGS__);                                  \
        prepare;                                                                    \
        if (crate_##name && crate_##name(__VA_ARGS__) != first) fail("the crate's " #name " answers something else"); \
        BEST_AFTER((times).here, prepare, port_##name(__VA_ARGS__));                \
        (times).crate = 0;                                                          \
        if (crate_##name) BEST_AFTER((times).crate, prepare, crate_##name(__VA_ARGS__)); \
    } while (0)

#define BOTH(times, name, ...) BOTH_AFTER(times, , name, __VA_ARGS__)

/* The same for short calls, of which `rounds` are measured at once. */
#define BOTH_MANY(times, rounds, name, ...)                                         \
    do {                                                                            \
        if (crate_##name && crate_##name(__VA_ARGS__) != port_##name(__VA_ARGS__)) fail("the crate's " #name " answers something else"); \
        BEST((times).here, MANY(rounds, port_##name(__VA_ARGS__)));                 \
        (times).crate = 0;                                                          \
        if (crate_##name) BEST((times).crate, MANY(rounds, crate_##name(__VA_ARGS__))); \
    } while (0)
