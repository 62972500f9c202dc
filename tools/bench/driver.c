/* Measures the exports of crates/bench_exports beside plain C and, where its side is linked, the Rust crate: `speed` prints the time of
 * an item or of a byte, `beside` and `values` the same as rows of two tables of docs/SPEED.md, `growth` the time of a byte of longer and
 * longer messages as such rows, `plot` the same as an image, and `memory` the memory that is requested. */
#include "growth.h"
#include "sides.h"
#include <inttypes.h>

/* The memory that was requested since `forget`: the number of requests, the bytes of the largest and
 * of all of them, the bytes that are held, and the most that were held at once. */
static struct { uint64_t requests, largest, asked; int64_t held, peak; } memory;

void *__real_malloc(size_t size);
void *__real_realloc(void *old, size_t size);
void __real_free(void *old);

/* The size of a block is kept in the 16 bytes before it, so that blocks stay aligned. */
static void *counted(void *block, size_t old, size_t size) {
    memory.requests += 1;
    memory.asked += size;
    if (size > memory.largest) memory.largest = size;
    if (!block) return NULL;
    memory.held += (int64_t)size - (int64_t)old;
    if (memory.held > memory.peak) memory.peak = memory.held;
    *(size_t *)block = size;
    return (char *)block + 16;
}

void *__wrap_malloc(size_t size) { return counted(size > SIZE_MAX - 16 ? NULL : __real_malloc(size + 16), 0, size); }

void *__wrap_realloc(void *old, size_t size) {
    if (!old) return __wrap_malloc(size);
    char *start = (char *)old - 16;
    size_t was = *(size_t *)start;
    return counted(size > SIZE_MAX - 16 ? NULL : __real_realloc(start, size + 16), was, size);
}

void *__wrap_calloc(size_t count, size_t size) {
    void *block = size && count > SIZE_MAX / size ? NULL : __wrap_malloc(count * size);
    return block ? memset(block, 0, count * size) : NULL;
}

void __wrap_free(void *old) {
    if (!old) return;
    memory.held -= (int64_t) * (size_t *)((char *)old - 16);
    __real_free((char *)old - 16);
}

void forget(void) { memset(&memory, 0, sizeof memory); }

void require_freed(const char *what) {
    if (!memory.held) return;
    fprintf(stderr, "bench: %s: memory was not given back\n", what);
    exit(1);
}

uint8_t *room, *source;
uint32_t *numbers;

#define NUMBERS 10000000

static void fill_at_random(void) {
    uint64_t state = 0x9e3779b97f4a7c15u;
    for (uint32_t i = 0; i < NUMBERS; i++) {
        state ^= state << 13, state ^= state >> 7, state ^= state << 17;
        uint32_t bits = 7 * (1 + (uint32_t)(state >> 32) % 5);
        numbers[i] = bits >= 32 ? (uint32_t)state | 0x80000000u : ((uint32_t)state >> (32 - bits)) | 1u << (bits - 1);
    }
}

void fill(const char *kind) {
    if (!strcmp(kind, "random sizes")) {
        fill_at_random();
        return;
    }
    for (uint32_t i = 0; i < NUMBERS; i++) {
        uint32_t mixed = i * 2654435761u;
        if (!strcmp(kind, "one byte")) numbers[i] = mixed >> 25;
        else if (!strcmp(kind, "five bytes")) numbers[i] = mixed | 0x80000000u;
        else numbers[i] = mixed >> (i % 4 * 8);
    }
}

static uint64_t copy(void) {
    memcpy(room, source, MOST);
    return room[MOST - 1];
}

double copying(void) {
    static double best;
    if (best == 0) BEST(best, copy());
    return best;
}

/* Whether rows of a table in Markdown are printed, and not lines. */
static bool as_rows;

void tell(const char *row, Times times, double items, const char *unit) {
    const double here = times.here / items, plain = times.plain / items, crate = times.crate / items;
    char ratio[16] = "–";
    if (crate > 0) snprintf(ratio, sizeof ratio, "%.2f", here / crate);
    if (as_rows) printf("| %s | %s | %.2f | %.2f | %.2f | %s |\n", row, unit, here, plain, here / plain, ratio);
    else printf("%-44s %8.2f ns %s, plain C %.2f, ratio %.2f, of the crate %s\n", row, here, unit, plain, here / plain, ratio);
    fflush(stdout);
}

static void speed(void) {
    rows_of_records();
    rows_of_frames();
    rows_of_lists();
    rows_of_checksums();
}

/* Prints the memory requested since `forget`. Fails if some is still held, or if a request is larger than `limit`. */
static void told(const char *row, uint64_t limit) {
    printf("%-44s %6" PRIu64 " requests, largest %9" PRIu64 ", in all %9" PRIu64 ", most held %9" PRId64 "\n", row, memory.requests, memory.largest, memory.asked, memory.peak);
    require_freed(row);
    if (memory.largest > limit) fail("a request is larger than what was read explains");
}

static void memory_of_lists(void) {
    char row[64];
    fill("mixed");
    for (size_t count = 10; count <= 1000000; count *= 10) {
        size_t size = port_u32s_encode(numbers, count, room, 2 * MOST);
        forget();
        if (port_u32s_decode(room, size) == UINT64_MAX) fail("a list was refused");
        snprintf(row, sizeof row, "%zu u32, read", count);
        told(row, 64 + 4 * 4 * count);
        forget();
        if (port_u32s_decode(room, size / 2) != UINT64_MAX) fail("half a list was read");
        snprintf(row, sizeof row, "%zu u32 announced, half of the bytes", count);
        told(row, 64 + 4 * 4 * count / 2);
        size = port_bytes_encode(source, count, room, 2 * MOST);
        forget();
        if (port_bytes_decode(room, size) == UINT64_MAX) fail("a list was refused");
        snprintf(row, sizeof row, "%zu u8, read", count);
        told(row, count);
    }
}

/* Decodes a count of 2^63 - 1, of 2^40 or of 300, and then three bytes, as each of the growing types. */
static void memory_of_hostile_counts(void) {
    static const uint8_t counts[3][12] = {
        {0xff, 0xff, 0xff, 0xff, 0xff, 0xff, 0xff, 0xff, 0x7f, 1, 1, 1},
        {0x80, 0x80, 0x80, 0x80, 0x80, 0x20, 1, 1, 1},
        {0xac, 0x02, 1, 1, 1},
    };
    static const size_t sizes[3] = {12, 9, 5};
    static const char *const names[] = {
        "Vec<u8>", "Vec<u32>", "Vec<u128>", "String", "Vec<String>", "Vec<Vec<u8>>", "BTreeMap<u8, u8>", "Vec<BTreeMap<u8, u8>>", "ArrayString<4>", "ArrayVec<u8, 4>",
    };
    char row[64];
    for (uint32_t kind = 0; kind < sizeof names / sizeof *names; kind++) {
        for (int i = 0; i < 3; i++) {
            forget();
            if (port_hostile(kind, counts[i], sizes[i]) != UINT64_MAX) fail("a count without its elements was read");
            snprintf(row, sizeof row, "%s of %s elements", names[kind], i == 0 ? "2^63 - 1" : i == 1 ? "2^40" : "300");
            told(row, 4096);
        }
    }
}

int main(int count, char **words) {
    const char *task = count == 2 ? words[1] : "";
    room = malloc(2 * MOST);
    source = malloc(MOST);
    numbers = malloc(4 * NUMBERS);
    if (!room || !source || !numbers) fail("too little memory");
    memset(source, 0x55, MOST);
    memset(room, 0x55, 2 * MOST);
    as_rows = strcmp(task, "speed") != 0;
    if (!strcmp(task, "speed")) speed(), rows_of_kinds();
    else if (!strcmp(task, "beside")) speed();
    else if (!strcmp(task, "values")) rows_of_kinds();
    else if (!strcmp(task, "growth")) growth(false);
    else if (!strcmp(task, "plot")) growth(true);
    else if (!strcmp(task, "memory")) memory_of_lists(), memory_of_hostile_counts();
    else fail("say speed, beside, values, growth, plot or memory");
    return 0;
}
