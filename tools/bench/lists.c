/* The rows of lists of numbers and of bytes, of long frames, and of checksums. */
#include "sides.h"

static void rows_of_numbers(const char *kind) {
    Times t;
    char row[64];
    const size_t count = 1000000;
    fill(kind);
    BEST(t.plain, plain_u32s_encode(numbers, count, room, 2 * MOST));
    BOTH(t, u32s_encode, numbers, count, room, 2 * MOST);
    snprintf(row, sizeof row, "a million u32, %s: write", kind);
    tell(row, t, count, "a number");
    size_t size = port_u32s_encode(numbers, count, room, 2 * MOST);
    if (plain_u32s_decode(room, size) != port_u32s_decode(room, size)) fail("the sum of numbers is another than the plain one's");
    BEST(t.plain, plain_u32s_decode(room, size));
    BOTH(t, u32s_decode, room, size);
    snprintf(row, sizeof row, "a million u32, %s: read", kind);
    tell(row, t, count, "a number");
}

/* Where each of a thousand lists begins in `source`. */
#define LISTS 1000
static size_t begins[LISTS + 1];

/* Lists of a few numbers, a thousand of them in turn. */
static void rows_of_short_lists(size_t count) {
    Times t;
    char row[64];
    fill("random sizes");
    for (size_t i = 0; i < LISTS; i++)
        begins[i + 1] = begins[i] + port_u32s_encode(numbers + i * count, count, source + begins[i], MOST - begins[i]);
    const double items = 20.0 * LISTS * (double)count;
    BEST(t.plain, MANY(20 * LISTS, plain_u32s_encode(numbers + round % LISTS * count, count, room, 1024)));
    BEST(t.here, MANY(20 * LISTS, port_u32s_encode(numbers + round % LISTS * count, count, room, 1024)));
    t.crate = 0;
    if (crate_u32s_encode) BEST(t.crate, MANY(20 * LISTS, crate_u32s_encode(numbers + round % LISTS * count, count, room, 1024)));
    snprintf(row, sizeof row, "%zu u32, random sizes: write", count);
    tell(row, t, items, "a number");
#define IN_TURN(decode) MANY(20 * LISTS, decode(source + begins[round % LISTS], begins[round % LISTS + 1] - begins[round % LISTS]))
    BEST(t.plain, IN_TURN(plain_u32s_decode));
    BEST(t.here, IN_TURN(port_u32s_decode));
    t.crate = 0;
    if (crate_u32s_decode) BEST(t.crate, IN_TURN(crate_u32s_decode));
    snprintf(row, sizeof row, "%zu u32, random sizes: read", count);
    tell(row, t, items, "a number");
}

/* What a program in C without a library does for a list of numbers of `width` bytes: it asks for room before each number, and
 * copies it. */
static inline __attribute__((always_inline)) uint64_t plain_numbers(const uint8_t *from, size_t count, size_t width, uint8_t *out, size_t size) {
    size_t used = 0;
    for (size_t i = 0; i < count; i++) {
        if (size - used < width) return UINT64_MAX;
        memcpy(out + used, from + i * width, width);
        used += width;
    }
    return used + out[used - 1];
}

static __attribute__((noinline)) uint64_t plain_f32s(const uint8_t *from, size_t count, uint8_t *out, size_t size) { return plain_numbers(from, count, 4, out, size); }
static __attribute__((noinline)) uint64_t plain_f64s(const uint8_t *from, size_t count, uint8_t *out, size_t size) { return plain_numbers(from, count, 8, out, size); }

static void rows_of_floats(void) {
    Times t;
    const size_t count = 1000000;
    float *singles = malloc(count * sizeof *singles);
    double *doubles = malloc(count * sizeof *doubles);
    if (!singles || !doubles) fail("too little memory");
    for (size_t i = 0; i < count; i++) doubles[i] = singles[i] = (float)i * 0.37f + 1;
    BEST(t.plain, plain_f32s((const uint8_t *)singles, count, room, MOST));
    BOTH(t, f32s_encode, singles, count, room, 2 * MOST);
    tell("a million f32: write", t, count, "a number");
    size_t size = port_f32s_encode(singles, count, room, 2 * MOST);
    BEST(t.plain, plain_f32s(room + 3, count, source, MOST));
    BOTH(t, f32s_decode, room, size);
    tell("a million f32: read", t, count, "a number");
    BEST(t.plain, plain_f64s((const uint8_t *)doubles, count, room, MOST));
    BOTH(t, f64s_encode, doubles, count, room, 2 * MOST);
    tell("a million f64: write", t, count, "a number");
    size = port_f64s_encode(doubles, count, room, 2 * MOST);
    BEST(t.plain, plain_f64s(room + 3, count, source, MOST));
    BOTH(t, f64s_decode, room, size);
    tell("a million f64: read", t, count, "a number");
    free(singles);
    free(doubles);
}

/* A new block of numbers, which is freed, as the list that is read. */
static uint64_t plain_fixed_read(int kind, const uint8_t *bytes, size_t size, size_t count, size_t width) {
    void *block = malloc(count * width);
    uint64_t answer = block ? plain_fixed_decode(kind, bytes, size, count, block) : UINT64_MAX;
    free(block);
    return answer;
}

/* To write, the list is read first, so the times of calls with no round are subtracted. */
static void row_of_fixed_writes(int kind, const char *type, size_t size, size_t count) {
    Times t, none;
    char row[64];
    const uint32_t export = 6 + (uint32_t)kind;
    BEST(t.plain, plain_fixed_encode(kind, numbers, count, room, 2 * MOST));
    BOTH(none, write, export, source, size, 0, room, 2 * MOST);
    BOTH(t, write, export, source, size, 10, room, 2 * MOST);
    t.here = (t.here - none.here) / 10;
    t.crate = (t.crate - none.crate) / 10;
    snprintf(row, sizeof row, "a million %s: write", type);
    tell(row, t, (double)count, "a number");
}

static void rows_of_fixed_widths(void) {
    static const char *const types[] = {"`LE<u32>`", "`BE<u32>`", "`LE<u64>`", "`BE<u16>`"};
    static const size_t widths[] = {4, 4, 8, 2};
    Times t;
    char row[64];
    const size_t count = 1000000;
    fill("mixed");
    for (int kind = 0; kind < 4; kind++) {
        size_t size = plain_fixed_encode(kind, numbers, count, source, MOST);
        const uint32_t export = 6 + (uint32_t)kind;
        require(port_read(export, source, size, 1), 1, 1);
        require(port_write(export, source, size, 1, room, 2 * MOST), 1, size);
        if (memcmp(room, source, size)) fail("a list is another than the plain one");
        row_of_fixed_writes(kind, types[kind], size, count);
        BEST(t.plain, plain_fixed_read(kind, source, size, count, widths[kind]));
        BOTH(t, read, export, source, size, 1);
        snprintf(row, sizeof row, "a million %s: read", types[kind]);
        tell(row, t, (double)count, "a number");
    }
}

static uint64_t plain_allocate(const uint8_t *values, size_t count) {
    uint8_t *block = malloc(count + 10);
    if (!block) return UINT64_MAX;
    memcpy(block + 4, values, count);
    __asm__ volatile("" : : "r"(block) : "memory");
    free(block);
    return count + 4;
}

/* Lists of 16 MiB, beside memcpy. */
static void rows_of_bytes(void) {
    Times t = {.plain = copying()};
    memset(source, 0x55, MOST);
    BOTH(t, bytes_encode, source, MOST, room, 2 * MOST);
    tell("16 MiB of u8: write", t, MOST, "a byte");
    size_t size = port_bytes_encode(source, MOST, room, 2 * MOST);
    BOTH(t, bytes_decode, room, size);
    tell("16 MiB of u8: read into a vector", t, MOST, "a byte");
    BOTH(t, bytes_to_memory, source, MOST, room, 2 * MOST);
    tell("16 MiB of u8 in memory: to_io", t, MOST, "a byte");
    size = port_bytes_encode(source, MOST, room, 2 * MOST);
    BOTH(t, bytes_from_memory, room, size, source, MOST);
    tell("16 MiB of u8 in memory: from_io", t, MOST, "a byte");
    BEST(t.plain, plain_allocate(source, MOST));
    BOTH(t, bytes_allocate, source, MOST);
    tell("16 MiB of u8: to_allocvec", t, MOST, "a byte");
}

/* A frame of 16 MiB, beside memcpy. */
static void rows_of_long_frames(uint8_t zero_every) {
    Times t = {.plain = copying()};
    char row[64];
    for (size_t i = 0; i < MOST; i++) source[i] = zero_every && i % zero_every == 0 ? 0 : 0x55;
    snprintf(row, sizeof row, zero_every ? "16 MiB, a zero at each %dth byte: frame" : "16 MiB without a zero: frame", zero_every);
    BOTH(t, cobs_encode, source, MOST, room, 2 * MOST);
    tell(row, t, MOST, "a byte");
    size_t size = port_cobs_encode(source, MOST, room, 2 * MOST);
    uint8_t *frame = malloc(size);
    if (!frame) fail("too little memory");
    BOTH_AFTER(t, memcpy(frame, room, size), cobs_decode, frame, size);
    free(frame);
    snprintf(row, sizeof row, zero_every ? "16 MiB, a zero at each %dth byte: decode" : "16 MiB without a zero: decode", zero_every);
    tell(row, t, MOST, "a byte");
}

void rows_of_lists(void) {
    rows_of_short_lists(10);
    rows_of_fixed_widths();
    rows_of_floats();
    rows_of_numbers("mixed");
    rows_of_numbers("random sizes");
    rows_of_numbers("one byte");
    rows_of_numbers("five bytes");
    rows_of_bytes();
    rows_of_long_frames(0);
    rows_of_long_frames(10);
}
