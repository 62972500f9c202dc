/* The test program for a generated header, which the functions of its types follow: `driver.py` writes those. It reads lines of a type and
 * a message in hexadecimal, reads the message with the generated functions, and prints
 *
 *     ok PLACE VALUE MESSAGE MESSAGE    the place after the value, and what is written of it again: as it was read, and from `items`
 *     err STATUS PLACE
 *
 * It aborts where a call does something else than the header says. */
#include <stdio.h>
#include <stdlib.h>

enum { MOST_BLOCKS = 100000, LINE = 1 << 20 };
static void *blocks[MOST_BLOCKS];
static size_t block_count;
static bool is_quiet;
static char line[LINE];

/* Memory of its own size, so that a sanitizer sees a byte beyond it. */
static void *room(size_t size) {
    void *block = malloc(size ? size : 1);
    if (!block || block_count == MOST_BLOCKS) abort();
    memset(block, 0xA5, size);
    return blocks[block_count++] = block;
}

static void give_back(void) {
    while (block_count) free(blocks[--block_count]);
}

static void text(const char *it) {
    if (!is_quiet) fputs(it, stdout);
}

static void natural(uint64_t value) {
    char digits[21], *at = digits + 20;
    for (*at = 0; value > 9; value /= 10) *--at = (char)('0' + value % 10);
    *--at = (char)('0' + value);
    text(at);
}

static void whole(int64_t value) {
    if (value < 0) text("-");
    natural(value < 0 ? 0 - (uint64_t)value : (uint64_t)value);
}

static void hex(uint64_t value, int count) {
    char digits[17] = {0};
    for (int i = count; i > 0; value >>= 4) digits[--i] = "0123456789abcdef"[value & 15];
    text(digits);
}

static void wide(uint64_t low, uint64_t high) { hex(high, 16), hex(low, 16); }
static void show_bool(bool value) { text(value ? "true" : "false"); }

static void show_f32(float value) {
    uint32_t bits;
    memcpy(&bits, &value, sizeof bits);
    text("f"), hex(bits, 8);
}

static void show_f64(double value) {
    uint64_t bits;
    memcpy(&bits, &value, sizeof bits);
    text("f"), hex(bits, 16);
}

static void digits(const void *bytes, size_t size) {
    for (size_t i = 0; i < size; i++) hex(((const uint8_t *)bytes)[i], 2);
}

static void hexadecimal(const void *bytes, size_t size) {
    text("\"");
    digits(bytes, size);
    text("\"");
}

/* Writes a value three times, and prints it: measured, into a buffer of just its size, and into one with a byte less. */
#define WRITE(T, value, written, used_)                                                                               \
    do {                                                                                                              \
        postcard_writer measure = postcard_writer_over(NULL, 0);                                                      \
        T##_put(&measure, value);                                                                                     \
        written = room(measure.needed);                                                                               \
        postcard_writer writer = postcard_writer_over(written, measure.needed);                                       \
        if (T##_put(&writer, value) || writer.used != measure.needed || writer.needed != writer.used) abort();        \
        used_ = writer.used;                                                                                          \
        text(" ");                                                                                                    \
        digits(written, used_);                                                                                       \
        text("|");                                                                                                    \
        if (used_) {                                                                                                  \
            postcard_writer small = postcard_writer_over(room(used_ - 1), used_ - 1);                                 \
            if (T##_put(&small, value) != POSTCARD_BUFFER_FULL || small.needed != used_) abort();                     \
            if (small.used && memcmp(small.buffer, written, small.used)) abort();                                     \
        }                                                                                                             \
    } while (0)

/* Reads a message of a type, and prints what came out. `whole_` is the status of reading it as a whole message. */
#define READ(T, bytes, size)                                                                                          \
    T *value = room(sizeof *value), *again = room(sizeof *again);                                                     \
    postcard_reader reader = postcard_reader_over(bytes, size);                                                       \
    postcard_status status = T##_get(&reader, value), whole_ = T##_decode(again, bytes, size);                        \
    uint8_t *written;                                                                                                 \
    size_t used;                                                                                                      \
    if (status != reader.status) abort();                                                                             \
    if (whole_ != (status ? status : reader.at == (size) ? POSTCARD_OK : POSTCARD_NO_VALUE)) abort();                 \
    if (status) {                                                                                                     \
        text("err "), natural(status), text(" "), natural(reader.at), text("\n");                                      \
        is_quiet = true;                                                                                              \
        dump_##T(value);                                                                                              \
        is_quiet = false;                                                                                             \
        return;                                                                                                       \
    }                                                                                                                 \
    text("ok "), natural(reader.at), text(" ");                                                                       \
    dump_##T(value);                                                                                                  \
    WRITE(T, value, written, used);                                                                                   \
    thaw_##T(value);                                                                                                  \
    WRITE(T, value, written, used);                                                                                   \
    text("\n")

/* Requires what the header says of the size of a message and of its frame. */
#define FRAME(T)                                                                                                      \
    do {                                                                                                              \
        uint8_t *frame = room(T##_FRAME_SIZE);                                                                        \
        size_t size = 0, back = 0;                                                                                    \
        if (used > T##_MAX_SIZE || T##_frame(value, frame, T##_FRAME_SIZE, &size) || frame[size - 1]) abort();        \
        if (postcard_cobs_decode(frame, size, &back) || back != used || memcmp(frame, written, back)) abort();        \
    } while (0)

typedef struct test {
    const char *name;
    void (*run)(const uint8_t *bytes, size_t size);
} test;

static int run_all(const test *tests) {
    while (fgets(line, sizeof line, stdin)) {
        char *hex = strchr(line, ' ');
        if (!hex) return 2;
        *hex++ = 0;
        size_t size = strcspn(hex, "\n") / 2;
        uint8_t *bytes = room(size);
        for (size_t i = 0; i < size; i++) {
            char pair[3] = {hex[2 * i], hex[2 * i + 1], 0};
            bytes[i] = (uint8_t)strtoul(pair, NULL, 16);
        }
        const test *it = tests;
        while (it->name && strcmp(it->name, line)) it++;
        if (!it->name) return 2;
        it->run(bytes, size);
        give_back();
    }
    return 0;
}
