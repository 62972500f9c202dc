/* Measures what calls of postcard.h cost, beside plain C of the same work: nanoseconds a call, the best of 25 loops over 100,000
 * records of different sizes. docs/C_COSTS.md has what came out; `tools/c-library costs` builds and runs it. */
#include <stdio.h>
#include <string.h>
#include <time.h>
#include "postcard.h"

/* A u32, a u16, an option of a u8, and a text of 12 bytes. */
typedef struct record {
    uint32_t number;
    uint16_t short_number;
    bool has_byte;
    uint8_t byte;
    const char *text;
    size_t size;
} record;

enum { RECORDS = 100000, LOOPS = 25, ROOM = 64 };
static record records[RECORDS];
static uint8_t messages[RECORDS][ROOM];
static size_t sizes[RECORDS];

/* Numbers of each length that a varint of their width can have. */
static record numbered(uint32_t i) {
    uint32_t mixed = i * 2654435761u;
    record it = {mixed >> (i % 4 * 8), (uint16_t)((mixed >> 16) >> (i % 2 * 8)), i % 3 != 0, (uint8_t)i, "twelve bytes", 12};
    return it;
}

/* Plain C, as one writes it for a single message: no status, and no test of UTF-8. */
static size_t plain_varint(uint8_t *out, uint64_t value) {
    size_t used = 0;
    for (; value > 127; value >>= 7) out[used++] = (uint8_t)(value | 128);
    out[used++] = (uint8_t)value;
    return used;
}

static size_t plain_write(const record *it, uint8_t *out, size_t room) {
    if (room < 8 + 2 + 1 + it->size) return 0;
    size_t used = plain_varint(out, it->number);
    used += plain_varint(out + used, it->short_number);
    out[used++] = it->has_byte;
    if (it->has_byte) out[used++] = it->byte;
    used += plain_varint(out + used, it->size);
    memcpy(out + used, it->text, it->size);
    return used + it->size;
}

static bool plain_number(const uint8_t **at, const uint8_t *end, unsigned bits, uint64_t *value) {
    *value = 0;
    for (unsigned shift = 0; shift < bits && *at < end; shift += 7) {
        uint8_t byte = *(*at)++;
        *value |= (uint64_t)(byte & 127) << shift;
        if (byte < 128) return bits - shift >= 7 || byte >> (bits - shift) == 0;
    }
    return false;
}

static size_t plain_read(const uint8_t *bytes, size_t size, record *it) {
    const uint8_t *at = bytes, *end = bytes + size;
    uint64_t number, short_number, length;
    if (!plain_number(&at, end, 32, &number) || !plain_number(&at, end, 16, &short_number)) return 0;
    if (at == end || *at > 1) return 0;
    it->has_byte = *at++;
    if (it->has_byte && at == end) return 0;
    if (it->has_byte) it->byte = *at++;
    if (!plain_number(&at, end, 64, &length) || (size_t)(end - at) < length) return 0;
    it->number = (uint32_t)number, it->short_number = (uint16_t)short_number;
    it->text = (const char *)at, it->size = length;
    return (size_t)(at - bytes) + length;
}

static size_t library_write(const record *it, uint8_t *out, size_t room) {
    postcard_writer w = postcard_writer_over(out, room);
    postcard_put_u32(&w, it->number), postcard_put_u16(&w, it->short_number);
    if (it->has_byte) postcard_put_some(&w), postcard_put_u8(&w, it->byte);
    else postcard_put_none(&w);
    postcard_put_str(&w, it->text, it->size);
    return w.status ? 0 : w.used;
}

static size_t library_read(const uint8_t *bytes, size_t size, record *it) {
    postcard_reader r = postcard_reader_over(bytes, size);
    postcard_slice text = {NULL, 0};
    postcard_get_u32(&r, &it->number), postcard_get_u16(&r, &it->short_number), postcard_get_option(&r, &it->has_byte);
    if (it->has_byte) postcard_get_u8(&r, &it->byte);
    postcard_get_str(&r, &text);
    it->text = (const char *)text.bytes, it->size = text.size;
    return r.status ? 0 : r.at;
}

static double now(void) { return (double)clock() * (1e9 / CLOCKS_PER_SEC); }

/* Prints the fewest nanoseconds of a loop of `count` calls, a call. The sum of their results keeps them from being optimized away. */
#define COST(row, count, call)                                                    \
    do {                                                                          \
        double best = 1e300;                                                      \
        volatile uint64_t kept = 0;                                               \
        for (int loop = 0; loop < LOOPS; loop++) {                                \
            uint64_t sum = 0;                                                     \
            double began = now();                                                 \
            for (uint32_t i = 0; i < (count); i++) sum += (uint64_t)(call);       \
            double took = now() - began;                                          \
            kept += sum;                                                          \
            if (took < best) best = took;                                         \
        }                                                                         \
        printf("%-34s %8.1f ns\n", row, best / (count));                          \
    } while (0)

static void costs_of_records(void) {
    uint8_t out[ROOM];
    record it = records[0];
    COST("a record written, plain C", RECORDS, plain_write(&records[i], out, ROOM));
    COST("a record written, postcard.h", RECORDS, library_write(&records[i], out, ROOM));
    COST("a record read, plain C", RECORDS, plain_read(messages[i], sizes[i], &it));
    COST("a record read, postcard.h", RECORDS, library_read(messages[i], sizes[i], &it));
}

static void costs_of_calls(void) {
    uint8_t out[ROOM];
    postcard_writer w;
    postcard_reader r;
    uint32_t number = 0;
    COST("put_u32 with a new writer", RECORDS, (w = postcard_writer_over(out, ROOM), postcard_put_u32(&w, records[i].number), w.used));
    COST("put_u8 with a new writer", RECORDS, (w = postcard_writer_over(out, ROOM), postcard_put_u8(&w, records[i].byte), w.used));
    COST("get_u32 with a new reader", RECORDS, (r = postcard_reader_over(messages[i], sizes[i]), postcard_get_u32(&r, &number), number));
}

static void costs_of_frames(void) {
    static uint8_t message[1000], frame[POSTCARD_FRAME_SIZE(1000)], buffer[ROOM], piece[ROOM];
    size_t count = 0, taken = 0, size = 0;
    memset(message, 0x55, sizeof message);
    COST("1,000 bytes framed", 10000, (postcard_cobs_encode(message, sizeof message, frame, sizeof frame, &count), count));
    postcard_accumulator a = postcard_accumulator_over(buffer, sizeof buffer);
    postcard_cobs_encode(messages[1], sizes[1], piece, sizeof piece, &size);
    COST("a frame of some 20 bytes fed whole", RECORDS, (postcard_feed(&a, piece, size, &taken, &count), count));
    COST("crc32 of 1,000 bytes", 1000, postcard_crc32(0, message, sizeof message));
    COST("crc16 of 1,000 bytes", 1000, postcard_crc16(0, message, sizeof message));
}

int main(void) {
    uint8_t out[ROOM];
    for (uint32_t i = 0; i < RECORDS; i++) {
        records[i] = numbered(i);
        sizes[i] = plain_write(&records[i], messages[i], ROOM);
        if (library_write(&records[i], out, ROOM) != sizes[i] || memcmp(out, messages[i], sizes[i])) return puts("the two write different bytes"), 1;
    }
    costs_of_records();
    costs_of_calls();
    costs_of_frames();
    return 0;
}
