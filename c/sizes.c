/* Sizes where `size_t` has fewer than 64 bits, and where it has 64: a count that it can't hold is refused with a status of its own, and
 * `needed` stops at the greatest size. It prints one line, and ends with 1 at the first check that fails. */
#include <stdio.h>
#include <stdlib.h>
#include "postcard.h"

#define CHECK(fact) ((fact) ? (void)0 : failed(__LINE__))
static void failed(int line) { printf("line %d fails\n", line), exit(1); }

/* The varints of 2^16 - 1, 2^16, 2^32 - 1, 2^32, 2^42 and 2^64 - 1. */
static const struct {
    uint64_t count;
    uint8_t size, bytes[10];
} rows[] = {
    {0xFFFFu, 3, {0xFF, 0xFF, 0x03}},
    {0x10000u, 3, {0x80, 0x80, 0x04}},
    {0xFFFFFFFFu, 5, {0xFF, 0xFF, 0xFF, 0xFF, 0x0F}},
    {UINT64_C(0x100000000), 5, {0x80, 0x80, 0x80, 0x80, 0x10}},
    {UINT64_C(0x40000000000), 7, {0x80, 0x80, 0x80, 0x80, 0x80, 0x80, 0x01}},
    {UINT64_MAX, 10, {0xFF, 0xFF, 0xFF, 0xFF, 0xFF, 0xFF, 0xFF, 0xFF, 0xFF, 0x01}},
};

/* The count of a row stands after a byte that was read before. What a failed call leaves is checked, and that a later call repeats it. */
static void counts(void) {
    for (size_t i = 0; i < sizeof rows / sizeof *rows; i++) {
        uint8_t message[12] = {7}, first = 0;
        size_t count = 5;
        memcpy(message + 1, rows[i].bytes, rows[i].size);
        postcard_reader r = postcard_reader_over(message, (size_t)rows[i].size + 1);
        CHECK(postcard_get_u8(&r, &first) == POSTCARD_OK && first == 7);
        postcard_status status = postcard_get_count(&r, &count);
        if (rows[i].count <= SIZE_MAX) {
            CHECK(status == POSTCARD_OK && r.status == POSTCARD_OK && count == rows[i].count && r.at == r.size);
        } else {
            CHECK(status == POSTCARD_TOO_LARGE && r.status == POSTCARD_TOO_LARGE && count == 5 && r.at == 1);
            CHECK(postcard_get_u8(&r, &first) == POSTCARD_TOO_LARGE && r.at == 1);
        }
    }
}

/* Bytes and texts whose announced length no memory has are cut short, whatever size_t has. */
static void lengths(void) {
    for (size_t i = 0; i < sizeof rows / sizeof *rows; i++) {
        postcard_slice bytes = {rows[i].bytes, 3}, text = bytes;
        postcard_reader r = postcard_reader_over(rows[i].bytes, rows[i].size);
        CHECK(postcard_get_bytes(&r, &bytes) == POSTCARD_UNEXPECTED_END && r.at == 0 && bytes.size == 3);
        r.status = POSTCARD_OK;
        CHECK(postcard_get_str(&r, &text) == POSTCARD_UNEXPECTED_END && r.at == 0 && text.size == 3);
    }
}

static void needs(void) {
    postcard_writer w = postcard_writer_over(NULL, 0);
    w.needed = SIZE_MAX - 1;
    CHECK(postcard_put_u8(&w, 1) == POSTCARD_BUFFER_FULL && w.needed == SIZE_MAX);
    CHECK(postcard_put_u8(&w, 1) == POSTCARD_BUFFER_FULL && w.needed == SIZE_MAX);
    CHECK(postcard_put_count(&w, SIZE_MAX) == POSTCARD_BUFFER_FULL && w.needed == SIZE_MAX && w.used == 0);
}

int main(void) {
    counts(), lengths(), needs();
    return puts("all sizes pass") < 0;
}
