/* The published vectors of the format, and values worked out by hand, by the calls of postcard.h: written and read back;
 * failures; checksums; frames; streams cut at every place. It prints one line, and ends with 1 at the first check that fails. */
#include <float.h>
#include <string.h>
#include "postcard.h"
#ifdef FREESTANDING
void failed(int line); /* ends the program */
void passed(void);
#else
#include <stdio.h>
#include <stdlib.h>
static void failed(int line) { printf("line %d fails\n", line), exit(1); }
static void passed(void) { puts("all vectors pass"); }
#endif
#define CHECK(fact) ((fact) ? (void)0 : failed(__LINE__))

static uint8_t room[2048];
static postcard_writer w;
static postcard_reader r;

/* What was written is these bytes; then they are read. */
static void is(const char *bytes, size_t size) {
    CHECK(w.status == POSTCARD_OK && w.used == size && memcmp(room, bytes, size) == 0);
    r = postcard_reader_over(room, w.used);
}
static void begin(void) { w = postcard_writer_over(room, sizeof room); }
static void ends(void) { CHECK(r.status == POSTCARD_OK && r.at == r.size); }
#define IS(s) is(s, sizeof(s) - 1)
#define NUMBER(type, name, value, bytes)                       \
    do {                                                       \
        type got = 0;                                          \
        begin();                                               \
        postcard_put_##name(&w, value);                        \
        IS(bytes);                                             \
        postcard_get_##name(&r, &got);                         \
        CHECK(got == (type)(value));                          \
        ends();                                                \
    } while (0)

#define WIDE(name, low, high, bytes)                                   \
    do {                                                               \
        uint64_t got_low = 0, got_high = 0;                            \
        begin();                                                       \
        postcard_put_##name(&w, low, high);                            \
        IS(bytes);                                                     \
        postcard_get_##name(&r, &got_low, &got_high);                  \
        CHECK(got_low == (uint64_t)(low) && got_high == (uint64_t)(high)); \
        ends();                                                        \
    } while (0)

static void numbers(void) {
    NUMBER(uint8_t, u8, 5, "\x05");
    NUMBER(uint16_t, u16, 0xA5C7, "\xC7\xCB\x02");
    NUMBER(uint32_t, u32, 0xCDAB3412, "\x92\xE8\xAC\xED\x0C");
    NUMBER(uint64_t, u64, 0x1234567890ABCDEF, "\xEF\x9B\xAF\x85\x89\xCF\x95\x9A\x12");
    NUMBER(uint64_t, u64, UINT64_MAX, "\xFF\xFF\xFF\xFF\xFF\xFF\xFF\xFF\xFF\x01");
    NUMBER(size_t, count, 300, "\xAC\x02");
    NUMBER(bool, bool, false, "\x00");
    NUMBER(bool, bool, true, "\x01");
    NUMBER(int8_t, i8, -128, "\x80");
    NUMBER(int16_t, i16, -1, "\x01");
    NUMBER(int32_t, i32, -2, "\x03");
    NUMBER(int32_t, i32, INT32_MIN, "\xFF\xFF\xFF\xFF\x0F");
    NUMBER(int64_t, i64, 2, "\x04");
    NUMBER(uint32_t, char, 'z', "\x01\x7A");
    NUMBER(uint32_t, char, 0xA2, "\x02\xC2\xA2");
    NUMBER(uint32_t, char, 0x10348, "\x04\xF0\x90\x8D\x88");
    NUMBER(uint32_t, char, 0x1F97A, "\x04\xF0\x9F\xA5\xBA");
    NUMBER(uint32_t, variant, 1, "\x01");
    NUMBER(uint16_t, u16_le, 0x1234, "\x34\x12");
    NUMBER(uint32_t, u32_le, 0x12345678, "\x78\x56\x34\x12");
    NUMBER(uint64_t, u64_le, 0x0102030405060708, "\x08\x07\x06\x05\x04\x03\x02\x01");
    NUMBER(uint16_t, u16_be, 0x1234, "\x12\x34");
    NUMBER(uint32_t, u32_be, 0x12345678, "\x12\x34\x56\x78");
    NUMBER(uint64_t, u64_be, 0x0102030405060708, "\x01\x02\x03\x04\x05\x06\x07\x08");
    NUMBER(int16_t, i16_le, -2, "\xFE\xFF");
    NUMBER(int32_t, i32_be, -2, "\xFF\xFF\xFF\xFE");
    NUMBER(int64_t, i64_le, INT64_MIN, "\x00\x00\x00\x00\x00\x00\x00\x80");
}

/* Numbers of 128 bits, as their two halves. */
static void wide(void) {
    WIDE(u128, 0x1234567890ABCDEF, 0x1234567890ABCDEF, "\xEF\x9B\xAF\x85\x89\xCF\x95\x9A\x92\xDE\xB7\xDE\x8A\x92\x9E\xAB\xB4\x24");
    WIDE(u128, 127, 0, "\x7F");
    WIDE(u128, 0, 1, "\x80\x80\x80\x80\x80\x80\x80\x80\x80\x02");
    WIDE(u128, UINT64_MAX, UINT64_MAX, "\xFF\xFF\xFF\xFF\xFF\xFF\xFF\xFF\xFF\xFF\xFF\xFF\xFF\xFF\xFF\xFF\xFF\xFF\x03");
    WIDE(i128, UINT64_MAX, UINT64_MAX, "\x01"); /* -1 */
    WIDE(i128, 2, 0, "\x04");
    WIDE(i128, 0, 0x8000000000000000, "\xFF\xFF\xFF\xFF\xFF\xFF\xFF\xFF\xFF\xFF\xFF\xFF\xFF\xFF\xFF\xFF\xFF\xFF\x03");
    WIDE(u128_le, 0x0706050403020100, 0x0F0E0D0C0B0A0908, "\x00\x01\x02\x03\x04\x05\x06\x07\x08\x09\x0A\x0B\x0C\x0D\x0E\x0F");
    WIDE(u128_be, 0x0706050403020100, 0x0F0E0D0C0B0A0908, "\x0F\x0E\x0D\x0C\x0B\x0A\x09\x08\x07\x06\x05\x04\x03\x02\x01\x00");
}

/* Floats of a type: one of these bits is written as their bytes, the lowest first, and read from them; so is each power of two
 * from 1 on and from 1 down, until its bits are those of infinity and of 0. */
#define FLOATS(name, type, number, fraction, bias)                                   \
    static void name##_is(type value, number bits) {                                 \
        uint8_t bytes[sizeof bits];                                                  \
        type got = 7;                                                                \
        for (size_t i = 0; i < sizeof bits; i++) bytes[i] = (uint8_t)(bits >> 8 * i); \
        begin();                                                                     \
        postcard_put_##name(&w, value);                                              \
        is((const char *)bytes, sizeof bytes);                                       \
        postcard_get_##name(&r, &got);                                               \
        CHECK(memcmp(&got, &value, sizeof got) == 0);                                \
        ends();                                                                      \
    }                                                                                \
    static void name##_powers(void) {                                                \
        const number one = (number)1 << fraction;                                    \
        type power = 1;                                                              \
        for (number bits = bias * one; bits <= (2 * bias + 1) * one; bits += one) name##_is(power, bits), power *= 2; \
        power = 1;                                                                   \
        for (number bits = bias * one; bits; bits = bits > one ? bits - one : bits / 2) name##_is(power, bits), power /= 2; \
        name##_is(power, 0);                                                         \
    }                                                                                \
    /* A NaN of these bits keeps them. */                                            \
    static void name##_keeps(number bits) {                                          \
        type value = 7;                                                              \
        begin();                                                                     \
        for (size_t i = 0; i < sizeof bits; i++) postcard_put_u8(&w, (uint8_t)(bits >> 8 * i)); \
        r = postcard_reader_over(room, w.used);                                      \
        CHECK(postcard_get_##name(&r, &value) == 0 && value != value);               \
        name##_is(value, bits);                                                      \
    }
FLOATS(f32, float, uint32_t, 23, 127)
FLOATS(f64, double, uint64_t, 52, 1023)

static void floats(void) {
    f32_powers(), f64_powers();
    f32_is(1.5f, 0x3FC00000), f32_is(-0.0f, 0x80000000), f32_is(-32.00586f, 0xC2000600), f32_is(FLT_MAX, 0x7F7FFFFF);
    f64_is(1.5, 0x3FF8000000000000), f64_is(-0.0, 0x8000000000000000), f64_is(0.1, 0x3FB999999999999A), f64_is(DBL_MAX, 0x7FEFFFFFFFFFFFFF);
    f32_keeps(0x7FC00000), f32_keeps(0xFFC01234);
    f64_keeps(0x7FF8000000000000), f64_keeps(0xFFF8000000001234);
#ifndef __i386__ /* where C itself may change the bits of a signalling NaN that it passes */
    f32_keeps(0x7F800001), f64_keeps(0x7FF0000000000001);
#endif
    float value = 7;
    r = postcard_reader_over("\x00\x00\x80", 3);
    CHECK(postcard_get_f32(&r, &value) == POSTCARD_UNEXPECTED_END && value == 7 && r.at == 0);
    w = postcard_writer_over(room, 7);
    CHECK(postcard_put_f64(&w, 1) == POSTCARD_BUFFER_FULL && w.needed == 8);
}

static void compounds(void) {
    begin(); /* DataEnum::Kim(EnumStruct { eight: 0xF0, sixt: 0xACAC }) */
    postcard_put_variant(&w, 3), postcard_put_u8(&w, 0xF0), postcard_put_u16(&w, 0xACAC);
    IS("\x03\xF0\xAC\xD9\x02");
    uint32_t index;
    uint8_t eight;
    uint16_t sixt;
    postcard_get_variant(&r, &index), postcard_get_u8(&r, &eight), postcard_get_u16(&r, &sixt);
    CHECK(index == 3 && eight == 0xF0 && sixt == 0xACAC);
    ends();
    begin(); /* DataEnum::Chi { a: 0x0F, b: 0xC7C7C7C7 } */
    postcard_put_variant(&w, 4), postcard_put_u8(&w, 0x0F), postcard_put_u32(&w, 0xC7C7C7C7);
    IS("\x04\x0F\xC7\x8F\x9F\xBE\x0C");
    begin(); /* RefStruct { bytes: [01, 10, 02, 20], str_s: "hElLo" } */
    postcard_put_bytes(&w, "\x01\x10\x02\x20", 4), postcard_put_str(&w, "hElLo", 5);
    IS("\x04\x01\x10\x02\x20\x05hElLo");
    postcard_slice bytes = {0, 0}, text = {0, 0};
    postcard_get_bytes(&r, &bytes), postcard_get_str(&r, &text);
    CHECK(bytes.size == 4 && bytes.bytes == room + 1 && text.size == 5 && memcmp(text.bytes, "hElLo", 5) == 0);
    ends();
    begin(); /* BTreeMap<u8, u8> 1: 5, 2: 6, 3: 7, 4: 8 */
    postcard_put_count(&w, 4);
    for (uint8_t k = 1; k <= 4; k++) postcard_put_u8(&w, k), postcard_put_u8(&w, k + 4);
    IS("\x04\x01\x05\x02\x06\x03\x07\x04\x08");
    begin(); /* BasicU8S */
    postcard_put_u16(&w, 0xABCD), postcard_put_u8(&w, 0xFE), postcard_put_u64(&w, 0x12344321ABCDDCBA), postcard_put_u32(&w, 0xACACACAC);
    IS("\xCD\xD7\x02\xFE\xBA\xB9\xB7\xDE\x9A\xE4\x90\x9A\x12\xAC\xD9\xB2\xE5\x0A");
    begin(); /* (None::<u8>, Some(7u8), [0u8; 3]) */
    postcard_put_none(&w), postcard_put_some(&w), postcard_put_u8(&w, 7), postcard_put_raw(&w, "\0\0\0", 3);
    IS("\x00\x01\x07\x00\x00\x00");
    bool present = true;
    postcard_get_option(&r, &present);
    CHECK(!present);
    postcard_get_option(&r, &present);
    CHECK(present && r.status == 0);
    postcard_get_u8(&r, &eight);
    postcard_get_raw(&r, 3, &bytes);
    CHECK(eight == 7 && bytes.size == 3 && bytes.bytes == room + 3);
    ends();
}

static void failures(void) {
    w = postcard_writer_over(room, 3);
    CHECK(postcard_put_u16(&w, 0xFFFF) == 0 && w.used == 3 && w.needed == 3);
    CHECK(postcard_put_u8(&w, 1) == POSTCARD_BUFFER_FULL && w.used == 3 && w.needed == 4);
    CHECK(postcard_put_none(&w) == POSTCARD_BUFFER_FULL && w.used == 3 && w.needed == 5);
    memset(room, 0x55, 4);
    w = postcard_writer_over(room, 4); /* a text is written whole or not at all */
    CHECK(postcard_put_str(&w, "four", 4) == POSTCARD_BUFFER_FULL && room[0] == 0x55 && w.needed == 5);
    w = postcard_writer_over(NULL, 0); /* measures */
    CHECK(postcard_put_raw(&w, "", 0) == 0 && postcard_put_raw(&w, NULL, 0) == 0 && w.needed == 0);
    CHECK(postcard_put_u32(&w, 300) == POSTCARD_BUFFER_FULL && postcard_put_str(&w, "abc", 3) == POSTCARD_BUFFER_FULL && w.needed == 6);
    w.needed = SIZE_MAX - 1; /* the count stops at the greatest size */
    CHECK(postcard_put_u32(&w, 300) == POSTCARD_BUFFER_FULL && w.needed == SIZE_MAX);
    w = postcard_writer_over(room, 8), w.used = 99; /* a place past the buffer */
    CHECK(postcard_put_u8(&w, 1) == POSTCARD_BUFFER_FULL && w.used == 99);
    w = postcard_writer_over(room, 8);
    CHECK(postcard_put_str(&w, "\xFF", 1) == POSTCARD_BAD_UTF8 && postcard_put_u8(&w, 1) == POSTCARD_BAD_UTF8);
    w = postcard_writer_over(room, 8);
    CHECK(postcard_put_char(&w, 0xD800) == POSTCARD_BAD_CHAR);
    uint32_t n = 77;
    uint16_t h = 7;
    r = postcard_reader_over("\x80\x80", 2);
    CHECK(postcard_get_u32(&r, &n) == POSTCARD_UNEXPECTED_END && n == 77 && r.at == 0);
    r = postcard_reader_over("\x80\x00", 2);
    CHECK(postcard_get_u32(&r, &n) == 0 && n == 0 && r.at == 2); /* padded: accepted, as in Rust */
    n = 77;
    r = postcard_reader_over("\xFF\xFF\xFF\xFF\x1F", 5);
    CHECK(postcard_get_u32(&r, &n) == POSTCARD_BAD_VARINT);
    bool b;
    r = postcard_reader_over("\x02", 1);
    CHECK(postcard_get_bool(&r, &b) == POSTCARD_BAD_BOOL);
    r = postcard_reader_over("\x02", 1);
    CHECK(postcard_get_option(&r, &b) == POSTCARD_BAD_OPTION);
    postcard_slice s = {0, 0};
    r = postcard_reader_over("\x01\xFF", 2);
    CHECK(postcard_get_str(&r, &s) == POSTCARD_BAD_UTF8 && s.bytes == 0);
    r = postcard_reader_over("\x05zz", 3);
    CHECK(postcard_get_str(&r, &s) == POSTCARD_UNEXPECTED_END && s.bytes == 0 && r.at == 0);
    CHECK(postcard_get_u32(&r, &n) == POSTCARD_UNEXPECTED_END && n == 77 && r.at == 0); /* the failure stays */
    r = postcard_reader_over("\x05\xF0\x90\x8D\x88\x20", 6);
    CHECK(postcard_get_char(&r, &n) == POSTCARD_BAD_CHAR && n == 77);
    r = postcard_reader_over("\x00", 1);
    CHECK(postcard_get_u16_le(&r, &h) == POSTCARD_UNEXPECTED_END && h == 7 && r.at == 0);
    r = postcard_reader_over(NULL, 0);
    CHECK(postcard_get_u32(&r, &n) == POSTCARD_UNEXPECTED_END);
}

/* The check values of the catalogue, of a message in two pieces too, and messages with a checksum after them. */
static void checksums(void) {
    static const char text[] = "123456789";
    for (size_t cut = 0; cut <= 9; cut++) {
        CHECK(postcard_crc32(postcard_crc32(0, text, cut), text + cut, 9 - cut) == 0xCBF43926);
        CHECK(postcard_crc16(postcard_crc16(0, text, cut), text + cut, 9 - cut) == 0x906E);
    }
    CHECK(postcard_crc32(0, NULL, 0) == 0 && postcard_crc16(0, NULL, 0) == 0);
    uint8_t value = 7;
    postcard_slice nine = {0, 0};
    begin(); /* 0u8 by CRC-16/IBM-SDLC */
    postcard_put_u8(&w, 0), postcard_put_crc16(&w);
    IS("\x00\x78\xF0");
    postcard_get_u8(&r, &value), postcard_get_crc16(&r);
    CHECK(value == 0);
    ends();
    begin();
    postcard_put_raw(&w, text, 9), postcard_put_crc32(&w);
    IS("123456789\x26\x39\xF4\xCB");
    postcard_get_raw(&r, 9, &nine), postcard_get_crc32(&r);
    ends();
    for (size_t bit = 0; bit < 13 * 8; bit++) { /* each bit that is changed is seen */
        room[bit / 8] ^= (uint8_t)(1 << bit % 8);
        r = postcard_reader_over(room, 13);
        CHECK(postcard_get_raw(&r, 9, &nine) == 0 && postcard_get_crc32(&r) == POSTCARD_BAD_CRC && r.at == 9);
        room[bit / 8] ^= (uint8_t)(1 << bit % 8);
    }
    r = postcard_reader_over(room, 12);
    CHECK(postcard_get_raw(&r, 9, &nine) == 0 && postcard_get_crc32(&r) == POSTCARD_UNEXPECTED_END && r.at == 9);
    CHECK(postcard_get_crc16(&r) == POSTCARD_UNEXPECTED_END); /* the failure stays */
    r = postcard_reader_over(room, 12), r.at = 99;            /* a place past the bytes */
    CHECK(postcard_get_crc16(&r) == POSTCARD_UNEXPECTED_END && r.at == 99);
    w = postcard_writer_over(room, 12);
    CHECK(postcard_put_raw(&w, text, 9) == 0 && postcard_put_crc32(&w) == POSTCARD_BUFFER_FULL && w.used == 9 && w.needed == 13);
    w = postcard_writer_over(room, 8), w.used = 99;
    CHECK(postcard_put_crc16(&w) == POSTCARD_BUFFER_FULL && w.used == 99);
}

/* The frame of a message has room in so many bytes, and in no fewer. */
static void needs(const void *message, size_t size, size_t wanted) {
    size_t count = 0;
    for (size_t fewer = 0; fewer < wanted; fewer++)
        CHECK(postcard_cobs_encode(message, size, room, fewer, &count) == POSTCARD_BUFFER_FULL);
    CHECK(postcard_cobs_encode(message, size, room, wanted, &count) == 0 && count == wanted);
}

static void frames(void) {
    static uint8_t ones[300], zeros[20], mixed[40];
    uint8_t frame[64];
    size_t count = 0;
    memset(ones, 1, sizeof ones), memset(mixed, 1, sizeof mixed);
    mixed[0] = mixed[3] = mixed[20] = mixed[21] = mixed[39] = 0;
    needs("", 0, 2), needs(ones, 4, 6), needs(zeros, 20, 22), needs(mixed, 40, 42);
    needs(ones, 300, 303); /* two groups, of 254 bytes and of 46 */
    CHECK(postcard_cobs_encode("\x03Hi!", 4, frame, sizeof frame, &count) == 0);
    CHECK(count == 6 && memcmp(frame, "\x05\x03Hi!\x00", 6) == 0);
    CHECK(postcard_cobs_encode("\x03Hi!", 4, frame, 5, &count) == POSTCARD_BUFFER_FULL);
    CHECK(postcard_cobs_encode("\x00\x78\xF0", 3, frame, sizeof frame, &count) == 0); /* 0u8 with its checksum of 16 bits */
    CHECK(count == 5 && memcmp(frame, "\x01\x03\x78\xF0\x00", 5) == 0);
    CHECK(postcard_cobs_decode(frame, count, &count) == 0 && count == 3);
    uint8_t value = 7;
    r = postcard_reader_over(frame, count);
    CHECK(postcard_get_u8(&r, &value) == 0 && value == 0 && postcard_get_crc16(&r) == 0 && r.at == 3);
    memcpy(frame, "\x03\x04\x01\x09\x02\x20\x05\x68\x45\x6C\x4C\x6F\x00", 13);
    CHECK(postcard_cobs_decode(frame, 13, &count) == 0 && count == 11);
    CHECK(memcmp(frame, "\x04\x01\x00\x02\x20\x05hElLo", 11) == 0);
    memcpy(frame, "\x05\x01\x00", 3);
    CHECK(postcard_cobs_decode(frame, 3, &count) == POSTCARD_BAD_FRAME);
    CHECK(postcard_cobs_decode(frame, 0, &count) == POSTCARD_BAD_FRAME);
}

/* Two frames, one damaged, one oversized, and a good one, in pieces of each size. */
static void streams(void) {
    static const uint8_t stream[] = "\x03\x0A\x14\x00\x06\xD7\x91\xBD\x7A\x73\x00\x05\x01\x00"
                                    "\x11" "aaaaaaaaaaaaaaaa" "\x00\x03\x0A\x15";
    static const uint32_t wanted[] = {10, 20, 256854231, 115, POSTCARD_DAMAGED, POSTCARD_OVERSIZED, 10, 21};
    for (size_t piece = 1; piece <= sizeof stream; piece++) {
        uint8_t buffer[12];
        uint32_t got[16];
        size_t n = 0;
        postcard_accumulator a = postcard_accumulator_over(buffer, sizeof buffer);
        for (size_t from = 0; from < sizeof stream; from += piece) {
            size_t size = sizeof stream - from < piece ? sizeof stream - from : piece;
            for (size_t at = 0; at < size;) {
                size_t taken = 0, count = 0;
                uint32_t answer = postcard_feed(&a, stream + from + at, size - at, &taken, &count);
                at += taken;
                if (answer == POSTCARD_FRAME) {
                    uint8_t last = 0;
                    r = postcard_reader_over(buffer, count);
                    postcard_get_u32(&r, &got[n++]), postcard_get_u8(&r, &last);
                    got[n++] = last;
                    CHECK(r.status == 0);
                } else if (answer != POSTCARD_CONSUMED)
                    got[n++] = answer;
            }
        }
        CHECK(n == 8 && memcmp(got, wanted, sizeof wanted) == 0);
    }
}

int main(void) {
    numbers(), wide(), floats(), compounds(), failures(), checksums(), frames(), streams();
    passed();
    return 0;
}
