/* The library as C source beside the archive, in one program: the same random calls on both, of which each result, each field and each
 * byte must agree. `names.h` has a line X(NAME) for each function that postcard.h declares; the source is compiled with each NAME defined
 * as source_NAME (tools/c-library). The first argument is the number of calls at least, a million by default; the second is the seed. */
#include <stdio.h>
#include <stdlib.h>
#include "postcard.h"

#define X(name) __typeof__(name) source_##name;
#include "names.h"
#undef X

enum { ROOM = 700 };
static uint64_t state = 0x9E3779B97F4A7C15u, calls;
static uint8_t bytes[ROOM], ours[ROOM], theirs[ROOM];

static uint64_t any(void) {
    state ^= state << 13, state ^= state >> 7, state ^= state << 17;
    return state * 0x2545F4914F6CDD1Du;
}
static uint64_t below(uint64_t n) { return (any() >> 8) % n; }

static void require(bool same, const char *what) {
    if (same) return;
    printf("different after %llu calls: %s\n", (unsigned long long)calls, what);
    exit(1);
}

/* A number of any length, often one beside a power of two. */
static uint64_t number(void) {
    uint64_t n = any() >> below(64);
    switch (below(8)) {
    case 0: return n & ~(uint64_t)0 << below(64);
    case 1: return ~n;
    case 2: return (uint64_t)1 << below(64);
    case 3: return ((uint64_t)1 << below(64)) - 1;
    default: return n;
    }
}

/* Bytes beside the ends of the ranges that UTF-8 and varints have. */
static uint8_t edge(void) {
    static const uint8_t edges[] = {0x7F, 0x80, 0x8F, 0x90, 0x9F, 0xA0, 0xBF, 0xC0, 0xC1, 0xC2, 0xDF, 0xE0, 0xED, 0xEF, 0xF0, 0xF4, 0xF5, 0xFF};
    return edges[below(sizeof edges)];
}

/* Appends the UTF-8 of a scalar value, or of a number that is none. */
static size_t text_at(size_t at, size_t end) {
    uint32_t code = (uint32_t)(below(0x110800) >> below(21));
    uint8_t unit[4] = {(uint8_t)code};
    size_t size = code < 0x80 ? 1 : code < 0x800 ? 2 : code < 0x10000 ? 3 : 4;
    static const uint8_t first[] = {0, 0, 0xC0, 0xE0, 0xF0};
    for (size_t i = size; size > 1 && i-- > 0; code >>= 6) unit[i] = (uint8_t)(i ? 0x80 | (code & 63) : first[size] | code);
    if (below(200) == 0) unit[below(size)] ^= (uint8_t)(1u << below(8));
    if (below(100) == 0) unit[below(size)] = edge();
    for (size_t i = 0; i < size && at < end; i++) bytes[at++] = unit[i];
    return at;
}

static void random_bytes(size_t size) {
    uint64_t kind = below(7), near = 1 + below(300);
    for (size_t i = 0; i < size;) {
        if (kind == 0) bytes[i++] = (uint8_t)any();
        else if (kind == 1) bytes[i++] = (uint8_t)below(3);
        else if (kind == 2) bytes[i++] = (uint8_t)('a' + below(26));
        else if (kind == 3) bytes[i++] = below(near) ? (uint8_t)(1 + below(255)) : 0;
        else if (kind == 4) bytes[i++] = (uint8_t)(any() | (below(8) ? 0x80 : 0));
        else if (kind == 5) bytes[i++] = (uint8_t)(below(40) ? below(128) : any());
        else i = text_at(i, size);
    }
}

/* The calls that write, all by the same arguments. */
typedef uint32_t put(postcard_writer *w, uint64_t x, uint64_t y, size_t size);
#define BOTH(result, name, parameters, call)                                                                          \
    static result archive_##name parameters { return postcard_##name call; }                                          \
    static result source_##name parameters { return source_postcard_##name call; }
#define PUT(name, call) BOTH(uint32_t, name, (postcard_writer *w, uint64_t x, uint64_t y, size_t size), call)
#define UNUSED (void)x, (void)y, (void)size,
#define ONE(name, type) PUT(name, ((UNUSED w), (type)x))
#define TWO(name) PUT(name, ((UNUSED w), x, y))
#define NONE(name) PUT(name, ((UNUSED w)))
#define SPAN(name, type) PUT(name, ((UNUSED w), (type)bytes, size))
ONE(put_bool, bool) ONE(put_u8, uint8_t) ONE(put_u16, uint16_t) ONE(put_u32, uint32_t) ONE(put_u64, uint64_t) ONE(put_i8, int8_t)
ONE(put_i16, int16_t) ONE(put_i32, int32_t) ONE(put_i64, int64_t) ONE(put_variant, uint32_t) ONE(put_count, size_t)
ONE(put_u16_le, uint16_t) ONE(put_u32_le, uint32_t) ONE(put_u64_le, uint64_t) ONE(put_u16_be, uint16_t) ONE(put_u32_be, uint32_t)
ONE(put_u64_be, uint64_t) PUT(put_char, ((UNUSED w), (uint32_t)(x % 0x120000)))
TWO(put_u128) TWO(put_i128) TWO(put_u128_le) TWO(put_u128_be)
NONE(put_none) NONE(put_some) NONE(put_crc32) NONE(put_crc16)
SPAN(put_str, const char *) SPAN(put_bytes, const void *) SPAN(put_raw, const void *)
#define P(name) {archive_put_##name, source_put_##name}
static put *const puts_[][2] = {P(bool), P(u8), P(u16), P(u32), P(u64), P(i8), P(i16), P(i32), P(i64), P(variant), P(count), P(u16_le),
    P(u32_le), P(u64_le), P(u16_be), P(u32_be), P(u64_be), P(char), P(u128), P(i128), P(u128_le), P(u128_be), P(none), P(some), P(crc32),
    P(crc16), P(str), P(bytes), P(raw)};

/* The calls that read, all by the same arguments: what is written to is read first. */
typedef uint32_t get(postcard_reader *r, uint64_t out[2], postcard_slice *lent, size_t size);
#define GET(name, before, call, after)                                                                                \
    static uint32_t archive_##name(postcard_reader *r, uint64_t out[2], postcard_slice *lent, size_t size) {          \
        before uint32_t status = postcard_##name call; after (void)lent, (void)size, (void)out; return status; }      \
    static uint32_t source_##name(postcard_reader *r, uint64_t out[2], postcard_slice *lent, size_t size) {           \
        before uint32_t status = source_postcard_##name call; after (void)lent, (void)size, (void)out; return status; }
#define VALUE(name, type) GET(name, type v = (type)out[0];, (r, &v), out[0] = (uint64_t)v;)
#define HALVES(name) GET(name, , (r, &out[0], &out[1]), )
#define LENT(name) GET(name, , (r, lent), )
VALUE(get_bool, bool) VALUE(get_u8, uint8_t) VALUE(get_u16, uint16_t) VALUE(get_u32, uint32_t) VALUE(get_u64, uint64_t)
VALUE(get_i8, int8_t) VALUE(get_i16, int16_t) VALUE(get_i32, int32_t) VALUE(get_i64, int64_t) VALUE(get_char, uint32_t)
VALUE(get_option, bool) VALUE(get_variant, uint32_t) VALUE(get_count, size_t) VALUE(get_u16_le, uint16_t) VALUE(get_u32_le, uint32_t)
VALUE(get_u64_le, uint64_t) VALUE(get_u16_be, uint16_t) VALUE(get_u32_be, uint32_t) VALUE(get_u64_be, uint64_t)
HALVES(get_u128) HALVES(get_i128) HALVES(get_u128_le) HALVES(get_u128_be) LENT(get_str) LENT(get_bytes)
GET(get_raw, , (r, size, lent), ) GET(get_crc32, , (r), ) GET(get_crc16, , (r), )
#define G(name) {archive_get_##name, source_get_##name}
static get *const gets_[][2] = {G(bool), G(u8), G(u16), G(u32), G(u64), G(i8), G(i16), G(i32), G(i64), G(char), G(option), G(variant),
    G(count), G(u16_le), G(u32_le), G(u64_le), G(u16_be), G(u32_be), G(u64_be), G(u128), G(i128), G(u128_le), G(u128_be), G(str), G(bytes),
    G(raw), G(crc32), G(crc16)};

/* Writes by random calls, after some of which a field gets another number. */
static void write_some(void) {
    size_t room = (size_t)(below(3) ? below(40) : below(ROOM));
    postcard_writer a = postcard_writer_over(ours, room), b = postcard_writer_over(theirs, room);
    for (size_t i = 0; i < ROOM; i++) ours[i] = theirs[i] = (uint8_t)any();
    for (uint64_t left = below(12); left-- > 0; calls++) {
        if (below(40) == 0) a.used = b.used = (size_t)number();
        if (below(40) == 0) a.needed = b.needed = (size_t)number();
        if (below(60) == 0) a.status = b.status = (uint32_t)number();
        uint64_t x = number(), y = number();
        size_t size = (size_t)(below(3) ? below(20) : below(ROOM));
        put *const *pair = puts_[below(sizeof puts_ / sizeof *puts_)];
        random_bytes(size);
        require(pair[0](&a, x, y, size) == pair[1](&b, x, y, size), "what a writer returns");
        require(a.used == b.used && a.needed == b.needed && a.status == b.status && a.size == b.size, "a writer's fields");
        require(a.buffer == ours && b.buffer == theirs && memcmp(ours, theirs, ROOM) == 0, "what is written");
    }
}

/* Puts the right checksum of the bytes that are read, or of the frame's, after them. */
static void right_checksum(const postcard_reader *r) {
    bool wide = below(2);
    if (r->at > r->size || r->size - r->at < 4) return;
    uint32_t sum = wide ? postcard_crc32(0, bytes, r->at) : postcard_crc16(0, bytes, r->at);
    for (unsigned i = 0; i < 4; i++) bytes[r->at + i] = (uint8_t)(sum >> 8 * i);
}

static void read_some(void) {
    size_t size = (size_t)(below(3) ? below(40) : below(ROOM));
    random_bytes(size);
    if (size > 3 && below(2)) bytes[0] = (uint8_t)(size - 1 - below(3));
    postcard_reader a = postcard_reader_over(bytes, size), b = a;
    for (uint64_t left = below(12); left-- > 0; calls++) {
        if (below(40) == 0) a.at = b.at = (size_t)number();
        if (below(4) == 0) a.at = b.at = (size_t)below(size + 2), a.status = b.status = 0;
        if (below(60) == 0) a.status = b.status = (uint32_t)number();
        if (below(10) == 0) right_checksum(&a);
        uint64_t x[2] = {number(), number()}, y[2] = {x[0], x[1]};
        postcard_slice lent = {bytes + 3, 5}, same = lent;
        size_t wanted = (size_t)(below(5) ? below(40) : number());
        get *const *pair = gets_[below(sizeof gets_ / sizeof *gets_)];
        require(pair[0](&a, x, &lent, wanted) == pair[1](&b, y, &same, wanted), "what a reader returns");
        require(a.at == b.at && a.status == b.status && a.bytes == b.bytes && a.size == b.size, "a reader's fields");
        require(x[0] == y[0] && x[1] == y[1] && lent.bytes == same.bytes && lent.size == same.size, "what is read");
    }
}

/* Short strings of which one byte is often beside the end of a range, written, and read as a string and as a `char`. */
static void text_some(void) {
    size_t end = 1;
    while (end < 40 && below(3)) end = text_at(end, 40);
    if (end > 1 && below(2)) bytes[1 + below(end - 1)] = edge();
    postcard_writer a = postcard_writer_over(ours, ROOM), b = postcard_writer_over(theirs, ROOM);
    require(archive_put_str(&a, 0, 0, end) == source_put_str(&b, 0, 0, end) && a.used == b.used, "a string of any bytes");
    bytes[0] = (uint8_t)(end - 1);
    for (int i = 0; i < 2; i++, calls++) {
        postcard_reader r = postcard_reader_over(bytes, end), s = r;
        uint64_t x[2] = {1, 1}, y[2] = {1, 1};
        postcard_slice lent = {bytes, 0}, same = lent;
        get *const *pair = (get *const[2][2]){G(str), G(char)}[i];
        require(pair[0](&r, x, &lent, 0) == pair[1](&s, y, &same, 0) && r.at == s.at && r.status == s.status, "a string");
        require(x[0] == y[0] && lent.bytes == same.bytes && lent.size == same.size, "what a string is");
    }
}

/* Frames of random bytes, and random bytes as frames. What a failed call leaves in its buffer is no part of its contract. */
static void frame_some(void) {
    size_t size = (size_t)(below(3) ? below(40) : below(ROOM)), a = 7, b = 7;
    size_t room = below(2) ? POSTCARD_FRAME_SIZE(size) : (size_t)below(ROOM);
    if (room > ROOM) room = ROOM;
    random_bytes(size);
    memset(ours, 0xEE, ROOM), memset(theirs, 0xEE, ROOM);
    uint32_t status = postcard_cobs_encode(bytes, size, ours, room, &a);
    require(source_postcard_cobs_encode(bytes, size, theirs, room, &b) == status && a == b, "what encoding returns");
    require(status || memcmp(ours, theirs, ROOM) == 0, "a frame");
    if (status == 0 && below(2)) memcpy(bytes, ours, a), size = a;
    if (size && below(3) == 0) bytes[below(size)] = (uint8_t)any();
    memcpy(ours, bytes, ROOM), memcpy(theirs, bytes, ROOM);
    status = postcard_cobs_decode(ours, size, &a);
    require(source_postcard_cobs_decode(theirs, size, &b) == status && a == b, "what decoding returns");
    require(status || memcmp(ours, theirs, ROOM) == 0, "the data of a frame");
    uint32_t so_far = (uint32_t)number();
    require(postcard_crc32(so_far, bytes, size) == source_postcard_crc32(so_far, bytes, size), "crc32");
    require(postcard_crc16((uint16_t)so_far, bytes, size) == source_postcard_crc16((uint16_t)so_far, bytes, size), "crc16");
    calls += 4;
}

static void feed_some(void) {
    size_t room = (size_t)(below(2) ? below(20) : below(ROOM)), size = (size_t)below(ROOM);
    postcard_accumulator a = postcard_accumulator_over(ours, room), b = postcard_accumulator_over(theirs, room);
    memset(ours, 0xEE, ROOM), memset(theirs, 0xEE, ROOM);
    random_bytes(size);
    for (size_t at = 0; at < size; calls++) {
        if (below(40) == 0) a.held = b.held = (size_t)(below(2) ? number() : below(30));
        if (below(40) == 0) a.skipping = b.skipping = below(2);
        size_t piece = below(2) ? size - at : (size_t)below(size - at + 1), taken = 3, took = 3, count = 3, counted = 3;
        uint32_t answer = postcard_feed(&a, bytes + at, piece, &taken, &count);
        require(source_postcard_feed(&b, bytes + at, piece, &took, &counted) == answer, "an accumulator's answer");
        require(taken == took && count == counted && a.held == b.held && a.skipping == b.skipping, "an accumulator's fields");
        require(answer == POSTCARD_DAMAGED || memcmp(ours, theirs, ROOM) == 0, "what an accumulator holds");
        memcpy(theirs, ours, ROOM);
        at += taken ? taken : 1;
    }
}

int main(int count, char **words) {
    uint64_t wanted = count > 1 ? strtoull(words[1], NULL, 10) : 1000000;
    if (count > 2) state ^= strtoull(words[2], NULL, 10) * 0xD1342543DE82EF95u;
    while (calls < wanted) {
        for (int i = 0; i < 4; i++) write_some(), read_some(), text_some(), frame_some();
        feed_some();
    }
    return puts("random calls on source and archive: all the same") < 0;
}
