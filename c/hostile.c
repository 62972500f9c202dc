/* Hostile input: random streams, bytes and fields, the latter also as C must not leave them, in buffers with guard bytes
 * around them. What must hold whatever happens: a call returns, touches only its memory, and lends only bytes of its
 * reader. It prints one line, and ends with 1 at the first check that fails. */
#include <stdio.h>
#include <stdlib.h>
#include <string.h>
#include "postcard.h"

enum { GUARD = 16, ROOM = 16, PIECE = 32, ROUNDS = 300000 };
static uint64_t state = 88172645463325252u;
static uint32_t next(void) {
    state ^= state << 13, state ^= state >> 7, state ^= state << 17;
    return (uint32_t)(state >> 16);
}
static void require(bool fact, const char *what) {
    if (fact) return;
    printf("hostile: %s\n", what);
    exit(1);
}
static uint8_t area[GUARD + ROOM + GUARD], piece[PIECE];
static size_t room, size;

/* New random bytes, many of them small, and a buffer between guards. */
static void begin(void) {
    memset(area, 0xEE, sizeof area);
    room = next() % (ROOM + 1), size = next() % (PIECE + 1);
    for (size_t i = 0; i < size; i++) piece[i] = next() % 4 ? (uint8_t)(next() % 6) : (uint8_t)next();
}
static void guards(void) {
    for (size_t i = 0; i < GUARD; i++) require(area[i] == 0xEE && area[GUARD + room + i] == 0xEE, "a guard was written");
}

static void feeds(int round) {
    postcard_accumulator a = postcard_accumulator_over(area + GUARD, room);
    if (round % 5 == 0) a.held = next() % 64;
    if (round % 7 == 0) a.skipping = true;
    for (size_t at = 0; at < size;) {
        size_t taken = 0, count = 0;
        uint32_t answer = postcard_feed(&a, piece + at, size - at, &taken, &count);
        require(answer <= POSTCARD_DAMAGED && taken > 0 && taken <= size - at && count <= room && a.held <= room, "a bad feed");
        at += taken;
    }
}

static void get_one(postcard_reader *r, postcard_slice *lent) {
    uint64_t u, v;
    uint16_t h;
    int32_t i;
    uint32_t c;
    bool b;
    double d;
    switch (next() % 14) {
        case 0: postcard_get_u64(r, &u); break;
        case 1: postcard_get_u16(r, &h); break;
        case 2: postcard_get_i32(r, &i); break;
        case 3: postcard_get_bool(r, &b); break;
        case 4: postcard_get_char(r, &c); break;
        case 5: postcard_get_str(r, lent); break;
        case 6: postcard_get_bytes(r, lent); break;
        case 7: u = 0, v = 0, postcard_get_i128(r, &u, &v); break;
        case 8: postcard_get_raw(r, next() % 40, lent); break;
        case 9: postcard_get_u32_be(r, &c); break;
        case 10: postcard_get_f64(r, &d); break;
        case 11: postcard_get_crc32(r); break;
        case 12: postcard_get_crc16(r); break;
        default: postcard_get_option(r, &b); break;
    }
}
static void reads(int round) {
    postcard_reader r = postcard_reader_over(piece, size);
    if (round % 9 == 0) r.at = round % 18 ? next() % 99 : SIZE_MAX - next() % 3;
    for (int calls = 0; calls < 40 && r.status == 0; calls++) {
        postcard_slice lent = {piece, 0};
        size_t before = r.at;
        get_one(&r, &lent);
        require(r.status ? r.at == before && lent.size == 0 : r.at <= size || r.at == before, "a bad place");
        require(lent.bytes >= piece && lent.size <= PIECE && lent.bytes + lent.size <= piece + size, "bytes lent from elsewhere");
    }
}

static void writes(int round) {
    postcard_writer w = postcard_writer_over(area + GUARD, room);
    if (round % 11 == 0) w.used = round % 22 ? next() % 64 : SIZE_MAX - next() % 3;
    for (int calls = 0; calls < 6; calls++) {
        size_t before = w.used;
        postcard_status failed = w.status;
        switch (next() % 8) {
            case 0: postcard_put_u64(&w, next()); break;
            case 1: postcard_put_raw(&w, piece, size); break;
            case 2: postcard_put_str(&w, (const char *)piece, size); break;
            case 3: postcard_put_char(&w, next()); break;
            case 4: postcard_put_crc32(&w); break;
            case 5: postcard_put_crc16(&w); break;
            case 6: postcard_put_f32(&w, 1); break;
            default: postcard_put_u128_le(&w, next(), next()); break;
        }
        require(w.status ? w.used == before : w.used <= room, "a bad place");
        require(failed == 0 || w.status == failed, "a status that changes");
    }
}

static void frames(void) {
    size_t count = 77;
    postcard_status status = postcard_cobs_encode(piece, size, area + GUARD, room, &count);
    require(status ? status == POSTCARD_BUFFER_FULL && count == 77 : count <= room && area[GUARD + count - 1] == 0, "a bad frame");
    count = 77;
    status = postcard_cobs_decode(area + GUARD, room, &count);
    require(status ? status == POSTCARD_BAD_FRAME && count == 77 : count < room, "bad data of a frame");
}

int main(void) {
    for (int round = 0; round < ROUNDS; round++) {
        begin();
        feeds(round), guards();
        reads(round);
        writes(round), guards();
        frames(), guards();
    }
    puts("hostile input does no harm");
    return 0;
}
