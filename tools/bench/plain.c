/* The plain loops of plain.h. */
#include "plain.h"
#include "bytes.h"
#include <stdlib.h>
#include <string.h>

static bool put_number(Room *room, uint32_t number) {
    for (; number > 127; number >>= 7)
        if (!put(room, (uint8_t)(number | 128))) return false;
    return put(room, (uint8_t)number);
}

static bool put_text(Room *room, const char *text, size_t size) {
    if (!put_number(room, (uint32_t)size) || (size_t)(room->end - room->at) < size) return false;
    memcpy(room->at, text, size);
    room->at += size;
    return true;
}

static bool put_record(Room *room, uint32_t i) {
    uint32_t mixed = i * 2654435761u, high = mixed >> 16;
    if (!put_number(room, mixed >> (i % 4 * 8)) || !put_number(room, i % 2 == 0 ? high : high >> 8)) return false;
    if (!put(room, i % 3 != 0) || (i % 3 != 0 && !put(room, (uint8_t)i))) return false;
    return put_text(room, "twelve bytes", 12);
}

uint64_t plain_record(uint32_t i, uint8_t *out, size_t size) {
    Room room = {out, out + size};
    return put_record(&room, i) ? (uint64_t)(room.at - out) : UINT64_MAX;
}

/* Makes the frame of the `used` bytes behind the first of `out` in place: each zero, and the first byte, become the way to the next
 * zero. The data has fewer than 254 bytes. */
static bool close_frame(uint8_t *out, size_t used, size_t size) {
    if (used + 2 > size || used >= 254) return false;
    size_t next = used + 1;
    out[next] = 0;
    for (size_t at = next; at-- > 0;)
        if (at == 0 || out[at] == 0) out[at] = (uint8_t)(next - at), next = at;
    return true;
}

uint64_t plain_record_frame(uint32_t i, uint8_t *out, size_t size) {
    if (size == 0) return UINT64_MAX;
    uint64_t used = plain_record(i, out + 1, size - 1);
    return used != UINT64_MAX && close_frame(out, used, size) ? used + 2 : UINT64_MAX;
}

uint64_t plain_small_encode(uint32_t count, uint8_t *out, size_t size) {
    uint64_t sum = 0;
    for (uint32_t i = 0; i < count; i++) {
        uint64_t used = plain_record(i, out, size);
        if (used == UINT64_MAX) return used;
        sum += used + out[used - 1];
    }
    return sum;
}

uint64_t plain_u32s_encode(const uint32_t *values, size_t count, uint8_t *out, size_t size) {
    Room room = {out, out + size};
    if (!put_number(&room, (uint32_t)count)) return UINT64_MAX;
    for (size_t i = 0; i < count; i++)
        if (!put_number(&room, values[i])) return UINT64_MAX;
    return (uint64_t)(room.at - out);
}

uint64_t plain_records(uint32_t count, uint8_t *out, size_t size) {
    Room room = {out, out + size};
    for (uint32_t i = 0; i < count; i++)
        if (!put_record(&room, i)) return UINT64_MAX;
    return (uint64_t)(room.at - out);
}

uint64_t plain_small_allocate(uint32_t count) {
    uint64_t sum = 0;
    for (uint32_t i = 0; i < count; i++) {
        uint8_t *block = malloc(24);
        uint64_t used = block ? plain_record(i, block, 24) : UINT64_MAX;
        free(block);
        if (used == UINT64_MAX) return used;
        sum += used;
    }
    return sum;
}

uint64_t plain_frames_encode(uint32_t count, uint8_t *out, size_t size) {
    size_t used = 0;
    for (uint32_t i = 0; i < count; i++) {
        uint64_t frame = plain_record_frame(i, out + used, size - used);
        if (frame == UINT64_MAX) return frame;
        used += frame;
    }
    return used;
}

static bool take_number(Bytes *bytes, int bits, uint32_t *number) {
    uint8_t byte = 128;
    *number = 0;
    for (int shift = 0; byte > 127; shift += 7) {
        if (shift >= bits || !take(bytes, &byte)) return false;
        if (bits - shift < 7 && (byte & 127) >> (bits - shift)) return false;
        *number |= (uint32_t)(byte & 127) << shift;
    }
    return true;
}

uint64_t plain_u32s_decode(const uint8_t *bytes, size_t size) {
    Bytes rest = {bytes, bytes + size};
    uint32_t count;
    uint64_t sum = 0;
    if (!take_number(&rest, 32, &count) || count > size) return UINT64_MAX;
    uint32_t *values = malloc(count * sizeof *values + 1);
    if (!values) return UINT64_MAX;
    for (uint32_t i = 0; i < count; i++)
        if (!take_number(&rest, 32, &values[i])) return free(values), UINT64_MAX;
    for (uint32_t i = 0; i < count; i++) sum += values[i];
    free(values);
    return sum;
}

/* Whether the bytes are UTF-8: of these records, ASCII; any other text is refused. */
static bool is_text(const uint8_t *bytes, size_t size) {
    uint8_t all = 0;
    for (size_t i = 0; i < size; i++) all |= bytes[i];
    return all < 128;
}

typedef struct { uint32_t a, b, c, length; } Fields;

static bool take_record(Bytes *bytes, Fields *record) {
    uint8_t some, c = 7;
    if (!take_number(bytes, 32, &record->a) || !take_number(bytes, 16, &record->b) || !take(bytes, &some) || some > 1) return false;
    if (some && !take(bytes, &c)) return false;
    record->c = c;
    if (!take_number(bytes, 32, &record->length) || (size_t)(bytes->end - bytes->at) < record->length) return false;
    if (!is_text(bytes->at, record->length)) return false;
    bytes->at += record->length;
    return true;
}

size_t plain_first_field(const uint8_t *bytes, size_t size, uint32_t *first) {
    Bytes rest = {bytes, bytes + size};
    Fields record;
    if (!take_record(&rest, &record)) return 0;
    *first = record.a;
    return (size_t)(rest.at - bytes);
}

static bool add_record(Bytes *bytes, uint64_t *sum) {
    Fields record;
    if (!take_record(bytes, &record)) return false;
    *sum += (uint64_t)record.a + record.b + record.c + record.length;
    return true;
}

uint64_t plain_records_decode(uint32_t count, const uint8_t *bytes, size_t size) {
    Bytes rest = {bytes, bytes + size};
    uint64_t sum = 0;
    for (uint32_t i = 0; i < count; i++)
        if (!add_record(&rest, &sum)) return UINT64_MAX;
    return sum;
}

/* Decodes the frame of `size` bytes, without its zero, to the front of `frame`. Returns the number of bytes of its data. */
static uint64_t open_frame(uint8_t *frame, size_t size) {
    size_t from = 0, to = 0;
    while (from < size) {
        size_t code = frame[from];
        if (code > size - from) return UINT64_MAX;
        memmove(frame + to, frame + from + 1, code - 1);
        from += code, to += code - 1;
        if (code < 255 && from < size) frame[to++] = 0;
    }
    return to;
}

uint64_t plain_frames_decode(uint32_t count, uint8_t *frames, size_t size) {
    uint64_t sum = 0;
    for (uint32_t i = 0; i < count; i++) {
        uint8_t *zero = memchr(frames, 0, size);
        uint64_t data = zero ? open_frame(frames, (size_t)(zero - frames)) : UINT64_MAX;
        if (data == UINT64_MAX || !add_record(&(Bytes){frames, frames + data}, &sum)) return UINT64_MAX;
        size -= (size_t)(zero + 1 - frames);
        frames = zero + 1;
    }
    return sum;
}

uint64_t plain_accumulate(const uint8_t *stream, size_t size, size_t piece) {
    uint8_t held[64];
    size_t used = 0;
    uint64_t sum = 0;
    for (size_t at = 0; at < size; at += piece) {
        size_t end = size - at < piece ? size : at + piece;
        for (size_t from = at; from < end;) {
            const uint8_t *zero = memchr(stream + from, 0, end - from);
            size_t part = zero ? (size_t)(zero - stream) - from : end - from;
            if (part > sizeof held - used) return UINT64_MAX;
            memcpy(held + used, stream + from, part);
            used += part, from += part + 1;
            if (!zero) break;
            uint64_t data = open_frame(held, used);
            used = 0;
            if (data == UINT64_MAX || !add_record(&(Bytes){held, held + data}, &sum)) return UINT64_MAX;
        }
    }
    return sum;
}

static size_t width_of(int kind) { return kind == 2 ? 8 : kind == 3 ? 2 : 4; }

static void copy_of_kind(int kind, const uint8_t *from, uint8_t *to, size_t count) {
    uint32_t word;
    uint16_t half;
    if (kind == 0 || kind == 2) memcpy(to, from, count * width_of(kind));
    if (kind == 1)
        for (size_t i = 0; i < count; i++) memcpy(&word, from + 4 * i, 4), word = __builtin_bswap32(word), memcpy(to + 4 * i, &word, 4);
    if (kind == 3)
        for (size_t i = 0; i < count; i++) memcpy(&half, from + 2 * i, 2), half = __builtin_bswap16(half), memcpy(to + 2 * i, &half, 2);
}

uint64_t plain_fixed_encode(int kind, const void *values, size_t count, uint8_t *out, size_t size) {
    Room room = {out, out + size};
    if (!put_number(&room, (uint32_t)count) || (size_t)(room.end - room.at) < count * width_of(kind)) return UINT64_MAX;
    copy_of_kind(kind, values, room.at, count);
    return (uint64_t)(room.at - out) + count * width_of(kind);
}

uint64_t plain_fixed_decode(int kind, const uint8_t *bytes, size_t size, size_t count, void *values) {
    Bytes rest = {bytes, bytes + size};
    uint32_t announced;
    if (!take_number(&rest, 32, &announced) || announced != count || (size_t)(rest.end - rest.at) < count * width_of(kind)) return UINT64_MAX;
    copy_of_kind(kind, rest.at, values, count);
    return count;
}
