/* The rows of crates/test_vectors/stdin, which say how a row is written, by the calls of postcard.h: those of numbers,
 * floats but for a NaN, booleans, characters and texts without escapes. It reads them from its standard input and prints one line, or each row
 * that is wrong. */
#include <stdio.h>
#include <stdlib.h>
#include <string.h>
#include "postcard.h"

/* A number of at most 128 bits, in two's complement, or the bits of a float. */
typedef struct { uint64_t low, high; } number;

enum kind { OTHER, BOOL, U8, U16, U32, U64, U128, I8, I16, I32, I64, I128, F32, F64, CHAR, STR };
static enum kind kind_of(const char *name) {
    static const struct { const char *name; enum kind kind; } names[] = {
        {"bool", BOOL}, {"u8", U8}, {"u16", U16}, {"u32", U32}, {"u64", U64}, {"u128", U128}, {"usize", U64}, {"i8", I8}, {"i16", I16},
        {"i32", I32}, {"i64", I64}, {"i128", I128}, {"isize", I64}, {"f32", F32}, {"f64", F64}, {"char", CHAR}, {"&str", STR}, {"String", STR}};
    for (size_t i = 0; i < sizeof names / sizeof *names; i++)
        if (strcmp(name, names[i].name) == 0) return names[i].kind;
    return OTHER;
}

/* What is read of a row: its number, or its text. */
typedef struct { number n; postcard_slice text; } value;

static uint64_t bits_of_f32(float f) {
    uint32_t bits;
    return memcpy(&bits, &f, sizeof bits), bits;
}
static uint64_t bits_of_f64(double f) {
    uint64_t bits;
    return memcpy(&bits, &f, sizeof bits), bits;
}
static number widened(int64_t signed_one) {
    number n = {(uint64_t)signed_one, signed_one < 0 ? UINT64_MAX : 0};
    return n;
}
static postcard_status get(postcard_reader *r, enum kind kind, value *v) {
    bool b = false;
    uint8_t u8 = 0;
    uint16_t u16 = 0;
    uint32_t u32 = 0;
    int8_t i8 = 0;
    int16_t i16 = 0;
    int32_t i32 = 0;
    int64_t i64 = 0;
    float f32 = 0;
    double f64 = 0;
    v->n.low = v->n.high = 0;
    switch (kind) {
        case BOOL: postcard_get_bool(r, &b), v->n.low = b; break;
        case U8: postcard_get_u8(r, &u8), v->n.low = u8; break;
        case U16: postcard_get_u16(r, &u16), v->n.low = u16; break;
        case U32: postcard_get_u32(r, &u32), v->n.low = u32; break;
        case U64: postcard_get_u64(r, &v->n.low); break;
        case U128: postcard_get_u128(r, &v->n.low, &v->n.high); break;
        case I8: postcard_get_i8(r, &i8), v->n = widened(i8); break;
        case I16: postcard_get_i16(r, &i16), v->n = widened(i16); break;
        case I32: postcard_get_i32(r, &i32), v->n = widened(i32); break;
        case I64: postcard_get_i64(r, &i64), v->n = widened(i64); break;
        case I128: postcard_get_i128(r, &v->n.low, &v->n.high); break;
        case F32: postcard_get_f32(r, &f32), v->n.low = bits_of_f32(f32); break;
        case F64: postcard_get_f64(r, &f64), v->n.low = bits_of_f64(f64); break;
        case CHAR: postcard_get_char(r, &u32), v->n.low = u32; break;
        default: postcard_get_str(r, &v->text); break;
    }
    return r->status;
}
static postcard_status put(postcard_writer *w, enum kind kind, const value *v) {
    uint64_t low = v->n.low;
    uint32_t low_bits = (uint32_t)low;
    float f32;
    double f64;
    switch (kind) {
        case BOOL: return postcard_put_bool(w, low);
        case U8: return postcard_put_u8(w, (uint8_t)low);
        case U16: return postcard_put_u16(w, (uint16_t)low);
        case U32: return postcard_put_u32(w, (uint32_t)low);
        case U64: return postcard_put_u64(w, low);
        case U128: return postcard_put_u128(w, low, v->n.high);
        case I8: return postcard_put_i8(w, (int8_t)low);
        case I16: return postcard_put_i16(w, (int16_t)low);
        case I32: return postcard_put_i32(w, (int32_t)low);
        case I64: return postcard_put_i64(w, (int64_t)low);
        case I128: return postcard_put_i128(w, low, v->n.high);
        case F32: memcpy(&f32, &low_bits, sizeof f32); return postcard_put_f32(w, f32);
        case F64: memcpy(&f64, &low, sizeof f64); return postcard_put_f64(w, f64);
        case CHAR: return postcard_put_char(w, (uint32_t)low);
        default: return postcard_put_str(w, (const char *)v->text.bytes, v->text.size);
    }
}

/* The number that decimal digits spell, a sign before them or not. */
static number decimal(const char *text) {
    uint32_t limbs[4] = {0, 0, 0, 0};
    bool negative = *text == '-';
    for (text += negative; *text >= '0' && *text <= '9'; text++) {
        uint64_t carry = (uint64_t)(*text - '0');
        for (int i = 0; i < 4; i++) carry += 10 * (uint64_t)limbs[i], limbs[i] = (uint32_t)carry, carry >>= 32;
    }
    number n = {limbs[0] | (uint64_t)limbs[1] << 32, limbs[2] | (uint64_t)limbs[3] << 32};
    if (negative) n.low = ~n.low + 1, n.high = ~n.high + (n.low == 0);
    return n;
}
/* The value that a row's text says; false if this program reads no such text. */
static bool wanted_of(enum kind kind, char *text, value *v) {
    size_t size = strlen(text);
    if (kind == BOOL) return v->n.low = strcmp(text, "true") == 0, v->n.high = 0, true;
    if (kind == F32) return v->n.low = bits_of_f32(strtof(text, NULL)), v->n.high = 0, strcmp(text, "NaN") != 0;
    if (kind == F64) return v->n.low = bits_of_f64(strtod(text, NULL)), v->n.high = 0, strcmp(text, "NaN") != 0;
    if (kind != CHAR && kind != STR) return v->n = decimal(text), true;
    if (strchr(text, '\\') || size < 2) return false;
    v->text.bytes = (const uint8_t *)text + 1, v->text.size = size - 2;
    if (kind == STR) return true;
    return v->n.low = (uint8_t)text[1], v->n.high = 0, size == 3;
}
static postcard_status status_of(const char *error) {
    static const char *const names[] = {"DeserializeUnexpectedEnd", "DeserializeBadVarint", "DeserializeBadBool",
                                        "DeserializeBadChar", "DeserializeBadUtf8"};
    for (postcard_status i = 0; i < 5; i++)
        if (strcmp(error, names[i]) == 0) return i + POSTCARD_UNEXPECTED_END;
    return POSTCARD_OK;
}
static bool same(enum kind kind, const value *a, const value *b) {
    if (kind == STR) return a->text.size == b->text.size && memcmp(a->text.bytes, b->text.bytes, a->text.size) == 0;
    return a->n.low == b->n.low && a->n.high == b->n.high;
}

/* Whether a row of a type is right: `before` bytes of the message, those after it, and the sign and the text of the row. */
static bool is_right(enum kind kind, const uint8_t *bytes, size_t size, size_t before, const char *sign, char *text) {
    value wanted = {{0, 0}, {bytes, 0}}, got = {{0, 0}, {bytes, 0}};
    postcard_reader r = postcard_reader_over(bytes, size);
    postcard_status status = get(&r, kind, &got);
    if (strcmp(sign, "error") == 0) return status != POSTCARD_OK && status == status_of(text) && r.at == 0;
    if (!wanted_of(kind, text, &wanted) || status != POSTCARD_OK || r.at != before || !same(kind, &got, &wanted)) return false;
    for (size_t cut = 0; cut < before; cut++) { /* each proper front is refused */
        r = postcard_reader_over(bytes, cut);
        if (get(&r, kind, &got) != POSTCARD_UNEXPECTED_END) return false;
    }
    static uint8_t room[2048];
    postcard_writer w = postcard_writer_over(room, sizeof room);
    if (put(&w, kind, &wanted) != POSTCARD_OK || w.needed != w.used) return false;
    return (w.used == before && memcmp(room, bytes, before) == 0) == (strcmp(sign, "reads") != 0);
}

/* The bytes of hexadecimal digits up to a sign that is none; the digits end at `*end`. */
static size_t bytes_of(const char *digits, const char **end, uint8_t *bytes) {
    size_t n = 0;
    unsigned byte;
    while (sscanf(digits, "%2X", &byte) == 1 && strchr("0123456789ABCDEF", digits[0])) bytes[n++] = (uint8_t)byte, digits += 2;
    *end = digits;
    return n;
}

int main(void) {
    static char line[8192], type[64], digits[4096], sign[16];
    static uint8_t bytes[2048];
    int rows = 0, wrong = 0;
    value none;
    while (fgets(line, sizeof line, stdin)) {
        int from = 0;
        line[strcspn(line, "\n")] = 0;
        if (sscanf(line, "%63[^: ]: %4095s %15s %n", type, digits, sign, &from) != 3 || kind_of(type) == OTHER) continue;
        if (strcmp(sign, "error") != 0 && !wanted_of(kind_of(type), line + from, &none)) continue;
        const char *end = digits;
        size_t before = bytes_of(digits, &end, bytes), size = before;
        if (*end == '+') size += bytes_of(end + 1, &end, bytes + before);
        rows++;
        if (!is_right(kind_of(type), bytes, size, before, sign, line + from)) printf("%s\n", line), wrong++;
    }
    if (rows < 100) return printf("only %d rows\n", rows), 1;
    if (wrong == 0) puts("all rows are right");
    return wrong != 0;
}
