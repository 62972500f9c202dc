/* Postcard (wire format 1.0) for C: a writer, a reader, checksums, COBS frames and an accumulator, over memory that the caller
 * owns.
 *
 * Nothing here allocates or keeps a state of its own, and of the C library only memcpy, memmove and memset are needed. Each
 * function that isn't `inline` is compiled or translated from code that is proved against its contract (crates/postcard_c/src),
 * which holds for all arguments.
 * docs/C.md says what C owes in return; in short:
 *   - a pointer with a size points to that many bytes for as long as the call lasts, or the writer, reader or accumulator
 *     that was made over them; NULL is allowed with size 0, and `postcard_.._over` takes it with any size, as size 0;
 *   - what a call writes overlaps nothing else that it is given, and what it writes a value to is initialized;
 *   - a struct is made by its function `postcard_.._over`, and its fields are changed only as said below.
 *
 * A status is 0 for success. Once a writer or a reader has failed, its calls return the same status again, so that one test
 * after the last call is enough. C99 and C++. */
#ifndef POSTCARD_H
#define POSTCARD_H
#include <stdbool.h>
#include <stddef.h>
#include <stdint.h>
#include <string.h>
#ifdef __cplusplus
extern "C" {
#endif

typedef uint32_t postcard_status;
/* The numbers are the places of the errors of the crate postcard 1.1.3 in its list, and from 16 on this library's own. */
enum {
    POSTCARD_OK = 0,
    POSTCARD_BUFFER_FULL = 2,    /* no room for what was to be written */
    POSTCARD_UNEXPECTED_END = 4, /* the bytes end before the value does */
    POSTCARD_BAD_VARINT = 5,     /* a varint is too long, or its number exceeds its width */
    POSTCARD_BAD_BOOL = 6,       /* the byte of a boolean is neither 0 nor 1 */
    POSTCARD_BAD_CHAR = 7,       /* not a Unicode scalar value, or not the UTF-8 of one */
    POSTCARD_BAD_UTF8 = 8,       /* a text is not UTF-8 */
    POSTCARD_BAD_OPTION = 9,     /* the first byte of an option is neither 0 nor 1 */
    POSTCARD_BAD_FRAME = 11,     /* not a COBS frame */
    POSTCARD_BAD_CRC = 12,       /* the bytes after a message are not its checksum */
    POSTCARD_BAD_VALUE = 13,     /* from generated code: a value of C is none of its type */
    POSTCARD_NO_VALUE = 14,      /* from generated code and postcard_text.h: the bytes encode no value of the type */
    POSTCARD_OUT_OF_MEMORY = 16, /* only from postcard_text.h */
    POSTCARD_BAD_TYPE = 17,      /* only from postcard_text.h: not a type expression */
    POSTCARD_BAD_TEXT = 18,      /* only from postcard_text.h: not a value of the type */
    POSTCARD_TOO_LARGE = 19      /* only where size_t has fewer than 64 bits: a count that it can't hold */
};

/* Bytes that are lent: they lie in what the reader was made over. */
typedef struct postcard_slice {
    const uint8_t *bytes;
    size_t size;
} postcard_slice;

/* The text before a NUL, to be written by generated code. */
static inline postcard_slice postcard_text(const char *text) {
    postcard_slice s = {(const uint8_t *)text, strlen(text)};
    return s;
}

/* A number of 128 bits in generated code, or the two's complement of a signed one. */
typedef struct postcard_u128 {
    uint64_t low, high;
} postcard_u128;

/* Writing. The message so far is buffer[0] to buffer[used - 1]. `needed` is the number of bytes that the whole message
 * needs: it goes on counting where there is no room, so a writer over NULL and 0 measures. To write another message, set
 * `used`, `needed` and `status` to 0. */
typedef struct postcard_writer {
    uint8_t *buffer;
    size_t size;
    size_t used;
    size_t needed;
    postcard_status status;
} postcard_writer;

static inline postcard_writer postcard_writer_over(void *buffer, size_t size) {
    static uint8_t none = 0;
    postcard_writer w = {&none, 0, 0, 0, POSTCARD_OK};
    if (buffer) w.buffer = (uint8_t *)buffer, w.size = size;
    return w;
}

postcard_status postcard_put_bool(postcard_writer *w, bool value);
postcard_status postcard_put_u8(postcard_writer *w, uint8_t value);
postcard_status postcard_put_u16(postcard_writer *w, uint16_t value);
postcard_status postcard_put_u32(postcard_writer *w, uint32_t value);
postcard_status postcard_put_u64(postcard_writer *w, uint64_t value);
postcard_status postcard_put_u128(postcard_writer *w, uint64_t low, uint64_t high);
postcard_status postcard_put_i8(postcard_writer *w, int8_t value);
postcard_status postcard_put_i16(postcard_writer *w, int16_t value);
postcard_status postcard_put_i32(postcard_writer *w, int32_t value);
postcard_status postcard_put_i64(postcard_writer *w, int64_t value);
postcard_status postcard_put_i128(postcard_writer *w, uint64_t low, uint64_t high);     /* the halves of its two's complement */
postcard_status postcard_put_char(postcard_writer *w, uint32_t code);                   /* or POSTCARD_BAD_CHAR */
postcard_status postcard_put_str(postcard_writer *w, const char *text, size_t size);    /* UTF-8, or POSTCARD_BAD_UTF8 */
postcard_status postcard_put_bytes(postcard_writer *w, const void *bytes, size_t size); /* a count, then the bytes */
postcard_status postcard_put_raw(postcard_writer *w, const void *bytes, size_t size);   /* the bytes alone, as [u8; N] */
postcard_status postcard_put_none(postcard_writer *w);
postcard_status postcard_put_some(postcard_writer *w);                    /* and then the value */
postcard_status postcard_put_variant(postcard_writer *w, uint32_t index); /* and then its content */
postcard_status postcard_put_count(postcard_writer *w, size_t count);     /* and then that many elements, or keys and values */

/* Numbers at their full width in place of a varint: the lowest byte first, or the highest. */
postcard_status postcard_put_u16_le(postcard_writer *w, uint16_t value);
postcard_status postcard_put_u32_le(postcard_writer *w, uint32_t value);
postcard_status postcard_put_u64_le(postcard_writer *w, uint64_t value);
postcard_status postcard_put_u128_le(postcard_writer *w, uint64_t low, uint64_t high);
postcard_status postcard_put_u16_be(postcard_writer *w, uint16_t value);
postcard_status postcard_put_u32_be(postcard_writer *w, uint32_t value);
postcard_status postcard_put_u64_be(postcard_writer *w, uint64_t value);
postcard_status postcard_put_u128_be(postcard_writer *w, uint64_t low, uint64_t high);

/* Reading. The bytes before bytes[at] are read. After a failure `at` is the place of the first byte of what can't be read,
 * and what the last pointers point to is unchanged. */
typedef struct postcard_reader {
    const uint8_t *bytes;
    size_t size;
    size_t at;
    postcard_status status;
} postcard_reader;

static inline postcard_reader postcard_reader_over(const void *bytes, size_t size) {
    static const uint8_t none = 0;
    postcard_reader r = {&none, 0, 0, POSTCARD_OK};
    if (bytes) r.bytes = (const uint8_t *)bytes, r.size = size;
    return r;
}

postcard_status postcard_get_bool(postcard_reader *r, bool *value);
postcard_status postcard_get_u8(postcard_reader *r, uint8_t *value);
postcard_status postcard_get_u16(postcard_reader *r, uint16_t *value);
postcard_status postcard_get_u32(postcard_reader *r, uint32_t *value);
postcard_status postcard_get_u64(postcard_reader *r, uint64_t *value);
postcard_status postcard_get_u128(postcard_reader *r, uint64_t *low, uint64_t *high);
postcard_status postcard_get_i8(postcard_reader *r, int8_t *value);
postcard_status postcard_get_i16(postcard_reader *r, int16_t *value);
postcard_status postcard_get_i32(postcard_reader *r, int32_t *value);
postcard_status postcard_get_i64(postcard_reader *r, int64_t *value);
postcard_status postcard_get_i128(postcard_reader *r, uint64_t *low, uint64_t *high);
postcard_status postcard_get_char(postcard_reader *r, uint32_t *code);
postcard_status postcard_get_str(postcard_reader *r, postcard_slice *text);
postcard_status postcard_get_bytes(postcard_reader *r, postcard_slice *bytes);
postcard_status postcard_get_raw(postcard_reader *r, size_t size, postcard_slice *bytes);
postcard_status postcard_get_option(postcard_reader *r, bool *present);   /* and then, if present, the value */
postcard_status postcard_get_variant(postcard_reader *r, uint32_t *index);
postcard_status postcard_get_count(postcard_reader *r, size_t *count);    /* nothing says that the bytes have that many */

postcard_status postcard_get_u16_le(postcard_reader *r, uint16_t *value);
postcard_status postcard_get_u32_le(postcard_reader *r, uint32_t *value);
postcard_status postcard_get_u64_le(postcard_reader *r, uint64_t *value);
postcard_status postcard_get_u128_le(postcard_reader *r, uint64_t *low, uint64_t *high);
postcard_status postcard_get_u16_be(postcard_reader *r, uint16_t *value);
postcard_status postcard_get_u32_be(postcard_reader *r, uint32_t *value);
postcard_status postcard_get_u64_be(postcard_reader *r, uint64_t *value);
postcard_status postcard_get_u128_be(postcard_reader *r, uint64_t *low, uint64_t *high);

/* A signed number at its full width is the unsigned one of its two's complement. */
#define POSTCARD_SIGNED_(bits, order)                                                                                 \
    static inline postcard_status postcard_put_i##bits##_##order(postcard_writer *w, int##bits##_t value) {           \
        return postcard_put_u##bits##_##order(w, (uint##bits##_t)value);                                              \
    }                                                                                                                 \
    static inline postcard_status postcard_get_i##bits##_##order(postcard_reader *r, int##bits##_t *value) {          \
        uint##bits##_t bits_of_it = (uint##bits##_t)*value;                                                           \
        postcard_status status = postcard_get_u##bits##_##order(r, &bits_of_it);                                      \
        *value = (int##bits##_t)bits_of_it;                                                                           \
        return status;                                                                                                \
    }
POSTCARD_SIGNED_(16, le)
POSTCARD_SIGNED_(32, le)
POSTCARD_SIGNED_(64, le)
POSTCARD_SIGNED_(16, be)
POSTCARD_SIGNED_(32, be)
POSTCARD_SIGNED_(64, be)
#undef POSTCARD_SIGNED_

/* Floats of IEEE 754, as their bits at full width, the lowest byte first. Every bit pattern is kept, that of a NaN too. */
#define POSTCARD_FLOAT_(bits, type)                                                                                   \
    static inline postcard_status postcard_put_f##bits(postcard_writer *w, type value) {                              \
        uint##bits##_t bits_of_it;                                                                                    \
        memcpy(&bits_of_it, &value, sizeof bits_of_it);                                                               \
        return postcard_put_u##bits##_le(w, bits_of_it);                                                              \
    }                                                                                                                 \
    static inline postcard_status postcard_get_f##bits(postcard_reader *r, type *value) {                             \
        uint##bits##_t bits_of_it = 0;                                                                                \
        postcard_status status = postcard_get_u##bits##_le(r, &bits_of_it);                                           \
        if (status == POSTCARD_OK) memcpy(value, &bits_of_it, sizeof bits_of_it);                                     \
        return status;                                                                                                \
    }                                                                                                                 \
    enum { POSTCARD_A_FLOAT_HAS_##bits##_BITS_ = 1 / (sizeof(type) * 8 == bits) };
POSTCARD_FLOAT_(32, float)
POSTCARD_FLOAT_(64, double)
#undef POSTCARD_FLOAT_

/* Checksums of the catalogue of parametrised CRC algorithms: CRC-32/ISO-HDLC, often called just CRC-32, and CRC-16/IBM-SDLC.
 * The first call for a message has 0 as its `so_far`, and each later one the result for the bytes before its own. */
uint32_t postcard_crc32(uint32_t so_far, const void *bytes, size_t size);
uint16_t postcard_crc16(uint16_t so_far, const void *bytes, size_t size);

/* A message with its checksum after it, the lowest byte first. Writing appends the checksum of buffer[0] to buffer[used - 1];
 * reading takes that of bytes[0] to bytes[at - 1], or fails with POSTCARD_BAD_CRC. */
postcard_status postcard_put_crc32(postcard_writer *w);
postcard_status postcard_put_crc16(postcard_writer *w);
postcard_status postcard_get_crc32(postcard_reader *r);
postcard_status postcard_get_crc16(postcard_reader *r);

/* Frames. The frame of n bytes has at most POSTCARD_FRAME_SIZE(n), the zero that ends it included. Decoding is in place: the
 * data is then frame[0] to frame[*count - 1]. */
#define POSTCARD_FRAME_SIZE(n) ((n) + (n) / 254 + 2)
postcard_status postcard_cobs_encode(const void *message, size_t size, uint8_t *frame, size_t frame_size, size_t *count);
postcard_status postcard_cobs_decode(uint8_t *frame, size_t size, size_t *count);

/* Frames from a stream, in pieces as they come. */
typedef struct postcard_accumulator {
    uint8_t *buffer;
    size_t size; /* the greatest number of bytes of a frame, its zero included */
    size_t held;
    bool skipping;
} postcard_accumulator;

static inline postcard_accumulator postcard_accumulator_over(void *buffer, size_t size) {
    static uint8_t none = 0;
    postcard_accumulator a = {&none, 0, 0, false};
    if (buffer) a.buffer = (uint8_t *)buffer, a.size = size;
    return a;
}

enum {
    POSTCARD_CONSUMED = 0,  /* all of the piece was taken, and no frame ended but one that was being skipped */
    POSTCARD_FRAME = 1,     /* a frame ended: its data is buffer[0] to buffer[*count - 1], until the next feed */
    POSTCARD_OVERSIZED = 2, /* a frame has no room; it is skipped */
    POSTCARD_DAMAGED = 3    /* a frame ended that is no COBS frame */
};
/* Takes in a piece up to the end of a frame. Feed the rest of it, from piece + *taken on, next. Without a frame *count is 0. */
uint32_t postcard_feed(postcard_accumulator *a, const void *piece, size_t size, size_t *taken, size_t *count);

#ifdef __cplusplus
}
#endif
#endif
