/* Messages of forms.rs, as structs of C99 and C++. Written by `pcard c`: don't edit it, but write it again.
 *
 * Each call returns 0 or a status of postcard.h. Of a type T,
 *   - T_put and T_get write and read a value among others, and T_encode and T_decode a whole message, after which nothing may follow;
 *   - T_encode sets *count to the size that the message needs, also where it has no room and fails with POSTCARD_BUFFER_FULL;
 *   - T_frame writes the message as a frame, its zero included, and takes T_MAX_SIZE bytes of stack;
 *   - T_MAX_SIZE and T_FRAME_SIZE are the bytes of the longest message and frame;
 *   - of a list without a capacity, T_reader and T_next give the elements that were read one by one. They are lent as `encoded`, and
 *     `items` is NULL. To write a list, set `items`, or leave both as they were read.
 *
 * Writing fails with POSTCARD_BAD_VALUE if a tag, a count or a size is none of the type. A `postcard_slice` that was read lies in the
 * message. After a failure a struct is read in part; its counts, flags and tags have a value. */
#ifndef FORMS_H
#define FORMS_H
#include "postcard.h"
#ifdef __cplusplus
extern "C" {
#endif

/* Unused has parameters, and no type of the file says what they are: declare `type Name = Unused<..>;`. */

/* A struct without fields, a tuple of none, and one with empty braces. */
typedef struct Unit {
    uint8_t nothing_;
} Unit;
postcard_status Unit_put(postcard_writer *writer, const Unit *value);
postcard_status Unit_get(postcard_reader *reader, Unit *value);
#define Unit_MAX_SIZE 0u
static inline postcard_status Unit_encode(const Unit *value, void *message, size_t size, size_t *count) {
    postcard_writer writer = postcard_writer_over(message, size);
    Unit_put(&writer, value);
    *count = writer.needed;
    return writer.status;
}
static inline postcard_status Unit_decode(Unit *value, const void *message, size_t size) {
    postcard_reader reader = postcard_reader_over(message, size);
    if (Unit_get(&reader, value) == POSTCARD_OK && reader.at != reader.size) reader.status = POSTCARD_NO_VALUE;
    return reader.status;
}
#define Unit_FRAME_SIZE POSTCARD_FRAME_SIZE(Unit_MAX_SIZE)
static inline postcard_status Unit_frame(const Unit *value, uint8_t *frame, size_t size, size_t *count) {
    uint8_t message[1];
    size_t used = 0;
    postcard_status status = Unit_encode(value, message, sizeof message, &used);
    return status == POSTCARD_OK ? postcard_cobs_encode(message, used, frame, size, count) : status;
}

typedef struct Nothing {
    uint8_t nothing_;
} Nothing;
postcard_status Nothing_put(postcard_writer *writer, const Nothing *value);
postcard_status Nothing_get(postcard_reader *reader, Nothing *value);
#define Nothing_MAX_SIZE 0u
static inline postcard_status Nothing_encode(const Nothing *value, void *message, size_t size, size_t *count) {
    postcard_writer writer = postcard_writer_over(message, size);
    Nothing_put(&writer, value);
    *count = writer.needed;
    return writer.status;
}
static inline postcard_status Nothing_decode(Nothing *value, const void *message, size_t size) {
    postcard_reader reader = postcard_reader_over(message, size);
    if (Nothing_get(&reader, value) == POSTCARD_OK && reader.at != reader.size) reader.status = POSTCARD_NO_VALUE;
    return reader.status;
}
#define Nothing_FRAME_SIZE POSTCARD_FRAME_SIZE(Nothing_MAX_SIZE)
static inline postcard_status Nothing_frame(const Nothing *value, uint8_t *frame, size_t size, size_t *count) {
    uint8_t message[1];
    size_t used = 0;
    postcard_status status = Nothing_encode(value, message, sizeof message, &used);
    return status == POSTCARD_OK ? postcard_cobs_encode(message, used, frame, size, count) : status;
}

typedef struct Braces {
    uint8_t nothing_;
} Braces;
postcard_status Braces_put(postcard_writer *writer, const Braces *value);
postcard_status Braces_get(postcard_reader *reader, Braces *value);
#define Braces_MAX_SIZE 0u
static inline postcard_status Braces_encode(const Braces *value, void *message, size_t size, size_t *count) {
    postcard_writer writer = postcard_writer_over(message, size);
    Braces_put(&writer, value);
    *count = writer.needed;
    return writer.status;
}
static inline postcard_status Braces_decode(Braces *value, const void *message, size_t size) {
    postcard_reader reader = postcard_reader_over(message, size);
    if (Braces_get(&reader, value) == POSTCARD_OK && reader.at != reader.size) reader.status = POSTCARD_NO_VALUE;
    return reader.status;
}
#define Braces_FRAME_SIZE POSTCARD_FRAME_SIZE(Braces_MAX_SIZE)
static inline postcard_status Braces_frame(const Braces *value, uint8_t *frame, size_t size, size_t *count) {
    uint8_t message[1];
    size_t used = 0;
    postcard_status status = Braces_encode(value, message, sizeof message, &used);
    return status == POSTCARD_OK ? postcard_cobs_encode(message, used, frame, size, count) : status;
}

/* A newtype. */
typedef struct Serial {
    uint64_t _0;
} Serial;
postcard_status Serial_put(postcard_writer *writer, const Serial *value);
postcard_status Serial_get(postcard_reader *reader, Serial *value);
#define Serial_MAX_SIZE 10u
static inline postcard_status Serial_encode(const Serial *value, void *message, size_t size, size_t *count) {
    postcard_writer writer = postcard_writer_over(message, size);
    Serial_put(&writer, value);
    *count = writer.needed;
    return writer.status;
}
static inline postcard_status Serial_decode(Serial *value, const void *message, size_t size) {
    postcard_reader reader = postcard_reader_over(message, size);
    if (Serial_get(&reader, value) == POSTCARD_OK && reader.at != reader.size) reader.status = POSTCARD_NO_VALUE;
    return reader.status;
}
#define Serial_FRAME_SIZE POSTCARD_FRAME_SIZE(Serial_MAX_SIZE)
static inline postcard_status Serial_frame(const Serial *value, uint8_t *frame, size_t size, size_t *count) {
    uint8_t message[10];
    size_t used = 0;
    postcard_status status = Serial_encode(value, message, sizeof message, &used);
    return status == POSTCARD_OK ? postcard_cobs_encode(message, used, frame, size, count) : status;
}

typedef struct Pair {
    int8_t _0;
    Unit _1;
} Pair;
postcard_status Pair_put(postcard_writer *writer, const Pair *value);
postcard_status Pair_get(postcard_reader *reader, Pair *value);
#define Pair_MAX_SIZE 1u
static inline postcard_status Pair_encode(const Pair *value, void *message, size_t size, size_t *count) {
    postcard_writer writer = postcard_writer_over(message, size);
    Pair_put(&writer, value);
    *count = writer.needed;
    return writer.status;
}
static inline postcard_status Pair_decode(Pair *value, const void *message, size_t size) {
    postcard_reader reader = postcard_reader_over(message, size);
    if (Pair_get(&reader, value) == POSTCARD_OK && reader.at != reader.size) reader.status = POSTCARD_NO_VALUE;
    return reader.status;
}
#define Pair_FRAME_SIZE POSTCARD_FRAME_SIZE(Pair_MAX_SIZE)
static inline postcard_status Pair_frame(const Pair *value, uint8_t *frame, size_t size, size_t *count) {
    uint8_t message[1];
    size_t used = 0;
    postcard_status status = Pair_encode(value, message, sizeof message, &used);
    return status == POSTCARD_OK ? postcard_cobs_encode(message, used, frame, size, count) : status;
}

/* Numbers of each width. / * this is no comment */
typedef struct Numbers {
    uint8_t a;
    uint16_t b;
    uint32_t c;
    uint64_t d;
    postcard_u128 e;
    int8_t f;
    int16_t g;
    int32_t h;
    int64_t i;
    postcard_u128 j;
    uint64_t k;
    int64_t l;
    float m;
    double n;
    bool o;
    uint32_t p;
} Numbers;
postcard_status Numbers_put(postcard_writer *writer, const Numbers *value);
postcard_status Numbers_get(postcard_reader *reader, Numbers *value);
#define Numbers_MAX_SIZE 114u
static inline postcard_status Numbers_encode(const Numbers *value, void *message, size_t size, size_t *count) {
    postcard_writer writer = postcard_writer_over(message, size);
    Numbers_put(&writer, value);
    *count = writer.needed;
    return writer.status;
}
static inline postcard_status Numbers_decode(Numbers *value, const void *message, size_t size) {
    postcard_reader reader = postcard_reader_over(message, size);
    if (Numbers_get(&reader, value) == POSTCARD_OK && reader.at != reader.size) reader.status = POSTCARD_NO_VALUE;
    return reader.status;
}
#define Numbers_FRAME_SIZE POSTCARD_FRAME_SIZE(Numbers_MAX_SIZE)
static inline postcard_status Numbers_frame(const Numbers *value, uint8_t *frame, size_t size, size_t *count) {
    uint8_t message[114];
    size_t used = 0;
    postcard_status status = Numbers_encode(value, message, sizeof message, &used);
    return status == POSTCARD_OK ? postcard_cobs_encode(message, used, frame, size, count) : status;
}

/* Numbers at their full width, by the type and by the attribute. */
typedef struct Widths {
    uint16_t a;
    uint32_t b;
    uint64_t c;
    postcard_u128 d;
    int16_t e;
    int32_t f;
    int64_t g;
    postcard_u128 h;
    uint16_t i;
    uint32_t j;
    uint64_t k;
    postcard_u128 l;
    int16_t m;
    int32_t n;
    int64_t o;
    postcard_u128 p;
    uint64_t q;
    postcard_u128 r;
} Widths;
postcard_status Widths_put(postcard_writer *writer, const Widths *value);
postcard_status Widths_get(postcard_reader *reader, Widths *value);
#define Widths_MAX_SIZE 144u
static inline postcard_status Widths_encode(const Widths *value, void *message, size_t size, size_t *count) {
    postcard_writer writer = postcard_writer_over(message, size);
    Widths_put(&writer, value);
    *count = writer.needed;
    return writer.status;
}
static inline postcard_status Widths_decode(Widths *value, const void *message, size_t size) {
    postcard_reader reader = postcard_reader_over(message, size);
    if (Widths_get(&reader, value) == POSTCARD_OK && reader.at != reader.size) reader.status = POSTCARD_NO_VALUE;
    return reader.status;
}
#define Widths_FRAME_SIZE POSTCARD_FRAME_SIZE(Widths_MAX_SIZE)
static inline postcard_status Widths_frame(const Widths *value, uint8_t *frame, size_t size, size_t *count) {
    uint8_t message[144];
    size_t used = 0;
    postcard_status status = Widths_encode(value, message, sizeof message, &used);
    return status == POSTCARD_OK ? postcard_cobs_encode(message, used, frame, size, count) : status;
}

typedef struct forms_option_nonzero_u64 { bool some; uint64_t value; } forms_option_nonzero_u64;
postcard_status forms_option_nonzero_u64_put(postcard_writer *writer, const forms_option_nonzero_u64 *value);
postcard_status forms_option_nonzero_u64_get(postcard_reader *reader, forms_option_nonzero_u64 *value);

typedef struct forms_list_nonzero_u8 { size_t count; const uint8_t *items; postcard_slice encoded; } forms_list_nonzero_u8;
postcard_status forms_list_nonzero_u8_put(postcard_writer *writer, const forms_list_nonzero_u8 *value);
postcard_status forms_list_nonzero_u8_get(postcard_reader *reader, forms_list_nonzero_u8 *value);
bool forms_list_nonzero_u8_next(postcard_reader *reader, uint8_t *item);
static inline postcard_reader forms_list_nonzero_u8_reader(const forms_list_nonzero_u8 *value) {
    return postcard_reader_over(value->encoded.bytes, value->encoded.size);
}

typedef struct forms_list2_nonzero_i64 { uint8_t count; int64_t items[2]; } forms_list2_nonzero_i64;
postcard_status forms_list2_nonzero_i64_put(postcard_writer *writer, const forms_list2_nonzero_i64 *value);
postcard_status forms_list2_nonzero_i64_get(postcard_reader *reader, forms_list2_nonzero_i64 *value);

typedef struct forms_result_nonzero_u16_u8 { bool is_ok; union { uint16_t ok; uint8_t err; } as; } forms_result_nonzero_u16_u8;
postcard_status forms_result_nonzero_u16_u8_put(postcard_writer *writer, const forms_result_nonzero_u16_u8 *value);
postcard_status forms_result_nonzero_u16_u8_get(postcard_reader *reader, forms_result_nonzero_u16_u8 *value);

typedef struct forms_option_nonzero_i64 { bool some; int64_t value; } forms_option_nonzero_i64;
postcard_status forms_option_nonzero_i64_put(postcard_writer *writer, const forms_option_nonzero_i64 *value);
postcard_status forms_option_nonzero_i64_get(postcard_reader *reader, forms_option_nonzero_i64 *value);

typedef enum Counted_tag { /* the numbers of the variants in a message */
    Counted_Off = 0,
    Counted_On = 1,
    Counted_Both = 2
} Counted_tag;
typedef struct Counted {
    Counted_tag tag;
    union {
        int8_t on;
        struct {
            int32_t a;
            forms_option_nonzero_i64 b;
        } both;
    } as;
} Counted;
postcard_status Counted_put(postcard_writer *writer, const Counted *value);
postcard_status Counted_get(postcard_reader *reader, Counted *value);
#define Counted_MAX_SIZE 17u
static inline postcard_status Counted_encode(const Counted *value, void *message, size_t size, size_t *count) {
    postcard_writer writer = postcard_writer_over(message, size);
    Counted_put(&writer, value);
    *count = writer.needed;
    return writer.status;
}
static inline postcard_status Counted_decode(Counted *value, const void *message, size_t size) {
    postcard_reader reader = postcard_reader_over(message, size);
    if (Counted_get(&reader, value) == POSTCARD_OK && reader.at != reader.size) reader.status = POSTCARD_NO_VALUE;
    return reader.status;
}
#define Counted_FRAME_SIZE POSTCARD_FRAME_SIZE(Counted_MAX_SIZE)
static inline postcard_status Counted_frame(const Counted *value, uint8_t *frame, size_t size, size_t *count) {
    uint8_t message[17];
    size_t used = 0;
    postcard_status status = Counted_encode(value, message, sizeof message, &used);
    return status == POSTCARD_OK ? postcard_cobs_encode(message, used, frame, size, count) : status;
}

/* Numbers without 0. */
typedef struct NonZeros {
    uint8_t a;
    int16_t b;
    uint32_t c;
    forms_option_nonzero_u64 d;
    postcard_u128 e;
    forms_list_nonzero_u8 f;
    forms_list2_nonzero_i64 g;
    forms_result_nonzero_u16_u8 h;
    Counted i;
} NonZeros;
postcard_status NonZeros_put(postcard_writer *writer, const NonZeros *value);
postcard_status NonZeros_get(postcard_reader *reader, NonZeros *value);
/* NonZeros has no greatest size, since a text, a list or a map has no capacity. */
static inline postcard_status NonZeros_encode(const NonZeros *value, void *message, size_t size, size_t *count) {
    postcard_writer writer = postcard_writer_over(message, size);
    NonZeros_put(&writer, value);
    *count = writer.needed;
    return writer.status;
}
static inline postcard_status NonZeros_decode(NonZeros *value, const void *message, size_t size) {
    postcard_reader reader = postcard_reader_over(message, size);
    if (NonZeros_get(&reader, value) == POSTCARD_OK && reader.at != reader.size) reader.status = POSTCARD_NO_VALUE;
    return reader.status;
}

/* A text of at most 255 bytes of UTF-8. Reading puts a NUL after it. */
typedef struct forms_str255 { uint8_t size; char text[256]; } forms_str255;

/* A text of at most 256 bytes of UTF-8. Reading puts a NUL after it. */
typedef struct forms_str256 { uint16_t size; char text[257]; } forms_str256;

typedef struct forms_bytes256 { uint16_t count; uint8_t items[256]; } forms_bytes256;

typedef struct forms_option_bool { bool some; bool value; } forms_option_bool;
postcard_status forms_option_bool_put(postcard_writer *writer, const forms_option_bool *value);
postcard_status forms_option_bool_get(postcard_reader *reader, forms_option_bool *value);

typedef struct forms_list3_option_bool { uint8_t count; forms_option_bool items[3]; } forms_list3_option_bool;
postcard_status forms_list3_option_bool_put(postcard_writer *writer, const forms_list3_option_bool *value);
postcard_status forms_list3_option_bool_get(postcard_reader *reader, forms_list3_option_bool *value);

/* A text of at most 5 bytes of UTF-8. Reading puts a NUL after it. */
typedef struct forms_str5 { uint8_t size; char text[6]; } forms_str5;

/* A text of at most 3 bytes of UTF-8. Reading puts a NUL after it. */
typedef struct forms_str3 { uint8_t size; char text[4]; } forms_str3;

typedef struct forms_list2_str3 { uint8_t count; forms_str3 items[2]; } forms_list2_str3;
postcard_status forms_list2_str3_put(postcard_writer *writer, const forms_list2_str3 *value);
postcard_status forms_list2_str3_get(postcard_reader *reader, forms_list2_str3 *value);

/* A text of at most 4 bytes of UTF-8. Reading puts a NUL after it. */
typedef struct forms_str4 { uint8_t size; char text[5]; } forms_str4;

typedef struct forms_bytes6 { uint8_t count; uint8_t items[6]; } forms_bytes6;

typedef struct forms_tuple2_str4_bytes6 { forms_str4 _0; forms_bytes6 _1; } forms_tuple2_str4_bytes6;
postcard_status forms_tuple2_str4_bytes6_put(postcard_writer *writer, const forms_tuple2_str4_bytes6 *value);
postcard_status forms_tuple2_str4_bytes6_get(postcard_reader *reader, forms_tuple2_str4_bytes6 *value);

typedef struct forms_map2_str4_bytes6 { uint8_t count; forms_tuple2_str4_bytes6 items[2]; } forms_map2_str4_bytes6;
postcard_status forms_map2_str4_bytes6_put(postcard_writer *writer, const forms_map2_str4_bytes6 *value);
postcard_status forms_map2_str4_bytes6_get(postcard_reader *reader, forms_map2_str4_bytes6 *value);

typedef struct forms_tuple2_u8_u16 { uint8_t _0; uint16_t _1; } forms_tuple2_u8_u16;
postcard_status forms_tuple2_u8_u16_put(postcard_writer *writer, const forms_tuple2_u8_u16 *value);
postcard_status forms_tuple2_u8_u16_get(postcard_reader *reader, forms_tuple2_u8_u16 *value);

typedef struct forms_list1_tuple2_u8_u16 { uint8_t count; forms_tuple2_u8_u16 items[1]; } forms_list1_tuple2_u8_u16;
postcard_status forms_list1_tuple2_u8_u16_put(postcard_writer *writer, const forms_list1_tuple2_u8_u16 *value);
postcard_status forms_list1_tuple2_u8_u16_get(postcard_reader *reader, forms_list1_tuple2_u8_u16 *value);

typedef struct forms_list0_u16 { uint8_t count; uint16_t items[1]; } forms_list0_u16;
postcard_status forms_list0_u16_put(postcard_writer *writer, const forms_list0_u16 *value);
postcard_status forms_list0_u16_get(postcard_reader *reader, forms_list0_u16 *value);

typedef struct forms_tuple2_char_f32 { uint32_t _0; float _1; } forms_tuple2_char_f32;
postcard_status forms_tuple2_char_f32_put(postcard_writer *writer, const forms_tuple2_char_f32 *value);
postcard_status forms_tuple2_char_f32_get(postcard_reader *reader, forms_tuple2_char_f32 *value);

typedef struct forms_map2_char_f32 { uint8_t count; forms_tuple2_char_f32 items[2]; } forms_map2_char_f32;
postcard_status forms_map2_char_f32_put(postcard_writer *writer, const forms_map2_char_f32 *value);
postcard_status forms_map2_char_f32_get(postcard_reader *reader, forms_map2_char_f32 *value);

typedef struct forms_list255_bool { uint8_t count; bool items[255]; } forms_list255_bool;
postcard_status forms_list255_bool_put(postcard_writer *writer, const forms_list255_bool *value);
postcard_status forms_list255_bool_get(postcard_reader *reader, forms_list255_bool *value);

/* Capacities of each kind: of the type, of an attribute, and more than 255. */
typedef struct Capacities {
    forms_str255 a;
    forms_str256 b;
    forms_bytes256 c;
    forms_list3_option_bool d;
    forms_str5 e;
    forms_list2_str3 f;
    forms_map2_str4_bytes6 g;
    forms_list1_tuple2_u8_u16 h;
    forms_list0_u16 i;
    forms_map2_char_f32 j;
    forms_list255_bool k;
} Capacities;
postcard_status Capacities_put(postcard_writer *writer, const Capacities *value);
postcard_status Capacities_get(postcard_reader *reader, Capacities *value);
#define Capacities_MAX_SIZE 1102u
static inline postcard_status Capacities_encode(const Capacities *value, void *message, size_t size, size_t *count) {
    postcard_writer writer = postcard_writer_over(message, size);
    Capacities_put(&writer, value);
    *count = writer.needed;
    return writer.status;
}
static inline postcard_status Capacities_decode(Capacities *value, const void *message, size_t size) {
    postcard_reader reader = postcard_reader_over(message, size);
    if (Capacities_get(&reader, value) == POSTCARD_OK && reader.at != reader.size) reader.status = POSTCARD_NO_VALUE;
    return reader.status;
}
#define Capacities_FRAME_SIZE POSTCARD_FRAME_SIZE(Capacities_MAX_SIZE)
static inline postcard_status Capacities_frame(const Capacities *value, uint8_t *frame, size_t size, size_t *count) {
    uint8_t message[1102];
    size_t used = 0;
    postcard_status status = Capacities_encode(value, message, sizeof message, &used);
    return status == POSTCARD_OK ? postcard_cobs_encode(message, used, frame, size, count) : status;
}

typedef struct forms_list_u16 { size_t count; const uint16_t *items; postcard_slice encoded; } forms_list_u16;
postcard_status forms_list_u16_put(postcard_writer *writer, const forms_list_u16 *value);
postcard_status forms_list_u16_get(postcard_reader *reader, forms_list_u16 *value);
bool forms_list_u16_next(postcard_reader *reader, uint16_t *item);
static inline postcard_reader forms_list_u16_reader(const forms_list_u16 *value) {
    return postcard_reader_over(value->encoded.bytes, value->encoded.size);
}

typedef struct forms_option_i32 { bool some; int32_t value; } forms_option_i32;
postcard_status forms_option_i32_put(postcard_writer *writer, const forms_option_i32 *value);
postcard_status forms_option_i32_get(postcard_reader *reader, forms_option_i32 *value);

typedef struct forms_list_option_i32 { size_t count; const forms_option_i32 *items; postcard_slice encoded; } forms_list_option_i32;
postcard_status forms_list_option_i32_put(postcard_writer *writer, const forms_list_option_i32 *value);
postcard_status forms_list_option_i32_get(postcard_reader *reader, forms_list_option_i32 *value);
bool forms_list_option_i32_next(postcard_reader *reader, forms_option_i32 *item);
static inline postcard_reader forms_list_option_i32_reader(const forms_list_option_i32 *value) {
    return postcard_reader_over(value->encoded.bytes, value->encoded.size);
}

typedef struct forms_list_list_option_i32 { size_t count; const forms_list_option_i32 *items; postcard_slice encoded; } forms_list_list_option_i32;
postcard_status forms_list_list_option_i32_put(postcard_writer *writer, const forms_list_list_option_i32 *value);
postcard_status forms_list_list_option_i32_get(postcard_reader *reader, forms_list_list_option_i32 *value);
bool forms_list_list_option_i32_next(postcard_reader *reader, forms_list_option_i32 *item);
static inline postcard_reader forms_list_list_option_i32_reader(const forms_list_list_option_i32 *value) {
    return postcard_reader_over(value->encoded.bytes, value->encoded.size);
}

typedef struct forms_tuple2_u16_str { uint16_t _0; postcard_slice _1; } forms_tuple2_u16_str;
postcard_status forms_tuple2_u16_str_put(postcard_writer *writer, const forms_tuple2_u16_str *value);
postcard_status forms_tuple2_u16_str_get(postcard_reader *reader, forms_tuple2_u16_str *value);

typedef struct forms_map_u16_str { size_t count; const forms_tuple2_u16_str *items; postcard_slice encoded; } forms_map_u16_str;
postcard_status forms_map_u16_str_put(postcard_writer *writer, const forms_map_u16_str *value);
postcard_status forms_map_u16_str_get(postcard_reader *reader, forms_map_u16_str *value);
bool forms_map_u16_str_next(postcard_reader *reader, forms_tuple2_u16_str *item);
static inline postcard_reader forms_map_u16_str_reader(const forms_map_u16_str *value) {
    return postcard_reader_over(value->encoded.bytes, value->encoded.size);
}

typedef struct forms_tuple2_u8_bool { uint8_t _0; bool _1; } forms_tuple2_u8_bool;
postcard_status forms_tuple2_u8_bool_put(postcard_writer *writer, const forms_tuple2_u8_bool *value);
postcard_status forms_tuple2_u8_bool_get(postcard_reader *reader, forms_tuple2_u8_bool *value);

typedef struct forms_list_tuple2_u8_bool { size_t count; const forms_tuple2_u8_bool *items; postcard_slice encoded; } forms_list_tuple2_u8_bool;
postcard_status forms_list_tuple2_u8_bool_put(postcard_writer *writer, const forms_list_tuple2_u8_bool *value);
postcard_status forms_list_tuple2_u8_bool_get(postcard_reader *reader, forms_list_tuple2_u8_bool *value);
bool forms_list_tuple2_u8_bool_next(postcard_reader *reader, forms_tuple2_u8_bool *item);
static inline postcard_reader forms_list_tuple2_u8_bool_reader(const forms_list_tuple2_u8_bool *value) {
    return postcard_reader_over(value->encoded.bytes, value->encoded.size);
}

typedef struct forms_list_array2_i16 { size_t count; const int16_t (*items)[2]; postcard_slice encoded; } forms_list_array2_i16;
postcard_status forms_list_array2_i16_put(postcard_writer *writer, const forms_list_array2_i16 *value);
postcard_status forms_list_array2_i16_get(postcard_reader *reader, forms_list_array2_i16 *value);
bool forms_list_array2_i16_next(postcard_reader *reader, int16_t (*item)[2]);
static inline postcard_reader forms_list_array2_i16_reader(const forms_list_array2_i16 *value) {
    return postcard_reader_over(value->encoded.bytes, value->encoded.size);
}

/* A plain enum; its numbers in Rust are not those of a message. */
typedef enum Level { /* the numbers of the variants in a message */
    /* It can wait. */
    Level_Low = 0,
    Level_Normal = 1,
    Level_High = 2
} Level;
postcard_status Level_put(postcard_writer *writer, const Level *value);
postcard_status Level_get(postcard_reader *reader, Level *value);
#define Level_MAX_SIZE 1u
static inline postcard_status Level_encode(const Level *value, void *message, size_t size, size_t *count) {
    postcard_writer writer = postcard_writer_over(message, size);
    Level_put(&writer, value);
    *count = writer.needed;
    return writer.status;
}
static inline postcard_status Level_decode(Level *value, const void *message, size_t size) {
    postcard_reader reader = postcard_reader_over(message, size);
    if (Level_get(&reader, value) == POSTCARD_OK && reader.at != reader.size) reader.status = POSTCARD_NO_VALUE;
    return reader.status;
}
#define Level_FRAME_SIZE POSTCARD_FRAME_SIZE(Level_MAX_SIZE)
static inline postcard_status Level_frame(const Level *value, uint8_t *frame, size_t size, size_t *count) {
    uint8_t message[1];
    size_t used = 0;
    postcard_status status = Level_encode(value, message, sizeof message, &used);
    return status == POSTCARD_OK ? postcard_cobs_encode(message, used, frame, size, count) : status;
}

typedef struct forms_list_Level { size_t count; const Level *items; postcard_slice encoded; } forms_list_Level;
postcard_status forms_list_Level_put(postcard_writer *writer, const forms_list_Level *value);
postcard_status forms_list_Level_get(postcard_reader *reader, forms_list_Level *value);
bool forms_list_Level_next(postcard_reader *reader, Level *item);
static inline postcard_reader forms_list_Level_reader(const forms_list_Level *value) {
    return postcard_reader_over(value->encoded.bytes, value->encoded.size);
}

typedef struct forms_list_Serial { size_t count; const Serial *items; postcard_slice encoded; } forms_list_Serial;
postcard_status forms_list_Serial_put(postcard_writer *writer, const forms_list_Serial *value);
postcard_status forms_list_Serial_get(postcard_reader *reader, forms_list_Serial *value);
bool forms_list_Serial_next(postcard_reader *reader, Serial *item);
static inline postcard_reader forms_list_Serial_reader(const forms_list_Serial *value) {
    return postcard_reader_over(value->encoded.bytes, value->encoded.size);
}

typedef struct forms_list_str { size_t count; const postcard_slice *items; postcard_slice encoded; } forms_list_str;
postcard_status forms_list_str_put(postcard_writer *writer, const forms_list_str *value);
postcard_status forms_list_str_get(postcard_reader *reader, forms_list_str *value);
bool forms_list_str_next(postcard_reader *reader, postcard_slice *item);
static inline postcard_reader forms_list_str_reader(const forms_list_str *value) {
    return postcard_reader_over(value->encoded.bytes, value->encoded.size);
}

typedef struct forms_option_list_str { bool some; forms_list_str value; } forms_option_list_str;
postcard_status forms_option_list_str_put(postcard_writer *writer, const forms_option_list_str *value);
postcard_status forms_option_list_str_get(postcard_reader *reader, forms_option_list_str *value);

typedef struct forms_result_u8_unit { bool is_ok; union { uint8_t ok; } as; } forms_result_u8_unit;
postcard_status forms_result_u8_unit_put(postcard_writer *writer, const forms_result_u8_unit *value);
postcard_status forms_result_u8_unit_get(postcard_reader *reader, forms_result_u8_unit *value);

typedef struct forms_list_result_u8_unit { size_t count; const forms_result_u8_unit *items; postcard_slice encoded; } forms_list_result_u8_unit;
postcard_status forms_list_result_u8_unit_put(postcard_writer *writer, const forms_list_result_u8_unit *value);
postcard_status forms_list_result_u8_unit_get(postcard_reader *reader, forms_list_result_u8_unit *value);
bool forms_list_result_u8_unit_next(postcard_reader *reader, forms_result_u8_unit *item);
static inline postcard_reader forms_list_result_u8_unit_reader(const forms_list_result_u8_unit *value) {
    return postcard_reader_over(value->encoded.bytes, value->encoded.size);
}

typedef struct forms_list_u128 { size_t count; const postcard_u128 *items; postcard_slice encoded; } forms_list_u128;
postcard_status forms_list_u128_put(postcard_writer *writer, const forms_list_u128 *value);
postcard_status forms_list_u128_get(postcard_reader *reader, forms_list_u128 *value);
bool forms_list_u128_next(postcard_reader *reader, postcard_u128 *item);
static inline postcard_reader forms_list_u128_reader(const forms_list_u128 *value) {
    return postcard_reader_over(value->encoded.bytes, value->encoded.size);
}

typedef struct forms_list_char { size_t count; const uint32_t *items; postcard_slice encoded; } forms_list_char;
postcard_status forms_list_char_put(postcard_writer *writer, const forms_list_char *value);
postcard_status forms_list_char_get(postcard_reader *reader, forms_list_char *value);
bool forms_list_char_next(postcard_reader *reader, uint32_t *item);
static inline postcard_reader forms_list_char_reader(const forms_list_char *value) {
    return postcard_reader_over(value->encoded.bytes, value->encoded.size);
}

/* Texts, bytes and lists of any length. */
typedef struct Lists {
    postcard_slice a;
    postcard_slice b;
    forms_list_u16 c;
    forms_list_list_option_i32 d;
    forms_map_u16_str e;
    forms_list_tuple2_u8_bool f;
    forms_list_array2_i16 g;
    forms_list_Level h;
    forms_list_Serial i;
    postcard_slice j;
    forms_option_list_str k;
    forms_list_result_u8_unit l;
    forms_list_u128 m;
    forms_list_char n;
} Lists;
postcard_status Lists_put(postcard_writer *writer, const Lists *value);
postcard_status Lists_get(postcard_reader *reader, Lists *value);
/* Lists has no greatest size, since a text, a list or a map has no capacity. */
static inline postcard_status Lists_encode(const Lists *value, void *message, size_t size, size_t *count) {
    postcard_writer writer = postcard_writer_over(message, size);
    Lists_put(&writer, value);
    *count = writer.needed;
    return writer.status;
}
static inline postcard_status Lists_decode(Lists *value, const void *message, size_t size) {
    postcard_reader reader = postcard_reader_over(message, size);
    if (Lists_get(&reader, value) == POSTCARD_OK && reader.at != reader.size) reader.status = POSTCARD_NO_VALUE;
    return reader.status;
}

typedef struct forms_option_Serial { bool some; Serial value; } forms_option_Serial;
postcard_status forms_option_Serial_put(postcard_writer *writer, const forms_option_Serial *value);
postcard_status forms_option_Serial_get(postcard_reader *reader, forms_option_Serial *value);

typedef struct forms_tuple2_i8_f64 { int8_t _0; double _1; } forms_tuple2_i8_f64;
postcard_status forms_tuple2_i8_f64_put(postcard_writer *writer, const forms_tuple2_i8_f64 *value);
postcard_status forms_tuple2_i8_f64_get(postcard_reader *reader, forms_tuple2_i8_f64 *value);

/* Arrays. */
typedef struct Arrays {
    uint8_t a[4];
    uint16_t b[3][2];
    forms_option_Serial c[2];
    /* d has no bytes */
    forms_tuple2_i8_f64 e[3];
    uint8_t f[2][2];
    uint16_t g[2];
    Level h[2];
} Arrays;
postcard_status Arrays_put(postcard_writer *writer, const Arrays *value);
postcard_status Arrays_get(postcard_reader *reader, Arrays *value);
#define Arrays_MAX_SIZE 83u
static inline postcard_status Arrays_encode(const Arrays *value, void *message, size_t size, size_t *count) {
    postcard_writer writer = postcard_writer_over(message, size);
    Arrays_put(&writer, value);
    *count = writer.needed;
    return writer.status;
}
static inline postcard_status Arrays_decode(Arrays *value, const void *message, size_t size) {
    postcard_reader reader = postcard_reader_over(message, size);
    if (Arrays_get(&reader, value) == POSTCARD_OK && reader.at != reader.size) reader.status = POSTCARD_NO_VALUE;
    return reader.status;
}
#define Arrays_FRAME_SIZE POSTCARD_FRAME_SIZE(Arrays_MAX_SIZE)
static inline postcard_status Arrays_frame(const Arrays *value, uint8_t *frame, size_t size, size_t *count) {
    uint8_t message[83];
    size_t used = 0;
    postcard_status status = Arrays_encode(value, message, sizeof message, &used);
    return status == POSTCARD_OK ? postcard_cobs_encode(message, used, frame, size, count) : status;
}

/* Owners, which are written as their content. */
typedef struct Owners {
    Serial a;
    postcard_slice b;
    forms_list_u16 c;
    postcard_slice d;
    Pair e;
    uint32_t f;
    /* g has no bytes */
} Owners;
postcard_status Owners_put(postcard_writer *writer, const Owners *value);
postcard_status Owners_get(postcard_reader *reader, Owners *value);
/* Owners has no greatest size, since a text, a list or a map has no capacity. */
static inline postcard_status Owners_encode(const Owners *value, void *message, size_t size, size_t *count) {
    postcard_writer writer = postcard_writer_over(message, size);
    Owners_put(&writer, value);
    *count = writer.needed;
    return writer.status;
}
static inline postcard_status Owners_decode(Owners *value, const void *message, size_t size) {
    postcard_reader reader = postcard_reader_over(message, size);
    if (Owners_get(&reader, value) == POSTCARD_OK && reader.at != reader.size) reader.status = POSTCARD_NO_VALUE;
    return reader.status;
}

typedef struct forms_option_u8 { bool some; uint8_t value; } forms_option_u8;
postcard_status forms_option_u8_put(postcard_writer *writer, const forms_option_u8 *value);
postcard_status forms_option_u8_get(postcard_reader *reader, forms_option_u8 *value);

typedef struct forms_option_option_bool { bool some; forms_option_bool value; } forms_option_option_bool;
postcard_status forms_option_option_bool_put(postcard_writer *writer, const forms_option_option_bool *value);
postcard_status forms_option_option_bool_get(postcard_reader *reader, forms_option_option_bool *value);

typedef struct forms_option_unit { bool some; } forms_option_unit;
postcard_status forms_option_unit_put(postcard_writer *writer, const forms_option_unit *value);
postcard_status forms_option_unit_get(postcard_reader *reader, forms_option_unit *value);

typedef struct forms_option_Unit { bool some; Unit value; } forms_option_Unit;
postcard_status forms_option_Unit_put(postcard_writer *writer, const forms_option_Unit *value);
postcard_status forms_option_Unit_get(postcard_reader *reader, forms_option_Unit *value);

typedef struct forms_option_char { bool some; uint32_t value; } forms_option_char;
postcard_status forms_option_char_put(postcard_writer *writer, const forms_option_char *value);
postcard_status forms_option_char_get(postcard_reader *reader, forms_option_char *value);

typedef struct forms_tuple2_u8_option_char { uint8_t _0; forms_option_char _1; } forms_tuple2_u8_option_char;
postcard_status forms_tuple2_u8_option_char_put(postcard_writer *writer, const forms_tuple2_u8_option_char *value);
postcard_status forms_tuple2_u8_option_char_get(postcard_reader *reader, forms_tuple2_u8_option_char *value);

typedef struct forms_option_tuple2_u8_option_char { bool some; forms_tuple2_u8_option_char value; } forms_option_tuple2_u8_option_char;
postcard_status forms_option_tuple2_u8_option_char_put(postcard_writer *writer, const forms_option_tuple2_u8_option_char *value);
postcard_status forms_option_tuple2_u8_option_char_get(postcard_reader *reader, forms_option_tuple2_u8_option_char *value);

typedef struct forms_option_Level { bool some; Level value; } forms_option_Level;
postcard_status forms_option_Level_put(postcard_writer *writer, const forms_option_Level *value);
postcard_status forms_option_Level_get(postcard_reader *reader, forms_option_Level *value);

typedef struct forms_option_option_Level { bool some; forms_option_Level value; } forms_option_option_Level;
postcard_status forms_option_option_Level_put(postcard_writer *writer, const forms_option_option_Level *value);
postcard_status forms_option_option_Level_get(postcard_reader *reader, forms_option_option_Level *value);

typedef struct forms_option_option_option_Level { bool some; forms_option_option_Level value; } forms_option_option_option_Level;
postcard_status forms_option_option_option_Level_put(postcard_writer *writer, const forms_option_option_option_Level *value);
postcard_status forms_option_option_option_Level_get(postcard_reader *reader, forms_option_option_option_Level *value);

typedef struct forms_option_array3_u8 { bool some; uint8_t value[3]; } forms_option_array3_u8;
postcard_status forms_option_array3_u8_put(postcard_writer *writer, const forms_option_array3_u8 *value);
postcard_status forms_option_array3_u8_get(postcard_reader *reader, forms_option_array3_u8 *value);

/* Options in options, and of what has no bytes. */
typedef struct Options {
    forms_option_u8 a;
    forms_option_option_bool b;
    forms_option_unit c;
    forms_option_Unit d;
    forms_option_tuple2_u8_option_char e;
    forms_option_option_option_Level f;
    forms_option_array3_u8 g;
} Options;
postcard_status Options_put(postcard_writer *writer, const Options *value);
postcard_status Options_get(postcard_reader *reader, Options *value);
#define Options_MAX_SIZE 23u
static inline postcard_status Options_encode(const Options *value, void *message, size_t size, size_t *count) {
    postcard_writer writer = postcard_writer_over(message, size);
    Options_put(&writer, value);
    *count = writer.needed;
    return writer.status;
}
static inline postcard_status Options_decode(Options *value, const void *message, size_t size) {
    postcard_reader reader = postcard_reader_over(message, size);
    if (Options_get(&reader, value) == POSTCARD_OK && reader.at != reader.size) reader.status = POSTCARD_NO_VALUE;
    return reader.status;
}
#define Options_FRAME_SIZE POSTCARD_FRAME_SIZE(Options_MAX_SIZE)
static inline postcard_status Options_frame(const Options *value, uint8_t *frame, size_t size, size_t *count) {
    uint8_t message[23];
    size_t used = 0;
    postcard_status status = Options_encode(value, message, sizeof message, &used);
    return status == POSTCARD_OK ? postcard_cobs_encode(message, used, frame, size, count) : status;
}

typedef struct forms_result_u8_Level { bool is_ok; union { uint8_t ok; Level err; } as; } forms_result_u8_Level;
postcard_status forms_result_u8_Level_put(postcard_writer *writer, const forms_result_u8_Level *value);
postcard_status forms_result_u8_Level_get(postcard_reader *reader, forms_result_u8_Level *value);

typedef struct forms_result_unit_unit { bool is_ok; } forms_result_unit_unit;
postcard_status forms_result_unit_unit_put(postcard_writer *writer, const forms_result_unit_unit *value);
postcard_status forms_result_unit_unit_get(postcard_reader *reader, forms_result_unit_unit *value);

typedef struct forms_result_unit_str4 { bool is_ok; union { forms_str4 err; } as; } forms_result_unit_str4;
postcard_status forms_result_unit_str4_put(postcard_writer *writer, const forms_result_unit_str4 *value);
postcard_status forms_result_unit_str4_get(postcard_reader *reader, forms_result_unit_str4 *value);

typedef struct forms_result_Numbers_array2_i32 { bool is_ok; union { Numbers ok; int32_t err[2]; } as; } forms_result_Numbers_array2_i32;
postcard_status forms_result_Numbers_array2_i32_put(postcard_writer *writer, const forms_result_Numbers_array2_i32 *value);
postcard_status forms_result_Numbers_array2_i32_get(postcard_reader *reader, forms_result_Numbers_array2_i32 *value);

typedef struct forms_result_u8_i8 { bool is_ok; union { uint8_t ok; int8_t err; } as; } forms_result_u8_i8;
postcard_status forms_result_u8_i8_put(postcard_writer *writer, const forms_result_u8_i8 *value);
postcard_status forms_result_u8_i8_get(postcard_reader *reader, forms_result_u8_i8 *value);

typedef struct forms_result_result_u8_i8_option_u8 { bool is_ok; union { forms_result_u8_i8 ok; forms_option_u8 err; } as; } forms_result_result_u8_i8_option_u8;
postcard_status forms_result_result_u8_i8_option_u8_put(postcard_writer *writer, const forms_result_result_u8_i8_option_u8 *value);
postcard_status forms_result_result_u8_i8_option_u8_get(postcard_reader *reader, forms_result_result_u8_i8_option_u8 *value);

typedef struct Results {
    forms_result_u8_Level a;
    forms_result_unit_unit b;
    forms_result_unit_str4 c;
    forms_result_Numbers_array2_i32 d;
    forms_result_result_u8_i8_option_u8 e;
} Results;
postcard_status Results_put(postcard_writer *writer, const Results *value);
postcard_status Results_get(postcard_reader *reader, Results *value);
#define Results_MAX_SIZE 127u
static inline postcard_status Results_encode(const Results *value, void *message, size_t size, size_t *count) {
    postcard_writer writer = postcard_writer_over(message, size);
    Results_put(&writer, value);
    *count = writer.needed;
    return writer.status;
}
static inline postcard_status Results_decode(Results *value, const void *message, size_t size) {
    postcard_reader reader = postcard_reader_over(message, size);
    if (Results_get(&reader, value) == POSTCARD_OK && reader.at != reader.size) reader.status = POSTCARD_NO_VALUE;
    return reader.status;
}
#define Results_FRAME_SIZE POSTCARD_FRAME_SIZE(Results_MAX_SIZE)
static inline postcard_status Results_frame(const Results *value, uint8_t *frame, size_t size, size_t *count) {
    uint8_t message[127];
    size_t used = 0;
    postcard_status status = Results_encode(value, message, sizeof message, &used);
    return status == POSTCARD_OK ? postcard_cobs_encode(message, used, frame, size, count) : status;
}

typedef struct forms_tuple1_u8 { uint8_t _0; } forms_tuple1_u8;
postcard_status forms_tuple1_u8_put(postcard_writer *writer, const forms_tuple1_u8 *value);
postcard_status forms_tuple1_u8_get(postcard_reader *reader, forms_tuple1_u8 *value);

typedef struct forms_tuple2_bool_bool { bool _0; bool _1; } forms_tuple2_bool_bool;
postcard_status forms_tuple2_bool_bool_put(postcard_writer *writer, const forms_tuple2_bool_bool *value);
postcard_status forms_tuple2_bool_bool_get(postcard_reader *reader, forms_tuple2_bool_bool *value);

typedef struct forms_tuple2_tuple2_u8_u16_array2_tuple2_bool_bool { forms_tuple2_u8_u16 _0; forms_tuple2_bool_bool _1[2]; } forms_tuple2_tuple2_u8_u16_array2_tuple2_bool_bool;
postcard_status forms_tuple2_tuple2_u8_u16_array2_tuple2_bool_bool_put(postcard_writer *writer, const forms_tuple2_tuple2_u8_u16_array2_tuple2_bool_bool *value);
postcard_status forms_tuple2_tuple2_u8_u16_array2_tuple2_bool_bool_get(postcard_reader *reader, forms_tuple2_tuple2_u8_u16_array2_tuple2_bool_bool *value);

typedef struct forms_tuple2_unit_unit { uint8_t nothing_; } forms_tuple2_unit_unit;
postcard_status forms_tuple2_unit_unit_put(postcard_writer *writer, const forms_tuple2_unit_unit *value);
postcard_status forms_tuple2_unit_unit_get(postcard_reader *reader, forms_tuple2_unit_unit *value);

typedef struct Tuples {
    /* _0 has no bytes */
    forms_tuple1_u8 _1;
    forms_tuple2_tuple2_u8_u16_array2_tuple2_bool_bool _2;
    forms_tuple2_unit_unit _3;
} Tuples;
postcard_status Tuples_put(postcard_writer *writer, const Tuples *value);
postcard_status Tuples_get(postcard_reader *reader, Tuples *value);
#define Tuples_MAX_SIZE 9u
static inline postcard_status Tuples_encode(const Tuples *value, void *message, size_t size, size_t *count) {
    postcard_writer writer = postcard_writer_over(message, size);
    Tuples_put(&writer, value);
    *count = writer.needed;
    return writer.status;
}
static inline postcard_status Tuples_decode(Tuples *value, const void *message, size_t size) {
    postcard_reader reader = postcard_reader_over(message, size);
    if (Tuples_get(&reader, value) == POSTCARD_OK && reader.at != reader.size) reader.status = POSTCARD_NO_VALUE;
    return reader.status;
}
#define Tuples_FRAME_SIZE POSTCARD_FRAME_SIZE(Tuples_MAX_SIZE)
static inline postcard_status Tuples_frame(const Tuples *value, uint8_t *frame, size_t size, size_t *count) {
    uint8_t message[9];
    size_t used = 0;
    postcard_status status = Tuples_encode(value, message, sizeof message, &used);
    return status == POSTCARD_OK ? postcard_cobs_encode(message, used, frame, size, count) : status;
}

/* A generic type, made concrete by its uses. */
typedef struct Holder_option_u8 {
    forms_option_u8 old;
    forms_option_u8 new_;
} Holder_option_u8;
postcard_status Holder_option_u8_put(postcard_writer *writer, const Holder_option_u8 *value);
postcard_status Holder_option_u8_get(postcard_reader *reader, Holder_option_u8 *value);
#define Holder_option_u8_MAX_SIZE 4u
static inline postcard_status Holder_option_u8_encode(const Holder_option_u8 *value, void *message, size_t size, size_t *count) {
    postcard_writer writer = postcard_writer_over(message, size);
    Holder_option_u8_put(&writer, value);
    *count = writer.needed;
    return writer.status;
}
static inline postcard_status Holder_option_u8_decode(Holder_option_u8 *value, const void *message, size_t size) {
    postcard_reader reader = postcard_reader_over(message, size);
    if (Holder_option_u8_get(&reader, value) == POSTCARD_OK && reader.at != reader.size) reader.status = POSTCARD_NO_VALUE;
    return reader.status;
}
#define Holder_option_u8_FRAME_SIZE POSTCARD_FRAME_SIZE(Holder_option_u8_MAX_SIZE)
static inline postcard_status Holder_option_u8_frame(const Holder_option_u8 *value, uint8_t *frame, size_t size, size_t *count) {
    uint8_t message[4];
    size_t used = 0;
    postcard_status status = Holder_option_u8_encode(value, message, sizeof message, &used);
    return status == POSTCARD_OK ? postcard_cobs_encode(message, used, frame, size, count) : status;
}

/* An enum with content of each form. */
typedef enum Shape_tag { /* the numbers of the variants in a message */
    Shape_Empty = 0,
    Shape_NoParts = 1,
    Shape_NoFields = 2,
    Shape_Unit = 3,
    Shape_One = 4,
    Shape_Two = 5,
    Shape_Named = 6,
    Shape_Inner = 7,
    Shape_HTTPServer = 8,
    Shape_List = 9,
    Shape_Deep = 10
} Shape_tag;
typedef struct Shape {
    Shape_tag tag;
    union {
        uint8_t one;
        struct {
            uint8_t _0;
            int16_t _1;
        } two;
        struct {
            uint16_t width;
            uint16_t height;
        } named;
        Level inner;
        struct {
            uint16_t port;
        } http_server;
        forms_list_u16 list;
        Holder_option_u8 deep;
    } as;
} Shape;
postcard_status Shape_put(postcard_writer *writer, const Shape *value);
postcard_status Shape_get(postcard_reader *reader, Shape *value);
/* Shape has no greatest size, since a text, a list or a map has no capacity. */
static inline postcard_status Shape_encode(const Shape *value, void *message, size_t size, size_t *count) {
    postcard_writer writer = postcard_writer_over(message, size);
    Shape_put(&writer, value);
    *count = writer.needed;
    return writer.status;
}
static inline postcard_status Shape_decode(Shape *value, const void *message, size_t size) {
    postcard_reader reader = postcard_reader_over(message, size);
    if (Shape_get(&reader, value) == POSTCARD_OK && reader.at != reader.size) reader.status = POSTCARD_NO_VALUE;
    return reader.status;
}

/* One variant alone. */
typedef enum Single_tag { /* the numbers of the variants in a message */
    Single_Only = 0
} Single_tag;
typedef struct Single {
    Single_tag tag;
    union {
        struct {
            uint8_t a;
        } only;
    } as;
} Single;
postcard_status Single_put(postcard_writer *writer, const Single *value);
postcard_status Single_get(postcard_reader *reader, Single *value);
#define Single_MAX_SIZE 2u
static inline postcard_status Single_encode(const Single *value, void *message, size_t size, size_t *count) {
    postcard_writer writer = postcard_writer_over(message, size);
    Single_put(&writer, value);
    *count = writer.needed;
    return writer.status;
}
static inline postcard_status Single_decode(Single *value, const void *message, size_t size) {
    postcard_reader reader = postcard_reader_over(message, size);
    if (Single_get(&reader, value) == POSTCARD_OK && reader.at != reader.size) reader.status = POSTCARD_NO_VALUE;
    return reader.status;
}
#define Single_FRAME_SIZE POSTCARD_FRAME_SIZE(Single_MAX_SIZE)
static inline postcard_status Single_frame(const Single *value, uint8_t *frame, size_t size, size_t *count) {
    uint8_t message[2];
    size_t used = 0;
    postcard_status status = Single_encode(value, message, sizeof message, &used);
    return status == POSTCARD_OK ? postcard_cobs_encode(message, used, frame, size, count) : status;
}

/* Variants, none of which has bytes behind its number. */
typedef enum Hollow_tag { /* the numbers of the variants in a message */
    Hollow_A = 0,
    Hollow_B = 1
} Hollow_tag;
typedef struct Hollow {
    Hollow_tag tag;
} Hollow;
postcard_status Hollow_put(postcard_writer *writer, const Hollow *value);
postcard_status Hollow_get(postcard_reader *reader, Hollow *value);
#define Hollow_MAX_SIZE 1u
static inline postcard_status Hollow_encode(const Hollow *value, void *message, size_t size, size_t *count) {
    postcard_writer writer = postcard_writer_over(message, size);
    Hollow_put(&writer, value);
    *count = writer.needed;
    return writer.status;
}
static inline postcard_status Hollow_decode(Hollow *value, const void *message, size_t size) {
    postcard_reader reader = postcard_reader_over(message, size);
    if (Hollow_get(&reader, value) == POSTCARD_OK && reader.at != reader.size) reader.status = POSTCARD_NO_VALUE;
    return reader.status;
}
#define Hollow_FRAME_SIZE POSTCARD_FRAME_SIZE(Hollow_MAX_SIZE)
static inline postcard_status Hollow_frame(const Hollow *value, uint8_t *frame, size_t size, size_t *count) {
    uint8_t message[1];
    size_t used = 0;
    postcard_status status = Hollow_encode(value, message, sizeof message, &used);
    return status == POSTCARD_OK ? postcard_cobs_encode(message, used, frame, size, count) : status;
}

/* More than 128 variants, whose numbers have two bytes from the 129th on. */
typedef enum Many_tag { /* the numbers of the variants in a message */
    Many_V0 = 0,
    Many_V1 = 1,
    Many_V2 = 2,
    Many_V3 = 3,
    Many_V4 = 4,
    Many_V5 = 5,
    Many_V6 = 6,
    Many_V7 = 7,
    Many_V8 = 8,
    Many_V9 = 9,
    Many_V10 = 10,
    Many_V11 = 11,
    Many_V12 = 12,
    Many_V13 = 13,
    Many_V14 = 14,
    Many_V15 = 15,
    Many_V16 = 16,
    Many_V17 = 17,
    Many_V18 = 18,
    Many_V19 = 19,
    Many_V20 = 20,
    Many_V21 = 21,
    Many_V22 = 22,
    Many_V23 = 23,
    Many_V24 = 24,
    Many_V25 = 25,
    Many_V26 = 26,
    Many_V27 = 27,
    Many_V28 = 28,
    Many_V29 = 29,
    Many_V30 = 30,
    Many_V31 = 31,
    Many_V32 = 32,
    Many_V33 = 33,
    Many_V34 = 34,
    Many_V35 = 35,
    Many_V36 = 36,
    Many_V37 = 37,
    Many_V38 = 38,
    Many_V39 = 39,
    Many_V40 = 40,
    Many_V41 = 41,
    Many_V42 = 42,
    Many_V43 = 43,
    Many_V44 = 44,
    Many_V45 = 45,
    Many_V46 = 46,
    Many_V47 = 47,
    Many_V48 = 48,
    Many_V49 = 49,
    Many_V50 = 50,
    Many_V51 = 51,
    Many_V52 = 52,
    Many_V53 = 53,
    Many_V54 = 54,
    Many_V55 = 55,
    Many_V56 = 56,
    Many_V57 = 57,
    Many_V58 = 58,
    Many_V59 = 59,
    Many_V60 = 60,
    Many_V61 = 61,
    Many_V62 = 62,
    Many_V63 = 63,
    Many_V64 = 64,
    Many_V65 = 65,
    Many_V66 = 66,
    Many_V67 = 67,
    Many_V68 = 68,
    Many_V69 = 69,
    Many_V70 = 70,
    Many_V71 = 71,
    Many_V72 = 72,
    Many_V73 = 73,
    Many_V74 = 74,
    Many_V75 = 75,
    Many_V76 = 76,
    Many_V77 = 77,
    Many_V78 = 78,
    Many_V79 = 79,
    Many_V80 = 80,
    Many_V81 = 81,
    Many_V82 = 82,
    Many_V83 = 83,
    Many_V84 = 84,
    Many_V85 = 85,
    Many_V86 = 86,
    Many_V87 = 87,
    Many_V88 = 88,
    Many_V89 = 89,
    Many_V90 = 90,
    Many_V91 = 91,
    Many_V92 = 92,
    Many_V93 = 93,
    Many_V94 = 94,
    Many_V95 = 95,
    Many_V96 = 96,
    Many_V97 = 97,
    Many_V98 = 98,
    Many_V99 = 99,
    Many_V100 = 100,
    Many_V101 = 101,
    Many_V102 = 102,
    Many_V103 = 103,
    Many_V104 = 104,
    Many_V105 = 105,
    Many_V106 = 106,
    Many_V107 = 107,
    Many_V108 = 108,
    Many_V109 = 109,
    Many_V110 = 110,
    Many_V111 = 111,
    Many_V112 = 112,
    Many_V113 = 113,
    Many_V114 = 114,
    Many_V115 = 115,
    Many_V116 = 116,
    Many_V117 = 117,
    Many_V118 = 118,
    Many_V119 = 119,
    Many_V120 = 120,
    Many_V121 = 121,
    Many_V122 = 122,
    Many_V123 = 123,
    Many_V124 = 124,
    Many_V125 = 125,
    Many_V126 = 126,
    Many_V127 = 127,
    Many_Last = 128,
    Many_Other = 129
} Many_tag;
typedef struct Many {
    Many_tag tag;
    union {
        uint8_t last;
        struct {
            int8_t a;
        } other;
    } as;
} Many;
postcard_status Many_put(postcard_writer *writer, const Many *value);
postcard_status Many_get(postcard_reader *reader, Many *value);
#define Many_MAX_SIZE 3u
static inline postcard_status Many_encode(const Many *value, void *message, size_t size, size_t *count) {
    postcard_writer writer = postcard_writer_over(message, size);
    Many_put(&writer, value);
    *count = writer.needed;
    return writer.status;
}
static inline postcard_status Many_decode(Many *value, const void *message, size_t size) {
    postcard_reader reader = postcard_reader_over(message, size);
    if (Many_get(&reader, value) == POSTCARD_OK && reader.at != reader.size) reader.status = POSTCARD_NO_VALUE;
    return reader.status;
}
#define Many_FRAME_SIZE POSTCARD_FRAME_SIZE(Many_MAX_SIZE)
static inline postcard_status Many_frame(const Many *value, uint8_t *frame, size_t size, size_t *count) {
    uint8_t message[3];
    size_t used = 0;
    postcard_status status = Many_encode(value, message, sizeof message, &used);
    return status == POSTCARD_OK ? postcard_cobs_encode(message, used, frame, size, count) : status;
}

/* A generic type, made concrete by its uses. */
typedef struct HolderByte {
    uint8_t old;
    uint8_t new_;
} HolderByte;
postcard_status HolderByte_put(postcard_writer *writer, const HolderByte *value);
postcard_status HolderByte_get(postcard_reader *reader, HolderByte *value);
#define HolderByte_MAX_SIZE 2u
static inline postcard_status HolderByte_encode(const HolderByte *value, void *message, size_t size, size_t *count) {
    postcard_writer writer = postcard_writer_over(message, size);
    HolderByte_put(&writer, value);
    *count = writer.needed;
    return writer.status;
}
static inline postcard_status HolderByte_decode(HolderByte *value, const void *message, size_t size) {
    postcard_reader reader = postcard_reader_over(message, size);
    if (HolderByte_get(&reader, value) == POSTCARD_OK && reader.at != reader.size) reader.status = POSTCARD_NO_VALUE;
    return reader.status;
}
#define HolderByte_FRAME_SIZE POSTCARD_FRAME_SIZE(HolderByte_MAX_SIZE)
static inline postcard_status HolderByte_frame(const HolderByte *value, uint8_t *frame, size_t size, size_t *count) {
    uint8_t message[2];
    size_t used = 0;
    postcard_status status = HolderByte_encode(value, message, sizeof message, &used);
    return status == POSTCARD_OK ? postcard_cobs_encode(message, used, frame, size, count) : status;
}

typedef enum RequestShort_tag { /* the numbers of the variants in a message */
    RequestShort_Get = 0,
    RequestShort_Set = 1,
    RequestShort_Limit = 2,
    RequestShort_Fail = 3
} RequestShort_tag;
typedef struct RequestShort {
    RequestShort_tag tag;
    union {
        uint16_t set;
        struct {
            uint16_t low;
            uint16_t high;
        } limit;
        Level fail;
    } as;
} RequestShort;
postcard_status RequestShort_put(postcard_writer *writer, const RequestShort *value);
postcard_status RequestShort_get(postcard_reader *reader, RequestShort *value);
#define RequestShort_MAX_SIZE 7u
static inline postcard_status RequestShort_encode(const RequestShort *value, void *message, size_t size, size_t *count) {
    postcard_writer writer = postcard_writer_over(message, size);
    RequestShort_put(&writer, value);
    *count = writer.needed;
    return writer.status;
}
static inline postcard_status RequestShort_decode(RequestShort *value, const void *message, size_t size) {
    postcard_reader reader = postcard_reader_over(message, size);
    if (RequestShort_get(&reader, value) == POSTCARD_OK && reader.at != reader.size) reader.status = POSTCARD_NO_VALUE;
    return reader.status;
}
#define RequestShort_FRAME_SIZE POSTCARD_FRAME_SIZE(RequestShort_MAX_SIZE)
static inline postcard_status RequestShort_frame(const RequestShort *value, uint8_t *frame, size_t size, size_t *count) {
    uint8_t message[7];
    size_t used = 0;
    postcard_status status = RequestShort_encode(value, message, sizeof message, &used);
    return status == POSTCARD_OK ? postcard_cobs_encode(message, used, frame, size, count) : status;
}

/* A generic type, made concrete by its uses. */
typedef struct Holder_bool {
    bool old;
    bool new_;
} Holder_bool;
postcard_status Holder_bool_put(postcard_writer *writer, const Holder_bool *value);
postcard_status Holder_bool_get(postcard_reader *reader, Holder_bool *value);
#define Holder_bool_MAX_SIZE 2u
static inline postcard_status Holder_bool_encode(const Holder_bool *value, void *message, size_t size, size_t *count) {
    postcard_writer writer = postcard_writer_over(message, size);
    Holder_bool_put(&writer, value);
    *count = writer.needed;
    return writer.status;
}
static inline postcard_status Holder_bool_decode(Holder_bool *value, const void *message, size_t size) {
    postcard_reader reader = postcard_reader_over(message, size);
    if (Holder_bool_get(&reader, value) == POSTCARD_OK && reader.at != reader.size) reader.status = POSTCARD_NO_VALUE;
    return reader.status;
}
#define Holder_bool_FRAME_SIZE POSTCARD_FRAME_SIZE(Holder_bool_MAX_SIZE)
static inline postcard_status Holder_bool_frame(const Holder_bool *value, uint8_t *frame, size_t size, size_t *count) {
    uint8_t message[2];
    size_t used = 0;
    postcard_status status = Holder_bool_encode(value, message, sizeof message, &used);
    return status == POSTCARD_OK ? postcard_cobs_encode(message, used, frame, size, count) : status;
}

/* A generic type, made concrete by its uses. */
typedef struct Holder_Holder_bool {
    Holder_bool old;
    Holder_bool new_;
} Holder_Holder_bool;
postcard_status Holder_Holder_bool_put(postcard_writer *writer, const Holder_Holder_bool *value);
postcard_status Holder_Holder_bool_get(postcard_reader *reader, Holder_Holder_bool *value);
#define Holder_Holder_bool_MAX_SIZE 4u
static inline postcard_status Holder_Holder_bool_encode(const Holder_Holder_bool *value, void *message, size_t size, size_t *count) {
    postcard_writer writer = postcard_writer_over(message, size);
    Holder_Holder_bool_put(&writer, value);
    *count = writer.needed;
    return writer.status;
}
static inline postcard_status Holder_Holder_bool_decode(Holder_Holder_bool *value, const void *message, size_t size) {
    postcard_reader reader = postcard_reader_over(message, size);
    if (Holder_Holder_bool_get(&reader, value) == POSTCARD_OK && reader.at != reader.size) reader.status = POSTCARD_NO_VALUE;
    return reader.status;
}
#define Holder_Holder_bool_FRAME_SIZE POSTCARD_FRAME_SIZE(Holder_Holder_bool_MAX_SIZE)
static inline postcard_status Holder_Holder_bool_frame(const Holder_Holder_bool *value, uint8_t *frame, size_t size, size_t *count) {
    uint8_t message[4];
    size_t used = 0;
    postcard_status status = Holder_Holder_bool_encode(value, message, sizeof message, &used);
    return status == POSTCARD_OK ? postcard_cobs_encode(message, used, frame, size, count) : status;
}

typedef enum Request_i32_unit_tag { /* the numbers of the variants in a message */
    Request_i32_unit_Get = 0,
    Request_i32_unit_Set = 1,
    Request_i32_unit_Limit = 2,
    Request_i32_unit_Fail = 3
} Request_i32_unit_tag;
typedef struct Request_i32_unit {
    Request_i32_unit_tag tag;
    union {
        int32_t set;
        struct {
            int32_t low;
            int32_t high;
        } limit;
    } as;
} Request_i32_unit;
postcard_status Request_i32_unit_put(postcard_writer *writer, const Request_i32_unit *value);
postcard_status Request_i32_unit_get(postcard_reader *reader, Request_i32_unit *value);
#define Request_i32_unit_MAX_SIZE 11u
static inline postcard_status Request_i32_unit_encode(const Request_i32_unit *value, void *message, size_t size, size_t *count) {
    postcard_writer writer = postcard_writer_over(message, size);
    Request_i32_unit_put(&writer, value);
    *count = writer.needed;
    return writer.status;
}
static inline postcard_status Request_i32_unit_decode(Request_i32_unit *value, const void *message, size_t size) {
    postcard_reader reader = postcard_reader_over(message, size);
    if (Request_i32_unit_get(&reader, value) == POSTCARD_OK && reader.at != reader.size) reader.status = POSTCARD_NO_VALUE;
    return reader.status;
}
#define Request_i32_unit_FRAME_SIZE POSTCARD_FRAME_SIZE(Request_i32_unit_MAX_SIZE)
static inline postcard_status Request_i32_unit_frame(const Request_i32_unit *value, uint8_t *frame, size_t size, size_t *count) {
    uint8_t message[11];
    size_t used = 0;
    postcard_status status = Request_i32_unit_encode(value, message, sizeof message, &used);
    return status == POSTCARD_OK ? postcard_cobs_encode(message, used, frame, size, count) : status;
}

/* A generic type, made concrete by its uses. */
typedef struct Holder_bytes {
    postcard_slice old;
    postcard_slice new_;
} Holder_bytes;
postcard_status Holder_bytes_put(postcard_writer *writer, const Holder_bytes *value);
postcard_status Holder_bytes_get(postcard_reader *reader, Holder_bytes *value);
/* Holder_bytes has no greatest size, since a text, a list or a map has no capacity. */
static inline postcard_status Holder_bytes_encode(const Holder_bytes *value, void *message, size_t size, size_t *count) {
    postcard_writer writer = postcard_writer_over(message, size);
    Holder_bytes_put(&writer, value);
    *count = writer.needed;
    return writer.status;
}
static inline postcard_status Holder_bytes_decode(Holder_bytes *value, const void *message, size_t size) {
    postcard_reader reader = postcard_reader_over(message, size);
    if (Holder_bytes_get(&reader, value) == POSTCARD_OK && reader.at != reader.size) reader.status = POSTCARD_NO_VALUE;
    return reader.status;
}

typedef struct Generics {
    HolderByte a;
    Holder_Holder_bool b;
    RequestShort c;
    Request_i32_unit d;
    Holder_bytes e;
} Generics;
postcard_status Generics_put(postcard_writer *writer, const Generics *value);
postcard_status Generics_get(postcard_reader *reader, Generics *value);
/* Generics has no greatest size, since a text, a list or a map has no capacity. */
static inline postcard_status Generics_encode(const Generics *value, void *message, size_t size, size_t *count) {
    postcard_writer writer = postcard_writer_over(message, size);
    Generics_put(&writer, value);
    *count = writer.needed;
    return writer.status;
}
static inline postcard_status Generics_decode(Generics *value, const void *message, size_t size) {
    postcard_reader reader = postcard_reader_over(message, size);
    if (Generics_get(&reader, value) == POSTCARD_OK && reader.at != reader.size) reader.status = POSTCARD_NO_VALUE;
    return reader.status;
}

typedef struct Samples { size_t count; const int32_t *items; postcard_slice encoded; } Samples;
postcard_status Samples_put(postcard_writer *writer, const Samples *value);
postcard_status Samples_get(postcard_reader *reader, Samples *value);
bool Samples_next(postcard_reader *reader, int32_t *item);
static inline postcard_reader Samples_reader(const Samples *value) {
    return postcard_reader_over(value->encoded.bytes, value->encoded.size);
}
/* Samples has no greatest size, since a text, a list or a map has no capacity. */
static inline postcard_status Samples_encode(const Samples *value, void *message, size_t size, size_t *count) {
    postcard_writer writer = postcard_writer_over(message, size);
    Samples_put(&writer, value);
    *count = writer.needed;
    return writer.status;
}
static inline postcard_status Samples_decode(Samples *value, const void *message, size_t size) {
    postcard_reader reader = postcard_reader_over(message, size);
    if (Samples_get(&reader, value) == POSTCARD_OK && reader.at != reader.size) reader.status = POSTCARD_NO_VALUE;
    return reader.status;
}

typedef struct Place { int32_t _0; postcard_slice _1; } Place;
postcard_status Place_put(postcard_writer *writer, const Place *value);
postcard_status Place_get(postcard_reader *reader, Place *value);
/* Place has no greatest size, since a text, a list or a map has no capacity. */
static inline postcard_status Place_encode(const Place *value, void *message, size_t size, size_t *count) {
    postcard_writer writer = postcard_writer_over(message, size);
    Place_put(&writer, value);
    *count = writer.needed;
    return writer.status;
}
static inline postcard_status Place_decode(Place *value, const void *message, size_t size) {
    postcard_reader reader = postcard_reader_over(message, size);
    if (Place_get(&reader, value) == POSTCARD_OK && reader.at != reader.size) reader.status = POSTCARD_NO_VALUE;
    return reader.status;
}

typedef struct Aliases {
    int32_t a;
    Samples b;
    Place c;
    Shape d;
} Aliases;
postcard_status Aliases_put(postcard_writer *writer, const Aliases *value);
postcard_status Aliases_get(postcard_reader *reader, Aliases *value);
/* Aliases has no greatest size, since a text, a list or a map has no capacity. */
static inline postcard_status Aliases_encode(const Aliases *value, void *message, size_t size, size_t *count) {
    postcard_writer writer = postcard_writer_over(message, size);
    Aliases_put(&writer, value);
    *count = writer.needed;
    return writer.status;
}
static inline postcard_status Aliases_decode(Aliases *value, const void *message, size_t size) {
    postcard_reader reader = postcard_reader_over(message, size);
    if (Aliases_get(&reader, value) == POSTCARD_OK && reader.at != reader.size) reader.status = POSTCARD_NO_VALUE;
    return reader.status;
}

/* Types as expressions of pcard. */
typedef enum State_tag { /* the numbers of the variants in a message */
    State_Boot = 0,
    State_Fault = 1,
    State_Stopped = 2
} State_tag;
typedef struct State {
    State_tag tag;
    union {
        uint8_t fault;
        struct {
            uint16_t _0;
            bool _1;
        } stopped;
    } as;
} State;
postcard_status State_put(postcard_writer *writer, const State *value);
postcard_status State_get(postcard_reader *reader, State *value);
#define State_MAX_SIZE 5u
static inline postcard_status State_encode(const State *value, void *message, size_t size, size_t *count) {
    postcard_writer writer = postcard_writer_over(message, size);
    State_put(&writer, value);
    *count = writer.needed;
    return writer.status;
}
static inline postcard_status State_decode(State *value, const void *message, size_t size) {
    postcard_reader reader = postcard_reader_over(message, size);
    if (State_get(&reader, value) == POSTCARD_OK && reader.at != reader.size) reader.status = POSTCARD_NO_VALUE;
    return reader.status;
}
#define State_FRAME_SIZE POSTCARD_FRAME_SIZE(State_MAX_SIZE)
static inline postcard_status State_frame(const State *value, uint8_t *frame, size_t size, size_t *count) {
    uint8_t message[5];
    size_t used = 0;
    postcard_status status = State_encode(value, message, sizeof message, &used);
    return status == POSTCARD_OK ? postcard_cobs_encode(message, used, frame, size, count) : status;
}

typedef struct forms_option_State { bool some; State value; } forms_option_State;
postcard_status forms_option_State_put(postcard_writer *writer, const forms_option_State *value);
postcard_status forms_option_State_get(postcard_reader *reader, forms_option_State *value);

typedef struct forms_list_i16 { size_t count; const int16_t *items; postcard_slice encoded; } forms_list_i16;
postcard_status forms_list_i16_put(postcard_writer *writer, const forms_list_i16 *value);
postcard_status forms_list_i16_get(postcard_reader *reader, forms_list_i16 *value);
bool forms_list_i16_next(postcard_reader *reader, int16_t *item);
static inline postcard_reader forms_list_i16_reader(const forms_list_i16 *value) {
    return postcard_reader_over(value->encoded.bytes, value->encoded.size);
}

typedef struct forms_tuple2_u8_str { uint8_t _0; postcard_slice _1; } forms_tuple2_u8_str;
postcard_status forms_tuple2_u8_str_put(postcard_writer *writer, const forms_tuple2_u8_str *value);
postcard_status forms_tuple2_u8_str_get(postcard_reader *reader, forms_tuple2_u8_str *value);

typedef struct forms_map_u8_str { size_t count; const forms_tuple2_u8_str *items; postcard_slice encoded; } forms_map_u8_str;
postcard_status forms_map_u8_str_put(postcard_writer *writer, const forms_map_u8_str *value);
postcard_status forms_map_u8_str_get(postcard_reader *reader, forms_map_u8_str *value);
bool forms_map_u8_str_next(postcard_reader *reader, forms_tuple2_u8_str *item);
static inline postcard_reader forms_map_u8_str_reader(const forms_map_u8_str *value) {
    return postcard_reader_over(value->encoded.bytes, value->encoded.size);
}

typedef enum Expressions_d_y { /* the numbers of the variants in a message */
    Expressions_d_y_A = 0,
    Expressions_d_y_B = 1
} Expressions_d_y;
postcard_status Expressions_d_y_put(postcard_writer *writer, const Expressions_d_y *value);
postcard_status Expressions_d_y_get(postcard_reader *reader, Expressions_d_y *value);
#define Expressions_d_y_MAX_SIZE 1u
static inline postcard_status Expressions_d_y_encode(const Expressions_d_y *value, void *message, size_t size, size_t *count) {
    postcard_writer writer = postcard_writer_over(message, size);
    Expressions_d_y_put(&writer, value);
    *count = writer.needed;
    return writer.status;
}
static inline postcard_status Expressions_d_y_decode(Expressions_d_y *value, const void *message, size_t size) {
    postcard_reader reader = postcard_reader_over(message, size);
    if (Expressions_d_y_get(&reader, value) == POSTCARD_OK && reader.at != reader.size) reader.status = POSTCARD_NO_VALUE;
    return reader.status;
}
#define Expressions_d_y_FRAME_SIZE POSTCARD_FRAME_SIZE(Expressions_d_y_MAX_SIZE)
static inline postcard_status Expressions_d_y_frame(const Expressions_d_y *value, uint8_t *frame, size_t size, size_t *count) {
    uint8_t message[1];
    size_t used = 0;
    postcard_status status = Expressions_d_y_encode(value, message, sizeof message, &used);
    return status == POSTCARD_OK ? postcard_cobs_encode(message, used, frame, size, count) : status;
}

typedef struct Expressions_d {
    uint8_t x;
    Expressions_d_y y;
} Expressions_d;
postcard_status Expressions_d_put(postcard_writer *writer, const Expressions_d *value);
postcard_status Expressions_d_get(postcard_reader *reader, Expressions_d *value);
#define Expressions_d_MAX_SIZE 2u
static inline postcard_status Expressions_d_encode(const Expressions_d *value, void *message, size_t size, size_t *count) {
    postcard_writer writer = postcard_writer_over(message, size);
    Expressions_d_put(&writer, value);
    *count = writer.needed;
    return writer.status;
}
static inline postcard_status Expressions_d_decode(Expressions_d *value, const void *message, size_t size) {
    postcard_reader reader = postcard_reader_over(message, size);
    if (Expressions_d_get(&reader, value) == POSTCARD_OK && reader.at != reader.size) reader.status = POSTCARD_NO_VALUE;
    return reader.status;
}
#define Expressions_d_FRAME_SIZE POSTCARD_FRAME_SIZE(Expressions_d_MAX_SIZE)
static inline postcard_status Expressions_d_frame(const Expressions_d *value, uint8_t *frame, size_t size, size_t *count) {
    uint8_t message[2];
    size_t used = 0;
    postcard_status status = Expressions_d_encode(value, message, sizeof message, &used);
    return status == POSTCARD_OK ? postcard_cobs_encode(message, used, frame, size, count) : status;
}

typedef struct Expressions {
    forms_option_State a;
    forms_list_i16 b;
    forms_map_u8_str c;
    Expressions_d d;
    postcard_slice e;
} Expressions;
postcard_status Expressions_put(postcard_writer *writer, const Expressions *value);
postcard_status Expressions_get(postcard_reader *reader, Expressions *value);
/* Expressions has no greatest size, since a text, a list or a map has no capacity. */
static inline postcard_status Expressions_encode(const Expressions *value, void *message, size_t size, size_t *count) {
    postcard_writer writer = postcard_writer_over(message, size);
    Expressions_put(&writer, value);
    *count = writer.needed;
    return writer.status;
}
static inline postcard_status Expressions_decode(Expressions *value, const void *message, size_t size) {
    postcard_reader reader = postcard_reader_over(message, size);
    if (Expressions_get(&reader, value) == POSTCARD_OK && reader.at != reader.size) reader.status = POSTCARD_NO_VALUE;
    return reader.status;
}

/* Names that are words of C, of C++ or of Python, or that generated code has. */
typedef struct Words {
    uint8_t int_;
    uint8_t class_;
    uint8_t new_;
    uint8_t def;
    uint8_t lambda;
    uint8_t unix_;
    uint8_t value;
    uint8_t writer;
    uint8_t encode;
    uint8_t frame;
    uint8_t name;
    uint8_t errno_;
    forms_option_unit None;
} Words;
postcard_status Words_put(postcard_writer *writer, const Words *value);
postcard_status Words_get(postcard_reader *reader, Words *value);
#define Words_MAX_SIZE 13u
static inline postcard_status Words_encode(const Words *value, void *message, size_t size, size_t *count) {
    postcard_writer writer = postcard_writer_over(message, size);
    Words_put(&writer, value);
    *count = writer.needed;
    return writer.status;
}
static inline postcard_status Words_decode(Words *value, const void *message, size_t size) {
    postcard_reader reader = postcard_reader_over(message, size);
    if (Words_get(&reader, value) == POSTCARD_OK && reader.at != reader.size) reader.status = POSTCARD_NO_VALUE;
    return reader.status;
}
#define Words_FRAME_SIZE POSTCARD_FRAME_SIZE(Words_MAX_SIZE)
static inline postcard_status Words_frame(const Words *value, uint8_t *frame, size_t size, size_t *count) {
    uint8_t message[13];
    size_t used = 0;
    postcard_status status = Words_encode(value, message, sizeof message, &used);
    return status == POSTCARD_OK ? postcard_cobs_encode(message, used, frame, size, count) : status;
}

typedef struct writer_ {
    uint8_t _0;
} writer_;
postcard_status writer__put(postcard_writer *writer, const writer_ *value);
postcard_status writer__get(postcard_reader *reader, writer_ *value);
#define writer__MAX_SIZE 1u
static inline postcard_status writer__encode(const writer_ *value, void *message, size_t size, size_t *count) {
    postcard_writer writer = postcard_writer_over(message, size);
    writer__put(&writer, value);
    *count = writer.needed;
    return writer.status;
}
static inline postcard_status writer__decode(writer_ *value, const void *message, size_t size) {
    postcard_reader reader = postcard_reader_over(message, size);
    if (writer__get(&reader, value) == POSTCARD_OK && reader.at != reader.size) reader.status = POSTCARD_NO_VALUE;
    return reader.status;
}
#define writer__FRAME_SIZE POSTCARD_FRAME_SIZE(writer__MAX_SIZE)
static inline postcard_status writer__frame(const writer_ *value, uint8_t *frame, size_t size, size_t *count) {
    uint8_t message[1];
    size_t used = 0;
    postcard_status status = writer__encode(value, message, sizeof message, &used);
    return status == POSTCARD_OK ? postcard_cobs_encode(message, used, frame, size, count) : status;
}

typedef enum Error_tag { /* the numbers of the variants in a message */
    Error_None = 0,
    Error_True = 1,
    Error_Default = 2
} Error_tag;
typedef struct Error {
    Error_tag tag;
    union {
        uint8_t default_;
    } as;
} Error;
postcard_status Error_put(postcard_writer *writer, const Error *value);
postcard_status Error_get(postcard_reader *reader, Error *value);
#define Error_MAX_SIZE 2u
static inline postcard_status Error_encode(const Error *value, void *message, size_t size, size_t *count) {
    postcard_writer writer = postcard_writer_over(message, size);
    Error_put(&writer, value);
    *count = writer.needed;
    return writer.status;
}
static inline postcard_status Error_decode(Error *value, const void *message, size_t size) {
    postcard_reader reader = postcard_reader_over(message, size);
    if (Error_get(&reader, value) == POSTCARD_OK && reader.at != reader.size) reader.status = POSTCARD_NO_VALUE;
    return reader.status;
}
#define Error_FRAME_SIZE POSTCARD_FRAME_SIZE(Error_MAX_SIZE)
static inline postcard_status Error_frame(const Error *value, uint8_t *frame, size_t size, size_t *count) {
    uint8_t message[2];
    size_t used = 0;
    postcard_status status = Error_encode(value, message, sizeof message, &used);
    return status == POSTCARD_OK ? postcard_cobs_encode(message, used, frame, size, count) : status;
}

typedef struct Option_ {
    uint8_t self_;
} Option_;
postcard_status Option__put(postcard_writer *writer, const Option_ *value);
postcard_status Option__get(postcard_reader *reader, Option_ *value);
#define Option__MAX_SIZE 1u
static inline postcard_status Option__encode(const Option_ *value, void *message, size_t size, size_t *count) {
    postcard_writer writer = postcard_writer_over(message, size);
    Option__put(&writer, value);
    *count = writer.needed;
    return writer.status;
}
static inline postcard_status Option__decode(Option_ *value, const void *message, size_t size) {
    postcard_reader reader = postcard_reader_over(message, size);
    if (Option__get(&reader, value) == POSTCARD_OK && reader.at != reader.size) reader.status = POSTCARD_NO_VALUE;
    return reader.status;
}
#define Option__FRAME_SIZE POSTCARD_FRAME_SIZE(Option__MAX_SIZE)
static inline postcard_status Option__frame(const Option_ *value, uint8_t *frame, size_t size, size_t *count) {
    uint8_t message[1];
    size_t used = 0;
    postcard_status status = Option__encode(value, message, sizeof message, &used);
    return status == POSTCARD_OK ? postcard_cobs_encode(message, used, frame, size, count) : status;
}

/* Fields with the names of types. */
typedef struct Shadows {
    Serial Serial_;
    uint8_t writer;
    forms_option_Level Level_;
} Shadows;
postcard_status Shadows_put(postcard_writer *writer, const Shadows *value);
postcard_status Shadows_get(postcard_reader *reader, Shadows *value);
#define Shadows_MAX_SIZE 13u
static inline postcard_status Shadows_encode(const Shadows *value, void *message, size_t size, size_t *count) {
    postcard_writer writer = postcard_writer_over(message, size);
    Shadows_put(&writer, value);
    *count = writer.needed;
    return writer.status;
}
static inline postcard_status Shadows_decode(Shadows *value, const void *message, size_t size) {
    postcard_reader reader = postcard_reader_over(message, size);
    if (Shadows_get(&reader, value) == POSTCARD_OK && reader.at != reader.size) reader.status = POSTCARD_NO_VALUE;
    return reader.status;
}
#define Shadows_FRAME_SIZE POSTCARD_FRAME_SIZE(Shadows_MAX_SIZE)
static inline postcard_status Shadows_frame(const Shadows *value, uint8_t *frame, size_t size, size_t *count) {
    uint8_t message[13];
    size_t used = 0;
    postcard_status status = Shadows_encode(value, message, sizeof message, &used);
    return status == POSTCARD_OK ? postcard_cobs_encode(message, used, frame, size, count) : status;
}

/* Aliases. */
typedef int32_t Millimetres;
typedef Shape Same;

#ifdef __cplusplus
}
#endif
#endif
