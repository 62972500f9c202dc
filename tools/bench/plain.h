/* What a program in C without a library does for the rows of the driver: the work of the exports of crates/bench_exports, to the
 * byte. Each returns what the export returns, and UINT64_MAX if there is too little room or a message is bad. */
#include <stddef.h>
#include <stdint.h>

/* One record or frame, into the front of `out`, whose room is checked before each byte. Return the number of bytes. */
uint64_t plain_record(uint32_t i, uint8_t *out, size_t size);
uint64_t plain_record_frame(uint32_t i, uint8_t *out, size_t size);

/* `count` records, each into the front of `out`: the sum of the lengths and of the last bytes of their encodings. */
uint64_t plain_small_encode(uint32_t count, uint8_t *out, size_t size);

/* A list of numbers as varints; read into a new block, whose numbers are summed. */
uint64_t plain_u32s_encode(const uint32_t *values, size_t count, uint8_t *out, size_t size);
uint64_t plain_u32s_decode(const uint8_t *bytes, size_t size);

/* `count` records or frames: one after another, or each into a block of its own that is freed. */
uint64_t plain_records(uint32_t count, uint8_t *out, size_t size);
uint64_t plain_small_allocate(uint32_t count);
uint64_t plain_frames_encode(uint32_t count, uint8_t *out, size_t size);

/* The sum over `count` records; each text is checked to be UTF-8 and lent. The frames are decoded in place first. */
uint64_t plain_records_decode(uint32_t count, const uint8_t *bytes, size_t size);
uint64_t plain_frames_decode(uint32_t count, uint8_t *frames, size_t size);

/* The number of bytes of the record at the front, and its first field; 0 if there is none. */
size_t plain_first_field(const uint8_t *bytes, size_t size, uint32_t *first);

/* Keeps the bytes of a frame in a buffer of 64 bytes until its zero has come, in pieces of `piece` bytes. */
uint64_t plain_accumulate(const uint8_t *stream, size_t size, size_t piece);

/* A list of `count` numbers: 4 bytes, the lowest or the highest first, 8 bytes the lowest first, 2 bytes the highest first. */
uint64_t plain_fixed_encode(int kind, const void *values, size_t count, uint8_t *out, size_t size);
uint64_t plain_fixed_decode(int kind, const uint8_t *bytes, size_t size, size_t count, void *values);
