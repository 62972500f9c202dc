/* The Rust crate's side: the same work as that of the exports, over the crate `postcard` 1.1.3. tools/bench/crate has its source. A
 * function is null if that side isn't linked, or doesn't have it. */
#include <stddef.h>
#include <stdint.h>

#define OF_CRATE(name, ...) __attribute__((weak)) uint64_t crate_##name(__VA_ARGS__)

OF_CRATE(small_encode, uint32_t count, uint8_t *out, size_t size);
OF_CRATE(small_allocate, uint32_t count);
OF_CRATE(small_stream, uint32_t count, uint8_t *out, size_t size);
OF_CRATE(small_decode, const uint8_t *bytes, size_t size);
OF_CRATE(u32s_encode, const uint32_t *values, size_t count, uint8_t *out, size_t size);
OF_CRATE(u32s_allocate, const uint32_t *values, size_t count);
OF_CRATE(u32s_decode, const uint8_t *bytes, size_t size);
OF_CRATE(bytes_encode, const uint8_t *values, size_t count, uint8_t *out, size_t size);
OF_CRATE(bytes_allocate, const uint8_t *values, size_t count);
OF_CRATE(bytes_decode, const uint8_t *bytes, size_t size);
OF_CRATE(bytes_lend, const uint8_t *bytes, size_t size);
OF_CRATE(cobs_encode, const uint8_t *values, size_t count, uint8_t *out, size_t size);
OF_CRATE(cobs_decode, uint8_t *frame, size_t size);
OF_CRATE(frames_encode, uint32_t count, uint8_t *out, size_t size);
OF_CRATE(frames_decode, uint32_t count, uint8_t *frames, size_t size);
OF_CRATE(records_to_memory, uint32_t count, uint8_t *out, size_t size);
OF_CRATE(records_from_memory, uint32_t count, const uint8_t *bytes, size_t size);
OF_CRATE(bytes_to_memory, const uint8_t *values, size_t count, uint8_t *out, size_t size);
OF_CRATE(bytes_from_memory, const uint8_t *bytes, size_t size, uint8_t *scratch, size_t room);
OF_CRATE(accumulate, const uint8_t *stream, size_t size, size_t piece);
OF_CRATE(f32s_encode, const float *values, size_t count, uint8_t *out, size_t size);
OF_CRATE(f32s_decode, const uint8_t *bytes, size_t size);
OF_CRATE(f64s_encode, const double *values, size_t count, uint8_t *out, size_t size);
OF_CRATE(f64s_decode, const uint8_t *bytes, size_t size);
OF_CRATE(read, uint32_t kind, const uint8_t *bytes, size_t size, uint32_t rounds);
OF_CRATE(write, uint32_t kind, const uint8_t *bytes, size_t size, uint32_t rounds, uint8_t *out, size_t room);
OF_CRATE(size, uint32_t kind, const uint8_t *bytes, size_t size, uint32_t rounds);
