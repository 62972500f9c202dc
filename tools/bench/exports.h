/* The exports of crates/bench_exports, whose comments say what each does. */
#include <stddef.h>
#include <stdint.h>

uint64_t port_small_encode(uint32_t count, uint8_t *out, size_t size);
uint64_t port_record(uint32_t i, uint8_t *out, size_t size);
uint64_t port_small_allocate(uint32_t count);
uint64_t port_small_stream(uint32_t count, uint8_t *out, size_t size);
uint64_t port_small_decode(const uint8_t *bytes, size_t size);
uint64_t port_u32s_encode(const uint32_t *values, size_t count, uint8_t *out, size_t size);
uint64_t port_u32s_allocate(const uint32_t *values, size_t count);
uint64_t port_u32s_decode(const uint8_t *bytes, size_t size);
uint64_t port_bytes_encode(const uint8_t *values, size_t count, uint8_t *out, size_t size);
uint64_t port_bytes_allocate(const uint8_t *values, size_t count);
uint64_t port_bytes_decode(const uint8_t *bytes, size_t size);
uint64_t port_bytes_lend(const uint8_t *bytes, size_t size);
uint64_t port_cobs_encode(const uint8_t *values, size_t count, uint8_t *out, size_t size);
uint64_t port_cobs_decode(uint8_t *frame, size_t size);
uint64_t port_record_frame(uint32_t i, uint8_t *out, size_t size);
uint64_t port_frames_encode(uint32_t count, uint8_t *out, size_t size);
uint64_t port_frames_decode(uint32_t count, uint8_t *frames, size_t size);
uint64_t port_records_to_memory(uint32_t count, uint8_t *out, size_t size);
uint64_t port_records_from_memory(uint32_t count, const uint8_t *bytes, size_t size);
uint64_t port_bytes_to_memory(const uint8_t *values, size_t count, uint8_t *out, size_t size);
uint64_t port_bytes_from_memory(const uint8_t *bytes, size_t size, uint8_t *scratch, size_t room);
uint64_t port_accumulate(const uint8_t *stream, size_t size, size_t piece);
uint64_t port_hostile(uint32_t kind, const uint8_t *bytes, size_t size);
uint64_t port_f32s_encode(const float *values, size_t count, uint8_t *out, size_t size);
uint64_t port_f32s_decode(const uint8_t *bytes, size_t size);
uint64_t port_f64s_encode(const double *values, size_t count, uint8_t *out, size_t size);
uint64_t port_f64s_decode(const uint8_t *bytes, size_t size);
uint64_t port_crc16(const uint8_t *bytes, size_t size);
uint64_t port_crc32(const uint8_t *bytes, size_t size);
uint64_t port_crc32_by_eights(const uint8_t *bytes, size_t size);
uint64_t port_crc64(const uint8_t *bytes, size_t size);
uint64_t port_crc32_encode(const uint8_t *values, size_t count, uint8_t *out, size_t size);
uint64_t port_crc32_decode(const uint8_t *bytes, size_t size);
uint64_t port_read(uint32_t kind, const uint8_t *bytes, size_t size, uint32_t rounds);
uint64_t port_write(uint32_t kind, const uint8_t *bytes, size_t size, uint32_t rounds, uint8_t *out, size_t room);
uint64_t port_size(uint32_t kind, const uint8_t *bytes, size_t size, uint32_t rounds);
