/* The exports of crates/test_c_source, for the tests of tools/c-source. */
#ifndef POSTCARD_CONSTRUCTS_H
#define POSTCARD_CONSTRUCTS_H
#include <stdbool.h>
#include <stddef.h>
#include <stdint.h>
#include <string.h>
#ifdef __cplusplus
extern "C" {
#endif

uint8_t unsigned_8(uint32_t operation, uint8_t a, uint8_t b);
uint16_t unsigned_16(uint32_t operation, uint16_t a, uint16_t b);
uint32_t unsigned_32(uint32_t operation, uint32_t a, uint32_t b);
uint64_t unsigned_64(uint32_t operation, uint64_t a, uint64_t b);
uint32_t counts_8(uint8_t a);
uint32_t counts_16(uint16_t a);
uint32_t counts_32(uint32_t a);
uint32_t counts_64(uint64_t a);
uint8_t signed_8(uint32_t operation, uint8_t a, uint8_t b);
uint16_t signed_16(uint32_t operation, uint16_t a, uint16_t b);
uint32_t signed_32(uint32_t operation, uint32_t a, uint32_t b);
uint64_t signed_64(uint32_t operation, uint64_t a, uint64_t b);
uint64_t unsigned_128(uint32_t operation, uint64_t a, uint64_t a_high, uint64_t b, uint64_t b_high, uint64_t *high);
uint64_t signed_128(uint32_t operation, uint64_t a, uint64_t a_high, uint64_t b, uint64_t b_high, uint64_t *high);
uint64_t cut(uint32_t kind, uint64_t a);
uint32_t widened(uint8_t a, uint16_t b, uint16_t *of_16);
uint64_t widened_128(uint8_t a, uint16_t b, uint32_t c, uint64_t d, uint64_t *high);
uint32_t of_bools(bool a, bool b);
uint64_t weights(uint32_t n, uint64_t a, uint8_t b);
uint64_t options(uint32_t n, uint64_t a, uint64_t b);
uint64_t eighths(uint64_t n);
uint64_t exchanged(uint64_t a, uint8_t b, uint32_t times);
uint64_t first_large(const uint8_t *bytes, size_t size, uint8_t limit);
uint64_t equal_pairs(const uint8_t *bytes, size_t size, uint64_t most);
uint64_t kinds(const uint8_t *bytes, size_t size);
uint64_t turns(uint8_t count, uint64_t a, uint64_t b);
uint64_t digits(uint64_t n);
uint64_t rules(uint32_t kind, uint64_t a, uint64_t b, uint8_t count);
uint64_t closures(uint32_t kind, uint64_t a, uint64_t b);
uint64_t lengths(uint64_t n);
uint64_t tables(uint64_t place);
uint64_t copied(const uint8_t *from, size_t from_size, uint8_t *to, size_t to_size);
uint64_t moved(uint8_t *bytes, size_t size, uint64_t from, uint64_t to);
void smeared(uint8_t *bytes, size_t size);
uint64_t turned(uint64_t n);
uint64_t replaced(uint64_t *n, uint64_t by);
uint64_t lanes(const uint8_t *bytes, size_t size);
uint64_t crossed(uint64_t a, uint64_t b);
uint64_t circled(uint8_t count, uint64_t a, uint64_t b);
uint64_t chained(uint8_t count, uint64_t a, uint64_t b);
uint64_t changed(uint64_t a, uint64_t b);
uint64_t walked(uint64_t path, uint64_t most);
uint64_t failing(uint64_t a, uint64_t b);
void repeated(uint8_t *bytes, size_t size, uint8_t shift);

#ifdef __cplusplus
}
#endif
#endif
