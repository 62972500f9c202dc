/* What a program in C without a library does for the rows of lists and maps: the work of `port_read`, `port_write`, `port_size` and
 * `port_bytes_lend`, with the numbers of types of `port_read` up to 6. */
#include <stddef.h>
#include <stdint.h>

/* Reads the message `rounds` times, and frees the value. Returns how many times that succeeded. */
uint64_t plain_read(uint32_t kind, const uint8_t *bytes, size_t size, uint32_t rounds);

/* Reads the message once, and writes its value `rounds` times into `out`. Returns the sum of the lengths, and UINT64_MAX if the
 * message is bad or there is too little room. */
uint64_t plain_write(uint32_t kind, const uint8_t *bytes, size_t size, uint32_t rounds, uint8_t *out, size_t room);

/* Reads the message once, and counts the bytes of its value `rounds` times. Returns the sum of the counts, and UINT64_MAX if the
 * message is bad. Only for texts, maps and records. */
uint64_t plain_size(uint32_t kind, const uint8_t *bytes, size_t size, uint32_t rounds);

/* Finds the bytes of a list in the message, without a copy. Returns the sum of its length and its last byte, and UINT64_MAX if the
 * message is bad. */
uint64_t plain_bytes_lend(const uint8_t *bytes, size_t size);
