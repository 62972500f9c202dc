/* The rows of checksums, which the crate's side doesn't have. */
#include "sides.h"

static uint32_t table[8][256];

/* The tables of CRC-32/ISO-HDLC, reflected: of a byte, and of a byte that up to seven zeros follow. */
static void make_tables(void) {
    for (uint32_t i = 0; i < 256; i++) {
        uint32_t value = i;
        for (int bit = 0; bit < 8; bit++) value = value >> 1 ^ (value & 1 ? 0xedb88320u : 0);
        table[0][i] = value;
    }
    for (int k = 1; k < 8; k++)
        for (int i = 0; i < 256; i++) table[k][i] = table[k - 1][i] >> 8 ^ table[0][table[k - 1][i] & 0xff];
}

static __attribute__((noinline)) uint64_t plain_crc32(const uint8_t *bytes, size_t size) {
    uint32_t value = ~0u;
    for (size_t i = 0; i < size; i++) value = value >> 8 ^ table[0][(value ^ bytes[i]) & 0xff];
    return (uint32_t)~value;
}

static __attribute__((noinline)) uint64_t plain_crc32_by_eights(const uint8_t *bytes, size_t size) {
    uint32_t value = ~0u, low, high;
    size_t i = 0;
    for (; i + 8 <= size; i += 8) {
        memcpy(&low, bytes + i, 4);
        memcpy(&high, bytes + i + 4, 4);
        low ^= value;
        value = table[7][low & 0xff] ^ table[6][low >> 8 & 0xff] ^ table[5][low >> 16 & 0xff] ^ table[4][low >> 24] ^
                table[3][high & 0xff] ^ table[2][high >> 8 & 0xff] ^ table[1][high >> 16 & 0xff] ^ table[0][high >> 24];
    }
    for (; i < size; i++) value = value >> 8 ^ table[0][(value ^ bytes[i]) & 0xff];
    return (uint32_t)~value;
}

void rows_of_checksums(void) {
    Times t = {0};
    const size_t most = 1 << 20;
    make_tables();
    for (size_t i = 0; i < most; i++) source[i] = (uint8_t)(i * 2654435761u >> 24);
    if (port_crc32(source, most) != plain_crc32(source, most)) fail("a checksum is another than the plain one's");
    if (port_crc32_by_eights(source, most) != plain_crc32_by_eights(source, most)) fail("a checksum is another than the plain one's");
    BEST(t.plain, plain_crc32(source, most));
    BEST(t.here, port_crc32(source, most));
    tell("1 MiB: CRC-32 by a table", t, (double)most, "a byte");
    BEST(t.here, port_crc16(source, most));
    tell("1 MiB: CRC-16 by a table", t, (double)most, "a byte");
    BEST(t.here, port_crc64(source, most));
    tell("1 MiB: CRC-64 by a table", t, (double)most, "a byte");
    BEST(t.here, port_crc32_encode(source, most, room, 2 * MOST));
    tell("1 MiB of u8, CRC-32 by a table: write", t, (double)most, "a byte");
    size_t size = port_crc32_encode(source, most, room, 2 * MOST);
    BEST(t.here, port_crc32_decode(room, size));
    tell("1 MiB of u8, CRC-32 by a table: read, lent", t, (double)most, "a byte");
    BEST(t.plain, plain_crc32_by_eights(source, most));
    BEST(t.here, port_crc32_by_eights(source, most));
    tell("1 MiB: CRC-32 by eight tables", t, (double)most, "a byte");
}
