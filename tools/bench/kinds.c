/* The rows of lists and maps of many types, of messages that are refused, and of bytes that are lent. */
#include "sides.h"

/* The messages of the kinds of `port_read`, made by hand: a count, and then the elements. */
static uint8_t *message;
static size_t message_size;

static void put(uint8_t byte) { message[message_size++] = byte; }

static void put_number(uint64_t number) {
    for (; number > 127; number >>= 7) put((uint8_t)(number | 128));
    put((uint8_t)number);
}

static void put_text(uint32_t length) {
    put_number(length);
    for (uint32_t i = 0; i < length; i++) put((uint8_t)('a' + i % 26));
}

static void put_element(uint32_t kind, uint32_t i, uint32_t length) {
    uint32_t mixed = i * 2654435761u;
    switch (kind) {
    case 0: put_text(length); break;
    case 1: put_number(i), put_number(mixed >> (i % 4 * 8)); break;
    case 2:
        put(i % 3 != 0);
        if (i % 3) put_number(mixed >> (i % 4 * 8));
        break;
    case 3:
        put_number(mixed >> (i % 4 * 8)), put_number((mixed >> 16) >> (i % 2 * 8)), put(i % 3 != 0);
        if (i % 3) put((uint8_t)i);
        put_text(12);
        break;
    case 4: put((uint8_t)i), put_number(mixed >> 16), put_number(mixed), put(i % 2); break;
    case 5:
        put(i % 2);
        if (i % 2) put_text(12);
        else put((uint8_t)i);
        break;
    case 6: put((uint8_t)mixed), put((uint8_t)(mixed >> 8)), put((uint8_t)(mixed >> 16)), put((uint8_t)(mixed >> 24)); break;
    }
}

static const char *const kinds[] = {"texts", "pairs of a map of u32 to u32", "options of u32", "records", "structs in structs", "enums", "`LE<u32>`"};

static void make(uint32_t kind, uint32_t count, uint32_t length) {
    message = source;
    message_size = 0;
    put_number(count);
    for (uint32_t i = 0; i < count; i++) put_element(kind, i, length);
}

/* Texts, maps and records are counted without being written, too. */
static bool has_size(uint32_t kind) { return kind == 0 || kind == 1 || kind == 3; }

static void differ(uint32_t kind, const char *what) {
    char text[128];
    snprintf(text, sizeof text, "%s: %s", kinds[kind], what);
    fail(text);
}

/* Requires that the crate reads the message, writes the `size` bytes at the start of `room`, counts as many, and refuses each beginning
 * of the message. */
static void compare_crate(uint32_t kind, uint64_t size) {
    uint8_t *other = room + MOST;
    if (!crate_read) return;
    if (crate_read(kind, message, message_size, 1) != 1) differ(kind, "the crate refuses a message");
    if (crate_write(kind, message, message_size, 1, other, MOST) != size || memcmp(room, other, size)) differ(kind, "what the crate writes is different");
    if (has_size(kind) && crate_size(kind, message, message_size, 1) != size) differ(kind, "the crate counts other bytes than it writes");
    for (size_t begun = 0; begun < message_size; begun++)
        if (crate_read(kind, message, begun, 1)) differ(kind, "the crate reads a beginning of a message");
}

/* Requires that the library and plain C read the message and write the same bytes, that each reads what the other wrote, that they
 * count as many, refuse each beginning of the message, and free what they asked for. */
static void compare(uint32_t kind) {
    uint8_t *other = room + MOST;
    forget();
    if (port_read(kind, message, message_size, 1) != 1) differ(kind, "the library refuses a message");
    if (plain_read(kind, message, message_size, 1) != 1) differ(kind, "plain C refuses a message");
    uint64_t size = port_write(kind, message, message_size, 1, room, MOST);
    if (size > MOST) differ(kind, "the library doesn't write a message");
    if (plain_write(kind, message, message_size, 1, other, MOST) != size || memcmp(room, other, size)) differ(kind, "what plain C writes is different");
    if (plain_write(kind, room, size, 1, other, MOST) != size || memcmp(room, other, size)) differ(kind, "plain C reads another value from the library's bytes");
    if (port_write(kind, other, size, 1, room, MOST) != size || memcmp(room, other, size)) differ(kind, "the library reads another value from plain C's bytes");
    if (plain_write(kind, message, message_size, 1, other, size - 1) != UINT64_MAX) differ(kind, "plain C writes into too little room");
    if (has_size(kind) && port_size(kind, message, message_size, 1) != size) differ(kind, "the library counts other bytes than it writes");
    if (has_size(kind) && plain_size(kind, message, message_size, 1) != size) differ(kind, "plain C counts other bytes than it writes");
    for (size_t begun = 0; begun < message_size; begun++) {
        if (port_read(kind, message, begun, 1)) differ(kind, "the library reads a beginning of a message");
        if (plain_read(kind, message, begun, 1)) differ(kind, "plain C reads a beginning of a message");
    }
    compare_crate(kind, size);
    require_freed(kinds[kind]);
}

/* Compares on a map whose keys are in no order, and of which some are equal. */
static void compare_disorder(void) {
    message = source;
    message_size = 0;
    put_number(1000);
    for (uint32_t i = 0; i < 1000; i++) put_number(i * 2654435761u >> 23), put_number(i);
    compare(1);
}

static void tell_kind(uint32_t kind, uint32_t count, uint32_t length, const char *what, Times t, double items) {
    char row[64];
    if (kind == 0) snprintf(row, sizeof row, "%u %s of %u bytes: %s", count, kinds[kind], length, what);
    else snprintf(row, sizeof row, "%u %s: %s", count, kinds[kind], what);
    tell(row, t, items, "an element");
}

static void rows_of_kind(uint32_t kind, uint32_t count, uint32_t length) {
    Times t;
    const uint32_t rounds = 2000000 / (count * (1 + length / 16)) + 1;
    const double items = (double)count * rounds;
    make(kind, count, length);
    compare(kind);
    require(port_read(kind, message, message_size, rounds), rounds, 1);
    require(plain_read(kind, message, message_size, rounds), rounds, 1);
    BEST(t.plain, plain_read(kind, message, message_size, rounds));
    BOTH(t, read, kind, message, message_size, rounds);
    tell_kind(kind, count, length, "read", t, items);
    require(port_write(kind, message, message_size, rounds, room, 2 * MOST), rounds, message_size);
    require(plain_write(kind, message, message_size, rounds, room, 2 * MOST), rounds, message_size);
    BEST(t.plain, plain_write(kind, message, message_size, rounds, room, 2 * MOST));
    BOTH(t, write, kind, message, message_size, rounds, room, 2 * MOST);
    tell_kind(kind, count, length, "write", t, items);
    if (!has_size(kind)) return;
    require(port_size(kind, message, message_size, rounds), rounds, message_size);
    require(plain_size(kind, message, message_size, rounds), rounds, message_size);
    BEST(t.plain, plain_size(kind, message, message_size, rounds));
    BOTH(t, size, kind, message, message_size, rounds);
    tell_kind(kind, count, length, "size", t, items);
}

/* A message that each side refuses. */
static void row_of_refusal(uint32_t kind, const char *row) {
    Times t;
    const uint32_t rounds = 20000;
    require(port_read(kind, message, message_size, rounds), rounds, 0);
    require(plain_read(kind, message, message_size, rounds), rounds, 0);
    BEST(t.plain, plain_read(kind, message, message_size, rounds));
    BOTH(t, read, kind, message, message_size, rounds);
    tell(row, t, rounds, "a message");
}

static void rows_of_refusals(void) {
    /* The last text is cut, so all is read before the refusal. */
    make(3, 100, 0);
    message_size -= 1;
    row_of_refusal(3, "100 records, the last byte missing: refuse");
    make(0, 1, 12);
    message[3] = 0xff;
    row_of_refusal(0, "a text that is not UTF-8: refuse");
    make(2, 1, 0);
    message[1] = 2;
    row_of_refusal(2, "an option byte of 2: refuse");
    /* An option whose number has a bit too many. */
    memcpy(message, (const uint8_t[]){1, 1, 0xff, 0xff, 0xff, 0xff, 0x7f}, message_size = 7);
    row_of_refusal(2, "a number too large for u32: refuse");
    /* A count of 2^40, and no element. */
    memcpy(message, (const uint8_t[]){0x80, 0x80, 0x80, 0x80, 0x80, 0x20}, message_size = 6);
    row_of_refusal(3, "2^40 records announced, none there: refuse");
}

static void row_of_lent_bytes(const char *row, size_t length) {
    Times t;
    const uint32_t rounds = 20000;
    memset(source, 0x55, MOST);
    size_t size = port_bytes_encode(source, length, room, 2 * MOST);
    if (plain_bytes_lend(room, size) != port_bytes_lend(room, size)) fail("lent bytes are others than the plain ones");
    if (plain_bytes_lend(room, size - 1) != UINT64_MAX || port_bytes_lend(room, size - 1) != UINT64_MAX) fail("a cut list of bytes was lent");
    BEST(t.plain, MANY(rounds, plain_bytes_lend(room, size)));
    BOTH_MANY(t, rounds, bytes_lend, room, size);
    tell(row, t, rounds, "in all");
}

void rows_of_kinds(void) {
    static const uint32_t lengths[] = {5, 50, 500};
    compare_disorder();
    for (int i = 0; i < 3; i++) rows_of_kind(0, 100, lengths[i]);
    for (uint32_t kind = 1; kind < sizeof kinds / sizeof *kinds; kind++) rows_of_kind(kind, kind == 1 ? 1000 : 100, 0);
    rows_of_kind(1, 10, 0);
    rows_of_refusals();
    row_of_lent_bytes("16 MiB of u8: read, lent", MOST);
    row_of_lent_bytes("20 bytes of u8: read, lent", 20);
}
