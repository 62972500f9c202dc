/* What the generated code of sensor.rs and forms.rs does with values of C that are none of their type, with hostile counts, and with
 * readers and writers that have failed. Each wanted byte is worked out by hand from docs/FORMAT.md. */
#include <stdio.h>
#include <stdlib.h>
#include "forms.h"
#include "sensor.h"

static int checks;

#define CHECK(condition)                                                                                              \
    do {                                                                                                              \
        checks++;                                                                                                     \
        if (!(condition)) {                                                                                           \
            printf("line %d: %s\n", __LINE__, #condition);                                                            \
            exit(1);                                                                                                  \
        }                                                                                                             \
    } while (0)
#define CLEAR(value) memset(&(value), 0, sizeof(value))

static uint8_t out[1024];
static size_t count;

static bool has_bytes(const void *bytes, size_t size) { return count == size && memcmp(out, bytes, size) == 0; }

/* Tags, counts and sizes that are none of the type. */
static void bad_values(void) {
    Message message;
    CLEAR(message);
    message.tag = (Message_tag)10;
    CHECK(Message_encode(&message, out, sizeof out, &count) == POSTCARD_BAD_VALUE);
    memset(&message.tag, 0xFF, sizeof message.tag);
    CHECK(Message_encode(&message, out, sizeof out, &count) == POSTCARD_BAD_VALUE);
    Info info;
    CLEAR(info);
    CHECK(Info_encode(&info, out, sizeof out, &count) == 0 && count == 12);
    info.name.size = 17;
    CHECK(Info_encode(&info, out, sizeof out, &count) == POSTCARD_BAD_VALUE);
    info.name.size = 1, info.name.text[0] = (char)0xFF;
    CHECK(Info_encode(&info, out, sizeof out, &count) == POSTCARD_BAD_UTF8);
    info.name.size = 0, info.class_ = (Class)3;
    CHECK(Info_encode(&info, out, sizeof out, &count) == POSTCARD_BAD_VALUE);
    Settings settings;
    CLEAR(settings);
    settings.values.count = 9;
    CHECK(Settings_encode(&settings, out, sizeof out, &count) == POSTCARD_BAD_VALUE);
    settings.values.count = 1, settings.values.items[0]._1.unit = 0xD800;
    CHECK(Settings_encode(&settings, out, sizeof out, &count) == POSTCARD_BAD_CHAR);
    NonZeros numbers;
    CLEAR(numbers);
    numbers.a = 1, numbers.b = -1, numbers.e.high = 1, numbers.h.as.err = 7;
    CHECK(NonZeros_encode(&numbers, out, sizeof out, &count) == POSTCARD_BAD_VALUE);
    numbers.c = 5;
    CHECK(NonZeros_encode(&numbers, out, sizeof out, &count) == 0 && count == 1 + 1 + 1 + 1 + 10 + 1 + 1 + 2 + 1);
    numbers.e.high = 0;
    CHECK(NonZeros_encode(&numbers, out, sizeof out, &count) == POSTCARD_BAD_VALUE);
}

/* Counts and sizes of their own types, at and beyond the capacity. */
static void capacities(void) {
    static Capacities it;
    CLEAR(it);
    it.b.size = 256, memset(it.b.text, 'x', 256);
    CHECK(Capacities_encode(&it, out, sizeof out, &count) == 0 && out[1] == 0x80 && out[2] == 0x02 && out[3] == 'x');
    it.b.size = 257;
    CHECK(Capacities_encode(&it, out, sizeof out, &count) == POSTCARD_BAD_VALUE);
    it.b.size = 0, it.c.count = 257;
    CHECK(Capacities_encode(&it, out, sizeof out, &count) == POSTCARD_BAD_VALUE);
    it.c.count = 0, it.d.count = 4;
    CHECK(Capacities_encode(&it, out, sizeof out, &count) == POSTCARD_BAD_VALUE);
    it.d.count = 0, it.g.count = 3;
    CHECK(Capacities_encode(&it, out, sizeof out, &count) == POSTCARD_BAD_VALUE);
    it.g.count = 0, it.i.count = 1;
    CHECK(Capacities_encode(&it, out, sizeof out, &count) == POSTCARD_BAD_VALUE);
    it.i.count = 0;
    CHECK(Capacities_encode(&it, out, sizeof out, &count) == 0 && has_bytes("\0\0\0\0\0\0\0\0\0\0\0", 11));
}

/* A list that was read is written again from its bytes, and refused if they aren't its elements. */
static void lists(void) {
    Lists it;
    CLEAR(it);
    CHECK(Lists_encode(&it, out, sizeof out, &count) == 0 && count == 14);
    it.c.count = 1;
    CHECK(Lists_encode(&it, out, sizeof out, &count) == POSTCARD_BAD_VALUE);
    it.c.encoded.bytes = (const uint8_t *)"\xAC\x82\x00", it.c.encoded.size = 3;
    CHECK(Lists_encode(&it, out, sizeof out, &count) == 0 && has_bytes("\0\0\1\xAC\2\0\0\0\0\0\0\0\0\0\0\0", 16));
    it.c.count = 2;
    CHECK(Lists_encode(&it, out, sizeof out, &count) == POSTCARD_BAD_VALUE);
    it.c.count = 1, it.c.encoded.size = 1;
    CHECK(Lists_encode(&it, out, sizeof out, &count) == POSTCARD_BAD_VALUE);
    it.c.encoded.bytes = (const uint8_t *)"\x05\x80", it.c.encoded.size = 2;
    CHECK(Lists_encode(&it, out, sizeof out, &count) == POSTCARD_BAD_VALUE);
    const uint16_t numbers[] = {1, 300};
    it.c.items = numbers, it.c.count = 2;
    CHECK(Lists_encode(&it, out, sizeof out, &count) == 0 && has_bytes("\0\0\2\1\xAC\2\0\0\0\0\0\0\0\0\0\0\0", 17));
    /* A count of 2^64 - 1 is refused where the bytes end. */
    const uint8_t hostile[] = {0, 0, 0xFF, 0xFF, 0xFF, 0xFF, 0xFF, 0xFF, 0xFF, 0xFF, 0xFF, 1};
    CHECK(Lists_decode(&it, hostile, sizeof hostile) != POSTCARD_OK && it.c.count == 0 && it.c.items == NULL);
}

/* A reader that has failed stays as it is, and what was read is empty. A text that can't be read ends before its first byte. */
static void failed_readers(void) {
    Settings settings;
    Message message;
    Info info;
    postcard_reader reader = postcard_reader_over("\0\0\0\0", 4);
    reader.status = POSTCARD_BAD_VARINT, reader.at = 3;
    memset(&settings, 0xA5, sizeof settings), memset(&message, 0xA5, sizeof message), memset(&info, 0xA5, sizeof info);
    CHECK(Settings_get(&reader, &settings) == POSTCARD_BAD_VARINT && reader.at == 3 && settings.values.count == 0 && !settings.old.some);
    CHECK(Message_get(&reader, &message) == POSTCARD_BAD_VARINT && reader.at == 3 && message.tag == Message_Heartbeat);
    CHECK(message.as.heartbeat.uptime == 0);
    CHECK(Info_get(&reader, &info) == POSTCARD_BAD_VARINT && info.name.size == 0 && info.name.text[0] == 0 && info.mac[5] == 0);
    CHECK(info.class_ == Class_Sensor);
    const uint8_t long_name[] = {1, 1, 2, 3, 4, 5, 6, 17};
    memset(&info, 0xA5, sizeof info);
    CHECK(Info_decode(&info, long_name, sizeof long_name) == POSTCARD_UNEXPECTED_END && info.name.text[0] == 0);
}

/* The record of docs/C_COSTS.md, its sizes, and a frame. */
static void records(void) {
    Record record = {42, 7, {true, 5}, {NULL, 0}};
    record.text = postcard_text("x");
    CHECK(Record_encode(&record, out, sizeof out, &count) == 0 && has_bytes("\x2a\x07\x01\x05\x01x", 6));
    CHECK(Record_encode(&record, out, 5, &count) == POSTCARD_BUFFER_FULL && count == 6);
    CHECK(Record_encode(&record, NULL, 0, &count) == POSTCARD_BUFFER_FULL && count == 6);
    CHECK(Record_decode(&record, "\x2a\x07\x00\x00z", 5) == POSTCARD_NO_VALUE);
    CHECK(Record_decode(&record, "\x2a\x07\x00\x00", 4) == POSTCARD_OK && !record.byte.some && record.text.size == 0);
    CHECK(Heartbeat_MAX_SIZE == 10 + 3 + 3 + 1 && Heartbeat_FRAME_SIZE == 17 + 2);
    Heartbeat heartbeat = {1, 0, -1, 2};
    uint8_t frame[Heartbeat_FRAME_SIZE];
    CHECK(Heartbeat_frame(&heartbeat, frame, sizeof frame, &count) == 0 && count == 6 && memcmp(frame, "\x02\x01\x03\x01\x02", 6) == 0);
    CHECK(Heartbeat_frame(&heartbeat, frame, 3, &count) == POSTCARD_BUFFER_FULL);
    Many many;
    CLEAR(many);
    many.tag = Many_Last, many.as.last = 7;
    CHECK(Many_encode(&many, out, sizeof out, &count) == 0 && has_bytes("\x80\x01\x07", 3));
    CHECK(Many_decode(&many, "\x82\x01", 2) == POSTCARD_NO_VALUE && Many_MAX_SIZE == 3);
}

int main(void) {
    bad_values();
    capacities();
    lists();
    failed_readers();
    records();
    printf("values: %d checks\n", checks);
    return 0;
}
