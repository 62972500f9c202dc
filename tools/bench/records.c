/* The rows of small records, in memory and over io, and of their frames and streams. */
#include "sides.h"

static const uint32_t count = 100000;

static void rows_of_io(void) {
    Times t;
    size_t size = port_small_stream(count, room, MOST);
    BEST(t.plain, plain_records(count, room, MOST));
    BOTH(t, records_to_memory, count, room, MOST);
    tell("small records in memory: to_io", t, count, "a record");
    BEST(t.plain, plain_records_decode(count, room, size));
    BOTH(t, records_from_memory, count, room, size);
    tell("small records in memory: from_io", t, count, "a record");
    BEST(t.plain, plain_small_allocate(count));
    BOTH(t, small_allocate, count);
    tell("small records: to_allocvec", t, count, "a record");
}

void rows_of_records(void) {
    Times t;
    if (plain_small_encode(count, room, 64) != port_small_encode(count, room, 64)) fail("records are others than the plain ones");
    BEST(t.plain, plain_small_encode(count, room, 64));
    BOTH(t, small_encode, count, room, 64);
    tell("small records: to_slice", t, count, "a record");
    size_t size = port_small_stream(count, room, 2 * MOST);
    if (crate_small_stream && (crate_small_stream(count, source, MOST) != size || memcmp(room, source, size))) fail("the crate writes other records");
    if (plain_records_decode(count, room, size) != port_small_decode(room, size)) fail("the sum of the records is another than the plain one's");
    BEST(t.plain, plain_records_decode(count, room, size));
    BOTH(t, small_decode, room, size);
    tell("small records: take_from_bytes", t, count, "a record");
    rows_of_io();
}

/* The stream of frames in `source` comes in pieces. */
static void rows_of_streams(size_t size) {
    static const size_t pieces[] = {16, 64, 256, 4096};
    Times t;
    char row[64];
    for (int i = 0; i < 4; i++) {
        if (plain_accumulate(source, size, pieces[i]) != port_accumulate(source, size, pieces[i])) fail("the sum of a stream is another than the plain one's");
        BEST(t.plain, plain_accumulate(source, size, pieces[i]));
        BOTH(t, accumulate, source, size, pieces[i]);
        snprintf(row, sizeof row, "accumulator, pieces of %zu bytes", pieces[i]);
        tell(row, t, count, "a frame");
    }
}

/* The number of calls that refuse the frame, which stays as it is. */
#define REFUSED(decode) MANY(20000, (decode)(1, frame, sizeof frame) == UINT64_MAX)

/* A frame whose first code leads past its end. */
static void row_of_a_refused_frame(void) {
    Times t = {0};
    uint8_t frame[] = {9, 1, 2, 3, 4, 0};
    require(REFUSED(port_frames_decode), 20000, 1);
    require(REFUSED(plain_frames_decode), 20000, 1);
    BEST(t.plain, REFUSED(plain_frames_decode));
    BEST(t.here, REFUSED(port_frames_decode));
    if (crate_frames_decode) BEST(t.crate, REFUSED(crate_frames_decode));
    tell("a code past the frame's end: refuse", t, 20000, "a message");
}

void rows_of_frames(void) {
    Times t;
    size_t size = plain_frames_encode(count, source, MOST);
    if (port_frames_encode(count, room, MOST) != size || memcmp(room, source, size)) fail("frames are others than the plain ones");
    BEST(t.plain, plain_frames_encode(count, room, MOST));
    BOTH(t, frames_encode, count, room, MOST);
    tell("small frames: to_slice_cobs", t, count, "a frame");
    BEST_AFTER(t.plain, memcpy(room, source, size), plain_frames_decode(count, room, size));
    BOTH_AFTER(t, memcpy(room, source, size), frames_decode, count, room, size);
    tell("small frames: take_from_bytes_cobs", t, count, "a frame");
    rows_of_streams(size);
    row_of_a_refused_frame();
}
