/* Does in plain C what the program of crates/bench_files does, with the same words and the same calls of the system: a
 * record is written with one call, and read through a buffer of 8,192 bytes; a list of bytes has no buffer. */
#include "plain.h"
#include <fcntl.h>
#include <inttypes.h>
#include <stdio.h>
#include <stdlib.h>
#include <string.h>
#include <unistd.h>

static int fail(void) {
    fprintf(stderr, "files: a call failed\n");
    return 1;
}

static int write_records(uint32_t count, int file) {
    uint8_t record[32];
    for (uint32_t i = 0; i < count; i++) {
        uint64_t used = plain_record(i, record, sizeof record);
        if (write(file, record, used) != (ssize_t)used) return fail();
    }
    return printf("%" PRIu32 "\n", count) < 0;
}

/* A record has at most 24 bytes, so the buffer is filled again where it has fewer. */
static int read_records(uint32_t count, int file) {
    uint8_t buffer[8192];
    size_t from = 0, held = 0;
    uint64_t sum = 0;
    for (uint32_t i = 0; i < count; i++) {
        if (held - from < 24) {
            memmove(buffer, buffer + from, held - from);
            held -= from, from = 0;
            ssize_t more = read(file, buffer + held, sizeof buffer - held);
            if (more < 0) return fail();
            held += (size_t)more;
        }
        uint32_t first;
        size_t used = plain_first_field(buffer + from, held - from, &first);
        if (used == 0) return fail();
        sum += first;
        from += used;
    }
    return printf("%" PRIu64 "\n", sum) < 0;
}

static int write_bytes(uint32_t count, int file) {
    uint8_t front[5], *values = malloc(count ? count : 1);
    size_t used = 0;
    if (!values) return fail();
    memset(values, 0x55, count);
    for (uint32_t left = count; used == 0 || left; left >>= 7) front[used++] = (uint8_t)(left & 127) | (left > 127 ? 128 : 0);
    if (write(file, front, used) != (ssize_t)used || write(file, values, count) != (ssize_t)count) return fail();
    free(values);
    return printf("%" PRIu32 "\n", count) < 0;
}

static int read_bytes(uint32_t count, int file) {
    uint8_t byte = 128, *values = malloc(count ? count : 1);
    uint32_t size = 0;
    if (!values) return fail();
    for (int shift = 0; byte > 127; shift += 7) {
        if (read(file, &byte, 1) != 1) return fail();
        size |= (uint32_t)(byte & 127) << shift;
    }
    if (size > count || read(file, values, size) != (ssize_t)size) return fail();
    free(values);
    return printf("%" PRIu32 "\n", size) < 0;
}

int main(int words, char **word) {
    if (words != 5) return fail();
    uint32_t count = (uint32_t)strtoul(word[3], NULL, 10);
    int writes = !strcmp(word[1], "write"), records = !strcmp(word[2], "records");
    int file = writes ? open(word[4], O_WRONLY | O_CREAT | O_TRUNC, 0666) : open(word[4], O_RDONLY);
    if (file < 0) return fail();
    if (writes) return records ? write_records(count, file) : write_bytes(count, file);
    return records ? read_records(count, file) : read_bytes(count, file);
}
