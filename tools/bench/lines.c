/* Does in plain C what two commands of pcard do, with as few calls of the system: `lines frames` prints the u32 of each frame of its
 * input on a line, as `pcard frames '(u32)'` does, and its output after each read; `lines list HEX` prints the numbers of a list, as
 * `pcard dec list-u32 HEX` does. `lines make COUNT` prints as many frames of numbers, and `lines hex COUNT` such a list. */
#include <inttypes.h>
#include <stdint.h>
#include <stdio.h>
#include <stdlib.h>
#include <string.h>
#include <unistd.h>

static int fail(void) {
    fprintf(stderr, "lines: a bad message\n");
    return 1;
}

static uint32_t number_of(uint32_t i) { return i * 2654435761u >> (i % 4 * 8); }

static size_t put_number(uint8_t *to, uint32_t number) {
    size_t used = 0;
    for (; number > 127; number >>= 7) to[used++] = (uint8_t)(number | 128);
    to[used++] = (uint8_t)number;
    return used;
}

/* Returns the number of bytes of the number at the front, or 0 if there is none. */
static size_t take_number(const uint8_t *from, size_t size, uint32_t *number) {
    *number = 0;
    for (size_t i = 0; i < 5 && i < size; i++) {
        if (i == 4 && from[i] > 15) return 0;
        *number |= (uint32_t)(from[i] & 127) << 7 * i;
        if (from[i] < 128) return i + 1;
    }
    return 0;
}

/* Of numbers of 1 to 5 bytes, of which a zero is only the number 0. */
static int make(uint32_t count) {
    uint8_t frame[8];
    for (uint32_t i = 0; i < count; i++) {
        size_t used = put_number(frame + 1, number_of(i) | 1);
        frame[0] = (uint8_t)(used + 1);
        frame[used + 1] = 0;
        fwrite(frame, 1, used + 2, stdout);
    }
    return fflush(stdout) != 0;
}

static int make_hex(uint32_t count) {
    uint8_t bytes[5];
    for (uint32_t i = 0; i <= count; i++) {
        size_t used = put_number(bytes, i == 0 ? count : number_of(i));
        for (size_t k = 0; k < used; k++) printf("%02x", bytes[k]);
    }
    return fflush(stdout) != 0;
}

/* Prints the line of a frame without its zero, whose data has one group only. */
static int print_frame(const uint8_t *frame, size_t size) {
    uint32_t number;
    if (size == 0 || frame[0] != size || take_number(frame + 1, size - 1, &number) == 0) return printf("error\n") < 0;
    return printf("%" PRIu32 "\n", number) < 0;
}

static int print_frames(void) {
    static uint8_t chunk[65536], held[65536];
    size_t used = 0;
    for (ssize_t count; (count = read(0, chunk, sizeof chunk)) > 0; fflush(stdout)) {
        for (uint8_t *from = chunk, *end = chunk + count; from < end;) {
            uint8_t *zero = memchr(from, 0, (size_t)(end - from));
            size_t part = (size_t)((zero ? zero : end) - from);
            if (part > sizeof held - used) return fail();
            memcpy(held + used, from, part);
            used += part;
            if (zero) print_frame(held, used), used = 0;
            from += part + (zero != NULL);
        }
    }
    return 0;
}

static int digit_of(char letter) { return letter >= 'a' ? letter - 'a' + 10 : letter - '0'; }

static int print_list(const char *hex) {
    size_t size = strlen(hex) / 2, at;
    uint8_t *bytes = malloc(size + 1);
    uint32_t count, number;
    if (!bytes) return fail();
    for (size_t i = 0; i < size; i++) bytes[i] = (uint8_t)(digit_of(hex[2 * i]) << 4 | digit_of(hex[2 * i + 1]));
    if ((at = take_number(bytes, size, &count)) == 0) return fail();
    for (uint32_t i = 0; i < count; i++) {
        size_t used = take_number(bytes + at, size - at, &number);
        if (used == 0) return fail();
        printf(i ? ",%" PRIu32 : "%" PRIu32, number);
        at += used;
    }
    printf("\n\n");
    free(bytes);
    return fflush(stdout) != 0;
}

int main(int count, char **words) {
    static char buffer[8192];
    setvbuf(stdout, buffer, _IOFBF, sizeof buffer);
    if (count == 2 && !strcmp(words[1], "frames")) return print_frames();
    if (count != 3) return fail();
    if (!strcmp(words[1], "list")) return print_list(words[2]);
    if (!strcmp(words[1], "make")) return make((uint32_t)strtoul(words[2], NULL, 10));
    if (!strcmp(words[1], "hex")) return make_hex((uint32_t)strtoul(words[2], NULL, 10));
    return fail();
}
