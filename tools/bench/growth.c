/* The time of a byte of longer and longer messages: lists of numbers of 1 to 5 bytes, lists of bytes, and frames of lists of bytes. */
#include "growth.h"
#include "crate.h"
#include "exports.h"
#include "measure.h"
#include <math.h>
#include <string.h>

#define SIZES 7
#define ROWS 6

static const char *const names[ROWS] = {
    "numbers: to_slice", "numbers: from_bytes", "bytes: to_slice", "bytes: from_bytes", "frame: to_slice_cobs", "frame: from_bytes_cobs",
};

/* Nanoseconds a byte of the message, of each row and of 10^2, 10^3 .. bytes. The crate's are 0 where its side isn't linked. */
static double times[ROWS][SIZES], times_of_crate[ROWS][SIZES];

static uint8_t *source, *message, *frames;
static uint32_t *numbers;
static size_t most;

/* Measures a row at the size `at`, by the functions `name` of the library and the crate. Short messages are measured many at a time. */
#define MEASURE(row, prepare, name, ...)                                                                        \
    do {                                                                                                        \
        double best;                                                                                            \
        BEST_AFTER(best, prepare, MANY(rounds, port_##name(__VA_ARGS__)));                                      \
        times[row][at] = best / (double)(rounds * used);                                                        \
        if (!crate_##name) break;                                                                               \
        BEST_AFTER(best, prepare, MANY(rounds, crate_##name(__VA_ARGS__)));                                     \
        times_of_crate[row][at] = best / (double)(rounds * used);                                               \
    } while (0)

static void measure(int at, size_t size) {
    size_t count = size / 10 * 3, rounds = size < 1000000 ? 1000000 / size : 1, room = most + most / 100;
    size_t used = port_u32s_encode(numbers, count, message, room);
    MEASURE(0, , u32s_encode, numbers, count, message, room);
    MEASURE(1, , u32s_decode, message, used);
    used = port_bytes_encode(source, size, message, room);
    MEASURE(2, , bytes_encode, source, size, message, room);
    MEASURE(3, , bytes_decode, message, used);
    used = port_cobs_encode(source, size, message, room);
    MEASURE(4, , cobs_encode, source, size, message, room);
    /* Decoding is in place, so each round has a frame of its own. */
    MEASURE(5, for (size_t k = 0; k < rounds; k++) memcpy(frames + k * used, message, used), cobs_decode, frames + round * used, used);
}

static void print_rows(void) {
    for (int at = 0; at < SIZES; at++) {
        printf("| 10^%d |", at + 2);
        for (int row = 0; row < ROWS; row++) {
            printf(" %.3f", times[row][at]);
            if (times_of_crate[row][at] > 0) printf(" (%.2f)", times[row][at] / times_of_crate[row][at]);
            printf(" |");
        }
        printf("\n");
    }
}

/* Both axes are logarithmic: 10^2 to 10^8 bytes in 480 units, 0.01 to 10 ns a byte in 300. */
static double x_of(int at) { return 60 + 80 * at; }
static double y_of(double time) { return 320 - 100 * (log10(time < 0.01 ? 0.01 : time > 10 ? 10 : time) + 2); }

static void print_plot(void) {
    static const char *const colors[ROWS] = {"#1b6ca8", "#6db1e0", "#2e7d32", "#8bc34a", "#b3401f", "#f29b54"};
    printf("<svg xmlns=\"http://www.w3.org/2000/svg\" viewBox=\"0 0 740 370\" font-family=\"sans-serif\" font-size=\"12\">\n");
    printf("<title>Nanoseconds a byte of messages of 100 to 100,000,000 bytes</title>\n<rect width=\"740\" height=\"370\" fill=\"#fff\"/>\n");
    for (int at = 0; at < SIZES; at++) {
        printf("<path d=\"M%g 20V320\" stroke=\"#ddd\"/>\n<text x=\"%g\" y=\"338\" text-anchor=\"middle\">10", x_of(at), x_of(at));
        printf("<tspan dy=\"-4\" font-size=\"9\">%d</tspan></text>\n", at + 2);
    }
    static const char *const marks[] = {"0.01", "0.1", "1", "10"};
    for (int k = 0; k < 4; k++) printf("<path d=\"M60 %dH540\" stroke=\"#ddd\"/>\n<text x=\"54\" y=\"%d\" text-anchor=\"end\">%s</text>\n", 320 - 100 * k, 324 - 100 * k, marks[k]);
    printf("<text x=\"300\" y=\"360\" text-anchor=\"middle\">bytes of the message</text>\n<text x=\"60\" y=\"14\">ns a byte</text>\n");
    for (int row = 0; row < ROWS; row++) {
        printf("<polyline fill=\"none\" stroke=\"%s\" stroke-width=\"2\" points=\"", colors[row]);
        for (int at = 0; at < SIZES; at++) printf("%s%g,%.1f", at ? " " : "", x_of(at), y_of(times[row][at]));
        printf("\"/>\n<path d=\"M560 %dh20\" stroke=\"%s\" stroke-width=\"2\"/>\n", 40 + 20 * row, colors[row]);
        printf("<text x=\"586\" y=\"%d\">%s</text>\n", 44 + 20 * row, names[row]);
    }
    printf("</svg>\n");
}

void growth(bool plots) {
    most = 100000000;
    source = malloc(most);
    message = malloc(most + most / 100);
    frames = malloc(most + most / 100);
    numbers = malloc(most / 10 * 3 * sizeof *numbers);
    if (!source || !message || !frames || !numbers) fail("too little memory");
    memset(source, 0x55, most);
    for (size_t i = 0; i < most / 10 * 3; i++) numbers[i] = (uint32_t)i * 2654435761u >> (i % 4 * 8);
    int at = 0;
    for (size_t size = 100; size <= most; size *= 10) measure(at++, size);
    if (plots) print_plot();
    else print_rows();
    free(source), free(message), free(frames), free(numbers);
}
