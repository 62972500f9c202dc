/* The tests of tools/c-source: each construct of the MIR as the toolchain compiles it, beside its translation to C, over the same random
 * arguments. `names.h` has a line X(NAME) for each function of constructs.h; the translation is compiled with each NAME defined as
 * source_NAME (checks/c_source). The first argument is the number of rounds. */
#include <stdio.h>
#include <stdlib.h>
#include "constructs.h"

#define X(name) __typeof__(name) source_##name;
#include "names.h"
#undef X

enum { ROOM = 80 };
static uint64_t state = 0x9E3779B97F4A7C15u;
static uint8_t bytes[ROOM], ours[ROOM], theirs[ROOM];

static uint64_t any(void) {
    state ^= state << 13, state ^= state >> 7, state ^= state << 17;
    return state * 0x2545F4914F6CDD1Du;
}
static uint64_t below(uint64_t n) { return (any() >> 8) % n; }

/* A number of any length, often beside a power of two or the end of a width. */
static uint64_t number(void) {
    uint64_t n = any() >> below(64);
    switch (below(8)) {
    case 0: return below(4);
    case 1: return ~below(4);
    case 2: return (uint64_t)1 << below(64);
    case 3: return ((uint64_t)1 << below(64)) - 1;
    case 4: return ~(uint64_t)0 << below(64);
    default: return n;
    }
}

static void differ(const char *call) {
    printf("different: %s\n", call);
    exit(1);
}
/* A call on both sides, whose results must agree. The arguments are written out twice, so they are values, and no calls. */
#define SAME(name, arguments) ((uint64_t)name arguments == (uint64_t)source_##name arguments ? (void)0 : differ(#name #arguments))

static void numbers(void) {
    uint32_t o = (uint32_t)below(21);
    uint64_t a = number(), b = below(4) ? number() : below(100);
    SAME(unsigned_8, (o, (uint8_t)a, (uint8_t)b));
    SAME(unsigned_16, (o, (uint16_t)a, (uint16_t)b));
    SAME(unsigned_32, (o, (uint32_t)a, (uint32_t)b));
    SAME(unsigned_64, (o, a, b));
    SAME(signed_8, (o, (uint8_t)a, (uint8_t)b));
    SAME(signed_16, (o, (uint16_t)a, (uint16_t)b));
    SAME(signed_32, (o, (uint32_t)a, (uint32_t)b));
    SAME(signed_64, (o, a, b));
    SAME(counts_8, ((uint8_t)a));
    SAME(counts_16, ((uint16_t)a));
    SAME(counts_32, ((uint32_t)a));
    SAME(counts_64, (a));
}

/* A call whose last argument is where the higher half of a result is written. */
#define BOTH_HALVES(name, ...)                                                                                        \
    do {                                                                                                              \
        uint64_t high = 1, source_high = 2;                                                                           \
        if (name(__VA_ARGS__, &high) != source_##name(__VA_ARGS__, &source_high) || high != source_high) differ(#name); \
    } while (0)

static void wide(void) {
    uint64_t a = number(), a_high = below(3) ? number() : 0, b = number(), b_high = below(3) ? 0 : number(), few = below(130);
    uint32_t o = (uint32_t)below(18), p = (uint32_t)below(11);
    BOTH_HALVES(unsigned_128, o, a, a_high, b, b_high);
    BOTH_HALVES(signed_128, p, a, a_high, b, b_high);
    BOTH_HALVES(unsigned_128, o, a, a_high, few, (uint64_t)0);
    BOTH_HALVES(signed_128, p, a, a_high, few, (uint64_t)0);
    BOTH_HALVES(signed_128, p, a, a_high, ~few, ~(uint64_t)0);
    BOTH_HALVES(widened_128, (uint8_t)a, (uint16_t)a_high, (uint32_t)b, b_high ^ a);
}

static void casts(void) {
    uint64_t a = number(), b = number();
    uint32_t kind = (uint32_t)below(8);
    uint16_t half = 1, source_half = 2;
    SAME(cut, (kind, a));
    SAME(of_bools, ((a & 1) != 0, (b & 1) != 0));
    if (widened((uint8_t)a, (uint16_t)b, &half) != source_widened((uint8_t)a, (uint16_t)b, &source_half) || half != source_half) differ("widened");
}

static void values(void) {
    uint64_t a = number(), b = number();
    uint32_t n = (uint32_t)number();
    uint8_t times = (uint8_t)below(20);
    SAME(weights, (n, a, (uint8_t)b));
    SAME(options, (n, a, b));
    SAME(options, (n, b, a));
    SAME(eighths, (a));
    SAME(exchanged, (a, (uint8_t)b, n));
    SAME(turns, ((uint8_t)n, a, b));
    SAME(digits, (a));
    SAME(rules, (n, a, b, times));
    SAME(closures, (n, a, b));
    SAME(lengths, (a));
    SAME(tables, (a));
    SAME(turned, (a));
    SAME(crossed, (a, b));
    SAME(circled, (times, a, b));
    SAME(chained, (times, a, b));
    SAME(changed, (a, b));
    SAME(walked, (a, b));
    SAME(failing, (a, b));
    SAME(failing, (a, a));
    uint64_t kept = a, source_kept = a;
    if (replaced(&kept, b) != source_replaced(&source_kept, b) || kept != source_kept) differ("replaced");
}

static size_t random_bytes(void) {
    size_t size = (size_t)(below(3) ? below(20) : below(ROOM + 1));
    uint64_t few = below(3) ? 1 + below(12) : 256;
    for (size_t i = 0; i < ROOM; i++) bytes[i] = (uint8_t)(below(20) ? below(few) : any());
    return size;
}

static void begin(void) {
    for (size_t i = 0; i < ROOM; i++) ours[i] = theirs[i] = bytes[i];
}
static void ends(const char *call) {
    if (memcmp(ours, theirs, ROOM)) differ(call);
}

static void slices(void) {
    size_t size = random_bytes(), other = (size_t)below(ROOM + 1);
    uint64_t from = below(ROOM), to = below(ROOM), most = below(30);
    SAME(first_large, (bytes, size, (uint8_t)from));
    SAME(equal_pairs, (bytes, size, most));
    SAME(kinds, (bytes, size));
    SAME(lanes, (bytes, size)), SAME(lanes, (bytes, ROOM));
    begin();
    if (copied(bytes, size, ours + 3, other % (ROOM - 3)) != source_copied(bytes, size, theirs + 3, other % (ROOM - 3))) differ("copied");
    ends("copied");
    if (moved(ours, size, from, to) != source_moved(theirs, size, from, to)) differ("moved");
    ends("moved");
    smeared(ours + 1, size % (ROOM - 1)), source_smeared(theirs + 1, size % (ROOM - 1));
    ends("smeared");
    repeated(ours, size, (uint8_t)most), source_repeated(theirs, size, (uint8_t)most);
    ends("repeated");
}

int main(int count, char **words) {
    for (long i = count > 1 ? atol(words[1]) : 20000; i > 0; i--) numbers(), wide(), casts(), values(), slices();
    return puts("compiled and translated constructs: all the same") < 0;
}
