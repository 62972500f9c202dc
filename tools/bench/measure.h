/* How a call is measured: by the time of the process. */
#include <stdint.h>
#include <stdio.h>
#include <stdlib.h>
#include <time.h>

static inline double now(void) {
    struct timespec time;
    clock_gettime(CLOCK_PROCESS_CPUTIME_ID, &time);
    return time.tv_sec * 1e9 + time.tv_nsec;
}

static inline void fail(const char *what) {
    fprintf(stderr, "bench: %s\n", what);
    exit(1);
}

/* Runs `call` at least 5 times and for at least 0.2 s, each time after `prepare`, which isn't measured; sets `best` to the fewest
 * nanoseconds of a run. */
#define BEST_AFTER(best, prepare, call)                           \
    do {                                                          \
        double all = 0;                                           \
        best = 1e300;                                             \
        for (int run = 0; run < 5 || all < 2e8; run++) {          \
            prepare;                                              \
            double began = now();                                 \
            __asm__ volatile("" ::: "memory");                    \
            uint64_t answer = (call);                             \
            double took = now() - began;                          \
            if (answer == UINT64_MAX) fail("a call refused");     \
            all += took;                                          \
            if (took < best) best = took;                         \
        }                                                         \
    } while (0)

#define BEST(best, call) BEST_AFTER(best, , call)

/* The sum of the answers of `rounds` calls, each of which may use `round`. It is UINT64_MAX once one refuses. */
#define MANY(rounds, call)                                                                       \
    ({                                                                                           \
        uint64_t sum_ = 0;                                                                       \
        for (size_t round = 0; round < (rounds); round++) {                                      \
            __asm__ volatile("" ::: "memory");                                                   \
            uint64_t gave_ = (call);                                                             \
            sum_ = gave_ == UINT64_MAX ? gave_ : sum_ + gave_;                                   \
            if (gave_ == UINT64_MAX) break;                                                      \
        }                                                                                        \
        sum_;                                                                                    \
    })
