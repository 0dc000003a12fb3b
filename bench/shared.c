/* What a reading of the shared file takes, beside the clock alone and a plain seqlock of as many words, for bench/service.
 *
 *     shared PATH
 *
 * Prints `clock NS`, `seqlock NS` and `reading NS`: the least of 500 batches of 1,000 calls, by the call.
 *
 * By GCC 12 at -O2 a reading has 121 instructions without those of clock_gettime, the seqlock 61 (valgrind --tool=callgrind).
 * Beside the clock's 22.9 ns it takes 10: without the tests of the slot 2.4 less, without ageing 1.3 less, without both 4.2.
 */
#include "../clients/c/truetime.h"

#include <stdatomic.h>
#include <stdlib.h>

enum { BATCHES = 500, CALLS = 1000, WORDS = 7 };

static tt_client client;
static uint64_t sum;
static _Atomic uint64_t generation, words[WORDS];

static uint64_t clock_ns(void) {
    struct timespec now;
    clock_gettime(CLOCK_MONOTONIC_RAW, &now);
    return (uint64_t)now.tv_sec * 1000000000 + (uint64_t)now.tv_nsec;
}

static void read_clock(void) { sum += clock_ns(); }

/* The words between two looks at the generation, and the clock: no test of what was read, and no ageing. */
static void read_seqlock(void) {
    uint64_t before, after, copy = 0;
    do {
        before = atomic_load_explicit(&generation, memory_order_acquire);
        for (int word = 0; word < WORDS; word++) copy += atomic_load_explicit(&words[word], memory_order_relaxed);
        atomic_thread_fence(memory_order_acquire);
        after = atomic_load_explicit(&generation, memory_order_relaxed);
    } while (before % 2 != 0 || before != after);
    sum += copy + clock_ns();
}

static void read_shared(void) {
    tt_reading now;
    if (tt_now(&client, &now) != 0) exit(1);
    sum += now.earliest_ns;
}

static double least_of(void (*call)(void)) {
    uint64_t least = UINT64_MAX;
    for (int batch = 0; batch < BATCHES; batch++) {
        uint64_t since = clock_ns();
        for (int turn = 0; turn < CALLS; turn++) call();
        uint64_t took = clock_ns() - since;
        least = took < least ? took : least;
    }
    return (double)least / CALLS;
}

int main(int count, char **arguments) {
    if (count != 2 || tt_open(&client, arguments[1], geteuid()) != 0) return 1;
    printf("clock %.1f\n", least_of(read_clock));
    printf("seqlock %.1f\n", least_of(read_seqlock));
    printf("reading %.1f\n", least_of(read_shared));
    return sum == 0;
}
