/* Reads a shared file until it is killed: tools/suites/slews.py says which lines it prints. */
#include "../../clients/c/truetime.h"

#include <inttypes.h>
#include <stdio.h>
#include <time.h>

enum { AT_ONCE = 20 };

static uint64_t true_ns(void) {
    struct timespec now;
    clock_gettime(CLOCK_REALTIME, &now);
    return (uint64_t)now.tv_sec * 1000000000 + (uint64_t)now.tv_nsec;
}

static void look(const tt_client *client) {
    tt_reading now = {0};
    uint64_t before = true_ns();
    int refused = tt_now(client, &now);
    uint64_t after = true_ns();
    printf("%" PRIu64 " %" PRIu64 " %d %" PRIu64 " %" PRIu64 "\n", before, after, refused, now.earliest_ns, now.latest_ns);
}

int main(int count, char **words) {
    const struct timespec pause = {0, 5000000};
    tt_client client;
    if (count != 2 || tt_open(&client, words[1], geteuid()) != 0) return 1;
    for (;;) {
        for (int turn = 0; turn < AT_ONCE; turn++) look(&client);
        fflush(stdout);
        nanosleep(&pause, NULL);
    }
}
