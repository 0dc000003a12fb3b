/* The users of a machine in C, until their time is over.
 *
 *     users SECONDS PORT SOCKET SHARED SESSIONS STAMPERS PAUSE_MS FIRST
 *
 * SESSIONS threads read and commit, half of them at the TCP port of 127.0.0.1 and half at the Unix socket; STAMPERS threads take stamps over the
 * shared file, a few at a time, and wait until they are past. Each pauses behind each commit. Prints, all times by the real-time clock,
 *
 *     commit BEGAN ENDED STAMP GIVER 1    a line of a history: GIVER is FIRST for sessions, and of the stampers a number of its own each
 *     wrong TIME WHAT                     a reading that holds no time between two looks at the clock, a stamp that does not lie between them,
 *                                         a call without a reply
 *     seen TIME READINGS WIDTH LOST       each tenth of a second: readings and failures since the last one, and the width of the last reading
 */
#include "../clients/c/truetime_session.h"
#include "../clients/c/truetime_stamper.h"

#include <pthread.h>
#include <stdlib.h>
#include <sys/stat.h>

enum { TIMEOUT_MS = 25000, MOST_THREADS = 64, READINGS = 8, AT_ONCE = 4, TURNS = 500 };

static const char *path, *shared;
static uint16_t port;
static uint64_t end_ns;
static long pause_ms, sessions;
static unsigned long first;
static _Atomic uint64_t readings, lost, width;

static uint64_t now_ns(void) {
    struct timespec now;
    clock_gettime(CLOCK_REALTIME, &now);
    return (uint64_t)now.tv_sec * 1000000000 + (uint64_t)now.tv_nsec;
}

static void sleep_ms(long ms) {
    struct timespec pause = {ms / 1000, ms % 1000 * 1000000};
    nanosleep(&pause, NULL);
}

static bool is_over(void) { return now_ns() >= end_ns; }

static void judge(uint64_t before, uint64_t earliest, uint64_t latest, uint64_t after) {
    readings++;
    width = latest - earliest;
    if (latest < before || earliest > after)
        printf("wrong %" PRIu64 " the reading %" PRIu64 " %" PRIu64 " between %" PRIu64 " and %" PRIu64 "\n", after, earliest, latest, before, after);
}

static void judge_commit(uint64_t began, uint64_t ended, uint64_t stamp, unsigned long giver) {
    printf("commit %" PRIu64 " %" PRIu64 " %" PRIu64 " %lu 1\n", began, ended, stamp, giver);
    if (stamp < began || stamp >= ended)
        printf("wrong %" PRIu64 " the stamp %" PRIu64 " of a commit between %" PRIu64 " and %" PRIu64 "\n", ended, stamp, began, ended);
}

/* Some readings and a commit; what the first call answers that fails. */
static int use_session(tt_session *session) {
    int failed = 0;
    for (int turn = 0; turn < READINGS && failed == 0; turn++) {
        tt_interval now;
        uint64_t before = now_ns();
        failed = tt_session_now(session, &now);
        if (failed == 0) judge(before, now.earliest_ns, now.latest_ns, now_ns());
    }
    uint64_t began = now_ns(), stamp = 0;
    if (failed == 0) failed = tt_session_commit(session, 0, &stamp);
    if (failed == 0) judge_commit(began, now_ns(), stamp, first);
    if (failed == -ETIMEDOUT) printf("wrong %" PRIu64 " no reply within %d ms\n", now_ns(), TIMEOUT_MS);
    return failed;
}

static void run_session(bool is_tcp) {
    tt_session session;
    int failed = is_tcp ? tt_session_open_tcp(&session, "127.0.0.1", port, TIMEOUT_MS) : tt_session_open_unix(&session, path, TIMEOUT_MS);
    while (failed == 0 && !is_over()) {
        failed = use_session(&session);
        sleep_ms(pause_ms);
    }
    tt_session_close(&session);
    lost += failed != 0;
}

/* Stamps over one opening of the file; what the first call answers that fails. */
static int use_stamper(const tt_client *client, tt_stamper *stamper, unsigned long giver) {
    uint64_t began[AT_ONCE];
    tt_stamp stamps[AT_ONCE];
    bool is_past = false;
    int refused = 0;
    for (int at = 0; at < AT_ONCE && refused == 0; at++) {
        tt_reading now;
        uint64_t before = now_ns();
        refused = tt_now(client, &now);
        if (refused == 0) judge(before, now.earliest_ns, now.latest_ns, now_ns());
        began[at] = now_ns();
        if (refused == 0) refused = tt_stamper_stamp(stamper, 0, &stamps[at]);
    }
    if (refused == 0) refused = tt_stamper_wait_past(stamper, stamps[AT_ONCE - 1].stamp_ns, UINT64_MAX, &is_past);
    for (int at = 0; at < AT_ONCE && is_past; at++) judge_commit(began[at], now_ns(), stamps[at].stamp_ns, giver);
    return refused;
}

/* Which file is the shared one; 0 where there is none. */
static ino_t shared_now(void) {
    struct stat about;
    return stat(shared, &about) == 0 ? about.st_ino : 0;
}

/* What is mapped tells nothing of a machine that writes another file since. */
static void run_stamper(tt_client *client, tt_stamper *stamper, unsigned long giver) {
    ino_t mapped = shared_now();
    int refused = tt_open(client, shared, geteuid());
    for (int turn = 0; turn < TURNS && refused == 0 && shared_now() == mapped && !is_over(); turn++) {
        refused = use_stamper(client, stamper, giver);
        sleep_ms(pause_ms);
    }
    tt_close(client);
    lost += refused != 0;
}

static void *use(void *number) {
    long at = *(long *)number;
    tt_client client = {.place = NULL};
    tt_stamper stamper;
    tt_stamper_open(&stamper, &client, 0, TT_MAX_TIME_NS);
    while (!is_over()) {
        if (at < sessions) run_session(at % 2 == 0);
        else run_stamper(&client, &stamper, first + 1 + (unsigned long)(at - sessions));
        sleep_ms(20);
    }
    return NULL;
}

static void tell(void) {
    uint64_t read = atomic_exchange(&readings, 0), failed = atomic_exchange(&lost, 0);
    printf("seen %" PRIu64 " %" PRIu64 " %" PRIu64 " %" PRIu64 "\n", now_ns(), read, (uint64_t)width, failed);
    fflush(stdout);
}

int main(int count, char **words) {
    static pthread_t threads[MOST_THREADS];
    static long numbers[MOST_THREADS];
    if (count != 9) return 2;
    end_ns = now_ns() + strtoull(words[1], NULL, 10) * 1000000000;
    port = (uint16_t)strtoul(words[2], NULL, 10);
    path = words[3], shared = words[4];
    sessions = strtol(words[5], NULL, 10);
    long all = sessions + strtol(words[6], NULL, 10);
    pause_ms = strtol(words[7], NULL, 10);
    first = strtoul(words[8], NULL, 10);
    for (long at = 0; at < all && at < MOST_THREADS; at++) {
        numbers[at] = at;
        if (pthread_create(&threads[at], NULL, use, &numbers[at]) != 0) return 1;
    }
    while (!is_over()) {
        sleep_ms(100);
        tell();
    }
    for (long at = 0; at < all && at < MOST_THREADS; at++) pthread_join(threads[at], NULL);
    tell();
    return 0;
}
