/* What timestamps for commits cost, for bench/service --stamps: each figure beside the calls that it stands on.
 *
 *     stamps session PORT SHARED      `now`, and of a commit its stamp and the whole, by a session over TCP; the width of a reading
 *     stamps calls SHARED             a call of clock_gettime, tt_now and tt_stamper_stamp in one thread
 *     stamps threads SHARED           calls a second of clock_gettime, fetch_add and tt_stamper_stamp in four threads, in millions
 *     stamps write SHARED             a commit whose write takes 2 ms, and the width
 *     stamps queue SHARED RATE MOST   commits over a queue, RATE a second (0: as many as one thread stamps), MOST commits in all
 *
 * SHARED is the file of a machine that this user runs, PORT that machine's. Prints lines of a name and a number; the status is 1 where a call
 * is refused. Times are medians in microseconds; of `calls` the least of 500 batches of 1,000 calls, in nanoseconds by the call.
 *
 * `session` asks `now`, begins a commit and waits for its release, in turn, 500 times. In `write` the write is a sleep.
 *
 * `queue`: one thread takes stamps and puts them into a ring. Another one waits until the first of the ring has passed (tt_stamper_wait_past),
 * takes a reading, and sets the word of each commit that has passed by it: this tells whoever looks at the word. `rate` is how many millions
 * are told a second, from the first stamp to the last word; `pending` how many were stamped and not told, the median of all moments before
 * words are set. With a RATE, `late` and `late_p99` are how long commits were past before they were told, of those told while at least
 * 100,000 were pending:
 *
 *   - it was past from the least clock at which a reading, by any publication made until then, lies above its stamp. Publications are seen by
 *     a third thread each millisecond, and count from the clock of their fusion, which is before anybody can read them;
 *   - it was told at the clock that was read after the words of all that were told with it were set.
 *
 * So both errors make a commit later than it was. One that is told before it was past ends the program with status 1.
 */
#include "../clients/c/truetime_session.h"
#include "../clients/c/truetime_stamper.h"

#include <pthread.h>
#include <stdlib.h>

enum { BATCHES = 500, CALLS = 1000, THREADS = 4, COMMITS = 500, RING = 1 << 20, MANY = 100000, MOST_PUBLICATIONS = 1000 };

#define WRITE_NS UINT64_C(2000000)
#define THREADS_NS UINT64_C(300000000)

static tt_client client;
static tt_stamper stamper;

static void fail(const char *why, int number) {
    fprintf(stderr, "stamps: %s %d\n", why, number);
    exit(1);
}

static void check(int refused) {
    if (refused != 0) fail("refused", refused);
}

static pthread_t started(void *(*run)(void *), void *of) {
    pthread_t thread;
    int refused = pthread_create(&thread, NULL, run, of);
    if (refused != 0) fail("no thread:", refused);
    return thread;
}

static uint64_t clock_ns(void) {
    struct timespec now;
    clock_gettime(CLOCK_MONOTONIC_RAW, &now);
    return (uint64_t)now.tv_sec * 1000000000 + (uint64_t)now.tv_nsec;
}

static void *memory_of(size_t count, size_t size) {
    void *taken = calloc(count, size);
    if (taken == NULL) fail("out of memory:", (int)count);
    return taken;
}

static void sleep_ns(uint64_t ns) {
    struct timespec pause = {.tv_nsec = (long)ns};
    nanosleep(&pause, NULL);
}

static int compare(const void *first, const void *second) {
    uint64_t left = *(const uint64_t *)first, right = *(const uint64_t *)second;
    return (left > right) - (left < right);
}

/* The number below which such a part of them lies, in thousandths of what they count: infinite where there is none. */
static double part_of(uint64_t *numbers, size_t count, double part) {
    if (count == 0) return 1.0 / 0.0;
    qsort(numbers, count, sizeof *numbers, compare);
    return (double)numbers[(size_t)((double)(count - 1) * part)] / 1e3;
}

/* A session. */

static void measure_session(uint16_t port) {
    static uint64_t asked[COMMITS], stamped[COMMITS], committed[COMMITS], widths[COMMITS];
    tt_session session;
    tt_interval now;
    uint64_t stamp_ns;
    check(tt_session_open_tcp(&session, "127.0.0.1", port, 10000));
    for (int turn = 0; turn < COMMITS; turn++) {
        uint64_t since = clock_ns();
        check(tt_session_now(&session, &now));
        asked[turn] = clock_ns() - since;
        since = clock_ns();
        check(tt_session_begin(&session, 0, &stamp_ns));
        stamped[turn] = clock_ns() - since;
        check(tt_session_wait(&session, &stamp_ns));
        committed[turn] = clock_ns() - since;
        widths[turn] = now.latest_ns - now.earliest_ns;
    }
    tt_session_close(&session);
    printf("now %.1f\nstamp %.1f\n", part_of(asked, COMMITS, 0.5), part_of(stamped, COMMITS, 0.5));
    printf("commit %.1f\nwidth %.1f\n", part_of(committed, COMMITS, 0.5), part_of(widths, COMMITS, 0.5));
}

/* Calls in one thread, and in four. */

static _Atomic uint64_t counter;

static uint64_t read_clock(void) { return clock_ns(); }

static uint64_t read_now(void) {
    tt_reading now;
    check(tt_now(&client, &now));
    return now.earliest_ns;
}

static uint64_t add_one(void) { return atomic_fetch_add(&counter, 1); }

static uint64_t take_stamp(void) {
    tt_stamp stamp;
    check(tt_stamper_stamp(&stamper, 0, &stamp));
    return stamp.stamp_ns;
}

static _Atomic uint64_t sum; /* so that no call is left out */

static double least_of(uint64_t (*call)(void)) {
    uint64_t least = UINT64_MAX, all = 0;
    for (int batch = 0; batch < BATCHES; batch++) {
        uint64_t since = clock_ns();
        for (int turn = 0; turn < CALLS; turn++) all += call();
        uint64_t took = clock_ns() - since;
        least = took < least ? took : least;
    }
    sum += all;
    return (double)least / CALLS;
}

static atomic_bool begun, ended;
static uint64_t (*called)(void);

static void *run_calls(void *of) {
    uint64_t calls = 0, all = 0;
    while (!begun) continue;
    while (!ended)
        for (int turn = 0; turn < 100; turn++, calls++) all += called();
    sum += all;
    *(uint64_t *)of = calls;
    return NULL;
}

static double rate_in_threads(uint64_t (*call)(void)) {
    pthread_t threads[THREADS];
    uint64_t calls[THREADS], all = 0;
    begun = ended = false;
    called = call;
    for (int at = 0; at < THREADS; at++) threads[at] = started(run_calls, &calls[at]);
    uint64_t since = clock_ns();
    begun = true;
    sleep_ns(THREADS_NS);
    ended = true;
    for (int at = 0; at < THREADS; at++) {
        pthread_join(threads[at], NULL);
        all += calls[at];
    }
    return (double)all / ((double)(clock_ns() - since) / 1e3);
}

/* A commit whose write takes a while. */

static void measure_write(void) {
    static uint64_t committed[COMMITS], widths[COMMITS];
    for (int turn = 0; turn < COMMITS; turn++) {
        tt_stamp stamp;
        bool is_past;
        uint64_t since = clock_ns();
        check(tt_stamper_stamp(&stamper, 0, &stamp));
        sleep_ns(WRITE_NS);
        check(tt_stamper_wait_past(&stamper, stamp.stamp_ns, UINT64_MAX, &is_past));
        committed[turn] = clock_ns() - since;
        widths[turn] = stamp.latest_ns - stamp.earliest_ns;
    }
    printf("commit %.1f\nwidth %.1f\n", part_of(committed, COMMITS, 0.5), part_of(widths, COMMITS, 0.5));
}

/* Commits over a queue. */

typedef struct {
    uint64_t stamp_ns;
    atomic_bool is_told;
} Commit;

/* The commits before `end` that no earlier release told of were told at this clock; so many were pending before. */
typedef struct {
    uint64_t end, clock_ns, pending;
} Release;

static Commit ring[RING];
static _Alignas(64) _Atomic uint64_t queued; /* by the thread that stamps */
static _Alignas(64) _Atomic uint64_t told;   /* by the thread that tells */
static uint64_t rate, most, releases_count, publications_count;
static uint64_t *stamps; /* of all commits, for the figures; only with a rate */
static Release *releases;
static tt_publication publications[MOST_PUBLICATIONS];
static atomic_bool is_over;

static void *take_stamps(void *of) {
    uint64_t since = clock_ns();
    for (uint64_t at = 0; at < most; at++) {
        while (rate != 0 && (clock_ns() - since) * rate < at * 1000000000) continue;
        while (at - atomic_load_explicit(&told, memory_order_acquire) == RING) continue;
        Commit *commit = &ring[at % RING];
        atomic_store_explicit(&commit->is_told, false, memory_order_relaxed);
        commit->stamp_ns = take_stamp();
        if (rate != 0) stamps[at] = commit->stamp_ns;
        atomic_store_explicit(&queued, at + 1, memory_order_release);
    }
    return of;
}

/* Tells of all of the ring that have passed by one reading; how many are told then. */
static uint64_t tell_of(uint64_t first, uint64_t end) {
    uint64_t earliest_ns = read_now();
    while (first < end && ring[first % RING].stamp_ns < earliest_ns)
        atomic_store_explicit(&ring[first++ % RING].is_told, true, memory_order_release);
    return first;
}

static void *tell(void *of) {
    for (uint64_t first = 0; first < most;) {
        uint64_t end = atomic_load_explicit(&queued, memory_order_acquire);
        bool is_past = false;
        if (end == first) continue;
        check(tt_stamper_wait_past(&stamper, ring[first % RING].stamp_ns, UINT64_MAX, &is_past));
        end = atomic_load_explicit(&queued, memory_order_acquire);
        uint64_t next = tell_of(first, end);
        if (next == first) continue;
        releases[releases_count++] = (Release){next, clock_ns(), end - first};
        atomic_store_explicit(&told, first = next, memory_order_release);
    }
    return of;
}

static void *watch_publications(void *of) {
    while (!is_over) {
        tt_publication seen;
        check(tt_read(&client, &seen));
        uint64_t last = publications_count == 0 ? seen.number - 1 : publications[publications_count - 1].number;
        if (seen.number > last + 1 || publications_count == MOST_PUBLICATIONS) fail("publications not seen:", (int)(seen.number - last));
        if (seen.number == last + 1) publications[publications_count++] = seen;
        sleep_ns(1000000);
    }
    return of;
}

static uint64_t earliest_at(const tt_publication *published, uint64_t at_ns) {
    tt_reading reading = {0};
    check(tt_read_at(published, at_ns, &reading));
    return reading.earliest_ns;
}

/* The least clock at which a reading by any publication made until then lies above this stamp. */
static uint64_t past_since(uint64_t stamp_ns) {
    uint64_t least = UINT64_MAX;
    for (uint64_t place = 0; place < publications_count; place++) {
        const tt_publication *published = &publications[place];
        uint64_t ahead = stamp_ns < published->lo_ns ? 0 : stamp_ns + 1 - published->lo_ns;
        uint64_t since = published->clock_ns + (uint64_t)((double)ahead / (1 - (double)published->drift_ppm / 1e6));
        while (earliest_at(published, since) <= stamp_ns) since++;
        while (since > published->clock_ns && earliest_at(published, since - 1) > stamp_ns) since--;
        least = since < least ? since : least;
    }
    return least;
}

static void print_late(void) {
    uint64_t *late = memory_of(most, sizeof *late), count = 0, at = 0;
    for (uint64_t release = 0; release < releases_count; release++)
        for (; at < releases[release].end; at++) {
            uint64_t since = past_since(stamps[at]);
            if (releases[release].clock_ns < since) fail("told too early, ns:", (int)(since - releases[release].clock_ns));
            if (releases[release].pending >= MANY) late[count++] = releases[release].clock_ns - since;
        }
    printf("late %.1f\nlate_p99 %.1f\n", part_of(late, count, 0.5), part_of(late, count, 0.99));
}

static void measure_queue(void) {
    releases = memory_of(most, sizeof *releases);
    stamps = memory_of(rate != 0 ? most : 1, sizeof *stamps);
    pthread_t watching = started(watch_publications, NULL);
    sleep_ns(10000000);
    uint64_t since = clock_ns();
    pthread_t telling = started(tell, NULL), stamping = started(take_stamps, NULL);
    pthread_join(stamping, NULL);
    pthread_join(telling, NULL);
    is_over = true;
    pthread_join(watching, NULL);
    uint64_t *pending = memory_of(releases_count, sizeof *pending);
    for (uint64_t release = 0; release < releases_count; release++) pending[release] = releases[release].pending;
    printf("rate %.3f\n", (double)most / ((double)(releases[releases_count - 1].clock_ns - since) / 1e3));
    printf("pending %.0f\n", part_of(pending, releases_count, 0.5) * 1e3);
    if (rate != 0) print_late();
}

int main(int count, char **words) {
    if (count < 3) return 2;
    const char *what = words[1], *shared = words[strcmp(what, "session") == 0 && count == 4 ? 3 : 2];
    check(tt_open(&client, shared, geteuid()));
    check(tt_stamper_open(&stamper, &client, 0, TT_MAX_TIME_NS));
    if (strcmp(what, "session") == 0 && count == 4) {
        measure_session((uint16_t)atoi(words[2]));
    } else if (strcmp(what, "calls") == 0) {
        printf("clock %.1f\nreading %.1f\n", least_of(read_clock), least_of(read_now));
        printf("stamp %.1f\n", least_of(take_stamp));
    } else if (strcmp(what, "threads") == 0) {
        printf("clock %.2f\nfetch_add %.2f\n", rate_in_threads(read_clock), rate_in_threads(add_one));
        printf("stamp %.2f\n", rate_in_threads(take_stamp));
    } else if (strcmp(what, "write") == 0) {
        measure_write();
    } else if (strcmp(what, "queue") == 0 && count == 5) {
        rate = strtoull(words[3], NULL, 10);
        most = strtoull(words[4], NULL, 10);
        measure_queue();
    } else {
        return 2;
    }
    return 0;
}
