/* probe.c: what the reader answers, for the tests.
 *
 *     probe vectors < LINES    for each line `CLOCK LO HI DRIFT USABLE_UNTIL NOW VALID_UNTIL EPOCH NUMBER T`, the reading
 *                              `EARLIEST LATEST EPOCH NUMBER fresh|stale`, and whether T has passed and is ahead by it, `yes` or
 *                              `no` each; or `refused N`
 *     probe open PATH          `published CLOCK LO HI VALID_UNTIL USABLE_UNTIL EPOCH NUMBER DRIFT` of the file, or `refused N`
 *     probe files < LINES      for each line `open PATH` the same of a file that is not mapped, for `map PATH` of a mapped one, and
 *                              for `again` of that file now. For `at MONOTONIC RAW` the reading of it where these are the
 *                              clocks: `CLOCK EARLIEST LATEST EPOCH NUMBER fresh|stale`, with the number of the clock that is
 *                              read; or `refused N`
 *     probe session < CALLS    for each call of a session, what it gives, `refused N`, `timed out`, `invalid` or `failed`.
 *                              The calls are `open tcp PORT MILLISECONDS [MAX_WIDTH]`, `open unix PATH MILLISECONDS
 *                              [MAX_WIDTH]`, `now`, `after T`,
 *                              `before T`, `lease LO HI`, `begin FLOOR`, `wait`, `commit FLOOR`, `ask LINE`, `close`;
 *                              `signal`, so that a signal comes 20 ms later; and `told`, the words for the last error
 *     probe stamper < LINES    for each line what a stamper says; tools/suites/clients_of_stampers.py has the lines
 *     probe pending < LINES    for each line what a table says; tools/suites/clients_of_pending.py has the lines
 *     probe openings < LINES   for each line what was opened or closed; tools/suites/clients_of_openings.py has the lines
 *     probe renewals < LINES   for each line what a reader says; tools/suites/clients_of_renewals.py has the lines
 */
#include "../truetime_session.h"

#include "../truetime_pending.h"
#include "../truetime_stamper.h"

#include <pthread.h>
#include <signal.h>
#include <stdlib.h>

static void print_reading_at(const tt_publication *published, uint64_t now_ns, uint64_t t_ns) {
    tt_reading reading;
    int refused = tt_read_at(published, now_ns, &reading);
    if (refused != 0)
        printf("refused %d\n", refused);
    else
        printf("%" PRIu64 " %" PRIu64 " %" PRIu64 " %" PRIu64 " %s %s %s\n", reading.earliest_ns, reading.latest_ns,
               reading.epoch, reading.number, reading.fresh ? "fresh" : "stale", tt_after(&reading, t_ns) ? "yes" : "no",
               tt_before(&reading, t_ns) ? "yes" : "no");
}

static int try_vectors(void) {
    tt_publication p;
    uint64_t now_ns, t_ns;
    memset(&p, 0, sizeof p);
    while (scanf("%" SCNu64 "%" SCNu64 "%" SCNu64 "%" SCNu64 "%" SCNu64 "%" SCNu64 "%" SCNu64 "%" SCNu64 "%" SCNu64 "%" SCNu64,
                 &p.clock_ns, &p.lo_ns, &p.hi_ns, &p.drift_ppm, &p.usable_until_ns, &now_ns, &p.valid_until_ns, &p.epoch,
                 &p.number, &t_ns) == 10)
        print_reading_at(&p, now_ns, t_ns);
    return 0;
}

static void print_publication(int refused, const tt_publication *p) {
    if (refused != 0)
        printf("refused %d\n", refused);
    else
        printf("published %" PRIu64 " %" PRIu64 " %" PRIu64 " %" PRIu64 " %" PRIu64 " %" PRIu64 " %" PRIu64 " %" PRIu64 "\n",
               p->clock_ns, p->lo_ns, p->hi_ns, p->valid_until_ns, p->usable_until_ns, p->epoch, p->number, p->drift_ppm);
    fflush(stdout);
}

static int try_file(const char *path) {
    tt_client client;
    tt_publication p;
    int refused = tt_open(&client, path, geteuid());
    if (refused == 0) refused = tt_read(&client, &p);
    print_publication(refused, &p);
    tt_close(&client);
    return 0;
}

/* The reading of a file where CLOCK_MONOTONIC and CLOCK_MONOTONIC_RAW show these. */
static void print_at(const tt_client *client, uint64_t monotonic_ns, uint64_t raw_ns) {
    tt_publication p;
    tt_reading reading;
    int refused = tt_read(client, &p);
    if (refused == 0) refused = tt_read_at(&p, p.clock == TT_MONOTONIC_RAW ? raw_ns : monotonic_ns, &reading);
    if (refused != 0)
        printf("refused %d\n", refused);
    else
        printf("%" PRIu64 " %" PRIu64 " %" PRIu64 " %" PRIu64 " %" PRIu64 " %s\n", p.clock, reading.earliest_ns, reading.latest_ns,
               reading.epoch, reading.number, reading.fresh ? "fresh" : "stale");
    fflush(stdout);
}

static int try_files(void) {
    tt_client client;
    tt_publication p;
    char line[512];
    uint64_t monotonic_ns, raw_ns;
    memset(&client, 0, sizeof client);
    while (fgets(line, sizeof line, stdin) != NULL) {
        line[strcspn(line, "\n")] = '\0';
        int refused = 0;
        if (sscanf(line, "at %" SCNu64 "%" SCNu64, &monotonic_ns, &raw_ns) == 2) {
            print_at(&client, monotonic_ns, raw_ns);
            continue;
        }
        if (strncmp(line, "open ", 5) == 0 || strncmp(line, "map ", 4) == 0) {
            tt_close(&client);
            refused = *line == 'm' ? tt_open(&client, line + 4, geteuid()) : tt_open_unmapped(&client, line + 5, geteuid());
        }
        if (refused == 0) refused = tt_read(&client, &p);
        print_publication(refused, &p);
    }
    tt_close(&client);
    return 0;
}

static int open_session(tt_session *session, const char *address) {
    char kind[5], where[108];
    int timeout_ms, failed;
    uint64_t max_width_ns;
    int words = sscanf(address, "%4s %107s %d %" SCNu64, kind, where, &timeout_ms, &max_width_ns);
    if (words < 3) return -EINVAL;
    if (strcmp(kind, "unix") == 0)
        failed = tt_session_open_unix(session, where, timeout_ms);
    else
        failed = tt_session_open_tcp(session, "127.0.0.1", (uint16_t)strtoul(where, NULL, 10), timeout_ms);
    if (failed == 0 && words == 4) tt_session_limit_width(session, max_width_ns);
    return failed;
}

/* Makes a call, and prints what it gives into `said`. One that does not answer 0 counts as 0 where what it gives tells a
 * caller that does not look more than nothing. */
static int call_session(tt_session *session, const char *name, const char *rest, char said[TT_LINE_BYTES + 1]) {
    const size_t most = TT_LINE_BYTES + 1;
    uint64_t number = strtoull(rest, NULL, 10), stamp_ns = 7;
    tt_interval now = {7, 7};
    bool is_so = true;
    int failed = -EINVAL;
    if (strcmp(name, "ask") == 0) return tt_session_ask(session, rest, said);
    if (strcmp(name, "now") == 0) {
        failed = tt_session_now(session, &now);
        snprintf(said, most, "%" PRIu64 " %" PRIu64, now.earliest_ns, now.latest_ns);
        return failed == 0 || (now.earliest_ns == 0 && now.latest_ns == TT_MAX_TIME_NS) ? failed : 0;
    }
    if (strcmp(name, "after") == 0 || strcmp(name, "before") == 0) {
        bool is_after = strcmp(name, "after") == 0;
        failed = is_after ? tt_session_after(session, number, &is_so) : tt_session_before(session, number, &is_so);
        snprintf(said, most, "%s", is_so ? "yes" : "no");
        return failed == 0 || !is_so ? failed : 0;
    }
    if (strcmp(name, "lease") == 0) {
        uint64_t hi_ns = strtoull(strchr(rest, ' '), NULL, 10);
        snprintf(said, most, "leased %s", rest);
        return tt_session_lease(session, number, hi_ns);
    }
    if (strcmp(name, "begin") == 0) failed = tt_session_begin(session, number, &stamp_ns);
    if (strcmp(name, "wait") == 0) failed = tt_session_wait(session, &stamp_ns);
    if (strcmp(name, "commit") == 0) failed = tt_session_commit(session, number, &stamp_ns);
    snprintf(said, most, "%" PRIu64, stamp_ns);
    return failed == 0 || stamp_ns == 0 ? failed : 0;
}

static void take_signal(int number) { (void)number; }

/* A signal comes 20 ms later. What waits without a time-out goes on by itself. */
static void send_signal(void) {
    struct sigaction action;
    struct itimerval soon;
    memset(&action, 0, sizeof action);
    memset(&soon, 0, sizeof soon);
    action.sa_handler = take_signal;
    action.sa_flags = SA_RESTART;
    soon.it_value.tv_usec = 20000;
    sigaction(SIGALRM, &action, NULL);
    setitimer(ITIMER_REAL, &soon, NULL);
}

/* Prints what a call answers that does not answer 0, and what it says of a commit and of a lease. */
static void print_error(const tt_session *session, int failed) {
    if (failed == TT_COMMIT_PENDING && tt_session_is_pending(session))
        printf("refused %d %" PRIu64 " %" PRIu64 "\n", failed, session->number, session->stamp_ns);
    else if (failed > 0)
        printf("refused %d\n", failed);
    else if (failed == -EINVAL)
        puts("invalid");
    else {
        bool is_open = session->length != 0 && session->socket < 0;
        fputs(failed == -ETIMEDOUT ? "timed out" : "failed", stdout);
        if (is_open && session->lost_number != 0) printf(" %" PRIu64 " %" PRIu64, session->lost_number, session->lost_stamp_ns);
        puts(is_open && session->lost_lease ? " lease" : "");
    }
}

static int try_sessions(void) {
    tt_session session;
    char call[256], said[TT_LINE_BYTES + 1];
    memset(&session, 0, sizeof session);
    session.socket = -1;
    int last = 0;
    while (fgets(call, sizeof call, stdin) != NULL) {
        call[strcspn(call, "\n")] = '\0';
        size_t length = strcspn(call, " ");
        const char *rest = call[length] == ' ' ? call + length + 1 : "";
        call[length] = '\0';
        int failed = 0;
        strcpy(said, strcmp(call, "open") == 0 ? "open" : strcmp(call, "signal") == 0 ? "signal" : "closed");
        if (strcmp(call, "open") == 0)
            failed = open_session(&session, rest);
        else if (strcmp(call, "signal") == 0)
            send_signal();
        else if (strcmp(call, "close") == 0)
            tt_session_close(&session);
        else if (strcmp(call, "told") != 0)
            failed = call_session(&session, call, rest, said);
        if (failed != 0) last = failed;
        if (strcmp(call, "told") == 0)
            puts(tt_strerror(last));
        else if (failed == 0)
            puts(said);
        else
            print_error(&session, failed);
        fflush(stdout);
    }
    return 0;
}

/* The stamp of a stamper that gave `last` last, or none where that is 0, with these limits: how far a floor may be ahead, and the grid.
 * Its next stamp has to be above this one, and the same as before where it was refused. */
static void print_row(uint64_t last, const tt_reading *reading, uint64_t floor_ns, const uint64_t *lease, const uint64_t *limits) {
    tt_stamper stamper;
    uint64_t stamp_ns = 0, free_ns = last == 0 ? 0 : last + 1;
    int refused = tt_stamper_open(&stamper, NULL, lease[0], lease[1]);
    stamper.least_free_ns = free_ns;
    tt_stamper_limit(&stamper, limits[0], limits[1]);
    if (refused == 0) refused = tt_stamper_stamp_at(&stamper, reading, floor_ns, &stamp_ns);
    if (stamper.least_free_ns != (refused == 0 ? stamp_ns + 1 : free_ns) || (refused != 0 && stamp_ns != 0))
        puts("wrong");
    else if (refused != 0)
        printf("refused %d\n", refused);
    else
        printf("stamp %" PRIu64 "\n", stamp_ns);
}

static void print_stamp(int refused, const tt_stamp *stamp) {
    if (refused != 0)
        printf("refused %d\n", refused);
    else
        printf("stamp %" PRIu64 " %" PRIu64 " %" PRIu64 " %s %" PRIu64 "\n", stamp->stamp_ns, stamp->earliest_ns,
               stamp->latest_ns, stamp->fresh ? "fresh" : "stale", stamp->epoch);
}

/* One of several threads that take stamps of one stamper. */
typedef struct stamping {
    pthread_t thread;
    pthread_barrier_t *begin;
    tt_stamper *stamper;
    uint64_t floor_ns;
    size_t each;
    tt_stamp *stamps;
    int *refusals;
} stamping;

static void *stamp_on(void *given) {
    stamping *me = (stamping *)given;
    pthread_barrier_wait(me->begin);
    for (size_t i = 0; i < me->each; i++) me->refusals[i] = tt_stamper_stamp(me->stamper, me->floor_ns, &me->stamps[i]);
    return NULL;
}

static void stamp_in_threads(tt_stamper *stamper, unsigned number, size_t each, uint64_t floor_ns) {
    enum { MOST = 32 };
    stamping all[MOST];
    pthread_barrier_t begin;
    if (number > MOST) number = MOST;
    pthread_barrier_init(&begin, NULL, number);
    for (unsigned i = 0; i < number; i++) {
        all[i].begin = &begin, all[i].stamper = stamper, all[i].floor_ns = floor_ns, all[i].each = each;
        all[i].stamps = (tt_stamp *)calloc(each, sizeof *all[i].stamps);
        all[i].refusals = (int *)calloc(each, sizeof *all[i].refusals);
        if (all[i].stamps == NULL || all[i].refusals == NULL) abort();
        pthread_create(&all[i].thread, NULL, stamp_on, &all[i]);
    }
    for (unsigned i = 0; i < number; i++) {
        pthread_join(all[i].thread, NULL);
        for (size_t k = 0; k < each; k++) {
            printf("%u ", i);
            print_stamp(all[i].refusals[k], &all[i].stamps[k]);
        }
        free(all[i].stamps);
        free(all[i].refusals);
    }
    pthread_barrier_destroy(&begin);
    puts("end");
}

static void print_is_past(int refused, bool is_past) {
    if (refused != 0 && !is_past)
        printf("refused %d\n", refused);
    else
        puts(refused != 0 ? "wrong" : is_past ? "yes" : "no");
}

/* Closes the client, and opens it and the stamper anew. */
static void open_stamper(tt_client *client, tt_stamper *stamper, const char *path, const uint64_t lease[2], const uint64_t limits[2]) {
    tt_close(client);
    int refused = tt_open(client, path, geteuid());
    if (refused == 0) refused = tt_stamper_open(stamper, client, lease[0], lease[1]);
    if (refused == 0 && limits[1] != 0) refused = tt_stamper_limit(stamper, limits[0], limits[1]);
    if (refused != 0)
        printf("refused %d\n", refused);
    else
        puts("open");
}

/* Whether a stamp that was refused tells a caller nothing: where there was no reading, it is that of all times. */
static bool is_nothing(int refused, const tt_stamp *stamp) {
    bool has_reading = refused == TT_USED_UP || refused == TT_FLOOR_TOO_FAR || refused == TT_LEASE_OVER;
    bool is_all = stamp->earliest_ns == 0 && stamp->latest_ns == TT_MAX_TIME_NS && stamp->epoch == 0 && !stamp->fresh;
    return stamp->stamp_ns == 0 && (has_reading || is_all);
}

static void call_stamper(tt_stamper *stamper, const char *line) {
    tt_stamp stamp;
    uint64_t number, more, floor_ns, clock_ns = 0;
    bool is_past = true;
    if (sscanf(line, "stamp %" SCNu64, &number) == 1) {
        int refused = tt_stamper_stamp(stamper, number, &stamp);
        if (refused != 0 && !is_nothing(refused, &stamp))
            puts("wrong");
        else
            print_stamp(refused, &stamp);
    } else if (sscanf(line, "past %" SCNu64, &number) == 1) {
        int refused = tt_stamper_is_past(stamper, number, &is_past);
        print_is_past(refused, is_past);
    } else if (sscanf(line, "extend %" SCNu64, &number) == 1) {
        int refused = tt_stamper_extend(stamper, number);
        refused == 0 ? puts("extended") : printf("refused %d\n", refused);
    } else if (sscanf(line, "above %" SCNu64, &number) == 1) {
        int refused = tt_stamper_rise_above(stamper, number);
        refused == 0 ? puts("risen") : printf("refused %d\n", refused);
    } else if (sscanf(line, "left %" SCNu64, &number) == 1) {
        int refused = tt_stamper_left(stamper, number, &more);
        refused == 0 ? printf("%" PRIu64 "\n", more) : printf("refused %d\n", refused);
    } else if (sscanf(line, "wait %" SCNu64 "%" SCNu64, &number, &more) == 2 && tt_clock(&clock_ns) == 0) {
        int refused = tt_stamper_wait_past(stamper, number, clock_ns + more * 1000000, &is_past);
        print_is_past(refused, is_past);
    } else if (sscanf(line, "threads %" SCNu64 "%" SCNu64 "%" SCNu64, &number, &more, &floor_ns) == 3) {
        stamp_in_threads(stamper, (unsigned)number, (size_t)more, floor_ns);
    } else {
        puts("invalid");
    }
}

static int try_stampers(void) {
    tt_client client;
    tt_stamper stamper;
    tt_reading reading;
    char line[512], path[256];
    uint64_t last, floor_ns, lease[2];
    memset(&client, 0, sizeof client);
    memset(&reading, 0, sizeof reading);
    tt_stamper_open(&stamper, &client, 0, TT_MAX_TIME_NS);
    while (fgets(line, sizeof line, stdin) != NULL) {
        uint64_t limits[2] = {TT_MAX_AHEAD_NS, 1};
        if (sscanf(line, "row %" SCNu64 "%" SCNu64 "%" SCNu64 "%" SCNu64 "%" SCNu64 "%" SCNu64 "%" SCNu64 "%" SCNu64, &last,
                   &reading.earliest_ns, &reading.latest_ns, &floor_ns, lease, lease + 1, limits, limits + 1) >= 6)
            print_row(last, &reading, floor_ns, lease, limits);
        else if (strncmp(line, "open ", 5) == 0) {
            limits[0] = limits[1] = 0;
            if (sscanf(line, "open %255s%" SCNu64 "%" SCNu64 "%" SCNu64 "%" SCNu64, path, lease, lease + 1, limits, limits + 1) >= 3)
                open_stamper(&client, &stamper, path, lease, limits);
        } else
            call_stamper(&stamper, line);
        fflush(stdout);
    }
    tt_close(&client);
    return 0;
}

enum { MOST_PENDING = 100, MOST_LOGGED = 10000, MOST_SNAPSHOTS = 1000 };

/* What threads that commit and a reader share: the stamps that were written, and what the reader saw at its watermarks. */
typedef struct watching {
    tt_pending *table;
    uint64_t each;
    pthread_mutex_t lock;
    uint64_t log[MOST_LOGGED], marks[MOST_SNAPSHOTS];
    size_t logged, snapshots, seen[MOST_SNAPSHOTS];
    tt_atomic is_over;
} watching;

static size_t up_to(const watching *all, uint64_t mark) {
    size_t count = 0;
    for (size_t place = 0; place < all->logged; place++) count += all->log[place] <= mark;
    return count;
}

static void *write_on(void *given) {
    watching *all = (watching *)given;
    for (uint64_t turn = 0; turn < all->each; turn++) {
        tt_stamp stamp;
        if (tt_pending_begin(all->table, 0, &stamp) != 0) abort();
        pthread_mutex_lock(&all->lock);
        all->log[all->logged++] = stamp.stamp_ns;
        pthread_mutex_unlock(&all->lock);
        if (tt_pending_written(all->table, stamp.stamp_ns) != 0) abort();
    }
    return NULL;
}

static void *read_on(void *given) {
    watching *all = (watching *)given;
    while (!all->is_over) {
        uint64_t mark;
        bool is_one;
        if (tt_pending_watermark(all->table, &mark, &is_one) != 0 || !is_one) abort();
        pthread_mutex_lock(&all->lock);
        size_t place = all->snapshots < MOST_SNAPSHOTS ? all->snapshots++ : all->logged % MOST_SNAPSHOTS;
        all->marks[place] = mark;
        all->seen[place] = up_to(all, mark);
        pthread_mutex_unlock(&all->lock);
    }
    return NULL;
}

static int is_below(const void *one, const void *other) {
    uint64_t a = *(const uint64_t *)one, b = *(const uint64_t *)other;
    return a < b ? -1 : a > b;
}

/* Commits in threads, beside a reader that takes snapshots at the watermark: each has to have all that is written up to it in the
 * end. */
static void watch_in_threads(tt_pending *table, uint64_t threads, uint64_t each) {
    watching *all = (watching *)calloc(1, sizeof *all);
    pthread_t reader, writers[MOST_PENDING];
    size_t torn = 0, different = 0;
    if (all == NULL || threads > MOST_PENDING || threads * each > MOST_LOGGED) abort();
    all->table = table;
    all->each = each;
    pthread_mutex_init(&all->lock, NULL);
    pthread_create(&reader, NULL, read_on, all);
    for (uint64_t thread = 0; thread < threads; thread++) pthread_create(&writers[thread], NULL, write_on, all);
    for (uint64_t thread = 0; thread < threads; thread++) pthread_join(writers[thread], NULL);
    all->is_over = 1;
    pthread_join(reader, NULL);
    for (size_t place = 0; place < all->snapshots; place++) torn += all->seen[place] != up_to(all, all->marks[place]);
    qsort(all->log, all->logged, sizeof *all->log, is_below);
    for (size_t place = 0; place < all->logged; place++) different += place == 0 || all->log[place - 1] != all->log[place];
    printf("%zu stamps, %zu different, %s snapshots, %zu torn\n", all->logged, different, all->snapshots > 0 ? "some" : "no", torn);
    pthread_mutex_destroy(&all->lock);
    free(all);
}

/* Prints what a call of a table gives, or why it gives nothing. */
static void print_answer(int failed, const char *answer) {
    if (failed > 0)
        printf("refused %d\n", failed);
    else
        puts(failed < 0 ? "invalid" : answer);
}

static void call_table(tt_pending *table, const char *line) {
    uint64_t one, other, clock_ns = 0;
    tt_stamp stamp;
    bool is_so = false;
    char answer[64];
    if (sscanf(line, "begin %" SCNu64, &one) == 1) {
        int failed = tt_pending_begin(table, one, &stamp);
        snprintf(answer, sizeof answer, "begun %" PRIu64, stamp.stamp_ns);
        print_answer(failed, answer);
    } else if (sscanf(line, "written %" SCNu64, &one) == 1) {
        print_answer(tt_pending_written(table, one), "ended");
    } else if (sscanf(line, "given_up %" SCNu64, &one) == 1) {
        print_answer(tt_pending_give_up(table, one), "ended");
    } else if (sscanf(line, "release %" SCNu64 "%" SCNu64, &one, &other) == 2 && tt_clock(&clock_ns) == 0) {
        int failed = tt_pending_release(table, one, clock_ns + other * 1000000, &is_so);
        print_answer(failed, is_so ? "yes" : "no");
    } else if (sscanf(line, "readable %" SCNu64 "%" SCNu64, &one, &other) == 2 && tt_clock(&clock_ns) == 0) {
        int failed = tt_pending_make_readable(table, one, clock_ns + other * 1000000, &is_so);
        print_answer(failed, is_so ? "yes" : "no");
    } else if (sscanf(line, "threads %" SCNu64 "%" SCNu64, &one, &other) == 2) {
        watch_in_threads(table, one, other);
    } else {
        int failed = tt_pending_watermark(table, &one, &is_so);
        snprintf(answer, sizeof answer, "%" PRIu64, one);
        print_answer(failed, is_so ? answer : "none");
    }
}

static int try_tables(void) {
    tt_client client;
    tt_stamper stamper;
    tt_pending table;
    uint64_t stamps[MOST_PENDING];
    char line[512], path[256];
    if (fgets(line, sizeof line, stdin) == NULL || sscanf(line, "open %255s", path) != 1 || tt_open(&client, path, geteuid()) != 0 ||
        tt_stamper_open(&stamper, &client, 0, TT_MAX_TIME_NS) != 0 || tt_stamper_limit(&stamper, TT_MAX_AHEAD_NS, 1) != 0 ||
        tt_pending_open(&table, &stamper, stamps, MOST_PENDING) != 0)
        return 3;
    puts("open");
    fflush(stdout);
    while (fgets(line, sizeof line, stdin) != NULL) {
        call_table(&table, line);
        fflush(stdout);
    }
    tt_pending_close(&table);
    tt_close(&client);
    return 0;
}

/* What is opened many times: a reader, one with a stamper, or a session. */
typedef struct opening {
    tt_client client;
    tt_stamper stamper;
    tt_session session;
} opening;

enum { MOST_OPENINGS = 200, QUESTIONS = 3 };

/* Opens what is named, and says whether that went well. */
static bool open_one(opening *one, const char *kind, const char *where, int timeout_ms) {
    memset(&one->client, 0, sizeof one->client);
    memset(&one->session, 0, sizeof one->session);
    one->session.socket = -1;
    if (strcmp(kind, "tcp") == 0)
        return tt_session_open_tcp(&one->session, "127.0.0.1", (uint16_t)strtoul(where, NULL, 10), timeout_ms) == 0;
    if (strcmp(kind, "unix") == 0) return tt_session_open_unix(&one->session, where, timeout_ms) == 0;
    if (strcmp(kind, "unmapped") == 0) return tt_open_unmapped(&one->client, where, geteuid()) == 0;
    return tt_open(&one->client, where, geteuid()) == 0 &&
           tt_stamper_open(&one->stamper, &one->client, 0, TT_MAX_TIME_NS) == 0;
}

/* How many questions it answers. */
static int answers_of(opening *one, const char *kind) {
    int answers = 0;
    for (int turn = 0; turn < QUESTIONS; turn++) {
        tt_reading reading;
        tt_interval now;
        tt_stamp stamp;
        if (strcmp(kind, "stamper") == 0)
            answers += tt_stamper_stamp(&one->stamper, 0, &stamp) == 0;
        else if (one->session.length != 0)
            answers += tt_session_now(&one->session, &now) == 0;
        else
            answers += tt_now(&one->client, &reading) == 0;
    }
    return answers;
}

static void close_one(opening *one) {
    tt_session_close(&one->session);
    tt_close(&one->client);
}

static int try_openings(void) {
    static opening all[MOST_OPENINGS];
    char line[512], kind[9], where[256];
    int wanted, timeout_ms, count = 0;
    while (fgets(line, sizeof line, stdin) != NULL) {
        int opened = 0, answers = 0;
        if (sscanf(line, "open %8s %255s %d %d", kind, where, &wanted, &timeout_ms) == 4 && wanted <= MOST_OPENINGS) {
            for (count = 0; count < wanted; count++) {
                bool is_open = open_one(&all[count], kind, where, timeout_ms);
                opened += is_open;
                if (is_open) answers += answers_of(&all[count], kind);
            }
            printf("%d opened, %d answers\n", opened, answers);
        } else if (strcmp(line, "close\n") == 0) {
            for (int place = 0; place < count; place++) close_one(&all[place]);
            puts("closed");
        } else {
            puts("rested");
        }
        fflush(stdout);
    }
    return 0;
}

/* A thread that reads again and again. The epoch of a file is below 64, and how wide its readings are. */
typedef struct rereading {
    pthread_t thread;
    const tt_client *client;
    bool *is_over;
    uint64_t epochs, torn, refused; /* a bit for each epoch that was seen */
} rereading;

static void *reread(void *given) {
    rereading *me = (rereading *)given;
    tt_reading now;
    while (!__atomic_load_n(me->is_over, __ATOMIC_ACQUIRE)) {
        bool is_refused = tt_now(me->client, &now) != 0;
        me->refused += is_refused;
        if (is_refused) continue;
        me->torn += now.latest_ns - now.earliest_ns != now.epoch;
        me->epochs |= UINT64_C(1) << (now.epoch & 63);
    }
    return NULL;
}

/* Ends all threads, and prints what they saw. */
static void end_rereading(rereading *all, unsigned number, bool *is_over) {
    uint64_t epochs = 0, torn = 0, refused = 0;
    __atomic_store_n(is_over, true, __ATOMIC_RELEASE);
    for (unsigned i = 0; i < number; i++) {
        pthread_join(all[i].thread, NULL);
        epochs |= all[i].epochs, torn += all[i].torn, refused += all[i].refused;
    }
    for (unsigned epoch = 0; epoch < 64; epoch++)
        if ((epochs >> epoch & 1) != 0) printf("%u ", epoch);
    printf("seen, %" PRIu64 " torn, %" PRIu64 " refused\n", torn, refused);
}

static void print_now(const tt_client *client) {
    tt_reading now;
    int refused = tt_now(client, &now);
    if (refused != 0)
        printf("refused %d\n", refused);
    else
        printf("%" PRIu64 " %" PRIu64 " %s\n", now.epoch, now.latest_ns - now.earliest_ns, now.fresh ? "fresh" : "stale");
}

static int try_renewals(void) {
    enum { MOST = 32 };
    rereading all[MOST];
    tt_client client;
    tt_stamper stamper;
    tt_stamp stamp;
    uint64_t max_width_ns;
    char line[512], kind[9], path[256];
    unsigned number = 0;
    bool is_over = false;
    memset(&client, 0, sizeof client);
    while (fgets(line, sizeof line, stdin) != NULL) {
        int words = sscanf(line, "open %8s %255s %" SCNu64, kind, path, &max_width_ns);
        if (words >= 2) {
            tt_close(&client);
            int refused = (strcmp(kind, "mapped") == 0 ? tt_open : tt_open_unmapped)(&client, path, geteuid());
            if (refused == 0 && words == 3) tt_limit_width(&client, max_width_ns);
            tt_stamper_open(&stamper, &client, 0, TT_MAX_TIME_NS);
            refused == 0 ? puts("open") : printf("refused %d\n", refused);
        } else if (strncmp(line, "stamp", 5) == 0) {
            int refused = tt_stamper_stamp(&stamper, 0, &stamp);
            refused == 0 ? printf("%" PRIu64 "\n", stamp.stamp_ns) : printf("refused %d\n", refused);
        } else if (sscanf(line, "threads %u", &number) == 1 && number <= MOST) {
            is_over = false;
            for (unsigned i = 0; i < number; i++) {
                memset(&all[i], 0, sizeof all[i]);
                all[i].client = &client, all[i].is_over = &is_over;
                pthread_create(&all[i].thread, NULL, reread, &all[i]);
            }
            puts("started");
        } else if (strncmp(line, "end", 3) == 0) {
            end_rereading(all, number, &is_over);
        } else if (strncmp(line, "now", 3) == 0) {
            print_now(&client);
        } else {
            if (strncmp(line, "close", 5) == 0) tt_close(&client);
            puts(strncmp(line, "close", 5) == 0 ? "closed" : "rested");
        }
        fflush(stdout);
    }
    tt_close(&client);
    return 0;
}

int main(int count, char **words) {
    if (count == 2 && strcmp(words[1], "vectors") == 0) return try_vectors();
    if (count == 3 && strcmp(words[1], "open") == 0) return try_file(words[2]);
    if (count == 2 && strcmp(words[1], "files") == 0) return try_files();
    if (count == 2 && strcmp(words[1], "session") == 0) return try_sessions();
    if (count == 2 && strcmp(words[1], "stamper") == 0) return try_stampers();
    if (count == 2 && strcmp(words[1], "pending") == 0) return try_tables();
    if (count == 2 && strcmp(words[1], "openings") == 0) return try_openings();
    if (count == 2 && strcmp(words[1], "renewals") == 0) return try_renewals();
    fprintf(stderr, "usage: probe vectors | probe open PATH | probe files | probe session | probe stamper | probe pending | probe openings |"
                    " probe renewals\n");
    return 2;
}
