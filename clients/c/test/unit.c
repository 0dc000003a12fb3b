#define _DEFAULT_SOURCE /* for MAP_ANONYMOUS */

/* Tests of what no probe shows: owners by name, causes, clocks, names of hosts, and observers. The folder to work in is its argument. */
#include <errno.h>
#include <stdint.h>
#include <time.h>

/* What the clocks of the readers show, by their numbers in Linux: 0 is what the host's show, UINT64_MAX that they fail. */
static uint64_t shown_ns[5];

static int show(clockid_t clock, struct timespec *shown) {
    uint64_t wanted = clock >= 0 && clock < 5 ? shown_ns[clock] : 0;
    if (wanted == 0) return clock_gettime(clock, shown);
    shown->tv_sec = (time_t)(wanted / 1000000000);
    shown->tv_nsec = (long)(wanted % 1000000000);
    errno = EINVAL;
    return wanted == UINT64_MAX ? -1 : 0;
}

#define clock_gettime show

#include "../truetime.h"
#include "../truetime_session.h"
#include "../truetime_pending.h"
#include "../truetime_stamper.h"

#include <arpa/inet.h>
#include <pthread.h>
#include <stdlib.h>
#include <sys/wait.h>

static int checks, wrong;

static void check(bool is_so, const char *what) {
    checks++;
    if (is_so) return;
    wrong++;
    printf("wrong: %s\n", what);
}

/* Writes a file of a daemon that has published nothing, with a byte changed, and with this mode. Its clock is CLOCK_MONOTONIC_RAW. */
static void write_file(const char *path, size_t length, int changed, mode_t mode) {
    char bytes[TT_BYTES] = "TTS3\x40\1\0\0\4\0\0\0\0\0\0";
    FILE *file = fopen("/proc/sys/kernel/random/boot_id", "r");
    if (file == NULL || fread(bytes + 24, 1, 36, file) != 36) exit(3);
    fclose(file);
    if (changed >= 0) bytes[changed] ^= 1;
    file = fopen(path, "w");
    if (file == NULL || fwrite(bytes, 1, length, file) != length) exit(3);
    fclose(file);
    if (chmod(path, mode) != 0) exit(3);
}

static void try_causes(const char *path) {
    static const struct {
        size_t length;
        int changed;
        mode_t mode;
        int cause;
    } tried[] = {{TT_BYTES - 1, -1, 0644, TT_FILE_KIND}, {TT_BYTES, -1, 0664, TT_FILE_WRITABLE}, {TT_BYTES, 3, 0644, TT_FILE_FORMAT},
                 {TT_BYTES, 8, 0644, TT_FILE_FORMAT}, {TT_BYTES, 15, 0644, TT_FILE_FORMAT}, {TT_BYTES, 63, 0644, TT_FILE_FORMAT},
                 {TT_BYTES, 24, 0644, TT_FILE_CLOCK}};
    tt_client client;
    for (size_t place = 0; place < sizeof tried / sizeof *tried; place++) {
        write_file(path, tried[place].length, tried[place].changed, tried[place].mode);
        check(tt_open(&client, path, geteuid()) == TT_OTHER_FILE && client.cause == tried[place].cause, tt_cause(&client));
        check(tt_open_unmapped(&client, path, geteuid()) == TT_OTHER_FILE && client.cause == tried[place].cause, tt_cause(&client));
    }
    write_file(path, TT_BYTES, -1, 0644);
    check(tt_open(&client, path, geteuid() + 1) == TT_OTHER_FILE && client.cause == TT_FILE_OWNER, tt_cause(&client));
    check(strcmp(tt_cause(&client), "it has another owner") == 0, tt_cause(&client));
    check(tt_open(&client, path, geteuid()) == 0 && client.refused == 0, "a file that is right");
    tt_close(&client);
    check(tt_open(&client, "/none/such", geteuid()) == TT_NO_FILE && client.cause == ENOENT, "a file that is not there");
    check(strcmp(tt_cause(&client), strerror(ENOENT)) == 0, tt_cause(&client));
}

/* Puts a file there, in place of what is there, by this clock, with one publication: by its clock at 1,000 the true time was from 5 to 15,
 * and by CLOCK_MONOTONIC at 500,000 it was from 7,000 to 8,000, which no reader of C tells. */
static void put_file(const char *path, uint64_t clock, uint64_t epoch) {
    uint64_t slot[TT_SLOT_WORDS] = {1,    1000,   5,    15,   6000, epoch,  1,      200,
                                    7000, 500000, 7000, 8000, 1400, 600000, 700000, 0};
    uint64_t index = 1;
    char other[1100];
    snprintf(other, sizeof other, "%s.new", path);
    write_file(other, TT_BYTES, -1, 0644);
    FILE *file = fopen(other, "r+");
    if (file == NULL || fseek(file, 8, SEEK_SET) != 0 || fwrite(&clock, sizeof clock, 1, file) != 1 ||
        fwrite(&index, sizeof index, 1, file) != 1 || fseek(file, 8 * (TT_FIRST_SLOT + TT_SLOT_WORDS), SEEK_SET) != 0 ||
        fwrite(slot, sizeof slot, 1, file) != 1 || fclose(file) != 0 || rename(other, path) != 0)
        exit(3);
}

static void check_now(const tt_client *client, uint64_t epoch, int wanted, uint64_t earliest_ns, uint64_t latest_ns, bool is_fresh) {
    tt_reading now;
    char what[100];
    int refused = tt_now(client, &now);
    snprintf(what, sizeof what, "%d, from %" PRIu64 " to %" PRIu64 ", by epoch %" PRIu64, refused, now.earliest_ns, now.latest_ns, now.epoch);
    check(refused == wanted && now.earliest_ns == earliest_ns && now.latest_ns == latest_ns && now.fresh == is_fresh &&
              (refused != 0 || now.epoch == epoch), what);
}

/* The clock is the one that the file names, also where the next file at the path names the other one. */
static void try_clocks(const char *path) {
    static int (*const opens[])(tt_client *, const char *, uid_t) = {tt_open, tt_open_unmapped};
    static const uint64_t clocks[] = {TT_MONOTONIC_RAW, TT_MONOTONIC, TT_MONOTONIC_RAW, TT_MONOTONIC_RAW, TT_MONOTONIC};
    tt_client client;
    tt_publication published;
    for (int way = 0; way < 2; way++) {
        put_file(path, clocks[0], 10);
        check(opens[way](&client, path, geteuid()) == 0, "a file by its clock");
        for (uint64_t turn = 0; turn < sizeof clocks / sizeof *clocks; turn++) {
            uint64_t clock = clocks[turn], other = clock == TT_MONOTONIC ? TT_MONOTONIC_RAW : TT_MONOTONIC;
            if (turn > 0) put_file(path, clock, 10 + turn);
            /* The one before is late, by either clock. A look at the path is due each second of CLOCK_MONOTONIC. */
            shown_ns[TT_MONOTONIC] = shown_ns[TT_MONOTONIC_RAW] = UINT64_C(10000000000) * (turn + 1);
            if (turn > 0) check_now(&client, 0, TT_TOO_WIDE, 0, TT_MAX_TIME_NS, false);
            check(tt_read(&client, &published) == 0 && published.clock == clock && published.epoch == 10 + turn, "whose clock it is");
            shown_ns[other] = 3000;
            shown_ns[clock] = 6000;
            check_now(&client, 10 + turn, 0, 5004, 5016, true);
            shown_ns[clock] = 6001;
            check_now(&client, 10 + turn, 0, 5004, 5018, false);
            shown_ns[clock] = 7000;
            check_now(&client, 10 + turn, 0, 6003, 6017, false);
            shown_ns[clock] = 7001;
            check_now(&client, 10 + turn, TT_TOO_WIDE, 0, TT_MAX_TIME_NS, false);
            shown_ns[clock] = 999;
            check_now(&client, 10 + turn, TT_CLOCK_BACK, 0, TT_MAX_TIME_NS, false);
            shown_ns[clock] = UINT64_MAX;
            check_now(&client, 10 + turn, TT_CLOCK_FAILED, 0, TT_MAX_TIME_NS, false);
            shown_ns[clock] = 6000;
            shown_ns[other] = UINT64_MAX;
            check_now(&client, 10 + turn, 0, 5004, 5016, true);
        }
        shown_ns[TT_MONOTONIC] = shown_ns[TT_MONOTONIC_RAW] = 0;
        tt_close(&client);
    }
}

enum { PROCESSES = 4, EACH = 20000 };

/* What processes share: the word of their stamper, and the stamps that each was given. */
typedef struct shared {
    tt_atomic word;
    uint64_t stamps[PROCESSES][EACH];
} shared;

static int compared(const void *one, const void *other) {
    uint64_t a = *(const uint64_t *)one, b = *(const uint64_t *)other;
    return a < b ? -1 : a > b;
}

/* Publishes the true time as from 1 s to 1 s and a nanosecond, as it is now. */
static void publish(const char *path) {
    uint64_t slot[9] = {1, 0, 1000000000, 1000000001, UINT64_MAX, 7, 1, 0, UINT64_MAX}, index = 1;
    tt_clock_of(TT_MONOTONIC_RAW, &slot[1]);
    FILE *file = fopen(path, "r+");
    if (file == NULL || fseek(file, 8 * (TT_FIRST_SLOT + TT_SLOT_WORDS), SEEK_SET) != 0 || fwrite(slot, sizeof slot, 1, file) != 1 ||
        fseek(file, 8 * TT_INDEX_WORD, SEEK_SET) != 0 || fwrite(&index, sizeof index, 1, file) != 1)
        exit(3);
    fclose(file);
}

/* Stampers of several processes over one word: all stamps differ, those of each process rise, and all are above what a log had. */
static void try_processes(const char *path) {
    const uint64_t above = UINT64_C(5000000000);
    tt_client client;
    tt_stamper stamper;
    write_file(path, TT_BYTES, -1, 0644);
    publish(path);
    shared *all = (shared *)mmap(NULL, sizeof *all, PROT_READ | PROT_WRITE, MAP_SHARED | MAP_ANONYMOUS, -1, 0);
    if (all == MAP_FAILED || tt_open(&client, path, geteuid()) != 0 || tt_stamper_open(&stamper, &client, 0, TT_MAX_TIME_NS) != 0) exit(3);
    tt_stamper_share(&stamper, &all->word);
    check(tt_stamper_rise_above(&stamper, above) == 0, "above a log");
    for (int process = 0; process < PROCESSES; process++) {
        pid_t child = fork();
        if (child < 0) exit(3);
        if (child > 0) continue;
        for (int turn = 0; turn < EACH; turn++) {
            tt_stamp stamp;
            if (tt_stamper_stamp(&stamper, 0, &stamp) != 0) _exit(1);
            all->stamps[process][turn] = stamp.stamp_ns;
        }
        _exit(0);
    }
    for (int process = 0, status = 0; process < PROCESSES; process++) check(wait(&status) > 0 && status == 0, "a process that stamps");
    bool is_rising = true, is_above = true, is_different = true;
    for (int process = 0; process < PROCESSES; process++)
        for (int turn = 0; turn < EACH; turn++) {
            is_above = is_above && all->stamps[process][turn] > above;
            is_rising = is_rising && (turn == 0 || all->stamps[process][turn - 1] < all->stamps[process][turn]);
        }
    qsort(all->stamps, PROCESSES * EACH, sizeof(uint64_t), compared);
    for (int place = 1; place < PROCESSES * EACH; place++)
        is_different = is_different && all->stamps[0][place - 1] != all->stamps[0][place];
    check(is_above, "stamps above what a log had");
    check(is_rising, "stamps of each process rise");
    check(is_different, "no two stamps are the same");
    munmap(all, sizeof *all);
    /* A table of two commits at most. */
    uint64_t stamps[2];
    tt_pending table;
    tt_stamp one, two, three;
    stamper.shared_ns = NULL;
    check(tt_pending_open(&table, &stamper, stamps, 2) == 0, "a table");
    check(tt_pending_begin(&table, 0, &one) == 0 && tt_pending_begin(&table, 0, &two) == 0, "two commits");
    check(tt_pending_begin(&table, 0, &three) == -ENOBUFS && three.stamp_ns == 0, "a third one");
    check(tt_pending_give_up(&table, one.stamp_ns) == 0 && tt_pending_begin(&table, 0, &three) == 0, "a third one behind the first");
    check(tt_pending_written(&table, three.stamp_ns) == 0 && tt_pending_written(&table, two.stamp_ns) == 0, "all are ended");
    tt_pending_close(&table);
    check(tt_stamper_limit(&stamper, TT_MAX_AHEAD_NS + 1, 1) == -EINVAL && stamper.ahead_ns == TT_AHEAD_NS, "a limit that is too great");
    check(tt_stamper_limit(&stamper, 0, 0) == -EINVAL && tt_stamper_limit(&stamper, 0, TT_MAX_GRID_NS + 1) == -EINVAL, "no grid");
    check(stamper.grid_ns == 1 && tt_stamper_limit(&stamper, 0, TT_MAX_GRID_NS) == 0, "the widest grid");
    tt_close(&client);
}

static void try_users(void) {
    uid_t uid = 1;
    check(tt_uid("root", &uid) == 0 && uid == 0, "root");
    check(tt_uid("4711", &uid) == 0 && uid == 4711, "4711");
    check(tt_uid("no-such-user", &uid) == TT_OTHER_FILE, "no-such-user");
    check(tt_uid("", &uid) == TT_OTHER_FILE, "no user");
    check(tt_uid("-1", &uid) == TT_OTHER_FILE, "-1");
    check(tt_uid("99999999999999999999", &uid) == TT_OTHER_FILE, "a number that is too great");
}

/* Serves sessions, one after the other. A commit is released 1.5 s after it was begun; `now` ends the session. */
static void *serve(void *listener) {
    char line[TT_LINE_BYTES + 2];
    for (;;) {
        int one = accept(*(int *)listener, NULL, NULL);
        if (one < 0) return NULL;
        int64_t release_ms = 0;
        ssize_t length;
        while ((length = recv(one, line, sizeof line - 1, 0)) > 0 && strncmp(line, "now", 3) != 0) {
            const char *reply = "refused 801\n";
            line[length] = '\0';
            if (strncmp(line, "commit", 6) == 0) {
                if (release_ms == 0) release_ms = tt_session_clock_ms() + 3 * TT_LONG_WAIT_MS / 2;
                reply = tt_session_clock_ms() < release_ms ? "waiting 1 200\n" : "committed 1 200\n";
            }
            if (send(one, reply, strlen(reply), MSG_NOSIGNAL) < 0) break;
        }
        close(one);
    }
}

static char told[1000];

static void tell(void *own, tt_session_event event, int64_t number) {
    size_t length = strlen(told);
    check(own == told, "what is the observer's own");
    snprintf(told + length, sizeof told - length, "%d %" PRId64 "\n", (int)event, number);
}

static void try_sessions(void) {
    struct sockaddr_in address;
    socklen_t length = sizeof address;
    pthread_t thread;
    tt_session session;
    bool is_so;
    uint64_t stamp_ns;
    tt_interval now;
    int listener = socket(AF_INET, SOCK_STREAM, 0);
    memset(&address, 0, sizeof address);
    address.sin_family = AF_INET;
    address.sin_addr.s_addr = htonl(INADDR_LOOPBACK);
    if (bind(listener, (struct sockaddr *)&address, length) != 0 || listen(listener, 9) != 0 ||
        getsockname(listener, (struct sockaddr *)&address, &length) != 0 || pthread_create(&thread, NULL, serve, &listener) != 0)
        exit(3);
    uint16_t port = ntohs(address.sin_port);
    check(tt_session_open_tcp(&session, "localhost", port, 10000) == 0, "a session by name");
    check(tt_session_before(&session, 1, &is_so) == 801, "a refusal without an observer");
    tt_session_observe(&session, tell, told);
    check(tt_session_before(&session, 1, &is_so) == 801, "a refusal");
    check(tt_session_now(&session, &now) == -ECONNRESET, "an end");
    check(tt_session_commit(&session, 0, &stamp_ns) == 0 && stamp_ns == 200, "a commit");
    tt_session_observe(&session, NULL, NULL);
    check(tt_session_before(&session, 1, &is_so) == 801, "a refusal behind the observer");
    tt_session_close(&session);
    char wanted[200];
    snprintf(wanted, sizeof wanted, "%d 801\n%d %d\n%d 0\n%d 200\n", TT_REFUSED, TT_CONNECTION_FAILED, -ECONNRESET, TT_CONNECTED_ANEW,
             TT_LONG_WAIT);
    check(strcmp(told, wanted) == 0, told);
    /* No server of names is asked for one with a part of 64 letters. */
    const char *too_long = "xxxxxxxxxxxxxxxxxxxxxxxxxxxxxxxxxxxxxxxxxxxxxxxxxxxxxxxxxxxxxxxx.test";
    check(tt_session_open_tcp(&session, too_long, port, 1000) == -EADDRNOTAVAIL, "a name without an address");
    check(tt_session_now(&session, &now) == -ENOTCONN, "one that was not opened");
    check(tt_session_open_tcp(&session, "127.0.0.1", port, 0) == -EINVAL, "no time");
    /* Of a connection that could not be made an observer is not told. */
    check(tt_session_open_tcp(&session, "127.0.0.1", port, 10000) == 0 && tt_session_before(&session, 1, &is_so) == 801, "a session");
    shutdown(listener, SHUT_RDWR);
    told[0] = '\0';
    tt_session_observe(&session, tell, told);
    check(tt_session_now(&session, &now) == -ECONNRESET, "the end");
    for (int turn = 0; turn < 3; turn++) check(tt_session_now(&session, &now) == -ECONNREFUSED, "nobody listens");
    snprintf(wanted, sizeof wanted, "%d %d\n", TT_CONNECTION_FAILED, -ECONNRESET);
    check(strcmp(told, wanted) == 0, told);
    tt_session_close(&session);
    pthread_join(thread, NULL);
    close(listener);
}

int main(int count, char **arguments) {
    char path[1000];
    if (count != 2) return 2;
    snprintf(path, sizeof path, "%s/time", arguments[1]);
    try_causes(path);
    try_clocks(path);
    try_users();
    try_processes(path);
    try_sessions();
    unlink(path);
    printf("%d checks, %d wrong\n", checks, wrong);
    return wrong == 0 ? 0 : 1;
}
