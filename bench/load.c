/* Load on a server of lines, for bench/service: connections that each send a piece of lines, wait for the replies, and send the next.
 *
 *     load KIND ADDRESS CONNECTIONS LINES SECONDS [PROCESS]
 *
 * KIND is `now`, `visit` (the same in a connection of its own), `commit` (with one line in a piece; it ends with `committed`), `session`
 * (ten commits in a connection of their own) or `ping` (for redis), ADDRESS a port of 127.0.0.1 or the path of a Unix socket, and LINES how many lines a piece has. Prints
 * `LINES_A_SECOND MEDIAN P99`, the last two of the pieces, in microseconds; the status is 1 where a connection fails or a reply is none.
 *
 * Where PROCESS is the number of the server's process, `SERVER OUTSIDE CLIENT SWITCHES` follow, of a line: the server's processor time in
 * microseconds, the part of it outside the kernel, that of this client, and how often the server's threads gave up a processor or lost it.
 */
#include <arpa/inet.h>
#include <dirent.h>
#include <inttypes.h>
#include <netinet/tcp.h>
#include <pthread.h>
#include <stdatomic.h>
#include <stdbool.h>
#include <stdio.h>
#include <stdlib.h>
#include <string.h>
#include <sys/socket.h>
#include <sys/un.h>
#include <time.h>
#include <unistd.h>

enum { STEPS = 32, TIMES = 64 * STEPS, MOST_LINES = 64, MOST_CONNECTIONS = 256, COMMITS = 10 };

/* Times are counted by their highest bits: each count is of times that differ by at most a part in 32. */
typedef struct {
    pthread_t thread;
    int door;
    uint64_t pieces, times[TIMES];
    bool failed;
} Connection;

/* What was taken so far: processor time of the server and of this client, clock ticks of the server outside the kernel and in it, and how
 * often its threads gave up a processor or lost it. */
typedef struct {
    double server_ns, client_ns, outside, inside, switches;
} Cost;

static const char *kind, *address;
static int lines;
static atomic_bool begun, ended;

static uint64_t ns_of(clockid_t clock) {
    struct timespec now = {0};
    clock_gettime(clock, &now);
    return (uint64_t)now.tv_sec * 1000000000 + (uint64_t)now.tv_nsec;
}

static uint64_t clock_ns(void) {
    return ns_of(CLOCK_MONOTONIC);
}

/* Opens a file of the server's process; NULL where there is none. */
static FILE *open_of(const char *process, const char *name) {
    char path[300];
    snprintf(path, sizeof path, "/proc/%s/%s", process, name);
    return fopen(path, "r");
}

/* How often the threads of a process gave up a processor or lost it. */
static double switches_of(const char *process) {
    char path[64], name[280], line[256];
    double sum = 0;
    snprintf(path, sizeof path, "/proc/%s/task", process);
    DIR *threads = opendir(path);
    for (struct dirent *thread; threads != NULL && (thread = readdir(threads)) != NULL;) {
        snprintf(name, sizeof name, "task/%s/status", thread->d_name);
        FILE *file = *thread->d_name == '.' ? NULL : open_of(process, name);
        unsigned long count;
        while (file != NULL && fgets(line, sizeof line, file) != NULL)
            if (sscanf(line, "voluntary_ctxt_switches: %lu", &count) == 1 || sscanf(line, "nonvoluntary_ctxt_switches: %lu", &count) == 1)
                sum += (double)count;
        if (file != NULL) fclose(file);
    }
    if (threads != NULL) closedir(threads);
    return sum;
}

static Cost cost_of(const char *process) {
    Cost cost = {0};
    clockid_t clock;
    if (clock_getcpuclockid(atoi(process), &clock) == 0) cost.server_ns = (double)ns_of(clock);
    cost.client_ns = (double)ns_of(CLOCK_PROCESS_CPUTIME_ID);
    cost.switches = switches_of(process);
    FILE *file = open_of(process, "stat");
    if (file != NULL) {
        if (fscanf(file, "%*d %*s %*c %*d %*d %*d %*d %*d %*u %*u %*u %*u %*u %lf %lf", &cost.outside, &cost.inside) != 2) cost.outside = 0;
        fclose(file);
    }
    return cost;
}

static unsigned step_of(uint64_t ns) {
    unsigned shift = ns < STEPS ? 0 : 63 - (unsigned)__builtin_clzll(ns) - 5;
    return (ns < STEPS ? 0 : (shift + 1) * STEPS) + (unsigned)(ns >> shift) % STEPS;
}

static double time_of(unsigned step) {
    return step < STEPS ? step : (double)((uint64_t)(STEPS + step % STEPS) << (step / STEPS - 1));
}

static int connect_to_server(void) {
    struct sockaddr_un path = {.sun_family = AF_UNIX};
    struct sockaddr_in port = {.sin_family = AF_INET, .sin_port = htons((uint16_t)atoi(address)), .sin_addr.s_addr = htonl(INADDR_LOOPBACK)};
    bool is_path = strchr(address, '/') != NULL;
    int door = socket(is_path ? AF_UNIX : AF_INET, SOCK_STREAM, 0), at_once = 1;
    if (is_path)
        snprintf(path.sun_path, sizeof path.sun_path, "%s", address);
    else
        setsockopt(door, IPPROTO_TCP, TCP_NODELAY, &at_once, sizeof at_once);
    return connect(door, is_path ? (void *)&path : (void *)&port, is_path ? sizeof path : sizeof port) == 0 ? door : -1;
}

/* Sends a piece, and receives as many lines as it has; whether all came. */
static bool exchange(int door, const char *piece, size_t length, char *replies, size_t most) {
    if (write(door, piece, length) != (ssize_t)length) return false;
    size_t size = 0;
    for (int left = lines; left > 0;) {
        ssize_t count = read(door, replies + size, most - 1 - size);
        if (count <= 0) return false;
        for (ssize_t at = 0; at < count; at++) left -= replies[size + (size_t)at] == '\n';
        size += (size_t)count;
    }
    replies[size] = '\0';
    return true;
}

static bool commit(int door, uint64_t number, char *replies, size_t most) {
    char line[64];
    size_t length = (size_t)snprintf(line, sizeof line, "commit %" PRIu64 " 0\n", number);
    do {
        if (!exchange(door, line, length, replies, most)) return false;
    } while (strncmp(replies, "waiting", 7) == 0);
    return strncmp(replies, "committed", 9) == 0;
}

static bool ask(int door, const char *piece, size_t length, char *replies, size_t most) {
    return exchange(door, piece, length, replies, most) && strncmp(replies, *kind == 'p' ? "+PONG" : "now", 3) == 0;
}

static bool commit_in_session(char *replies, size_t most) {
    int door = connect_to_server();
    bool is_right = door >= 0;
    for (uint64_t number = 1; is_right && number <= COMMITS; number++) is_right = commit(door, number, replies, most);
    close(door);
    return is_right;
}

static bool visit(const char *piece, size_t length, char *replies, size_t most) {
    int door = connect_to_server();
    bool is_right = door >= 0 && ask(door, piece, length, replies, most);
    close(door);
    return is_right;
}

static void *run(void *of) {
    Connection *connection = of;
    char piece[MOST_LINES * 8], replies[MOST_LINES * 80];
    size_t length = 0;
    for (int line = 0; line < lines; line++) length += (size_t)sprintf(piece + length, "%s", *kind == 'p' ? "PING\r\n" : "now\n");
    bool is_short = *kind == 'v' || *kind == 's';
    int door = connection->door = is_short ? -1 : connect_to_server();
    while (!begun) usleep(100);
    connection->failed = !is_short && door < 0;
    while (!connection->failed && !ended) {
        uint64_t since = clock_ns();
        connection->failed = !(*kind == 'c'   ? commit(door, connection->pieces + 1, replies, sizeof replies)
                               : *kind == 's' ? commit_in_session(replies, sizeof replies)
                               : *kind == 'v' ? visit(piece, length, replies, sizeof replies)
                                              : ask(door, piece, length, replies, sizeof replies));
        connection->times[step_of(clock_ns() - since)]++;
        connection->pieces++;
    }
    return NULL;
}

int main(int count, char **words) {
    static Connection connections[MOST_CONNECTIONS];
    static uint64_t times[TIMES];
    int number = count == 6 || count == 7 ? atoi(words[3]) : 0, failed = 0;
    if (number < 1 || number > MOST_CONNECTIONS || (lines = atoi(words[4])) < 1 || lines > MOST_LINES) return 2;
    kind = words[1];
    address = words[2];
    for (int at = 0; at < number; at++)
        if (pthread_create(&connections[at].thread, NULL, run, &connections[at]) != 0) return 1;
    usleep(100000);
    Cost before = cost_of(count == 7 ? words[6] : "self");
    uint64_t since = clock_ns(), pieces = 0;
    begun = true;
    usleep((useconds_t)(atof(words[5]) * 1e6));
    ended = true;
    double took = (double)(clock_ns() - since) / 1e9;
    for (int at = 0; at < number; at++) {
        pthread_join(connections[at].thread, NULL);
        pieces += connections[at].pieces;
        failed += connections[at].failed;
        for (int step = 0; step < TIMES; step++) times[step] += connections[at].times[step];
    }
    /* The connections are open until here, so the threads that serve them are still there. */
    Cost after = cost_of(count == 7 ? words[6] : "self");
    for (int at = 0; at < number; at++) close(connections[at].door);
    double median = 0, p99 = 0;
    uint64_t below = 0;
    for (unsigned step = 0; step < TIMES; step++) {
        below += times[step];
        if (median == 0 && below * 2 >= pieces) median = time_of(step);
        if (p99 == 0 && below * 100 >= pieces * 99) p99 = time_of(step);
    }
    double all = (double)pieces * lines;
    printf("%.0f %.1f %.1f", all / took, median / 1e3, p99 / 1e3);
    if (count == 7) {
        double server = (after.server_ns - before.server_ns) / 1e3 / all, outside = after.outside - before.outside;
        double ticks = outside + after.inside - before.inside;
        printf(" %.3f %.3f %.3f %.3f", server, ticks > 0 ? server * outside / ticks : 0, (after.client_ns - before.client_ns) / 1e3 / all,
               (after.switches - before.switches) / all);
    }
    putchar('\n');
    return failed != 0;
}
