/* Polls over UDP, for bench/service.
 *
 *     polls load PORT REQUEST SECONDS WINDOW PROCESS    sends the bytes REQUEST (in hexadecimal digits) to a port of 127.0.0.1 again and again
 *     polls echo PORT                                   answers each packet with its own bytes: the server that does least
 *
 * Up to WINDOW requests are on their way at a time. Prints `ANSWERS_A_SECOND SERVER`, the second the processor time of the server, whose
 * process is PROCESS, for each answer, in microseconds. A request that is not answered within 100 ms is given up. The status is 1 where a call
 * fails or no answer comes.
 */
#define _GNU_SOURCE
#include <arpa/inet.h>
#include <stdint.h>
#include <stdio.h>
#include <stdlib.h>
#include <string.h>
#include <sys/socket.h>
#include <sys/time.h>
#include <time.h>
#include <unistd.h>

enum { MOST = 64, BATCH = 32, MOST_WINDOW = 1024 };

static uint64_t ns_of(clockid_t clock) {
    struct timespec now = {0};
    clock_gettime(clock, &now);
    return (uint64_t)now.tv_sec * 1000000000 + (uint64_t)now.tv_nsec;
}

static int fail(const char *what) {
    perror(what);
    return 1;
}

static int door_at(const char *port, int is_server) {
    struct sockaddr_in at = {.sin_family = AF_INET, .sin_port = htons((uint16_t)atoi(port)), .sin_addr.s_addr = htonl(INADDR_LOOPBACK)};
    struct timeval patience = {.tv_usec = 100000};
    int door = socket(AF_INET, SOCK_DGRAM, 0);
    if (door < 0) return -1;
    if (is_server) return bind(door, (void *)&at, sizeof at) == 0 ? door : -1;
    if (setsockopt(door, SOL_SOCKET, SO_RCVTIMEO, &patience, sizeof patience) != 0) return -1;
    return connect(door, (void *)&at, sizeof at) == 0 ? door : -1;
}

static int echo(const char *port) {
    char bytes[MOST];
    struct sockaddr_in from;
    int door = door_at(port, 1);
    if (door < 0) return fail("bind");
    for (;;) {
        socklen_t size = sizeof from;
        ssize_t length = recvfrom(door, bytes, sizeof bytes, 0, (void *)&from, &size);
        if (length < 0 || sendto(door, bytes, (size_t)length, 0, (void *)&from, size) < 0) return fail("echo");
    }
}

static size_t bytes_of(const char *digits, unsigned char *bytes) {
    size_t length = 0;
    for (unsigned byte; length < MOST && sscanf(digits + 2 * length, "%2x", &byte) == 1; length++) bytes[length] = (unsigned char)byte;
    return length;
}

/* Messages that all have the same buffer: nobody looks at what is answered. */
static void fill(struct mmsghdr *messages, struct iovec *part) {
    for (int i = 0; i < BATCH; i++) messages[i] = (struct mmsghdr){.msg_hdr = {.msg_iov = part, .msg_iovlen = 1}};
}

static int load(const char *port, const char *digits, double seconds, int window, int process) {
    unsigned char request[MOST], answer[MOST];
    struct iovec out = {.iov_base = request, .iov_len = bytes_of(digits, request)}, in = {.iov_base = answer, .iov_len = sizeof answer};
    struct mmsghdr sent[BATCH], came[BATCH];
    clockid_t clock;
    int door = door_at(port, 0), away = 0;
    if (door < 0) return fail("connect");
    if (window < 1 || window > MOST_WINDOW || clock_getcpuclockid(process, &clock) != 0) return fail("load");
    fill(sent, &out);
    fill(came, &in);
    uint64_t began = ns_of(CLOCK_MONOTONIC), took = ns_of(clock), end = began + (uint64_t)(seconds * 1e9), answers = 0;
    while (ns_of(CLOCK_MONOTONIC) < end) {
        while (away < window) {
            int room = window - away, went = sendmmsg(door, sent, (unsigned)(room < BATCH ? room : BATCH), 0);
            if (went < 0) return fail("sendmmsg");
            away += went;
        }
        int count = recvmmsg(door, came, BATCH, MSG_WAITFORONE, NULL);
        answers += count > 0 ? (uint64_t)count : 0;
        away = count > 0 ? away - count : 0;
        if (away < 0) away = 0;
    }
    double lasted = (double)(ns_of(CLOCK_MONOTONIC) - began), cost = (double)(ns_of(clock) - took);
    if (answers == 0) return fprintf(stderr, "no answer came\n"), 1;
    printf("%.0f %.3f\n", (double)answers * 1e9 / lasted, cost / 1e3 / (double)answers);
    return 0;
}

int main(int count, char **words) {
    if (count == 3 && strcmp(words[1], "echo") == 0) return echo(words[2]);
    if (count == 7 && strcmp(words[1], "load") == 0) return load(words[2], words[3], atof(words[4]), atoi(words[5]), atoi(words[6]));
    fputs("usage: polls load PORT REQUEST SECONDS WINDOW PROCESS | polls echo PORT\n", stderr);
    return 2;
}
