/* A server that gives back what it gets, with a thread for each connection: the least that a server of lines can take.
 *
 *     echo PORT PATH [now]
 *
 * It listens at the port of 127.0.0.1 and at the Unix socket, until it is ended. With `now` it answers each line as `ttd serve` answers that
 * of `now`, by the same calls of the system with the same limits of time: the least that such a server can take. Its readings mean nothing.
 */
#include <arpa/inet.h>
#include <errno.h>
#include <netinet/tcp.h>
#include <pthread.h>
#include <stdbool.h>
#include <stdint.h>
#include <stdio.h>
#include <stdlib.h>
#include <string.h>
#include <sys/socket.h>
#include <sys/time.h>
#include <sys/un.h>
#include <time.h>
#include <unistd.h>

enum { MOST = 4096, WIDTH = 2000000 };

static bool answers;

static char *put(char *end, uint64_t number) {
    char digits[20];
    size_t count = 0;
    do digits[sizeof digits - ++count] = (char)('0' + number % 10);
    while ((number /= 10) > 0);
    memcpy(end, digits + sizeof digits - count, count);
    return end + count;
}

/* The replies to as many lines as end in these bytes. */
static size_t answer(const char *bytes, size_t count, char *replies) {
    char *end = replies;
    for (size_t at = 0; at < count; at++) {
        if (bytes[at] != '\n') continue;
        struct timespec now = {0};
        clock_gettime(CLOCK_MONOTONIC_RAW, &now);
        uint64_t earliest = 1700000000000000000 + (uint64_t)now.tv_sec * 1000000000 + (uint64_t)now.tv_nsec;
        memcpy(end, "now ", 4);
        end = put(end + 4, earliest);
        *end++ = ' ';
        end = put(end, earliest + WIDTH);
        *end++ = '\n';
    }
    return (size_t)(end - replies);
}

static void *serve(void *of) {
    int door = (int)(intptr_t)of;
    char bytes[MOST], replies[MOST * 44];
    struct timeval read_limit = {.tv_usec = 200000}, write_limit = {.tv_usec = 1000};
    if (answers) {
        setsockopt(door, SOL_SOCKET, SO_RCVTIMEO, &read_limit, sizeof read_limit);
        setsockopt(door, SOL_SOCKET, SO_SNDTIMEO, &write_limit, sizeof write_limit);
    }
    for (ssize_t count; (count = read(door, bytes, answers ? 512 : sizeof bytes)) > 0 || (count < 0 && errno == EAGAIN);) {
        if (count < 0) continue;
        const char *said = answers ? replies : bytes;
        size_t length = answers ? answer(bytes, (size_t)count, replies) : (size_t)count;
        if (write(door, said, length) != (ssize_t)length) break;
    }
    close(door);
    return NULL;
}

static void *accept_all(void *of) {
    int listener = (int)(intptr_t)of, at_once = 1;
    for (int door; (door = accept(listener, NULL, NULL)) >= 0;) {
        pthread_t thread;
        setsockopt(door, IPPROTO_TCP, TCP_NODELAY, &at_once, sizeof at_once);
        if (pthread_create(&thread, NULL, serve, (void *)(intptr_t)door) != 0) return NULL;
        pthread_detach(thread);
    }
    return NULL;
}

int main(int count, char **words) {
    if (count != 3 && (count != 4 || strcmp(words[3], "now") != 0)) return 2;
    answers = count == 4;
    struct sockaddr_in port = {.sin_family = AF_INET, .sin_port = htons((uint16_t)atoi(words[1])), .sin_addr.s_addr = htonl(INADDR_LOOPBACK)};
    struct sockaddr_un path = {.sun_family = AF_UNIX};
    snprintf(path.sun_path, sizeof path.sun_path, "%s", words[2]);
    int by_port = socket(AF_INET, SOCK_STREAM, 0), by_path = socket(AF_UNIX, SOCK_STREAM, 0);
    if (bind(by_port, (void *)&port, sizeof port) != 0 || listen(by_port, 128) != 0) return 1;
    if (bind(by_path, (void *)&path, sizeof path) != 0 || listen(by_path, 128) != 0) return 1;
    pthread_t thread;
    if (pthread_create(&thread, NULL, accept_all, (void *)(intptr_t)by_path) != 0) return 1;
    accept_all((void *)(intptr_t)by_port);
    return 0;
}
