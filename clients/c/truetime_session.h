/* truetime_session.h: the time with an error bound, and timestamps for commits, from the time service of this machine.
 *
 *     tt_session session;
 *     uint64_t stamp_ns;
 *     if (tt_session_open_tcp(&session, "127.0.0.1", 5601, 30000) != 0) ...
 *     if (tt_session_begin(&session, 0, &stamp_ns) != 0) ...   no other commit of this machine has this timestamp
 *     ...                                                      write and commit locally, under this timestamp
 *     if (tt_session_wait(&session, &stamp_ns) != 0) ...       only now may anybody be told of the commit
 *     tt_session_close(&session);
 *
 * Calls answer 0, the number of a refusal, which is above 0, or the negative of an error number where the connection
 * fails: -ECONNRESET where the service ended it, -ETIMEDOUT where no reply came in time, -EPROTO where what came is no
 * reply, or that of the system. Nobody knows then whether a commit that was asked for was begun. A caller that does not look
 * is told nothing wrong: a call that does not answer 0 gives the interval of all times, false, or the timestamp 0.
 *
 * The next call after a failure connects anew, to a new session of the service. So does a call that finds the connection ended
 * before its line was sent, as behind a pause, unless a commit of tt_session_begin is pending or a lease was set. No line is
 * sent a second time by that: the last commit is forgotten. Nor is the lease set again: once tt_session_lease was called,
 * tt_session_begin and tt_session_commit refuse with 903 as long as the connection has no lease. Where the connection failed,
 * lost_number, lost_stamp_ns and lost_lease of the session say what the caller has to make good: look behind each call that
 * fails, since the next one that does, also where it cannot connect, sets them anew. A session that was closed, or
 * never opened, answers -ENOTCONN. tt_strerror has words for all answers.
 *
 * A session is for one thread, and takes no memory but its own. Needs POSIX and GCC or Clang: C11 or later (-std=gnu11, or
 * -std=c11 -D_POSIX_C_SOURCE=200809L), or C++17.
 */
#ifndef TRUETIME_SESSION_H
#define TRUETIME_SESSION_H

#include "truetime_errors.h"

#include <errno.h>
#include <inttypes.h>
#include <netdb.h>
#include <netinet/in.h>
#include <netinet/tcp.h>
#include <poll.h>
#include <stdbool.h>
#include <stddef.h>
#include <stdint.h>
#include <stdio.h>
#include <string.h>
#include <sys/socket.h>
#include <sys/time.h>
#include <sys/types.h>
#include <sys/un.h>
#include <time.h>
#include <unistd.h>

#if !defined(CLOCK_MONOTONIC) || !defined(AI_NUMERICSERV)
#error "truetime_session.h needs POSIX: compile with -std=gnu11 (or later), or with -D_POSIX_C_SOURCE=200809L"
#endif

#ifdef __cplusplus
extern "C" {
#endif

/* The greatest time, in nanoseconds. */
#define TT_MAX_TIME_NS UINT64_C(4000000000000000000)

/* The most bytes of a line and of a reply, without the line feed; and of a number that is at most the greatest time. */
enum { TT_LINE_BYTES = 64, TT_NUMBER_DIGITS = 19 };

/* How long a commit waits before an observer is told, in milliseconds. */
enum { TT_LONG_WAIT_MS = 1000 };

/* What an observer of a session is told of. */
typedef enum tt_session_event {
    TT_CONNECTED_ANEW,    /* the number is 0 */
    TT_CONNECTION_FAILED, /* the negative of the error number; not where it could not be made */
    TT_REFUSED,           /* the number of the refusal */
    TT_LONG_WAIT          /* the timestamp of the commit that waits for more than TT_LONG_WAIT_MS; told once for each */
} tt_session_event;

/* An observer, with what it was given as its own. It is called within the calls of the session, and may not make one. */
typedef void tt_session_observer(void *own, tt_session_event event, int64_t number);

/* The refusals of a commit by the session itself: the lease was lost with its connection, and the one that tt_session_begin
 * began is not known as released: wait for it. Its number and its timestamp stand in the session. */
enum { TT_LEASE_LOST = 903, TT_COMMIT_PENDING = 1104 };

/* What the service says, beside TT_COMMIT_PENDING, of the line of a pending commit of which it does not know: a later one has
 * begun, or it is pending no more. */
enum { TT_COMMIT_PASSED = 1103, TT_COMMIT_GONE = 1822 };

/* What else a caller may want to tell apart of what the service says, beside TT_READING_TOO_WIDE, 1824; tt_strerror has words for all. */
enum {
    TT_OUT_OF_MEMORY = 1,
    TT_TOO_MANY_COMMITS = 1001,
    TT_ID_USED = 1002,
    TT_STAMP_USED = 1003,
    TT_FLOOR_ABOVE_CAP = 1821,
    TT_BROKEN = 1823
};

/* The true time lies in [earliest_ns, latest_ns], both ends included. */
typedef struct tt_interval {
    uint64_t earliest_ns, latest_ns;
} tt_interval;

/* What is known of the last commit: none was begun; its first line was refused, and it may have begun all the same; or the last
 * word for it. */
typedef enum tt_commit_state { TT_NO_COMMIT, TT_UNSURE, TT_WAITING, TT_COMMITTED } tt_commit_state;

/* Who may wait for it: the caller, to which tt_session_commit gave no timestamp so far, or tt_session_begin has. */
typedef enum tt_waiter { TT_NOBODY, TT_OF_COMMIT, TT_OF_BEGIN } tt_waiter;

/* A session. Set it by tt_session_open_tcp or tt_session_open_unix. */
typedef struct tt_session {
    int socket; /* below 0: not connected */
    int timeout_ms;
    uint64_t max_width_ns;
    uint64_t number, stamp_ns;   /* the last commit that may have begun, counted from 1, and its timestamp, or 0 */
    tt_commit_state state;
    tt_waiter waiter;
    bool wants_lease, has_lease; /* whether a lease was ever asked for, and whether this connection has one */
    struct sockaddr_un address;  /* where to connect to; large enough for one of TCP, too */
    socklen_t length;            /* of the address; 0: not open */
    /* What went with the connection in the last call that failed: the commit of tt_session_begin that was pending, 0 where none was, which
     * is never known as released, so begin it again or give it up; and whether there was a lease, which has to be set again. */
    uint64_t lost_number, lost_stamp_ns;
    bool lost_lease;
    tt_session_observer *observer; /* NULL: nobody is told */
    void *observers_own;
} tt_session;

/* Has an observer told of all that an open session meets from now on, in place of the one before; NULL is none. */
static inline void tt_session_observe(tt_session *session, tt_session_observer *observer, void *own) {
    session->observer = observer;
    session->observers_own = own;
}

/* Has readings that are wider than this refused with 1824, in nanoseconds, also where the machine allows them: tt_session_now
 * looks at each, tt_session_after and tt_session_before compare with one of that, and before a commit begins one is asked for.
 * The session is open. */
static inline void tt_session_limit_width(tt_session *session, uint64_t max_width_ns) { session->max_width_ns = max_width_ns; }

static inline void tt_session_tell(const tt_session *session, tt_session_event event, int64_t number) {
    if (session->observer != NULL) session->observer(session->observers_own, event, number);
}

/* Gives the connection up, and all that belongs to it. */
static inline void tt_session_drop(tt_session *session) {
    if (session->socket >= 0) close(session->socket);
    session->socket = -1;
    session->number = session->stamp_ns = 0;
    session->state = TT_NO_COMMIT;
    session->waiter = TT_NOBODY;
    session->has_lease = false;
}

/* Ends the session for good; a commit that is not released by then is never known as released. One that is not open stays
 * so. */
static inline void tt_session_close(tt_session *session) {
    tt_session_drop(session);
    session->length = 0;
}

/* Whether a commit is pending whose timestamp tt_session_begin gave. */
static inline bool tt_session_is_pending(const tt_session *session) {
    return session->state == TT_WAITING && session->waiter == TT_OF_BEGIN;
}

/* Drops a connection that failed, or could not be made. */
static inline int tt_session_lost(tt_session *session, int error) {
    bool is_pending = tt_session_is_pending(session);
    session->lost_number = is_pending ? session->number : 0;
    session->lost_stamp_ns = is_pending ? session->stamp_ns : 0;
    session->lost_lease = session->has_lease;
    tt_session_drop(session);
    return error == EAGAIN || error == EWOULDBLOCK || error == EINPROGRESS ? -ETIMEDOUT : -error;
}

/* Drops a connection that failed, and tells so. */
static inline int tt_session_failed(tt_session *session, int error) {
    int answer = tt_session_lost(session, error);
    tt_session_tell(session, TT_CONNECTION_FAILED, answer);
    return answer;
}

/* The machine's clock in milliseconds. */
static inline int64_t tt_session_clock_ms(void) {
    struct timespec now;
    clock_gettime(CLOCK_MONOTONIC, &now);
    return (int64_t)now.tv_sec * 1000 + now.tv_nsec / 1000000;
}

/* How long it is until the clock shows this, at least 0. */
static inline int tt_session_left_ms(int64_t give_up_ms) {
    int64_t left_ms = give_up_ms - tt_session_clock_ms();
    return left_ms < 0 ? 0 : (int)left_ms;
}

/* Waits for these events of the socket until the clock shows this, however many signals come: 0, ETIMEDOUT, or another error. */
static inline int tt_session_await(tt_session *session, short events, int64_t give_up_ms) {
    for (;;) {
        struct pollfd awaited = {session->socket, events, 0};
        int left_ms = tt_session_left_ms(give_up_ms), ready = poll(&awaited, 1, left_ms);
        if (ready > 0) return 0;
        if (ready < 0 && errno != EINTR) return errno;
        if (left_ms == 0) return ETIMEDOUT;
    }
}

/* Connects the socket to a TCP address. What a signal interrupts goes on, and is not begun again. */
static inline int tt_session_reach_tcp(tt_session *session, int64_t give_up_ms) {
    int error = 0, at_once = 1;
    socklen_t length = sizeof error;
    if (connect(session->socket, (struct sockaddr *)&session->address, session->length) != 0) {
        if (errno != EINPROGRESS && errno != EINTR) return errno;
        error = tt_session_await(session, POLLOUT, give_up_ms);
        if (error == 0 && getsockopt(session->socket, SOL_SOCKET, SO_ERROR, &error, &length) != 0) error = errno;
    }
    setsockopt(session->socket, IPPROTO_TCP, TCP_NODELAY, &at_once, sizeof at_once);
    return error;
}

/* Connects the socket to a Unix socket: the time-out for sending is that of connecting, too. What a signal interrupts was not
 * begun. */
static inline int tt_session_reach_unix(tt_session *session, int64_t give_up_ms) {
    for (;;) {
        int left_ms = tt_session_left_ms(give_up_ms);
        struct timeval timeout;
        if (left_ms == 0) return ETIMEDOUT;
        timeout.tv_sec = left_ms / 1000;
        timeout.tv_usec = left_ms % 1000 * 1000;
        if (setsockopt(session->socket, SOL_SOCKET, SO_SNDTIMEO, &timeout, sizeof timeout) != 0) return errno;
        if (connect(session->socket, (struct sockaddr *)&session->address, session->length) == 0) return 0;
        if (errno != EINTR) return errno;
    }
}

/* Connects a session that has no connection. */
static inline int tt_session_connect(tt_session *session, int64_t give_up_ms) {
    bool is_tcp = session->address.sun_family != AF_UNIX;
    session->socket = socket(session->address.sun_family, SOCK_STREAM | SOCK_CLOEXEC | (is_tcp ? SOCK_NONBLOCK : 0), 0);
    if (session->socket < 0) return tt_session_lost(session, errno);
    int error = is_tcp ? tt_session_reach_tcp(session, give_up_ms) : tt_session_reach_unix(session, give_up_ms);
    return error == 0 ? 0 : tt_session_lost(session, error);
}

/* Connects to an address; NULL is none. */
static inline int tt_session_open(tt_session *session, const void *address, socklen_t length, int timeout_ms) {
    memset(session, 0, sizeof *session);
    session->socket = -1;
    session->timeout_ms = timeout_ms;
    session->max_width_ns = UINT64_MAX;
    if (address == NULL || timeout_ms <= 0) return -EINVAL;
    memcpy(&session->address, address, length);
    session->length = length;
    int failed = tt_session_connect(session, tt_session_clock_ms() + timeout_ms);
    if (failed != 0) tt_session_close(session);
    return failed;
}

/* Connects to a host by name or address, as "localhost" or "127.0.0.1". A name is looked up here alone, without a time-out, and
 * its addresses are tried in turn. `timeout_ms` is how long connecting to one, a line with its reply (also where it connects
 * anew), and the waiting for a release may take, above 0, however many signals come. Answers -EINVAL where an argument is wrong,
 * and -EADDRNOTAVAIL where the name has no address. Where it does not answer 0, the session is not open. */
static inline int tt_session_open_tcp(tt_session *session, const char *host, uint16_t port, int timeout_ms) {
    struct addrinfo hints, *found = NULL;
    char digits[6];
    int failed = tt_session_open(session, NULL, 0, timeout_ms); /* which is not open so far */
    memset(&hints, 0, sizeof hints);
    hints.ai_family = AF_UNSPEC;
    hints.ai_socktype = SOCK_STREAM;
    hints.ai_flags = AI_NUMERICSERV;
    snprintf(digits, sizeof digits, "%u", (unsigned)port);
    if (timeout_ms <= 0) return failed;
    if (getaddrinfo(host, digits, &hints, &found) != 0) return -EADDRNOTAVAIL;
    for (const struct addrinfo *one = found; one != NULL && failed != 0; one = one->ai_next)
        failed = tt_session_open(session, one->ai_addr, one->ai_addrlen, timeout_ms);
    freeaddrinfo(found);
    return failed;
}

/* Connects to the Unix socket at this path, as tt_session_open_tcp. */
static inline int tt_session_open_unix(tt_session *session, const char *path, int timeout_ms) {
    struct sockaddr_un address;
    size_t length = strlen(path);
    memset(&address, 0, sizeof address);
    address.sun_family = AF_UNIX;
    if (length >= sizeof address.sun_path) return tt_session_open(session, NULL, 0, timeout_ms);
    memcpy(address.sun_path, path, length);
    return tt_session_open(session, &address, sizeof address, timeout_ms);
}

/* Gives up a connection that has ended, or on which something came that nobody asked for. Fails where that loses what the
 * caller has to make good. */
static inline int tt_session_look(tt_session *session) {
    char first;
    if (session->length == 0) return -ENOTCONN;
    if (session->socket < 0) return 0;
    bool is_quiet = recv(session->socket, &first, 1, MSG_PEEK | MSG_DONTWAIT) < 0;
    if (is_quiet && (errno == EAGAIN || errno == EWOULDBLOCK || errno == EINTR)) return 0;
    int failed = tt_session_failed(session, ECONNRESET);
    return session->lost_number != 0 || session->lost_lease ? failed : 0;
}

static inline int tt_session_send(tt_session *session, const char *bytes, size_t length, int64_t give_up_ms) {
    while (length > 0) {
        ssize_t sent = send(session->socket, bytes, length, MSG_NOSIGNAL | MSG_DONTWAIT);
        int error = sent >= 0 || errno == EINTR ? 0 : errno;
        if (error == EAGAIN || error == EWOULDBLOCK) error = tt_session_await(session, POLLOUT, give_up_ms);
        if (error != 0) return tt_session_failed(session, error);
        if (sent < 0) continue;
        bytes += sent;
        length -= (size_t)sent;
    }
    return 0;
}

static inline int tt_session_receive(tt_session *session, char reply[TT_LINE_BYTES + 1], int64_t give_up_ms) {
    size_t length = 0;
    while (length == 0 || reply[length - 1] != '\n') {
        if (length > TT_LINE_BYTES) return tt_session_failed(session, EPROTO);
        int error = tt_session_await(session, POLLIN, give_up_ms);
        if (error != 0) return tt_session_failed(session, error);
        ssize_t received = recv(session->socket, reply + length, TT_LINE_BYTES + 1 - length, MSG_DONTWAIT);
        if (received < 0 && (errno == EINTR || errno == EAGAIN || errno == EWOULDBLOCK)) continue;
        if (received <= 0) return tt_session_failed(session, received < 0 ? errno : ECONNRESET);
        length += (size_t)received;
    }
    reply[--length] = '\0';
    for (size_t place = 0; place < length; place++)
        if (reply[place] < ' ' || reply[place] > '~') return tt_session_failed(session, EPROTO);
    return 0;
}

/* Sends a line of at most 64 bytes, and gives its reply. Without a reply the connection is given up. */
static inline int tt_session_exchange(tt_session *session, const char *line, char reply[TT_LINE_BYTES + 1]) {
    int64_t give_up_ms = tt_session_clock_ms() + session->timeout_ms;
    char bytes[TT_LINE_BYTES + 1];
    size_t length = strnlen(line, TT_LINE_BYTES);
    memcpy(bytes, line, length);
    bytes[length] = '\n';
    reply[0] = '\0';
    bool is_anew = session->socket < 0;
    int failed = is_anew ? tt_session_connect(session, give_up_ms) : 0;
    if (failed == 0 && is_anew) tt_session_tell(session, TT_CONNECTED_ANEW, 0);
    if (failed == 0) failed = tt_session_send(session, bytes, length + 1, give_up_ms);
    return failed != 0 ? failed : tt_session_receive(session, reply, give_up_ms);
}

/* Sends one line and gives its reply, both without the line feed; `refused N` is a reply like another. Begin no commit and
 * set no lease by it: the other calls do not know of that. Answers -EINVAL where the line has more than 64 bytes or a line
 * feed, and then nothing was sent. */
static inline int tt_session_ask(tt_session *session, const char *line, char reply[TT_LINE_BYTES + 1]) {
    int failed = tt_session_look(session);
    reply[0] = '\0';
    if (failed != 0) return failed;
    if (strlen(line) > TT_LINE_BYTES || strchr(line, '\n') != NULL) return -EINVAL;
    return tt_session_exchange(session, line, reply);
}

/* Takes a space and a number off a reply, and gives what is behind; NULL where something else stands there. A number has
 * one spelling, and is at most the greatest time. */
static inline const char *tt_take_number(const char *rest, uint64_t *number) {
    if (*rest != ' ') return NULL;
    const char *digit = ++rest;
    *number = 0;
    while (digit - rest < TT_NUMBER_DIGITS && *digit >= '0' && *digit <= '9')
        *number = *number * 10 + (uint64_t)(*digit++ - '0');
    bool is_spelling = digit - rest == 1 || (digit != rest && *rest != '0');
    return is_spelling && *number <= TT_MAX_TIME_NS ? digit : NULL;
}

/* Whether a reply is this word and so many numbers. */
static inline bool tt_is_reply(const char *reply, const char *word, int count, uint64_t *numbers) {
    size_t length = strlen(word);
    if (strncmp(reply, word, length) != 0) return false;
    reply += length;
    for (int place = 0; place < count && reply != NULL; place++) reply = tt_take_number(reply, &numbers[place]);
    return reply != NULL && *reply == '\0';
}

/* Sends one line and gives its reply, which is not that of a refusal. */
static inline int tt_session_question(tt_session *session, const char *line, char reply[TT_LINE_BYTES + 1]) {
    uint64_t number;
    int failed = tt_session_exchange(session, line, reply);
    if (failed != 0 || !tt_is_reply(reply, "refused", 1, &number) || number < 1 || number > UINT16_MAX) return failed;
    tt_session_tell(session, TT_REFUSED, (int64_t)number);
    return (int)number;
}

/* tt_session_now on a connection that was looked at. */
static inline int tt_session_read(tt_session *session, tt_interval *now) {
    char reply[TT_LINE_BYTES + 1];
    uint64_t numbers[2];
    int failed = tt_session_question(session, "now", reply);
    if (failed != 0) return failed;
    if (!tt_is_reply(reply, "now", 2, numbers) || numbers[0] > numbers[1]) return tt_session_failed(session, EPROTO);
    if (numbers[1] - numbers[0] > session->max_width_ns) return TT_READING_TOO_WIDE;
    now->earliest_ns = numbers[0];
    now->latest_ns = numbers[1];
    return 0;
}

/* The time now; where it does not answer 0, the interval of all times. */
static inline int tt_session_now(tt_session *session, tt_interval *now) {
    now->earliest_ns = 0;
    now->latest_ns = TT_MAX_TIME_NS;
    int failed = tt_session_look(session);
    return failed != 0 ? failed : tt_session_read(session, now);
}

static inline int tt_session_compare(tt_session *session, const char *word, uint64_t t_ns, bool *is_so) {
    char line[TT_LINE_BYTES + 1], reply[TT_LINE_BYTES + 1];
    *is_so = false;
    if (session->max_width_ns != UINT64_MAX) {
        tt_interval now;
        int refused = tt_session_now(session, &now);
        *is_so = refused == 0 && (*word == 'a' ? t_ns < now.earliest_ns : t_ns > now.latest_ns);
        return refused;
    }
    snprintf(line, sizeof line, "%s %" PRIu64, word, t_ns);
    int failed = tt_session_look(session);
    if (failed == 0) failed = tt_session_question(session, line, reply);
    if (failed != 0) return failed;
    *is_so = strcmp(reply, "yes") == 0;
    return *is_so || strcmp(reply, "no") == 0 ? 0 : tt_session_failed(session, EPROTO);
}

/* Whether time t has surely passed. */
static inline int tt_session_after(tt_session *session, uint64_t t_ns, bool *has_passed) {
    return tt_session_compare(session, "after", t_ns, has_passed);
}

/* Whether time t has surely not arrived. */
static inline int tt_session_before(tt_session *session, uint64_t t_ns, bool *is_ahead) {
    return tt_session_compare(session, "before", t_ns, is_ahead);
}

/* Sets the lease: timestamps of commits that begin from now on lie from lo to hi, both included. Refuses with 101 and 102,
 * and then the lease is what it was; where there was none, tt_session_begin and tt_session_commit refuse with 903 until one is
 * set. */
static inline int tt_session_lease(tt_session *session, uint64_t lo_ns, uint64_t hi_ns) {
    char line[TT_LINE_BYTES + 1], reply[TT_LINE_BYTES + 1];
    uint64_t numbers[2];
    session->wants_lease = true;
    snprintf(line, sizeof line, "lease %" PRIu64 " %" PRIu64, lo_ns, hi_ns);
    int failed = tt_session_look(session);
    if (failed == 0) failed = tt_session_question(session, line, reply);
    if (failed != 0) return failed;
    if (!tt_is_reply(reply, "leased", 2, numbers) || numbers[0] != lo_ns || numbers[1] != hi_ns)
        return tt_session_failed(session, EPROTO);
    session->has_lease = true;
    return 0;
}

/* Sends the line of a commit. The timestamp of one that has none so far has to be at least `floor_ns`. */
static inline int tt_session_send_commit(tt_session *session, uint64_t number, uint64_t floor_ns) {
    char line[TT_LINE_BYTES + 1], reply[TT_LINE_BYTES + 1];
    uint64_t numbers[2] = {0, 0}; /* the commit and its timestamp */
    snprintf(line, sizeof line, "commit %" PRIu64 " %" PRIu64, number, floor_ns);
    int failed = tt_session_question(session, line, reply);
    if (failed != 0) return failed;
    bool is_committed = tt_is_reply(reply, "committed", 2, numbers);
    bool is_reply = is_committed || tt_is_reply(reply, "waiting", 2, numbers);
    bool is_same = session->stamp_ns == 0 || numbers[1] == session->stamp_ns;
    bool is_right = number == session->number ? is_same : numbers[1] >= floor_ns;
    if (!is_reply || numbers[0] != number || !is_right) return tt_session_failed(session, EPROTO);
    session->number = number;
    session->stamp_ns = numbers[1];
    session->state = is_committed ? TT_COMMITTED : TT_WAITING;
    return 0;
}

/* Whether this answer to the line of a pending commit says that the service knows of no such one. */
static inline bool tt_is_unknown(int failed) {
    return failed == TT_COMMIT_PASSED || failed == TT_COMMIT_PENDING || failed == TT_COMMIT_GONE;
}

/* Sends the line of the last commit until it is released. One of which the service does not know is forgotten, with the
 * connection. */
static inline int tt_session_release(tt_session *session, int64_t give_up_ms) {
    const struct timespec pause = {0, 1000000};
    int64_t long_ms = tt_session_clock_ms() + TT_LONG_WAIT_MS;
    while (session->state == TT_WAITING) {
        int failed = tt_session_send_commit(session, session->number, 0);
        if (tt_is_unknown(failed)) tt_session_drop(session);
        if (failed != 0) return failed;
        if (session->state == TT_COMMITTED) break;
        int64_t now_ms = tt_session_clock_ms();
        if (now_ms > give_up_ms) return -ETIMEDOUT;
        if (now_ms > long_ms) {
            tt_session_tell(session, TT_LONG_WAIT, (int64_t)session->stamp_ns);
            long_ms = INT64_MAX;
        }
        nanosleep(&pause, NULL);
    }
    return 0;
}

/* Waits for the release of a commit whose timestamp nobody has: it may be too early for the one that begins now. */
static inline int tt_session_end(tt_session *session, int64_t give_up_ms) {
    int failed = tt_session_release(session, give_up_ms);
    return tt_is_unknown(failed) ? 0 : failed;
}

/* Whether this answer to the first line of a commit says that it was not begun. Another refusal may also come of the step that
 * would have released it. */
static inline bool tt_never_begins(int failed) {
    bool is_by_rule = (failed >= 901 && failed <= 903) || (failed >= 1001 && failed <= 1003);
    return failed <= 0 || is_by_rule || failed == TT_COMMIT_PENDING || failed == 1821;
}

/* Sends the first line of the next commit. */
static inline int tt_session_send_first(tt_session *session, uint64_t floor_ns) {
    if (session->wants_lease && !session->has_lease) return TT_LEASE_LOST;
    uint64_t number = session->number + 1;
    session->state = TT_NO_COMMIT;
    int failed = tt_session_send_commit(session, number, floor_ns);
    if (tt_never_begins(failed)) return failed;
    session->number = number;
    session->stamp_ns = 0;
    session->state = TT_UNSURE;
    return failed;
}

/* Begins a commit for which the caller may wait. */
static inline int tt_session_start(tt_session *session, uint64_t floor_ns, int64_t give_up_ms) {
    int failed = tt_session_look(session);
    if (failed != 0) return failed;
    if (tt_session_is_pending(session)) return TT_COMMIT_PENDING;
    tt_interval now;
    if (session->max_width_ns != UINT64_MAX) failed = tt_session_read(session, &now);
    if (failed != 0) return failed;
    bool is_unsure = session->state == TT_UNSURE;
    session->waiter = TT_NOBODY;
    failed = tt_session_end(session, give_up_ms);
    if (failed == 0) failed = tt_session_send_first(session, floor_ns);
    if (failed == TT_COMMIT_PENDING && is_unsure) {
        session->state = TT_WAITING; /* it began, though it was refused */
        failed = tt_session_end(session, give_up_ms);
        if (failed == 0) failed = tt_session_send_first(session, floor_ns);
    }
    if (failed == 0) session->waiter = TT_OF_COMMIT;
    return failed;
}

/* Begins a commit and gives its timestamp, no less than `floor_ns`. One commit at a time: refuses with TT_COMMIT_PENDING before
 * the release of the last one that was begun by this. One that tt_session_commit left pending is ended first, as that says.
 * Refuses with 903 where the lease is over or was lost with its connection: set it again. After another refusal begin again,
 * with the same floor: one that began all the same is ended first, too. */
static inline int tt_session_begin(tt_session *session, uint64_t floor_ns, uint64_t *stamp_ns) {
    int failed = tt_session_start(session, floor_ns, tt_session_clock_ms() + session->timeout_ms);
    if (failed == 0) session->waiter = TT_OF_BEGIN;
    *stamp_ns = failed == 0 ? session->stamp_ns : 0;
    return failed;
}

/* Waits until the timestamp of the commit has surely passed, and gives it. Answers -ETIMEDOUT where that takes longer than
 * the time-out; as after a refusal, the commit still waits then, and may be waited for again. Answers -EINVAL where no commit
 * was begun, or the connection of the last one failed. */
static inline int tt_session_wait(tt_session *session, uint64_t *stamp_ns) {
    int64_t give_up_ms = tt_session_clock_ms() + session->timeout_ms;
    int failed = tt_session_look(session);
    if (failed == 0) failed = session->waiter == TT_NOBODY ? -EINVAL : tt_session_release(session, give_up_ms);
    *stamp_ns = failed == 0 ? session->stamp_ns : 0;
    return failed;
}

/* Begins a commit, waits for its release, and gives its timestamp, with the answers of tt_session_begin and tt_session_wait.
 * Where it fails while it waits, the commit stays pending, and nobody has its timestamp: tt_session_wait goes on with it, and
 * the next tt_session_commit or tt_session_begin waits for its release first, and then begins another one. */
static inline int tt_session_commit(tt_session *session, uint64_t floor_ns, uint64_t *stamp_ns) {
    int64_t give_up_ms = tt_session_clock_ms() + session->timeout_ms;
    int failed = tt_session_start(session, floor_ns, give_up_ms);
    if (failed == 0) failed = tt_session_release(session, give_up_ms);
    *stamp_ns = failed == 0 ? session->stamp_ns : 0;
    return failed;
}

#ifdef __cplusplus
}
#endif

#endif
