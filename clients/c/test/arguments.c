/* arguments.c: what is refused of arguments, and what is answered by what is not open. It prints what is wrong.
 *
 *     arguments PATH    a shared file of this user
 */
#include "../truetime_session.h"

#include "../truetime_stamper.h"

#include <arpa/inet.h>
#include <stdlib.h>

static int wrong = 0;

static void wants(const char *what, int64_t came, int64_t wanted) {
    if (came == wanted) return;
    printf("%s: %" PRId64 ", and %" PRId64 " is wanted\n", what, came, wanted);
    wrong = 1;
}

/* Each call of a session that is not open, with what a caller sees that does not look at the answer. */
static void try_closed(const char *what, tt_session *session) {
    tt_interval now = {7, 7};
    uint64_t stamp_ns = 7;
    bool is_so = true;
    char reply[TT_LINE_BYTES + 1] = "x";
    wants(what, tt_session_now(session, &now), -ENOTCONN);
    wants("now: earliest", (int64_t)now.earliest_ns, 0);
    wants("now: latest", (int64_t)now.latest_ns, (int64_t)TT_MAX_TIME_NS);
    wants(what, tt_session_after(session, 1, &is_so), -ENOTCONN);
    wants("after", is_so, false);
    is_so = true;
    wants(what, tt_session_before(session, 1, &is_so), -ENOTCONN);
    wants("before", is_so, false);
    wants(what, tt_session_lease(session, 1, 2), -ENOTCONN);
    wants(what, tt_session_begin(session, 0, &stamp_ns), -ENOTCONN);
    wants("begin", (int64_t)stamp_ns, 0);
    stamp_ns = 7;
    wants(what, tt_session_wait(session, &stamp_ns), -ENOTCONN);
    wants("wait", (int64_t)stamp_ns, 0);
    stamp_ns = 7;
    wants(what, tt_session_commit(session, 0, &stamp_ns), -ENOTCONN);
    wants("commit", (int64_t)stamp_ns, 0);
    wants(what, tt_session_ask(session, "now", reply), -ENOTCONN);
    wants("ask", reply[0], '\0');
    tt_session_close(session);
}

static void try_sessions(void) {
    tt_session session;
    char path[110];
    const char *too_long = "xxxxxxxxxxxxxxxxxxxxxxxxxxxxxxxxxxxxxxxxxxxxxxxxxxxxxxxxxxxxxxxx.test"; /* no server of names is asked for it */
    wants("a name with a part of 64 letters", tt_session_open_tcp(&session, too_long, 1, 1000), -EADDRNOTAVAIL);
    try_closed("a name with a part of 64 letters", &session);
    wants("no time", tt_session_open_tcp(&session, "127.0.0.1", 1, 0), -EINVAL);
    wants("less than no time", tt_session_open_tcp(&session, "127.0.0.1", 1, -1), -EINVAL);
    try_closed("less than no time", &session);
    memset(path, 'x', sizeof path);
    path[108] = '\0';
    wants("a path of 108 bytes", tt_session_open_unix(&session, path, 1000), -EINVAL);
    try_closed("a path of 108 bytes", &session);
    path[107] = '\0';
    wants("a path of 107 bytes", tt_session_open_unix(&session, path, 1000), -ENOENT);
    try_closed("a path of 107 bytes", &session);
    wants("no time for a path", tt_session_open_unix(&session, "x", 0), -EINVAL);
}

/* A line that is not sent, where somebody listens. */
static void try_lines(void) {
    tt_session session;
    struct sockaddr_in address;
    socklen_t length = sizeof address;
    char reply[TT_LINE_BYTES + 1] = "x", line[TT_LINE_BYTES + 2];
    int listener = socket(AF_INET, SOCK_STREAM, 0);
    memset(&address, 0, sizeof address);
    address.sin_family = AF_INET;
    address.sin_addr.s_addr = htonl(INADDR_LOOPBACK);
    wants("bind", bind(listener, (struct sockaddr *)&address, sizeof address), 0);
    wants("listen", listen(listener, 1), 0);
    wants("its name", getsockname(listener, (struct sockaddr *)&address, &length), 0);
    wants("open", tt_session_open_tcp(&session, "127.0.0.1", ntohs(address.sin_port), 1000), 0);
    memset(line, 'x', sizeof line);
    line[TT_LINE_BYTES + 1] = '\0';
    wants("a line of 65 bytes", tt_session_ask(&session, line, reply), -EINVAL);
    wants("its reply", reply[0], '\0');
    wants("two lines", tt_session_ask(&session, "now\nnow", reply), -EINVAL);
    wants("a line and its end", tt_session_ask(&session, "now\n", reply), -EINVAL);
    int one = accept(listener, NULL, NULL);
    wants("what was sent", recv(one, reply, 1, MSG_DONTWAIT), -1);
    close(one);
    close(listener);
    tt_session_close(&session);
    try_closed("closed", &session);
}

static void try_readers(const char *path) {
    tt_client client;
    tt_publication published;
    tt_reading now = {7, 7, 7, 7, true};
    wants("no file", tt_open(&client, "/nowhere/time", geteuid()), TT_NO_FILE);
    wants("read", tt_read(&client, &published), TT_NO_FILE);
    wants("now", tt_now(&client, &now), TT_NO_FILE);
    wants("earliest", (int64_t)now.earliest_ns, 0);
    wants("latest", (int64_t)now.latest_ns, (int64_t)TT_MAX_TIME_NS);
    wants("epoch, number and fresh", (int64_t)(now.epoch + now.number) + now.fresh, 0);
    for (int is_mapped = 0; is_mapped < 2; is_mapped++) {
        wants("open", is_mapped ? tt_open(&client, path, geteuid()) : tt_open_unmapped(&client, path, geteuid()), 0);
        wants("now", tt_now(&client, &now), 0);
        tt_close(&client);
        tt_close(&client);
        wants("closed", tt_now(&client, &now), TT_NO_FILE);
    }
    wants("another owner", tt_open(&client, path, geteuid() + 1), TT_OTHER_FILE);
    wants("another owner, not mapped", tt_open_unmapped(&client, path, geteuid() + 1), TT_OTHER_FILE);
}

static void try_stampers(const char *path) {
    static const uint64_t leases[2][2] = {{9, 5}, {0, TT_MAX_TIME_NS + 1}};
    tt_client client;
    tt_stamper stamper;
    tt_stamp stamp;
    wants("open", tt_open(&client, path, geteuid()), 0);
    for (int place = 0; place < 2; place++) {
        wants("a lease that is none", tt_stamper_open(&stamper, &client, leases[place][0], leases[place][1]), 101 + place);
        wants("a stamp without a lease", tt_stamper_stamp(&stamper, 0, &stamp), TT_LEASE_OVER);
        wants("it", (int64_t)stamp.stamp_ns, 0);
    }
    wants("a lease", tt_stamper_open(&stamper, &client, 0, TT_MAX_TIME_NS), 0);
    wants("a stamp", tt_stamper_stamp(&stamper, 0, &stamp), 0);
    tt_close(&client);
    wants("a stamp behind a close", tt_stamper_stamp(&stamper, 0, &stamp), TT_NO_FILE);
}

static void try_words(void) {
    wants("words", strcmp(tt_strerror(65535), "see docs/reference/refusals.md"), 0);
    wants("words of the system", strcmp(tt_strerror(-ECONNREFUSED), strerror(ECONNREFUSED)), 0);
}

int main(int count, char **words) {
    if (count != 2) return 2;
    try_sessions();
    try_lines();
    try_readers(words[1]);
    try_stampers(words[1]);
    try_words();
    return wrong;
}
