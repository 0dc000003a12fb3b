/* truetime_errors.h: the words for what the calls of truetime.h, truetime_stamper.h and truetime_session.h answer. */
#ifndef TRUETIME_ERRORS_H
#define TRUETIME_ERRORS_H

#include <errno.h>
#include <string.h>

#ifdef __cplusplus
extern "C" {
#endif

/* The refusal of readings and sessions: the reading is wider than the machine allows, or than tt_limit_width and
 * tt_session_limit_width do. */
enum { TT_READING_TOO_WIDE = 1824 };

/* The words for an answer that is not 0: the number of a refusal, or the negative of an error number. Those of an error number
 * that no session has by itself are strerror's. */
static inline const char *tt_strerror(int answer) {
    switch (answer) {
        case 1: return "the service is out of memory";
        case 101: return "the ends of the lease are out of order";
        case 102: return "the end of the lease is above the greatest time";
        case 801: return "the daemon has published nothing so far, or nothing is published any more";
        case 802: return "the clock is below that of the publication, or above the greatest time";
        case 803: return "the clock gave no reading";
        case 901: return "no stamp is left up to the greatest time";
        case 902: return "the floor is too far ahead of the latest";
        case 903: return "the least stamp is above the end of the lease, or the session has lost its lease: set it again";
        case 1001: return "as many commits are pending as may";
        case 1002: return "a commit with this id is pending or was released";
        case 1003: return "another commit has this stamp";
        case 1101: return "the service knows no such line";
        case 1102: return "the line has more than 64 bytes";
        case 1103: return "a later commit has begun in this session";
        case 1104: return "the last commit is not known as released: call tt_session_wait";
        case 1701: return "the file cannot be opened, mapped or read, or the client is not open";
        case 1702: return "not such a file, or of another owner, writable by others, of another boot or another clock";
        case 1703: return "no daemon wrote what stands there";
        case 1704: return "another publication came during each of the tries";
        case 1708: return "the clock is past the last reading at which the publication may be used";
        case 1710: return "the file gives nothing by CLOCK_MONOTONIC";
        case 1821: return "the floor, or the lower end of the lease, is further ahead than the machine allows";
        case 1822: return "the commit is pending no more: its connection broke, or the machine ends";
        case 1823: return "the machine knows that an assumption of the service is broken";
        case 1824: return "the reading is wider than the machine allows, or than max_width of this client";
        case -ECONNRESET: return "the service ended the session; if it had a lease, it has to be set again";
        case -ENOTCONN: return "the session is not open";
        case -EADDRNOTAVAIL: return "the host's name has no address";
        case -EPROTO: return "what came is no reply";
        case -ETIMEDOUT: return "no reply or no release came in time";
        default: return answer < 0 ? strerror(-answer) : "see docs/reference/refusals.md";
    }
}

#ifdef __cplusplus
}
#endif

#endif
