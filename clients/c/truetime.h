/* truetime.h: the time with an error bound, read from shared memory.
 *
 * The time daemon of a machine keeps its last publication in a file of 320 bytes. A client maps that file once, with
 * tt_open, and calls tt_now as often as it likes. tt_now takes no lock, never waits, and makes no system call where
 * clock_gettime makes none.
 *
 *     tt_client client;
 *     uid_t owner;
 *     if (tt_uid("truetime", &owner) != 0) ...                       the user who has to own the file
 *     if (tt_open(&client, "/run/truetime/time", owner) != 0) ...    tt_cause(&client) has the reason
 *     tt_reading now;
 *     if (tt_now(&client, &now) != 0) ...
 *     now.earliest_ns <= true time <= now.latest_ns
 *
 * Calls answer 0, or the number of a refusal. A refused tt_now leaves the interval of all times in its reading, so a
 * caller that does not look is told nothing wrong.
 *
 * Where an owner of the file or of its folder truncates the file, a mapped one raises SIGBUS. Open it with tt_open_unmapped,
 * and tt_now refuses instead; it makes three system calls more.
 *
 * A call that would refuse, or give a reading that is not fresh, looks at the path, at most once a second. Where another file
 * is there, as behind a restart, the client opens that by the same rules, and answers by it.
 *
 * The clock is that of the file: CLOCK_MONOTONIC_RAW, or CLOCK_MONOTONIC. Reads version 3 of the format (its first four bytes are
 * TTS3), and refuses another version with 1702. Needs Linux on a little-endian 64-bit machine, and GCC or Clang: C11 or later with
 * POSIX (-std=gnu11, or -std=c11 -D_POSIX_C_SOURCE=200809L), or C++17.
 */
#ifndef TRUETIME_H
#define TRUETIME_H

#include "truetime_errors.h"

#include <fcntl.h>
#include <pwd.h>
#include <sched.h>
#include <stdbool.h>
#include <stddef.h>
#include <stdint.h>
#include <stdio.h>
#include <stdlib.h>
#include <string.h>
#include <sys/mman.h>
#include <sys/stat.h>
#include <sys/types.h>
#include <time.h>
#include <unistd.h>

#if !defined(__BYTE_ORDER__) || __BYTE_ORDER__ != __ORDER_LITTLE_ENDIAN__ || __SIZEOF_POINTER__ != 8
#error "truetime.h needs a little-endian 64-bit machine"
#endif
#if !defined(O_CLOEXEC) || !defined(O_NOFOLLOW) || !defined(CLOCK_MONOTONIC)
#error "truetime.h needs POSIX: compile with -std=gnu11 (or later), or with -D_POSIX_C_SOURCE=200809L"
#endif

#ifdef __cplusplus
extern "C" {
#endif

/* The greatest time and the greatest clock reading, in nanoseconds. */
#define TT_MAX_TIME_NS UINT64_C(4000000000000000000)
/* The greatest drift of a clock, in parts per million. */
#define TT_MAX_DRIFT_PPM UINT64_C(100000)

/* The refusals; tt_strerror has words for them. */
enum tt_refusal {
    TT_NOTHING = 801,      /* the daemon has published nothing so far, or nothing is published any more */
    TT_CLOCK_BACK = 802,   /* the clock is below that of the publication, or above the greatest time */
    TT_CLOCK_FAILED = 803, /* the clock gave no reading */
    TT_NO_FILE = 1701,     /* the file cannot be opened, mapped or read, or the client is not open */
    TT_OTHER_FILE = 1702,  /* not such a file, or of another owner, writable by others, of another boot or another clock */
    TT_NO_SLOT = 1703,     /* no daemon wrote what stands there */
    TT_BUSY = 1704,        /* another publication came during each of the tries */
    TT_TOO_WIDE = 1708,    /* the clock is past the last reading at which the publication may be used */
    TT_NO_SLEWED = 1710    /* the file gives nothing by CLOCK_MONOTONIC: of clients that cannot read the clock of the file */
};

/* Which check of a file failed, behind TT_OTHER_FILE. */
enum tt_file_fault { TT_FILE_KIND = 1, TT_FILE_OWNER, TT_FILE_WRITABLE, TT_FILE_FORMAT, TT_FILE_CLOCK };

/* Where a file is, and what is known of it. Threads of one client share it. */
typedef struct tt_place {
    uint64_t turn;         /* its lowest bit says which of two pages, or of two descriptors, is the one in use */
    uint64_t clocks[2];    /* the clocks of these, as TT_MONOTONIC */
    int files[2];          /* where it is not mapped: the descriptors, or -1 */
    uint64_t users[2];     /* and how many calls read by each */
    uint64_t next_look_ns; /* the clock reading from which on the path may be looked at again */
    bool is_looking;       /* whether a thread does so */
    uid_t owner;
    dev_t device;
    ino_t inode;
    char *path;
} tt_place;

/* A file. Set it by tt_open or tt_open_unmapped; after that any number of threads may use it. */
typedef struct tt_client {
    const char *pages;  /* where it is mapped: two, TT_APART apart */
    tt_place *place;    /* where it is open */
    uint64_t max_width_ns;
    int refused, cause; /* why it is not open: TT_NO_FILE and the error number, or TT_OTHER_FILE and an enum tt_file_fault */
} tt_client;

/* The words for why a client is not open. */
static inline const char *tt_cause(const tt_client *client) {
    if (client->refused == TT_NO_FILE) return strerror(client->cause);
    if (client->refused != TT_OTHER_FILE) return "it was opened";
    switch (client->cause) {
        case TT_FILE_KIND: return "it is no file of 320 bytes";
        case TT_FILE_OWNER: return "it has another owner";
        case TT_FILE_WRITABLE: return "others may write to it";
        case TT_FILE_FORMAT: return "it is of another format, or of another version";
        default: return "it is of another boot, or of another clock";
    }
}

/* The number of a user, by name, or by its digits. Refuses with 1702 where there is no such user: it sets no client, so tt_cause has
 * nothing to say of that. */
static inline int tt_uid(const char *user, uid_t *uid) {
    char *end;
    char text[4096];
    struct passwd found, *is_found = NULL;
    unsigned long number = strtoul(user, &end, 10);
    *uid = (uid_t)number;
    if (*user >= '0' && *user <= '9' && *end == '\0' && number == (unsigned long)*uid) return 0;
    if (getpwnam_r(user, &found, text, sizeof text, &is_found) != 0 || is_found == NULL) return TT_OTHER_FILE;
    *uid = found.pw_uid;
    return 0;
}

/* The clocks that a file may have, by their numbers in Linux. */
enum { TT_MONOTONIC = 1, TT_MONOTONIC_RAW = 4 };

/* What the daemon published. */
typedef struct tt_publication {
    uint64_t clock;           /* which clock this and the readings below are of: TT_MONOTONIC or TT_MONOTONIC_RAW */
    uint64_t clock_ns;        /* that clock at the fusion */
    uint64_t lo_ns, hi_ns;    /* the interval that held the true time then */
    uint64_t valid_until_ns;  /* the last clock reading at which a newer publication is not overdue */
    uint64_t usable_until_ns; /* the last clock reading at which it may be used; UINT64_MAX: no limit; 0: none */
    uint64_t epoch, number;   /* the daemon's life, and the publication's number in it */
    uint64_t drift_ppm;       /* how far the clock may drift */
} tt_publication;

/* What is known of the true time: it lies in [earliest_ns, latest_ns], both ends included. */
typedef struct tt_reading {
    uint64_t earliest_ns, latest_ns;
    uint64_t epoch, number; /* of the publication that was read */
    bool fresh;             /* false: the daemon is late or gone. The interval is right, and widens until it is back */
} tt_reading;

enum { TT_BYTES = 320, TT_INDEX_WORD = 2, TT_FIRST_SLOT = 8, TT_SLOT_WORDS = 16, TT_TRIES = 1000 };

/* How far the two pages of a client are apart: as long as the longest page. */
enum { TT_APART = 65536 };

/* The time from one look at the path to the next. */
#define TT_LOOK_NS UINT64_C(1000000000)

/* Memory of no file, for which POSIX of 2008 has no name. */
#ifdef MAP_ANONYMOUS
#define TT_ANONYMOUS MAP_ANONYMOUS
#elif defined(__mips__)
#define TT_ANONYMOUS 0x800
#else
#define TT_ANONYMOUS 0x20
#endif

/* Whether both clocks are here what they are to the daemon: the same boot, and no time namespace that shifts them. */
static inline bool tt_is_same_clock(const char *boot) {
    char here[36];
    long long seconds = 0, nanoseconds = 0;
    FILE *file = fopen("/proc/sys/kernel/random/boot_id", "r");
    if (file == NULL) return false;
    bool is_same = fread(here, 1, sizeof here, file) == sizeof here && memcmp(here, boot, sizeof here) == 0;
    fclose(file);
    file = fopen("/proc/self/timens_offsets", "r");
    if (file == NULL) return is_same; /* a kernel without time namespaces */
    bool is_found = fscanf(file, "monotonic %lld %lld", &seconds, &nanoseconds) == 2;
    fclose(file);
    return is_same && is_found && seconds == 0 && nanoseconds == 0;
}

/* Reads so many bytes at this place, and no later read comes before that. False where the file has not that many. */
static inline bool tt_pread(int file, void *bytes, size_t length, size_t at) {
    bool is_whole = pread(file, bytes, length, (off_t)at) == (ssize_t)length;
    __sync_synchronize(); /* checks of threads know no __atomic_thread_fence */
    return is_whole;
}

static inline int tt_refuse(int *cause, int refused, int why) {
    *cause = why;
    return refused;
}

/* Refuses, with 1701 and 1702, all but the shared file of this boot that the user owns and nobody else may write. */
static inline int tt_check_file(int file, uid_t owner, struct stat *found, uint64_t *clock, int *cause) {
    char head[8 * TT_FIRST_SLOT];
    errno = 0;
    if (fstat(file, found) != 0) return tt_refuse(cause, TT_NO_FILE, errno);
    if (!S_ISREG(found->st_mode) || found->st_size != TT_BYTES) return tt_refuse(cause, TT_OTHER_FILE, TT_FILE_KIND);
    if (found->st_uid != owner) return tt_refuse(cause, TT_OTHER_FILE, TT_FILE_OWNER);
    if ((found->st_mode & (S_IWGRP | S_IWOTH)) != 0) return tt_refuse(cause, TT_OTHER_FILE, TT_FILE_WRITABLE);
    if (!tt_pread(file, head, sizeof head, 0)) return tt_refuse(cause, TT_NO_FILE, errno);
    /* The format, the length, and the clock. The boot has 36 letters, and 4 zeros follow. */
    memcpy(clock, head + 8, sizeof *clock);
    bool is_clock = *clock == TT_MONOTONIC || *clock == TT_MONOTONIC_RAW;
    if (memcmp(head, "TTS3\x40\1\0\0", 8) != 0 || !is_clock || memcmp(head + 60, "\0\0\0\0", 4) != 0)
        return tt_refuse(cause, TT_OTHER_FILE, TT_FILE_FORMAT);
    return tt_is_same_clock(head + 24) ? 0 : tt_refuse(cause, TT_OTHER_FILE, TT_FILE_CLOCK);
}

/* Opens the file at this path, where it is such a file. Refuses with 1701 and 1702. */
static inline int tt_open_file(const char *path, uid_t owner, int *file, struct stat *found, uint64_t *clock, int *cause) {
    *file = open(path, O_RDONLY | O_CLOEXEC | O_NOFOLLOW | O_NONBLOCK);
    if (*file < 0) return tt_refuse(cause, TT_NO_FILE, errno);
    int refused = tt_check_file(*file, owner, found, clock, cause);
    if (refused != 0) close(*file);
    return refused;
}

/* The place of a file at this path, which is kept as one from the root; NULL where memory ran out. */
static inline tt_place *tt_place_of(const char *path, uid_t owner, const struct stat *found) {
    tt_place *place = (tt_place *)calloc(1, sizeof *place);
    char here[4096] = "";
    if (*path != '/' && getcwd(here, sizeof here) == NULL) *here = '\0';
    size_t length = strlen(here) + strlen(path) + 2;
    char *whole = (char *)malloc(length);
    if (place == NULL || whole == NULL) {
        free(place);
        free(whole);
        errno = ENOMEM;
        return NULL;
    }
    snprintf(whole, length, "%s%s%s", here, *here == '\0' ? "" : "/", path);
    place->files[0] = place->files[1] = -1;
    place->owner = owner;
    place->device = found->st_dev;
    place->inode = found->st_ino;
    place->path = whole;
    return place;
}

/* Opens the file at this path, to be read at each call. Refuses with 1701 and 1702; then the client is not open. */
static inline int tt_open_unmapped(tt_client *client, const char *path, uid_t owner) {
    struct stat found;
    uint64_t clock;
    int file;
    client->pages = NULL;
    client->place = NULL;
    client->max_width_ns = UINT64_MAX;
    client->cause = 0;
    client->refused = tt_open_file(path, owner, &file, &found, &clock, &client->cause);
    if (client->refused != 0) return client->refused;
    client->place = tt_place_of(path, owner, &found);
    if (client->place == NULL) {
        client->refused = tt_refuse(&client->cause, TT_NO_FILE, errno);
        close(file);
        return client->refused;
    }
    client->place->files[0] = file;
    client->place->clocks[0] = clock;
    return 0;
}

/* Maps a file at this place in memory, in place of what is there. What is read of it is the file's, or the old one's. */
static inline bool tt_map_at(const char *page, int file) {
    int kind = file < 0 ? MAP_PRIVATE | TT_ANONYMOUS : MAP_SHARED;
    return mmap((void *)(uintptr_t)page, TT_BYTES, PROT_READ, kind | MAP_FIXED, file, 0) != MAP_FAILED;
}

/* Unmaps or closes the file. A client that is not open stays so. No other thread may be in a call. */
static inline void tt_close(tt_client *client) {
    if (client->pages != NULL) munmap((void *)(uintptr_t)client->pages, 2 * TT_APART);
    for (int turn = 0; client->place != NULL && turn < 2; turn++)
        if (client->place->files[turn] >= 0) close(client->place->files[turn]);
    if (client->place != NULL) free(client->place->path);
    free(client->place);
    client->pages = NULL;
    client->place = NULL;
}

/* Maps the file at this path. Refuses with 1701 and 1702; then the client is not open. */
static inline int tt_open(tt_client *client, const char *path, uid_t owner) {
    int refused = tt_open_unmapped(client, path, owner);
    if (refused != 0) return refused;
    void *pages = mmap(NULL, 2 * TT_APART, PROT_READ, MAP_PRIVATE | TT_ANONYMOUS, -1, 0);
    if (pages != MAP_FAILED) client->pages = (const char *)pages;
    if (client->pages == NULL || !tt_map_at(client->pages, client->place->files[0])) {
        client->refused = tt_refuse(&client->cause, TT_NO_FILE, errno);
        tt_close(client);
        return client->refused;
    }
    close(client->place->files[0]);
    client->place->files[0] = -1;
    return 0;
}

/* The word at which the slot begins that is current at this index. The publication's count is odd where an odd number of
 * the eight bytes of the index are odd: the product has their number, at most 8, in its highest byte. */
static inline size_t tt_slot_of(uint64_t index) {
    const uint64_t low_bits = UINT64_C(0x0101010101010101);
    return TT_FIRST_SLOT + ((index & low_bits) * low_bits >> 56 & 1) * TT_SLOT_WORDS;
}

/* A slot, as it was loaded. */
typedef struct tt_slot {
    uint64_t index; /* at which it is current */
    tt_publication published;
    /* The second base, by CLOCK_MONOTONIC, for who cannot read the clock of the file: it has to be one, and is not read. */
    uint64_t slewed_ns, slewed_lo_ns, slewed_hi_ns, slewed_drift_ppm;
    uint64_t behind; /* the last word: 0 */
} tt_slot;

static inline uint64_t tt_load(const uint64_t *word) { return __atomic_load_n(word, __ATOMIC_ACQUIRE); }

/* Of what tt_now calls: inline, its words stay in registers. */
#define TT_INLINE __attribute__((always_inline)) static inline

/* Loads the words of a slot. */
TT_INLINE void tt_load_slot(const uint64_t *words, tt_slot *slot) {
    slot->index = tt_load(words);
    slot->published.clock_ns = tt_load(words + 1);
    slot->published.lo_ns = tt_load(words + 2);
    slot->published.hi_ns = tt_load(words + 3);
    slot->published.valid_until_ns = tt_load(words + 4);
    slot->published.epoch = tt_load(words + 5);
    slot->published.number = tt_load(words + 6);
    slot->published.drift_ppm = tt_load(words + 7);
    slot->published.usable_until_ns = tt_load(words + 8);
    slot->slewed_ns = tt_load(words + 9);
    slot->slewed_lo_ns = tt_load(words + 10);
    slot->slewed_hi_ns = tt_load(words + 11);
    slot->slewed_drift_ppm = tt_load(words + 12);
    slot->behind = tt_load(words + 15);
}

/* Copies the slot of the index that is shown. Refuses with 1704 where the copy may not be whole. It is whole where the
 * index is the same before and after: a publication changes the index before the next one writes into this slot, and no
 * index comes twice, so no byte of the slot has changed in between. The loads stay in their order, since each one is an
 * acquire. Where the turn is the same, too, all of it is of one file, and so is the clock: nothing is mapped over the page of a
 * turn while that lasts. */
TT_INLINE int tt_copy(const tt_client *client, uint64_t *index, tt_slot *slot) {
    uint64_t turn = tt_load(&client->place->turn);
    const uint64_t *words = (const uint64_t *)(const void *)(client->pages + (turn & 1) * TT_APART);
    *index = tt_load(words + TT_INDEX_WORD);
    tt_load_slot(words + tt_slot_of(*index), slot);
    slot->published.clock = tt_load(&client->place->clocks[turn & 1]);
    return tt_load(words + TT_INDEX_WORD) == *index && tt_load(&client->place->turn) == turn ? 0 : TT_BUSY;
}

/* The turn of a file that is not mapped. Its descriptor stays as it is until tt_leave_file. */
static inline uint64_t tt_enter_file(tt_place *place) {
    for (;;) {
        uint64_t turn = __atomic_load_n(&place->turn, __ATOMIC_SEQ_CST);
        __atomic_fetch_add(&place->users[turn & 1], 1, __ATOMIC_SEQ_CST);
        if (__atomic_load_n(&place->turn, __ATOMIC_SEQ_CST) == turn) return turn;
        __atomic_fetch_sub(&place->users[turn & 1], 1, __ATOMIC_SEQ_CST);
    }
}

static inline void tt_leave_file(tt_place *place, uint64_t turn) {
    __atomic_fetch_sub(&place->users[turn & 1], 1, __ATOMIC_SEQ_CST);
}

/* The same of a file that is not mapped. Refuses with 1701, too: it is not open, cannot be read, or has become shorter. */
static inline int tt_copy_unmapped(const tt_client *client, uint64_t *index, tt_slot *slot) {
    uint64_t before, after, words[TT_SLOT_WORDS];
    if (client->place == NULL) return TT_NO_FILE;
    uint64_t turn = tt_enter_file(client->place);
    int file = client->place->files[turn & 1];
    uint64_t clock = client->place->clocks[turn & 1];
    bool is_read = tt_pread(file, &before, 8, 8 * TT_INDEX_WORD) && tt_pread(file, words, sizeof words, 8 * tt_slot_of(before)) &&
                   tt_pread(file, &after, 8, 8 * TT_INDEX_WORD);
    tt_leave_file(client->place, turn);
    if (!is_read) return TT_NO_FILE;
    tt_load_slot(words, slot);
    slot->published.clock = clock;
    *index = before;
    return after == before ? 0 : TT_BUSY;
}

/* Whether this is so, which it hardly ever is: the compiler makes the other way the shorter one. */
static inline bool tt_rarely(bool is_so) { return __builtin_expect(is_so, false); }

/* Whether these may be the clock, the span and the drift of a base. */
TT_INLINE bool tt_is_base(uint64_t clock_ns, uint64_t lo_ns, uint64_t hi_ns, uint64_t drift_ppm) {
    return !tt_rarely(clock_ns > TT_MAX_TIME_NS) && !tt_rarely(lo_ns > hi_ns) && !tt_rarely(hi_ns > TT_MAX_TIME_NS) &&
           !tt_rarely(drift_ppm > TT_MAX_DRIFT_PPM);
}

/* Whether a daemon may have written this slot for this index. */
TT_INLINE bool tt_is_slot(uint64_t index, const tt_slot *slot) {
    const tt_publication *published = &slot->published;
    return !tt_rarely((slot->behind | (slot->index ^ index)) != 0) &&
           tt_is_base(published->clock_ns, published->lo_ns, published->hi_ns, published->drift_ppm) &&
           tt_is_base(slot->slewed_ns, slot->slewed_lo_ns, slot->slewed_hi_ns, slot->slewed_drift_ppm);
}

/* The publication of a slot that was copied at this index. Refuses with 801, 1703, and 801 where nothing is published any
 * more. */
TT_INLINE int tt_take(uint64_t index, const tt_slot *slot, tt_publication *published) {
    if (tt_rarely(index == 0)) return TT_NOTHING;
    if (!tt_is_slot(index, slot)) return TT_NO_SLOT;
    if (tt_rarely(slot->published.usable_until_ns == 0)) return TT_NOTHING;
    *published = slot->published;
    return 0;
}

/* tt_read of a file that is not mapped. */
__attribute__((cold, noinline, unused)) static int tt_read_unmapped(const tt_client *client, tt_publication *published) {
    uint64_t index;
    tt_slot slot;
    for (int tries = 0; tries < TT_TRIES; tries++) {
        int refused = tt_copy_unmapped(client, &index, &slot);
        if (refused == 0) return tt_take(index, &slot, published);
        if (refused != TT_BUSY) return refused;
    }
    return TT_BUSY;
}

/* tt_read by the file that is open. */
TT_INLINE int tt_read_once(const tt_client *client, tt_publication *published) {
    uint64_t index;
    tt_slot slot;
    if (tt_rarely(client->pages == NULL)) {
        tt_publication there; /* no pointer to `published` leaves this function, so it may stay in registers */
        int refused = tt_read_unmapped(client, &there);
        if (refused == 0) *published = there;
        return refused;
    }
    for (int tries = 0; tries < TT_TRIES; tries++)
        if (tt_copy(client, &index, &slot) == 0) return tt_take(index, &slot, published);
    return TT_BUSY;
}

/* What a clock may be wrong by after `elapsed` nanoseconds, at most TT_MAX_TIME_NS: rounded up. Nothing overflows: below
 * 2^47, some 39 hours, the product with TT_MAX_DRIFT_PPM has 64 bits. */
static inline uint64_t tt_widening(uint64_t drift_ppm, uint64_t elapsed_ns) {
    if (tt_rarely(elapsed_ns >= UINT64_C(1) << 47))
        return elapsed_ns / 1000000 * drift_ppm + (elapsed_ns % 1000000 * drift_ppm + 999999) / 1000000;
    return (elapsed_ns * drift_ppm + 999999) / 1000000;
}

/* The reading of a publication at a clock reading. Refuses with 802 and 1708, and then the reading stays as it was. */
TT_INLINE int tt_read_at(const tt_publication *published, uint64_t clock_ns, tt_reading *reading) {
    if (tt_rarely(clock_ns < published->clock_ns) || tt_rarely(clock_ns > TT_MAX_TIME_NS)) return TT_CLOCK_BACK;
    if (tt_rarely(clock_ns > published->usable_until_ns)) return TT_TOO_WIDE;
    uint64_t elapsed = clock_ns - published->clock_ns;
    uint64_t widening = tt_widening(published->drift_ppm, elapsed); /* at most elapsed */
    uint64_t low = published->lo_ns + (elapsed - widening), high = published->hi_ns + (elapsed + widening);
    reading->earliest_ns = low < TT_MAX_TIME_NS ? low : TT_MAX_TIME_NS;
    reading->latest_ns = high < TT_MAX_TIME_NS ? high : TT_MAX_TIME_NS;
    reading->epoch = published->epoch;
    reading->number = published->number;
    reading->fresh = clock_ns <= published->valid_until_ns;
    return 0;
}

/* A clock by its number, in nanoseconds. Refuses with 803. */
TT_INLINE int tt_clock_of(uint64_t clock, uint64_t *clock_ns) {
    struct timespec now;
    if (clock_gettime((clockid_t)clock, &now) != 0 || tt_rarely(now.tv_sec < 0)) return TT_CLOCK_FAILED;
    /* A clock past the greatest time shows one second more than that, which tt_read_at refuses. */
    if (tt_rarely(now.tv_sec > 4000000000)) now.tv_sec = 4000000001;
    *clock_ns = (uint64_t)now.tv_sec * 1000000000 + (uint64_t)now.tv_nsec;
    return 0;
}

/* CLOCK_MONOTONIC in nanoseconds, by which deadlines are. Refuses with 803. */
static inline int tt_clock(uint64_t *clock_ns) { return tt_clock_of(TT_MONOTONIC, clock_ns); }

/* Takes this file in place of the one that is read. The old one is unmapped or closed once no thread reads it. */
static inline bool tt_replace(const tt_client *client, int file, uint64_t clock) {
    tt_place *place = client->place;
    uint64_t turn = tt_load(&place->turn);
    size_t old = turn & 1, next = 1 - old;
    if (client->pages != NULL) {
        bool is_mapped = tt_map_at(client->pages + next * TT_APART, file);
        close(file);
        if (!is_mapped) return false;
        __atomic_store_n(&place->clocks[next], clock, __ATOMIC_SEQ_CST);
        __atomic_store_n(&place->turn, turn + 1, __ATOMIC_SEQ_CST);
        (void)tt_map_at(client->pages + old * TT_APART, -1); /* who still reads there sees the turn, and reads again */
        return true;
    }
    if (__atomic_load_n(&place->users[next], __ATOMIC_SEQ_CST) != 0) {
        close(file); /* one is still in a call that it began two files ago */
        return false;
    }
    if (place->files[next] >= 0) close(place->files[next]);
    place->files[next] = file;
    place->clocks[next] = clock;
    __atomic_store_n(&place->turn, turn + 1, __ATOMIC_SEQ_CST);
    for (int tries = 0; tries < TT_TRIES && __atomic_load_n(&place->users[old], __ATOMIC_SEQ_CST) != 0; tries++) sched_yield();
    if (__atomic_load_n(&place->users[old], __ATOMIC_SEQ_CST) == 0) {
        close(place->files[old]);
        place->files[old] = -1;
    }
    return true;
}

/* Looks at the path, unless it was looked at within a second, and takes another file that is there, where it passes the checks
 * of tt_open. Whether it did. */
__attribute__((cold, noinline, unused)) static bool tt_renew(const tt_client *client) {
    tt_place *place = client->place;
    uint64_t now_ns, clock;
    struct stat found;
    int file, cause;
    if (place == NULL || tt_clock(&now_ns) != 0 || now_ns < tt_load(&place->next_look_ns)) return false;
    if (__atomic_exchange_n(&place->is_looking, true, __ATOMIC_ACQ_REL)) return false;
    __atomic_store_n(&place->next_look_ns, now_ns + TT_LOOK_NS, __ATOMIC_RELEASE);
    bool is_other = lstat(place->path, &found) == 0 && (found.st_ino != place->inode || found.st_dev != place->device);
    bool is_taken = is_other && tt_open_file(place->path, place->owner, &file, &found, &clock, &cause) == 0 &&
                    tt_replace(client, file, clock);
    if (is_taken) {
        place->device = found.st_dev;
        place->inode = found.st_ino;
    }
    __atomic_store_n(&place->is_looking, false, __ATOMIC_RELEASE);
    return is_taken;
}

/* The last publication. Refuses with 1701, 801, 1704 and 1703, and then with 801 where nothing is published any more. */
static inline int tt_read(const tt_client *client, tt_publication *published) {
    int refused = tt_read_once(client, published);
    return refused != 0 && tt_renew(client) ? tt_read_once(client, published) : refused;
}

/* Has readings of an open client that are wider than this refused with 1824, in nanoseconds, and so the stamps by them; the
 * machine's own max_width need not be set. Call it before other threads use the client. */
static inline void tt_limit_width(tt_client *client, uint64_t max_width_ns) { client->max_width_ns = max_width_ns; }

/* The reading by the file that is open. Where it is refused, there may be none. */
TT_INLINE int tt_now_once(const tt_client *client, tt_reading *reading) {
    tt_publication published;
    uint64_t clock_ns = 0;
    int refused = tt_read_once(client, &published);
    if (refused == 0) refused = tt_clock_of(published.clock, &clock_ns);
    return refused == 0 ? tt_read_at(&published, clock_ns, reading) : refused;
}

TT_INLINE bool tt_is_narrow(const tt_client *client, const tt_reading *reading) {
    return reading->latest_ns - reading->earliest_ns <= client->max_width_ns;
}

/* tt_now where what tt_now_once gave and answered is refused or late: where another file is at the path, it is read. */
__attribute__((cold, noinline, unused)) static int tt_now_late(const tt_client *client, tt_reading *reading, int refused) {
    if (tt_renew(client)) refused = tt_now_once(client, reading);
    if (refused == 0 && !tt_is_narrow(client, reading)) refused = TT_READING_TOO_WIDE;
    if (refused == 0) return 0;
    reading->earliest_ns = 0;
    reading->latest_ns = TT_MAX_TIME_NS;
    reading->epoch = reading->number = 0;
    reading->fresh = false;
    return refused;
}

/* The time now. The clock is read after the publication, so it is not below that of the publication. Refuses with
 * 1701, 801, 1704, 1703, 803, 802, 1708 and 1824; the reading is then the interval of all times, and not fresh. */
TT_INLINE int tt_now(const tt_client *client, tt_reading *reading) {
    int refused = tt_now_once(client, reading);
    bool is_good = refused == 0 && reading->fresh && tt_is_narrow(client, reading);
    return tt_rarely(!is_good) ? tt_now_late(client, reading, refused) : 0;
}

/* Whether time t has surely passed, and whether it has surely not arrived. */
static inline bool tt_after(const tt_reading *reading, uint64_t t_ns) { return t_ns < reading->earliest_ns; }
static inline bool tt_before(const tt_reading *reading, uint64_t t_ns) { return t_ns > reading->latest_ns; }

#undef TT_INLINE

#ifdef __cplusplus
}
#endif

#endif
