/* stress.c: readers of one file beside a writer that never pauses.
 *
 *     stress PATH WAY READERS READS
 *
 * WAY says how the writer's bytes reach the file: `pwrite` (one write of the slot and one of a byte, as the daemon does),
 * `pieces` (sixteen writes of eight bytes), `stores` (atomic words through a mapping), `bytes` (single bytes through a
 * mapping, the last first), `killed` (as pwrite, killed at any moment and started again), `thread` (as stores, in a thread
 * of this process, for the thread sanitizer), or `unchecked`, a control: as pwrite, and the readers take each copy without
 * the second look at the index. The last of several readers has the file not mapped.
 *
 * Every number of publication n is made from n, so a copy that mixes two publications shows. Prints one line of counts.
 * Ends with status 1 where a reading was wrong or a publication older than the one before it.
 */
#define _GNU_SOURCE
#include "../truetime.h"

#include <inttypes.h>
#include <pthread.h>
#include <signal.h>
#include <stdlib.h>
#include <sys/prctl.h>
#include <sys/wait.h>

typedef enum way { PWRITE, PIECES, STORES, BYTES, KILLED, THREAD, UNCHECKED } way;
static const char *const way_names[] = {"pwrite", "pieces", "stores", "bytes", "killed", "thread", "unchecked"};

static const char *path;
static way chosen;
static uint64_t reads_each;
static bool is_over; /* set atomically */

/* A number that looks like chance, made from n and a field's place. */
static uint64_t scattered(uint64_t n, uint64_t field) {
    uint64_t x = n * UINT64_C(0x9e3779b97f4a7c15) + field * UINT64_C(0xbf58476d1ce4e5b9);
    x = (x ^ x >> 31) * UINT64_C(0x94d049bb133111eb);
    return x ^ x >> 29;
}

static tt_publication publication_of(uint64_t n) {
    uint64_t a = scattered(n, 1) % TT_MAX_TIME_NS, b = scattered(n, 2) % TT_MAX_TIME_NS;
    tt_publication p;
    p.clock = TT_MONOTONIC_RAW;
    p.clock_ns = scattered(n, 3) % 1000000;
    p.lo_ns = a < b ? a : b;
    p.hi_ns = a < b ? b : a;
    p.valid_until_ns = scattered(n, 4);
    p.usable_until_ns = scattered(n, 7) | 1; /* 0: nothing is published any more */
    p.epoch = scattered(n, 5);
    p.number = n;
    p.drift_ppm = scattered(n, 6) % (TT_MAX_DRIFT_PPM + 1);
    return p;
}

static bool is_publication(const tt_publication *p) {
    tt_publication q = publication_of(p->number);
    return p->clock == q.clock && p->clock_ns == q.clock_ns && p->lo_ns == q.lo_ns && p->hi_ns == q.hi_ns && p->valid_until_ns == q.valid_until_ns &&
           p->usable_until_ns == q.usable_until_ns && p->epoch == q.epoch && p->drift_ppm == q.drift_ppm;
}

/* The index of count n: byte i is byte i of n less the next higher byte of n, modulo 256. */
static uint64_t index_of(uint64_t n) {
    uint64_t index = 0;
    for (int i = 0; i < 8; i++) {
        uint64_t digit = n >> 8 * i, above = i == 7 ? 0 : n >> 8 * (i + 1);
        index |= ((digit - above) & 0xff) << 8 * i;
    }
    return index;
}

/* The count of an index: byte i of the count is the sum of the index's bytes i to 7. */
static uint64_t count_of(uint64_t index) {
    uint64_t count = 0;
    unsigned digit = 0;
    for (int i = 7; i >= 0; i--) {
        digit = (digit + (unsigned)(index >> 8 * i)) & 0xff;
        count = count << 8 | digit;
    }
    return count;
}

typedef struct writer {
    int file;
    unsigned char *mapped;
    uint64_t count;
} writer;

static void fail(const char *what) {
    perror(what);
    exit(2);
}

static void make_file(void) {
    unsigned char head[TT_BYTES] = "TTS3\x40\1\0\0\4\0\0\0\0\0\0\0";
    FILE *boot = fopen("/proc/sys/kernel/random/boot_id", "r");
    if (boot == NULL || fread(head + 24, 1, 36, boot) != 36) fail("boot_id");
    fclose(boot);
    unlink(path);
    int file = open(path, O_WRONLY | O_CREAT | O_EXCL, 0644);
    if (file < 0 || write(file, head, sizeof head) != TT_BYTES || close(file) != 0) fail(path);
}

static writer open_writer(void) {
    writer w;
    w.file = open(path, O_RDWR);
    if (w.file < 0) fail(path);
    w.mapped = (unsigned char *)mmap(NULL, TT_BYTES, PROT_READ | PROT_WRITE, MAP_SHARED, w.file, 0);
    if (w.mapped == MAP_FAILED) fail("mmap");
    uint64_t index;
    memcpy(&index, w.mapped + 16, 8);
    w.count = count_of(index);
    return w;
}

static void put(const writer *w, const void *bytes, size_t length, off_t at) {
    if (pwrite(w->file, bytes, length, at) != (ssize_t)length) fail("pwrite");
}

static void publish(writer *w) {
    uint64_t n = ++w->count, index = index_of(n), change = index ^ index_of(n - 1);
    off_t byte_at = 16 + __builtin_ctzll(change) / 8, slot_at = 8 * (TT_FIRST_SLOT + TT_SLOT_WORDS * (off_t)(n & 1));
    unsigned char byte = (unsigned char)(index >> 8 * (byte_at - 16));
    tt_publication p = publication_of(n);
    /* The second base has the numbers of the first one, and other limits. */
    uint64_t word[TT_SLOT_WORDS] = {index,       p.clock_ns,        p.lo_ns,    p.hi_ns, p.valid_until_ns, p.epoch,     p.number,
                                    p.drift_ppm, p.usable_until_ns, p.clock_ns, p.lo_ns, p.hi_ns,          p.drift_ppm, scattered(n, 8),
                                    scattered(n, 10)};
    unsigned char bytes[8 * TT_SLOT_WORDS];
    memcpy(bytes, word, sizeof bytes);
    if (chosen == STORES || chosen == THREAD) {
        for (int i = 0; i < TT_SLOT_WORDS; i++)
            __atomic_store_n((uint64_t *)(void *)(w->mapped + slot_at + 8 * i), word[i], __ATOMIC_RELEASE);
        __atomic_store_n((uint64_t *)(void *)(w->mapped + 16), index, __ATOMIC_RELEASE);
    } else if (chosen == BYTES) {
        for (int i = sizeof bytes - 1; i >= 0; i--) __atomic_store_n(w->mapped + slot_at + i, bytes[i], __ATOMIC_RELEASE);
        __atomic_store_n(w->mapped + byte_at, byte, __ATOMIC_RELEASE);
    } else {
        for (int i = 0; chosen == PIECES && i < TT_SLOT_WORDS; i++) put(w, bytes + 8 * i, 8, slot_at + 8 * i);
        if (chosen != PIECES) put(w, bytes, sizeof bytes, slot_at);
        put(w, &byte, 1, byte_at);
    }
}

static void *write_on(void *unused) {
    (void)unused;
    writer w = open_writer();
    while (!__atomic_load_n(&is_over, __ATOMIC_RELAXED)) publish(&w);
    return NULL;
}

static pid_t start_writer(void) {
    pid_t child = fork();
    if (child < 0) fail("fork");
    if (child != 0) return child;
    prctl(PR_SET_PDEATHSIG, SIGKILL);
    write_on(NULL);
    _exit(0);
}

/* Waits for the first publication, at most ten seconds. */
static void await_first(void) {
    tt_client client;
    tt_publication p;
    if (tt_open(&client, path, geteuid()) != 0) fail("tt_open");
    for (int i = 0; i < 10000 && tt_read(&client, &p) == TT_NOTHING; i++) usleep(1000);
    tt_close(&client);
}

typedef struct reader {
    pthread_t thread;
    bool is_unmapped; /* then it reads a hundredth as often, since it rarely meets a pause */
    uint64_t whole, nothing, busy, refused, wrong, back;
} reader;

/* One read: as tt_read, or, for the control, of a copy that may not be whole. */
static int read_once(const tt_client *client, tt_publication *p) {
    uint64_t index;
    tt_slot slot;
    if (chosen != UNCHECKED) return tt_read(client, p);
    (void)tt_copy(client, &index, &slot);
    if (index == 0) return TT_NOTHING;
    *p = slot.published;
    return 0;
}

static void *read_on(void *given) {
    reader *me = (reader *)given;
    tt_client client;
    tt_publication p = {0}; /* GCC 12 does not see that it is set where nothing was refused */
    uint64_t last = 0;
    if ((me->is_unmapped ? tt_open_unmapped : tt_open)(&client, path, geteuid()) != 0) fail("tt_open");
    for (uint64_t i = 0; i < (me->is_unmapped ? reads_each / 100 : reads_each); i++) {
        int refused = read_once(&client, &p);
        me->whole += refused == 0;
        me->nothing += refused == TT_NOTHING;
        me->busy += refused == TT_BUSY;
        me->refused += refused == TT_NO_SLOT || refused == TT_NO_FILE;
        if (refused != 0) continue;
        me->wrong += !is_publication(&p);
        me->back += p.number < last;
        last = p.number;
    }
    tt_close(&client);
    return NULL;
}

/* Kills the writer after some 1 to 20 milliseconds and starts it again, until the readers are done. */
static uint64_t kill_again_and_again(pid_t *child) {
    uint64_t kills = 0;
    while (!__atomic_load_n(&is_over, __ATOMIC_RELAXED)) {
        usleep((useconds_t)(1000 + scattered(kills, 9) % 19000));
        kill(*child, SIGKILL);
        waitpid(*child, NULL, 0);
        *child = start_writer();
        kills++;
    }
    return kills;
}

static void *join_all(void *given) {
    reader *readers = (reader *)given;
    for (int i = 0; readers[i].thread != 0; i++) pthread_join(readers[i].thread, NULL);
    __atomic_store_n(&is_over, true, __ATOMIC_RELAXED);
    return NULL;
}

int main(int count, char **words) {
    int number = count == 5 ? atoi(words[3]) : 0, known = (int)(sizeof way_names / sizeof *way_names), found = 0;
    while (count == 5 && found < known && strcmp(words[2], way_names[found]) != 0) found++;
    if (count != 5 || found == known || number < 1 || number > 8) {
        fprintf(stderr, "usage: stress PATH pwrite|pieces|stores|bytes|killed|thread|unchecked READERS READS\n");
        return 2;
    }
    path = words[1];
    chosen = (way)found;
    reads_each = strtoull(words[4], NULL, 10);
    make_file();
    pthread_t thread, joiner;
    pid_t child = 0;
    if (chosen == THREAD)
        pthread_create(&thread, NULL, write_on, NULL);
    else
        child = start_writer();
    await_first();
    reader readers[9];
    memset(readers, 0, sizeof readers);
    readers[number - 1].is_unmapped = number > 1 && chosen != UNCHECKED;
    for (int i = 0; i < number; i++) pthread_create(&readers[i].thread, NULL, read_on, &readers[i]);
    pthread_create(&joiner, NULL, join_all, readers);
    uint64_t kills = chosen == KILLED ? kill_again_and_again(&child) : 0;
    pthread_join(joiner, NULL);
    if (chosen == THREAD) {
        pthread_join(thread, NULL);
    } else {
        kill(child, SIGKILL);
        waitpid(child, NULL, 0);
    }
    writer w = open_writer();
    reader all = readers[0];
    for (int i = 1; i < number; i++) {
        all.whole += readers[i].whole, all.nothing += readers[i].nothing, all.busy += readers[i].busy;
        all.refused += readers[i].refused, all.wrong += readers[i].wrong, all.back += readers[i].back;
    }
    printf("%s: publications %" PRIu64 ", kills %" PRIu64 ", reads %" PRIu64 " whole, %" PRIu64 " before the first, %" PRIu64
           " busy, %" PRIu64 " refused; wrong %" PRIu64 ", back %" PRIu64 "\n",
           words[2], w.count, kills, all.whole, all.nothing, all.busy, all.refused, all.wrong, all.back);
    unlink(path);
    return all.wrong != 0 || all.back != 0 || all.refused != 0 || all.whole == 0;
}
