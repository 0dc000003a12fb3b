/* truetime.c: a module of Redis 7 by which commands are executed once their stamp has surely passed.
 *
 * A client's command gets a stamp as it arrives, and stands in a queue in the order of stamps. A thread executes what has passed, with
 * the server's lock held. So nobody sees an effect before its stamp has passed, no lock is held in the wait, and the stream of
 * replication and the append-only file are in the order of stamps. A restart needs no bound of them: all that were executed have passed.
 */
#include "truetime_stamper.h"

#include <pthread.h>
#ifdef TT_REDISMODULE
#include TT_REDISMODULE
#else
#include "module.h"
#endif

#define VERSION 400 /* 0.4.0 */
#define SECOND_NS UINT64_C(1000000000)
/* After this a command is given up. */
#define PATIENCE_NS (10 * SECOND_NS)
/* How many are executed before others have their turn. */
enum { MOST_AT_ONCE = 256, NOT_AGAIN_NS = 1000000 };
/* What waits: a command, several, or a reading command at a time that its client chose. */
enum kind { ONE, SEVERAL, AT };

typedef struct tt_job {
    struct tt_job *next;
    enum kind kind;
    uint64_t stamp_ns, arrived_ns;
    RedisModuleBlockedClient *client;
    RedisModuleString *user;
    int argc;
    RedisModuleString *argv[]; /* of several each is behind the number of its words */
} tt_job;

static struct {
    tt_job *head, *last;
    uint64_t done_ns; /* the greatest time of what was executed */
    pthread_mutex_t lock;
    pthread_cond_t changed;
} queue = {.lock = PTHREAD_MUTEX_INITIALIZER};
static tt_client client;
static tt_stamper stamper;

/* The queue. */

static bool stands_behind(const tt_job *one, const tt_job *other) {
    return one->stamp_ns > other->stamp_ns || (one->stamp_ns == other->stamp_ns && one->kind == AT && other->kind != AT);
}

/* Answers false where something later than the time that is to be read at was executed. */
static bool put(tt_job *new) {
    pthread_mutex_lock(&queue.lock);
    bool is_in_time = new->kind != AT || new->stamp_ns >= queue.done_ns;
    if (is_in_time) {
        /* Stamps rise, so it is the last, but for what is to be read ahead. */
        tt_job **place = queue.last != NULL && !stands_behind(queue.last, new) ? &queue.last->next : &queue.head;
        while (*place != NULL && !stands_behind(*place, new)) place = &(*place)->next;
        new->next = *place;
        *place = new;
        if (new->next == NULL) queue.last = new;
        if (queue.head == new) pthread_cond_signal(&queue.changed);
    }
    pthread_mutex_unlock(&queue.lock);
    return is_in_time;
}

/* The first job, if its stamp has passed or it is to be given up. */
static tt_job *take_due(int refused, const tt_reading *now, uint64_t clock_ns) {
    pthread_mutex_lock(&queue.lock);
    tt_job *first = queue.head;
    bool is_past = first != NULL && refused == 0 && tt_after(now, first->stamp_ns);
    if (first != NULL && !is_past && clock_ns < first->arrived_ns + PATIENCE_NS) first = NULL;
    if (first != NULL) {
        queue.head = first->next;
        if (queue.head == NULL) queue.last = NULL;
        if (is_past) queue.done_ns = first->stamp_ns;
    }
    pthread_mutex_unlock(&queue.lock);
    return first;
}

/* Returns when it may be time for the first job. */
static void wait_for_first(uint64_t least_ns) {
    pthread_mutex_lock(&queue.lock);
    while (queue.head == NULL) pthread_cond_wait(&queue.changed, &queue.lock);
    uint64_t sleep_ns = 0, clock_ns = 0;
    (void)tt_stamper_left(&stamper, queue.head->stamp_ns, &sleep_ns);
    if (sleep_ns < least_ns) sleep_ns = least_ns;
    if (sleep_ns > 0 && tt_clock(&clock_ns) == 0) {
        clock_ns += sleep_ns;
        struct timespec until = {.tv_sec = (time_t)(clock_ns / SECOND_NS), .tv_nsec = (long)(clock_ns % SECOND_NS)};
        pthread_cond_timedwait(&queue.changed, &queue.lock, &until);
    }
    pthread_mutex_unlock(&queue.lock);
}

/* Execution. */

static const char *text_of(const RedisModuleString *string) { return RedisModule_StringPtrLen(string, NULL); }

static bool is_script(const RedisModuleString *name) {
    return strncasecmp(text_of(name), "eval", 4) == 0 || strncasecmp(text_of(name), "fcall", 5) == 0;
}

/* Why a user may not call this, or NULL. The number of words is looked at first: the server relies on that. */
static const char *forbidden(RedisModuleCtx *ctx, RedisModuleUser *user, RedisModuleString **argv, int argc) {
    int count = 0;
    errno = 0;
    int *keys = RedisModule_GetCommandKeys(ctx, argv, argc, &count);
    if (keys == NULL && errno == EINVAL) return "ERR wrong number of arguments, or wrong keys";
    if (keys == NULL && errno == ENOENT) return "ERR unknown command";
    if (keys != NULL) RedisModule_Free(keys);
    bool may = RedisModule_ACLCheckCommandPermissions(user, argv, argc) == REDISMODULE_OK;
    return may ? NULL : "NOPERM this user may not run the command, or use its keys";
}

/* Executes a command, and replies what it does. Commands that no script may call are refused, but for scripts. */
static void perform(RedisModuleCtx *ctx, enum kind kind, RedisModuleString **argv, int argc) {
    const char *how = kind == AT ? "v0CESW" : is_script(argv[0]) ? "!v0CE" : "!v0CES";
    RedisModuleCallReply *reply = RedisModule_Call(ctx, text_of(argv[0]), how, argv + 1, (size_t)(argc - 1));
    if (reply == NULL) {
        RedisModule_ReplyWithError(ctx, "ERR the command cannot be executed here");
        return;
    }
    RedisModule_ReplyWithCallReply(ctx, reply);
    RedisModule_FreeCallReply(reply);
}

/* The next of several commands: its words, and how many. */
static RedisModuleString **next_of(const tt_job *job, int *at, int *argc) {
    long long number = 0;
    (void)RedisModule_StringToLongLong(job->argv[*at], &number);
    RedisModuleString **argv = (RedisModuleString **)job->argv + *at + 1;
    *argc = (int)number;
    *at += 1 + (int)number;
    return argv;
}

/* Why a job is not executed, or NULL; and how many commands it has. */
static const char *refusal_of(RedisModuleCtx *ctx, RedisModuleUser *user, tt_job *job, int *commands) {
    const char *why = NULL;
    int argc;
    *commands = 1;
    if (user == NULL) return "NOPERM the user is gone";
    if (RedisModule_GetContextFlags(ctx) & REDISMODULE_CTX_FLAGS_SLAVE) return "READONLY stamps and snapshots are of the master";
    if (job->kind != SEVERAL) return forbidden(ctx, user, job->argv, job->argc);
    *commands = 0;
    for (int at = 0; at < job->argc && why == NULL; ++*commands) {
        RedisModuleString **argv = next_of(job, &at, &argc);
        why = forbidden(ctx, user, argv, argc);
    }
    return why;
}

static void execute(RedisModuleCtx *ctx, tt_job *job, RedisModuleUser *user) {
    int commands, argc;
    const char *why = refusal_of(ctx, user, job, &commands);
    if (why != NULL) {
        RedisModule_ReplyWithError(ctx, why);
        return;
    }
    RedisModule_SetContextUser(ctx, user);
    if (job->kind != AT) {
        RedisModule_ReplyWithArray(ctx, 2);
        RedisModule_ReplyWithLongLong(ctx, (long long)job->stamp_ns);
    }
    if (job->kind == SEVERAL) {
        RedisModule_ReplyWithArray(ctx, commands);
        for (int at = 0; at < job->argc;) {
            RedisModuleString **argv = next_of(job, &at, &argc);
            perform(ctx, SEVERAL, argv, argc);
        }
    } else {
        perform(ctx, job->kind, job->argv, job->argc);
    }
    RedisModule_SetContextUser(ctx, NULL);
}

/* Executes a job, or gives it up, and answers its client. */
static void finish(tt_job *job, const char *given_up) {
    RedisModuleCtx *ctx = RedisModule_GetThreadSafeContext(job->client);
    RedisModuleUser *user = RedisModule_GetModuleUserFromUserName(job->user);
    if (given_up != NULL) RedisModule_ReplyWithError(ctx, given_up);
    else execute(ctx, job, user);
    if (user != NULL) RedisModule_FreeModuleUser(user);
    for (int i = 0; i < job->argc; i++) RedisModule_FreeString(ctx, job->argv[i]);
    RedisModule_FreeString(ctx, job->user);
    RedisModule_FreeThreadSafeContext(ctx);
    RedisModule_UnblockClient(job->client, NULL);
    RedisModule_Free(job);
}

/* The thread that executes what has passed. While the server pauses its writers, as in a failover, nothing is. */
static void *execute_all(void *none) {
    RedisModuleCtx *ctx = RedisModule_GetThreadSafeContext(NULL);
    uint64_t least_ns = 0, clock_ns;
    for (;;) {
        wait_for_first(least_ns);
        RedisModule_ThreadSafeContextLock(ctx);
        tt_reading now;
        tt_job *due;
        int refused = tt_now(&client, &now), many = 0;
        bool is_paused = RedisModule_AvoidReplicaTraffic() != 0;
        if (tt_clock(&clock_ns) != 0) clock_ns = 0;
        while (!is_paused && many++ < MOST_AT_ONCE && (due = take_due(refused, &now, clock_ns)) != NULL) {
            bool is_past = refused == 0 && tt_after(&now, due->stamp_ns);
            finish(due, is_past ? NULL : "TRUETIME the stamp does not pass: the machine is gone, or its readings are wide");
        }
        RedisModule_ThreadSafeContextUnlock(ctx);
        least_ns = is_paused || refused != 0 ? NOT_AGAIN_NS : 0;
    }
    return none;
}

/* The commands. */

static int refuse(RedisModuleCtx *ctx, int refused) {
    char text[160];
    snprintf(text, sizeof text, "TRUETIME %d %s", refused, tt_strerror(refused));
    return RedisModule_ReplyWithError(ctx, text);
}

static RedisModuleString *word_for(RedisModuleString *word, uint64_t stamp_ns) {
    size_t length;
    const char *text = RedisModule_StringPtrLen(word, &length);
    if (length == 6 && memcmp(text, "$STAMP", 6) == 0) return RedisModule_CreateStringFromLongLong(NULL, (long long)stamp_ns);
    return RedisModule_CreateStringFromString(NULL, word);
}

/* Has a client wait for these words at this stamp. */
static int begin(RedisModuleCtx *ctx, enum kind kind, uint64_t stamp_ns, RedisModuleString **argv, int argc) {
    tt_job *new = RedisModule_Alloc(sizeof *new + (size_t)argc * sizeof *argv);
    new->kind = kind;
    new->stamp_ns = stamp_ns;
    if (tt_clock(&new->arrived_ns) != 0) new->arrived_ns = 0;
    new->user = RedisModule_GetCurrentUserName(ctx);
    new->argc = argc;
    for (int i = 0; i < argc; i++) new->argv[i] = word_for(argv[i], stamp_ns);
    new->client = RedisModule_BlockClient(ctx, NULL, NULL, NULL, 0);
    if (!put(new)) finish(new, "TRUETIME the snapshot is over: a later command was executed");
    return REDISMODULE_OK;
}

static bool may_block(RedisModuleCtx *ctx) {
    int never = REDISMODULE_CTX_FLAGS_MULTI | REDISMODULE_CTX_FLAGS_LUA | REDISMODULE_CTX_FLAGS_DENY_BLOCKING;
    if ((RedisModule_GetContextFlags(ctx) & never) == 0) return true;
    RedisModule_ReplyWithError(ctx, "ERR not in MULTI, in a script or in another such command: use TT.MULTI");
    return false;
}

static int begin_stamped(RedisModuleCtx *ctx, enum kind kind, RedisModuleString **argv, int argc) {
    tt_stamp given;
    if (!may_block(ctx)) return REDISMODULE_OK;
    int refused = tt_stamper_stamp(&stamper, 0, &given);
    return refused != 0 ? refuse(ctx, refused) : begin(ctx, kind, given.stamp_ns, argv, argc);
}

/* TT.EXEC command word..: the stamp, and the command's reply. */
static int exec_command(RedisModuleCtx *ctx, RedisModuleString **argv, int argc) {
    return argc < 2 ? RedisModule_WrongArity(ctx) : begin_stamped(ctx, ONE, argv + 1, argc - 1);
}

/* TT.MULTI words command word.. [words command word..]..: the stamp, and the reply of each. */
static int multi_command(RedisModuleCtx *ctx, RedisModuleString **argv, int argc) {
    int at = 1;
    while (at < argc) {
        long long number = 0;
        if (RedisModule_StringToLongLong(argv[at], &number) != REDISMODULE_OK || number < 1 || number >= argc - at)
            return RedisModule_ReplyWithError(ctx, "ERR before each command stands the number of its words");
        at += 1 + (int)number;
    }
    return argc < 3 ? RedisModule_WrongArity(ctx) : begin_stamped(ctx, SEVERAL, argv + 1, argc - 1);
}

/* TT.AT time command word..: the reply of a command that reads, behind all with a stamp up to the time, and before all others. */
static int at_command(RedisModuleCtx *ctx, RedisModuleString **argv, int argc) {
    tt_reading now;
    long long time_ns = 0;
    if (argc < 3) return RedisModule_WrongArity(ctx);
    if (!may_block(ctx)) return REDISMODULE_OK;
    int refused = tt_now(&client, &now);
    if (refused != 0) return refuse(ctx, refused);
    if (RedisModule_StringToLongLong(argv[1], &time_ns) != REDISMODULE_OK || time_ns < 1 || (uint64_t)time_ns > now.latest_ns + TT_AHEAD_NS)
        return RedisModule_ReplyWithError(ctx, "ERR the time has to be a number, and a second ahead at most");
    return begin(ctx, AT, (uint64_t)time_ns, argv + 2, argc - 2);
}

/* TT.NOW: earliest, latest, and 1 if the machine is at work. */
static int now_command(RedisModuleCtx *ctx, RedisModuleString **argv, int argc) {
    tt_reading now;
    (void)argv;
    if (argc != 1) return RedisModule_WrongArity(ctx);
    int refused = tt_now(&client, &now);
    if (refused != 0) return refuse(ctx, refused);
    RedisModule_ReplyWithArray(ctx, 3);
    RedisModule_ReplyWithLongLong(ctx, (long long)now.earliest_ns);
    RedisModule_ReplyWithLongLong(ctx, (long long)now.latest_ns);
    return RedisModule_ReplyWithLongLong(ctx, now.fresh);
}

/* Loading. */

static int open_time(RedisModuleCtx *ctx, RedisModuleString **argv, int argc) {
    uid_t owner;
    long long lo = 0, hi = (long long)TT_MAX_TIME_NS;
    bool is_right = argc == 2 || (argc == 4 && RedisModule_StringToLongLong(argv[2], &lo) == REDISMODULE_OK &&
                                  RedisModule_StringToLongLong(argv[3], &hi) == REDISMODULE_OK && lo >= 0 && hi >= 0);
    if (!is_right) {
        RedisModule_Log(ctx, "warning", "truetime: wanted are the machine's shared file, its owner, and at most a lease: two times");
        return REDISMODULE_ERR;
    }
    if (tt_uid(text_of(argv[1]), &owner) != 0) {
        RedisModule_Log(ctx, "warning", "truetime: there is no user %s", text_of(argv[1]));
        return REDISMODULE_ERR;
    }
    if (tt_open_unmapped(&client, text_of(argv[0]), owner) != 0) {
        RedisModule_Log(ctx, "warning", "truetime: %s: %s", text_of(argv[0]), tt_cause(&client));
        return REDISMODULE_ERR;
    }
    int refused = tt_stamper_open(&stamper, &client, (uint64_t)lo, (uint64_t)hi);
    if (refused != 0) RedisModule_Log(ctx, "warning", "truetime: %s", tt_strerror(refused));
    return refused != 0 ? REDISMODULE_ERR : REDISMODULE_OK;
}

static int start_thread(void) {
    pthread_t thread;
    pthread_condattr_t by_clock;
    if (pthread_condattr_init(&by_clock) != 0) return REDISMODULE_ERR;
    pthread_condattr_setclock(&by_clock, CLOCK_MONOTONIC);
    int error = pthread_cond_init(&queue.changed, &by_clock);
    pthread_condattr_destroy(&by_clock);
    return error == 0 && pthread_create(&thread, NULL, execute_all, NULL) == 0 ? REDISMODULE_OK : REDISMODULE_ERR;
}

int RedisModule_OnLoad(RedisModuleCtx *ctx, RedisModuleString **argv, int argc) {
    if (RedisModule_Init(ctx, "truetime", VERSION, REDISMODULE_APIVER_1) != REDISMODULE_OK) return REDISMODULE_ERR;
    if (open_time(ctx, argv, argc) != REDISMODULE_OK) return REDISMODULE_ERR;
    if (RedisModule_CreateCommand(ctx, "tt.exec", exec_command, "write deny-oom", 0, 0, 0) != REDISMODULE_OK ||
        RedisModule_CreateCommand(ctx, "tt.multi", multi_command, "write deny-oom", 0, 0, 0) != REDISMODULE_OK ||
        RedisModule_CreateCommand(ctx, "tt.at", at_command, "readonly", 0, 0, 0) != REDISMODULE_OK ||
        RedisModule_CreateCommand(ctx, "tt.now", now_command, "readonly fast", 0, 0, 0) != REDISMODULE_OK)
        return REDISMODULE_ERR;
    return start_thread();
}

/* Its thread stays. */
int RedisModule_OnUnload(RedisModuleCtx *ctx) {
    (void)ctx;
    return REDISMODULE_ERR;
}
