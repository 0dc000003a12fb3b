/* module.h: the calls of Redis' module interface that truetime.c makes, as its documentation has them: its own header is in no package.
 * `make MODULE_H=/path/of/redismodule.h` takes that in place of this one. */
#ifndef TT_MODULE_H
#define TT_MODULE_H

#include <stddef.h>
#include <string.h>

#define REDISMODULE_OK 0
#define REDISMODULE_ERR 1
#define REDISMODULE_APIVER_1 1
#define REDISMODULE_CTX_FLAGS_LUA (1 << 0)
#define REDISMODULE_CTX_FLAGS_MULTI (1 << 1)
#define REDISMODULE_CTX_FLAGS_SLAVE (1 << 3)
#define REDISMODULE_CTX_FLAGS_DENY_BLOCKING (1 << 21)

typedef struct RedisModuleCtx RedisModuleCtx;
typedef struct RedisModuleString RedisModuleString;
typedef struct RedisModuleUser RedisModuleUser;
typedef struct RedisModuleCallReply RedisModuleCallReply;
typedef struct RedisModuleBlockedClient RedisModuleBlockedClient;
typedef int (*RedisModuleCmdFunc)(RedisModuleCtx *ctx, RedisModuleString **argv, int argc);
typedef void (*tt_free_private)(RedisModuleCtx *ctx, void *data);

#define TT_MODULE_CALLS(CALL)                                                                                                          \
    CALL(void *, Alloc, (size_t bytes))                                                                                                \
    CALL(void, Free, (void *what))                                                                                                     \
    CALL(void, Log, (RedisModuleCtx *ctx, const char *level, const char *format, ...))                                                 \
    CALL(void, SetModuleAttribs, (RedisModuleCtx *ctx, const char *name, int version, int api))                                        \
    CALL(int, IsModuleNameBusy, (const char *name))                                                                                    \
    CALL(int, CreateCommand,                                                                                                           \
         (RedisModuleCtx *ctx, const char *name, RedisModuleCmdFunc call, const char *flags, int first, int last, int step))           \
    CALL(int, WrongArity, (RedisModuleCtx *ctx))                                                                                       \
    CALL(int, GetContextFlags, (RedisModuleCtx *ctx))                                                                                  \
    CALL(int, AvoidReplicaTraffic, (void))                                                                                             \
    CALL(const char *, StringPtrLen, (const RedisModuleString *string, size_t *length))                                                \
    CALL(int, StringToLongLong, (const RedisModuleString *string, long long *number))                                                  \
    CALL(RedisModuleString *, CreateStringFromString, (RedisModuleCtx *ctx, const RedisModuleString *string))                          \
    CALL(RedisModuleString *, CreateStringFromLongLong, (RedisModuleCtx *ctx, long long number))                                       \
    CALL(void, FreeString, (RedisModuleCtx *ctx, RedisModuleString *string))                                                           \
    CALL(RedisModuleString *, GetCurrentUserName, (RedisModuleCtx *ctx))                                                               \
    CALL(RedisModuleUser *, GetModuleUserFromUserName, (RedisModuleString *name))                                                      \
    CALL(void, FreeModuleUser, (RedisModuleUser *user))                                                                                \
    CALL(void, SetContextUser, (RedisModuleCtx *ctx, const RedisModuleUser *user))                                                     \
    CALL(int, ACLCheckCommandPermissions, (RedisModuleUser *user, RedisModuleString **argv, int argc))                                 \
    CALL(int *, GetCommandKeys, (RedisModuleCtx *ctx, RedisModuleString **argv, int argc, int *count))                                 \
    CALL(RedisModuleCallReply *, Call, (RedisModuleCtx *ctx, const char *name, const char *format, ...))                               \
    CALL(void, FreeCallReply, (RedisModuleCallReply *reply))                                                                           \
    CALL(int, ReplyWithCallReply, (RedisModuleCtx *ctx, RedisModuleCallReply *reply))                                                  \
    CALL(int, ReplyWithError, (RedisModuleCtx *ctx, const char *error))                                                                \
    CALL(int, ReplyWithArray, (RedisModuleCtx *ctx, long length))                                                                      \
    CALL(int, ReplyWithLongLong, (RedisModuleCtx *ctx, long long number))                                                              \
    CALL(RedisModuleBlockedClient *, BlockClient,                                                                                      \
         (RedisModuleCtx *ctx, RedisModuleCmdFunc reply, RedisModuleCmdFunc timeout, tt_free_private free_private, long long timeout_ms)) \
    CALL(int, UnblockClient, (RedisModuleBlockedClient *client, void *data))                                                           \
    CALL(RedisModuleCtx *, GetThreadSafeContext, (RedisModuleBlockedClient *client))                                                   \
    CALL(void, FreeThreadSafeContext, (RedisModuleCtx *ctx))                                                                           \
    CALL(void, ThreadSafeContextLock, (RedisModuleCtx *ctx))                                                                           \
    CALL(void, ThreadSafeContextUnlock, (RedisModuleCtx *ctx))

#define TT_DECLARE(type, name, words) static type (*RedisModule_##name) words;
TT_MODULE_CALLS(TT_DECLARE)

/* Asks the server for each call. Fails where it lacks one. The server has its asking call in the first word of the context. */
static inline int RedisModule_Init(RedisModuleCtx *ctx, const char *name, int version, int api) {
    int (*get)(const char *, void *);
    memcpy(&get, (void *)ctx, sizeof get);
#define TT_GET(type, call, words) \
    if (get("RedisModule_" #call, (void *)&RedisModule_##call) != REDISMODULE_OK) return REDISMODULE_ERR;
    TT_MODULE_CALLS(TT_GET)
    if (RedisModule_IsModuleNameBusy(name)) return REDISMODULE_ERR;
    RedisModule_SetModuleAttribs(ctx, name, version, api);
    return REDISMODULE_OK;
}

#endif
