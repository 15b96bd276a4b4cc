#include "lease.h"

/* Redis runs a script whole, so that no other command comes between the two of these. */
#define IF_MINE "if redis.call('GET', KEYS[1]) ~= ARGV[1] then return 0 end "

bool lease_take(const struct lease *lease)
{
    struct redis *redis = lease->redis;
    redisReply *reply = redis_ask(redis, "SET %s:lease %s NX PX %d", redis->key, lease->name, lease->milliseconds);
    bool taken = reply->type == REDIS_REPLY_STATUS;

    if (!taken && reply->type != REDIS_REPLY_NIL) {
        redis_refuses(redis, "SET", reply);
    }
    freeReplyObject(reply);
    return taken;
}

/* Frees the reply to a script, and returns whether the lease was this process's. */
static bool was_mine(const struct redis *redis, redisReply *reply)
{
    bool mine = reply->type == REDIS_REPLY_INTEGER && reply->integer == 1;

    if (reply->type != REDIS_REPLY_INTEGER) {
        redis_refuses(redis, "EVAL", reply);
    }
    freeReplyObject(reply);
    return mine;
}

bool lease_renew(const struct lease *lease)
{
    struct redis *redis = lease->redis;

    return was_mine(redis, redis_ask(redis, "EVAL %s 1 %s:lease %s %d", IF_MINE "return redis.call('PEXPIRE', KEYS[1], ARGV[2])",
                                     redis->key, lease->name, lease->milliseconds));
}

void lease_release(const struct lease *lease)
{
    struct redis *redis = lease->redis;

    was_mine(redis, redis_ask(redis, "EVAL %s 1 %s:lease %s", IF_MINE "return redis.call('DEL', KEYS[1])", redis->key,
                              lease->name));
}
