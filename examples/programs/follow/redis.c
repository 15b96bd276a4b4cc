#include "redis.h"

#include "errors.h"

#include <inttypes.h>
#include <stdarg.h>
#include <stdio.h>
#include <string.h>

/* Milliseconds for a new connection, for an answer, between two tries, and until Redis has to be back. */
#define CONNECT_TIME 1000
#define ANSWER_TIME 5000
#define TRY_TIME 50
#define AWAY_TIME 30000

static struct timeval time_of(int milliseconds)
{
    return (struct timeval){ milliseconds / 1000, milliseconds % 1000 * 1000 };
}

/* Why there is no connection, for the error's words. */
static char why[256];

static void because(const char *words)
{
    snprintf(why, sizeof why, "%s", words);
}

static void disconnect(struct redis *redis)
{
    if (redis->context != NULL) {
        redisFree(redis->context);
    }
    redis->context = NULL;
}

/* A command without a reply had no memory, or the connection broke. */
static void require_memory(const struct redis *redis)
{
    if (redis->context->err == REDIS_ERR_OOM) {
        fail(STATUS_MEMORY, "no memory for a command to Redis");
    }
}

/* Whether Redis answers: while it loads its file it refuses each command. */
static bool is_ready(struct redis *redis)
{
    redisReply *reply = redisCommand(redis->context, "PING");
    bool ready = reply != NULL && reply->type == REDIS_REPLY_STATUS;

    if (reply == NULL) {
        require_memory(redis);
        because(redis->context->errstr);
    } else if (!ready) {
        because(reply->type == REDIS_REPLY_ERROR ? reply->str : "it doesn't answer a PING");
    }
    freeReplyObject(reply);
    return ready;
}

static bool connect_once(struct redis *redis)
{
    redis->context = redisConnectWithTimeout(redis->address.host, redis->address.port, time_of(CONNECT_TIME));
    if (redis->context == NULL) {
        fail(STATUS_MEMORY, "no memory for a connection to Redis");
    }
    if (redis->context->err != 0 || redisSetTimeout(redis->context, time_of(ANSWER_TIME)) != REDIS_OK) {
        because(redis->context->errstr);
    } else if (is_ready(redis)) {
        return true;
    }
    disconnect(redis);
    return false;
}

/* Whether a reply to XRANGE has no entry, or one with this field. NULL: the connection broke again, and the next one is tested. */
static bool has_none(const redisReply *reply)
{
    return reply == NULL || (reply->type == REDIS_REPLY_ARRAY && reply->elements == 0);
}

static bool has_field(const redisReply *reply, const char *field)
{
    const redisReply *pair;

    if (reply == NULL) {
        return true;
    }
    if (reply->type != REDIS_REPLY_ARRAY || reply->elements != 1 || reply->element[0]->elements != 2) {
        return false;
    }
    pair = reply->element[0]->element[1];
    return pair->elements == 2 && strcmp(pair->element[0]->str, field) == 0;
}

/* Whether all entries up to this one were dropped for a short journal, with which the stream begins. */
static bool was_dropped(const struct redis *redis, const struct id_text *seen)
{
    redisReply *before = redisCommand(redis->context, "XRANGE %s - %s COUNT 1", redis->key, seen->at);
    redisReply *first = before == NULL ? NULL : redisCommand(redis->context, "XRANGE %s - + COUNT 1", redis->key);
    bool dropped = has_none(before) && has_field(first, "short");

    freeReplyObject(before);
    freeReplyObject(first);
    return dropped;
}

/* Whether the last entry that was seen is there, or a short journal in its place. */
static void require_seen(struct redis *redis)
{
    struct id_text seen = id_text(redis->seen);
    redisReply *reply;

    if (redis->seen.epoch == 0) {
        return;
    }
    reply = redisCommand(redis->context, "XRANGE %s %s %s", redis->key, seen.at, seen.at);
    if (reply != NULL && (reply->type != REDIS_REPLY_ARRAY || reply->elements != 1) && !was_dropped(redis, &seen)) {
        fail(STATUS_FAULT, "stream %s: entry %s is gone: Redis has lost what it kept", redis->key, seen.at);
    }
    freeReplyObject(reply);
}

/* Ends the process if it is to stop, or if Redis had to be back by this time. */
static void require_time(const struct redis *redis, int64_t until)
{
    if (is_stopping) {
        fail(STATUS_NETWORK, "redis %s: stopped while it was away", redis->address.name);
    }
    if (now() > until) {
        fail(STATUS_NETWORK, "redis %s: away for too long: %s", redis->address.name, why);
    }
}

static void connect_again(struct redis *redis, int64_t until)
{
    require_memory(redis);
    because(redis->context->errstr);
    disconnect(redis);
    require_time(redis, until);
    while (!connect_once(redis)) {
        require_time(redis, until);
        sleep_for(TRY_TIME);
    }
    redis->back = now();
    require_seen(redis);
}

redisReply *redis_ask(struct redis *redis, const char *format, ...)
{
    int64_t until = now() + AWAY_TIME;

    for (;;) {
        redisReply *reply;
        va_list words;

        va_start(words, format);
        reply = redisvCommand(redis->context, format, words);
        va_end(words);
        if (reply != NULL) {
            return reply;
        }
        connect_again(redis, until);
    }
}

/* Ends the process unless a setting has this value. A Redis that doesn't tell its settings is trusted, with a warning. */
static void require_setting(struct redis *redis, const char *name, const char *value)
{
    redisReply *reply = redis_ask(redis, "CONFIG GET %s", name);

    if (reply->type != REDIS_REPLY_ARRAY || reply->elements != 2) {
        fprintf(stderr, "follow: redis %s: doesn't tell its %s, so check that it is %s\n", redis->address.name, name, value);
    } else if (strcmp(reply->element[1]->str, value) != 0) {
        fail(STATUS_FAULT, "redis %s: %s is %s, not %s: what it acknowledges may be lost", redis->address.name, name,
             reply->element[1]->str, value);
    }
    freeReplyObject(reply);
}

void redis_open(struct redis *redis, const struct address *address, const char *key)
{
    memset(redis, 0, sizeof *redis);
    redis->address = *address;
    redis->key = key;
    if (!connect_once(redis)) {
        fail(STATUS_NETWORK, "redis %s: %s", address->name, why);
    }
    require_setting(redis, "appendonly", "yes");
    require_setting(redis, "appendfsync", "always");
}

void redis_close(struct redis *redis)
{
    disconnect(redis);
}

bool redis_says(const redisReply *reply, const char *words)
{
    return reply->type == REDIS_REPLY_ERROR && strstr(reply->str, words) != NULL;
}

void redis_refuses(const struct redis *redis, const char *command, const redisReply *reply)
{
    fail(STATUS_NETWORK, "redis %s: %s: %s", redis->address.name, command,
         reply->type == REDIS_REPLY_ERROR ? reply->str : "an answer of another kind");
}

struct id_text id_text(struct id id)
{
    struct id_text text;

    snprintf(text.at, sizeof text.at, "%" PRIu64 "-%" PRIu64, id.epoch, id.sequence);
    return text;
}

bool id_is_behind(struct id id, struct id other)
{
    return id.epoch > other.epoch || (id.epoch == other.epoch && id.sequence > other.sequence);
}
