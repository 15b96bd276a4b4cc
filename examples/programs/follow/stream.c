#include "stream.h"

#include "errors.h"

#include <string.h>

/* How many entries are read at once. */
#define AT_ONCE "64"

/* Redis runs a script whole. If it refuses the entry, the script ends there, and drops nothing. */
#define ADD_SHORT                                                                                  \
    "local id = redis.call('XADD', KEYS[1], 'NOMKSTREAM', ARGV[1], 'short', ARGV[2]) "             \
    "if id then redis.call('XTRIM', KEYS[1], 'MINID', ARGV[1]) end return id"

/* The field of each kind of entry. */
static const char *const fields[] = { [ENTRY_LEADER] = "leader", [ENTRY_PIECE] = "piece", [ENTRY_SHORT] = "short" };

static struct span span_of(const redisReply *reply)
{
    return (struct span){ reply->str, reply->len };
}

/* Ends the process by what Redis replied in place of entries. */
static _Noreturn void refuse(const struct redis *redis, const char *command, const redisReply *reply)
{
    if (redis_says(reply, "WRONGTYPE")) {
        fail(STATUS_FAULT, "%s: this key of Redis holds something else, and no stream", redis->key);
    }
    redis_refuses(redis, command, reply);
}

/* Reads `EPOCH-SEQUENCE`. */
static bool read_id(struct span text, struct id *id)
{
    const char *dash = memchr(text.at, '-', text.length);

    return dash != NULL && span_number((struct span){ text.at, (size_t)(dash - text.at) }, &id->epoch)
           && span_number((struct span){ dash + 1, text.length - (size_t)(dash - text.at) - 1 }, &id->sequence);
}

/* The kind of the entries that have this field. */
static bool find_kind(struct span field, enum kind *kind)
{
    for (size_t i = 0; i < sizeof fields / sizeof *fields; i++) {
        if (span_is(field, fields[i])) {
            *kind = (enum kind)i;
            return true;
        }
    }
    return false;
}

/* Reads one entry of a reply: an ID, and an array of fields and values. */
static struct entry read_entry(const struct redis *redis, const redisReply *reply)
{
    struct entry entry = { { 0, 0 }, ENTRY_LEADER, { NULL, 0 } };
    const redisReply *pair;

    if (reply->type != REDIS_REPLY_ARRAY || reply->elements != 2 || reply->element[0]->type != REDIS_REPLY_STRING
        || reply->element[1]->type != REDIS_REPLY_ARRAY || !read_id(span_of(reply->element[0]), &entry.id)) {
        fail(STATUS_NETWORK, "redis %s: an entry of %s can't be read", redis->address.name, redis->key);
    }
    pair = reply->element[1];
    if (pair->elements != 2 || !find_kind(span_of(pair->element[0]), &entry.kind)) {
        fail(STATUS_FAULT, "stream %s: entry %s is something else: neither a leader's nor a piece", redis->key,
             id_text(entry.id).at);
    }
    entry.value = span_of(pair->element[1]);
    return entry;
}

/* The entries of a reply to XREAD, which has one stream. NULL: there are none. */
static const redisReply *entries_of(const struct redis *redis, const redisReply *reply)
{
    if (reply->type == REDIS_REPLY_NIL) {
        return NULL;
    }
    if (reply->type != REDIS_REPLY_ARRAY || reply->elements != 1 || reply->element[0]->type != REDIS_REPLY_ARRAY
        || reply->element[0]->elements != 2 || reply->element[0]->element[1]->type != REDIS_REPLY_ARRAY) {
        refuse(redis, "XREAD", reply);
    }
    return reply->element[0]->element[1];
}

size_t stream_read(struct redis *redis, int milliseconds, take_entry *take, void *context)
{
    struct id_text seen = id_text(redis->seen);
    redisReply *reply;
    const redisReply *entries;
    size_t count = 0;

    if (milliseconds == 0) {
        reply = redis_ask(redis, "XREAD COUNT " AT_ONCE " STREAMS %s %s", redis->key, seen.at);
    } else {
        reply = redis_ask(redis, "XREAD COUNT " AT_ONCE " BLOCK %d STREAMS %s %s", milliseconds, redis->key, seen.at);
    }
    entries = entries_of(redis, reply);
    for (; entries != NULL && count < entries->elements; count++) {
        struct entry entry = read_entry(redis, entries->element[count]);

        redis->seen = entry.id;
        take(context, &entry);
    }
    freeReplyObject(reply);
    return count;
}

/* Whether the stream has just this entry. */
static bool has(struct redis *redis, const struct entry *wanted)
{
    struct id_text id = id_text(wanted->id);
    redisReply *reply = redis_ask(redis, "XRANGE %s %s %s", redis->key, id.at, id.at);
    bool found = false;

    if (reply->type != REDIS_REPLY_ARRAY) {
        refuse(redis, "XRANGE", reply);
    }
    if (reply->elements == 1) {
        struct entry entry = read_entry(redis, reply->element[0]);

        found = entry.kind == wanted->kind && entry.value.length == wanted->value.length
                && memcmp(entry.value.at, wanted->value.at, entry.value.length) == 0;
    }
    freeReplyObject(reply);
    return found;
}

/* Sends the command that adds an entry. */
static redisReply *send(struct redis *redis, const struct entry *entry)
{
    struct id_text id = id_text(entry->id);
    struct span value = entry->value;

    if (entry->kind == ENTRY_SHORT) {
        return redis_ask(redis, "EVAL %s 1 %s %s %b", ADD_SHORT, redis->key, id.at, value.at, value.length);
    }
    /* Only the first entry of all makes the stream. */
    return redis_ask(redis, redis->seen.epoch == 0 ? "XADD %s %s %s %b" : "XADD %s NOMKSTREAM %s %s %b", redis->key, id.at,
                     fields[entry->kind], value.at, value.length);
}

bool stream_add(struct redis *redis, const struct entry *entry)
{
    redisReply *reply = send(redis, entry);
    bool added = reply->type == REDIS_REPLY_STRING;

    if (reply->type == REDIS_REPLY_NIL) {
        fail(STATUS_FAULT, "stream %s: it is gone: Redis has lost what it kept", redis->key);
    }
    if (!added && !redis_says(reply, "equal or smaller")) {
        refuse(redis, "XADD", reply);
    }
    freeReplyObject(reply);
    /* If the command was sent twice, Redis refuses the second. */
    added = added || has(redis, entry);
    if (added) {
        redis->seen = entry->id;
    }
    return added;
}
