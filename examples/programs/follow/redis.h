/* A connection to Redis that is made again when it breaks. */
#ifndef FOLLOW_REDIS_H
#define FOLLOW_REDIS_H

#include "address.h"

#include <hiredis.h>

#include <stdbool.h>

/* Where an entry is in a stream: Redis writes it `EPOCH-SEQUENCE`, and orders entries by both. */
struct id {
    uint64_t epoch;
    uint64_t sequence;
};

struct redis {
    redisContext *context;
    struct address address;
    /* The stream's key. */
    const char *key;
    /* The last entry that this process has seen in the stream. After each new connection it has to be there still, or a short
     * journal after it in its place. 0-0: none. */
    struct id seen;
    /* When Redis came back last, by `now`. 0: it wasn't away. */
    int64_t back;
};

/* Connects, and reads Redis's settings. If Redis isn't there, or keeps nothing on disk, the process ends. */
void redis_open(struct redis *redis, const struct address *address, const char *key);

void redis_close(struct redis *redis);

/* Sends a command in the words of hiredis, and returns the reply. Free it by freeReplyObject.
 *
 * If the connection breaks, the call connects again and sends the command again: the first may have been done too. So send only
 * commands of which a second one does no harm. If Redis stays away for half a minute, or lacks the entry `seen`, the process
 * ends. */
redisReply *redis_ask(struct redis *redis, const char *format, ...);

/* Whether an error of Redis has these words in it. */
bool redis_says(const redisReply *reply, const char *words);

/* Ends the process by what Redis replied in place of what was asked. */
_Noreturn void redis_refuses(const struct redis *redis, const char *command, const redisReply *reply);

/* Room for an ID as text. */
struct id_text {
    char at[48];
};

struct id_text id_text(struct id id);

/* Whether an ID is after another. */
bool id_is_behind(struct id id, struct id other);

#endif
