/* The stream in Redis that keeps the journal. Each entry has one field: `leader` with a leader's name, `piece` with a piece of the
 * journal, or `short` with a short journal in place of all before, which are gone then. A leader's first entry is `EPOCH-1`, and
 * its pieces are `EPOCH-2`, `EPOCH-3` and so on. Redis refuses an entry whose ID isn't after the last one. So once a leader has
 * added its first entry, no earlier leader adds any more, and none drops any. */
#ifndef FOLLOW_STREAM_H
#define FOLLOW_STREAM_H

#include "redis.h"
#include "text.h"

enum kind { ENTRY_LEADER, ENTRY_PIECE, ENTRY_SHORT };

/* An entry. Its value is good until the call that gave it returns. */
struct entry {
    struct id id;
    enum kind kind;
    struct span value;
};

/* What is done with each entry that is read. */
typedef void take_entry(void *context, const struct entry *entry);

/* Reads the entries after `redis->seen`, in order, and sets `redis->seen` to each before it is taken. Returns how many; after
 * `milliseconds` without any it returns 0. 0 milliseconds: it doesn't wait. If the key holds something else, or an entry is none
 * of the three kinds, the process ends. */
size_t stream_read(struct redis *redis, int milliseconds, take_entry *take, void *context);

/* Adds an entry, and waits until Redis has acknowledged it. The entry is in the stream once, also if the connection broke and the
 * command was sent again. A short journal drops all entries before it at the same moment. Returns false if Redis refuses the ID:
 * another entry with this ID or one after it is there. Then none is dropped. */
bool stream_add(struct redis *redis, const struct entry *entry);

#endif
