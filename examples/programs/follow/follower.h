/* Reads the stream, checks each piece, and leads once no other process does. */
#ifndef FOLLOW_FOLLOWER_H
#define FOLLOW_FOLLOWER_H

#include "lease.h"
#include "stream.h"

#include <seryugo.h>

struct follower {
    struct redis *redis;
    /* What was read of the journal: the room that is to be restored. */
    struct seryugo reading;
    /* The epoch of the last leader's entry. 0: there is none yet. */
    uint64_t epoch;
    /* The last entry that was taken. 0-0: none. */
    struct id last;
    /* Whether it prints who leads: not of the leaders before it started. */
    bool tells_leaders;
};

void follower_open(struct follower *follower, struct redis *redis);

/* Follows until this process leads, and sets `epoch`. All entries of earlier leaders are read then, and Redis refuses any more of
 * theirs. Returns false if the process is to stop. If a piece isn't lawful or isn't the next one, the process ends. So it does if a
 * short journal isn't what the pieces before it leave, and all of them were read. */
bool follower_wait(struct follower *follower, const struct lease *lease, uint64_t *epoch);

void follower_close(struct follower *follower);

#endif
