/* The lease: a key of Redis that a leader renews, and that expires if it doesn't. It says when a follower tries to lead. It isn't
 * what keeps two leaders apart: for that see stream.h. */
#ifndef FOLLOW_LEASE_H
#define FOLLOW_LEASE_H

#include "redis.h"

struct lease {
    struct redis *redis;
    /* The name of this process, which no other has. */
    const char *name;
    /* After this many milliseconds without a renewal the lease is free. */
    int milliseconds;
};

/* Takes the lease if it is free. */
bool lease_take(const struct lease *lease);

/* Renews the lease. Returns false if it isn't this process's any more. */
bool lease_renew(const struct lease *lease);

/* Frees the lease if it is this process's. */
void lease_release(const struct lease *lease);

#endif
