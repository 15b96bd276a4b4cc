/* What the programs with threads share: each says what doesn't hold, and ends with status 1. */
#ifndef REQUIRE_H
#define REQUIRE_H

#include <stdio.h>
#include <stdlib.h>

/* What takes longer hangs, also on a slow machine. */
#define PATIENCE_IN_MILLISECONDS 1800000

static inline void require(int holds, const char *what)
{
    if (!holds) {
        fprintf(stderr, "not so: %s\n", what);
        exit(1);
    }
}

#endif
