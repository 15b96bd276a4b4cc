/* What the programs of this folder share: each tests what a call returns. If there is no memory for a call, the
 * program frees all that it has, and ends with status 5. */
#ifndef CHECKS_H
#define CHECKS_H

#include "seryugo.h"

#include <stdio.h>
#include <stdlib.h>

/* Frees what the program has. Each program has its own. */
static void free_all(void);

/* The call returned this. */
static void returns(uint32_t code, uint32_t expected, int line)
{
    if (code == SERYUGO_NO_MEMORY && expected != SERYUGO_NO_MEMORY) {
        free_all();
        exit(5);
    }
    if (code != expected) {
        fprintf(stderr, "line %d: %u, not %u\n", line, (unsigned)code, (unsigned)expected);
        exit(1);
    }
}

#define RETURNS(expected, call) returns(call, SERYUGO_##expected, __LINE__)

/* A number is this. */
static void is(uint64_t found, uint64_t expected, int line)
{
    if (found != expected) {
        fprintf(stderr, "line %d: found %llu, not %llu\n", line, (unsigned long long)found, (unsigned long long)expected);
        exit(1);
    }
}

#define IS(expected, found) is(found, expected, __LINE__)

/* Closes a handle, if the program has it. */
static void close_one(bool *has, struct seryugo handle)
{
    if (*has) {
        seryugo_close(handle);
    }
    *has = false;
}

/* Frees a message or a text, if the program has it. */
static inline void free_one(bool *has, struct seryugo_bytes bytes)
{
    if (*has) {
        seryugo_bytes_free(bytes);
    }
    *has = false;
}

#endif
