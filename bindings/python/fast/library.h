/* What the library has, as seryugo.h says it, with types that ctypes hands over as addresses. */
#ifndef SERYUGO_FAST_LIBRARY_H
#define SERYUGO_FAST_LIBRARY_H

#include <stdbool.h>
#include <stddef.h>
#include <stdint.h>

/* What a call returns that isn't refused. */
enum code { DONE = 0, NOTHING = 1, PUT = 2, CLOSED = 3, PARKED = 4 };

#define IN_PLACE 78

/* A message that a call hands over. Up to IN_PLACE bytes lie in the struct itself. */
struct message {
    size_t length;
    const char *block;
    void *owner;
    char in_place[IN_PLACE];
};

typedef uint32_t giving_function(void *room, uint64_t seat, uint64_t object, const void *at, size_t length);
typedef uint32_t polling_function(void *room, uint64_t seat, uint64_t object, struct message *message);
typedef uint32_t asking_function(void *room, uint64_t seat, uint64_t object, bool is_again, struct message *message);
typedef uint32_t swapping_function(void *room, uint64_t seat, uint64_t object, const void *at, size_t length, bool is_again,
                                   struct message *message);
typedef uint32_t next_due_function(void *room, uint64_t *seat);
typedef uint32_t withdraw_function(void *room, uint64_t seat);
typedef void release_function(void *owner);

#endif
