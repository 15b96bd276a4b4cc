/* The objects of the room by the texts of their m-variables: `queue letters` or `client 7`. */
#ifndef FOLLOW_NAMES_H
#define FOLLOW_NAMES_H

#include <stdbool.h>
#include <stdint.h>

struct name;

/* All names. Without any it is all zeros. */
struct names {
    void *tree;
    struct name *last;
};

/* Writes the number of the m-variable that has this name. */
bool names_find(const struct names *names, const char *name, uint64_t *variable);

/* Adds a name. Returns false if it is there. If there is no memory, the process ends. */
bool names_add(struct names *names, const char *name, uint64_t variable);

void names_free(struct names *names);

#endif
