#include "names.h"

#include "errors.h"

#include <search.h>
#include <stddef.h>
#include <stdlib.h>
#include <string.h>

/* A name, and the one that was added before it, since a tree of search.h can't be walked while it is freed. */
struct name {
    struct name *before;
    uint64_t variable;
    const char *at;
    char bytes[];
};

static int compare(const void *one, const void *other)
{
    return strcmp(((const struct name *)one)->at, ((const struct name *)other)->at);
}

bool names_find(const struct names *names, const char *name, uint64_t *variable)
{
    struct name wanted = { .at = name };
    struct name *const *found = tfind(&wanted, &names->tree, compare);

    if (found != NULL) {
        *variable = (*found)->variable;
    }
    return found != NULL;
}

bool names_add(struct names *names, const char *name, uint64_t variable)
{
    size_t size = strlen(name) + 1;
    struct name *added = malloc(sizeof *added + size);
    struct name *const *found;

    if (added == NULL) {
        fail(STATUS_MEMORY, "no memory for the name %s", name);
    }
    memcpy(added->bytes, name, size);
    added->at = added->bytes;
    added->variable = variable;
    added->before = names->last;
    found = tsearch(added, &names->tree, compare);
    if (found == NULL) {
        fail(STATUS_MEMORY, "no memory for the name %s", name);
    }
    if (*found != added) {
        free(added);
        return false;
    }
    names->last = added;
    return true;
}

void names_free(struct names *names)
{
    while (names->last != NULL) {
        struct name *name = names->last;

        names->last = name->before;
        tdelete(name, &names->tree, compare);
        free(name);
    }
}
