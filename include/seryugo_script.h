/*
 * Scripts of threads, replayed: the static library libcml_script_c.a.
 *
 * A script says what objects there are and which calls each thread makes (docs/FORMATS.md). It is replayed on one thread:
 * the first step in text order that is its thread's next and needn't wait is performed, again and again. What comes of it is
 * a report, the same each time. docs/INSTALL.md says how a program is linked with the library.
 */
#ifndef SERYUGO_SCRIPT_H
#define SERYUGO_SCRIPT_H

#include <stddef.h>
#include <stdint.h>

#ifdef __cplusplus
extern "C" {
#endif

/* What seryugo_replay answers. */
enum seryugo_replay_code {
    /* The script was replayed, or has a fault. `end` says how it ended, and the report is at the buffer's front. */
    SERYUGO_REPLAY_DONE = 0,
    /* The same, but the report is longer than the buffer, which is as it was. `end->length` tells how much room is wanted. */
    SERYUGO_REPLAY_NO_ROOM = 1,
    /* The limit is 0, or above 2^32: nothing was done, and neither the buffer nor `end` was changed. */
    SERYUGO_REPLAY_BAD_LIMIT = 2
};

/* How a replay ended. */
struct seryugo_end {
    /* The exit status of the program `cml`: 0 all steps were performed, 1 it stalled, 2 the script has a fault, 5 there was no
     * memory, 6 the journal met its limit. With 2 and 5 the report is empty. There is no other status: nothing is read from or
     * written to a file, so the statuses of a failed read or write never come. */
    uint32_t status;
    /* The line of the script's fault, from 1; 0 where it has none. */
    uint64_t line;
    /* How many bytes the report has. */
    size_t length;
};

/*
 * Replays `script_length` bytes at `script`, with a journal that takes `limit` entries, and writes the report to the front of
 * `room` bytes at `report`. What lies after the report is as it was.
 *
 * `report` may be null where `room` is 0, which asks for the length alone; `script` where `script_length` is 0, which is a
 * script with a fault. Neither overlaps the other, or `end`.
 */
uint32_t seryugo_replay(const uint8_t *script, size_t script_length, uint64_t limit, uint8_t *report, size_t room,
                        struct seryugo_end *end);

#ifdef __cplusplus
}
#endif

#endif
