/* A journal's file, part 6: a file that was judged is gone on with, by the steps of the machine. */
#ifndef _GNU_SOURCE
#define _GNU_SOURCE
#endif
#include "open.h"

#include <errno.h>
#include <unistd.h>

/* Writes kept bytes again as they are: an earlier sync may have failed, and left bytes in memory alone. Then the new lines, if the
 * step reaches so far. */
static int write_again(struct seryugo_opening *opening, const struct seryugo_step *step)
{
    uint64_t kept = opening->kept;
    size_t length = 0;

    for (uint64_t at = step->from; at < kept; at += length) {
        size_t part = kept - at < SERYUGO_CHUNK ? (size_t)(kept - at) : SERYUGO_CHUNK;
        int error = seryugo_read_at(opening->descriptor, opening->chunk, part, at, &length);

        if (error != 0 || length == 0) {
            return error == 0 ? EIO : error;
        }
        error = seryugo_may_reach(at + length) ? seryugo_write_at(opening->descriptor, opening->chunk, length, at) : EFBIG;
        if (error != 0) {
            return error;
        }
    }
    if (step->to == kept) {
        return 0;
    }
    return seryugo_may_reach(step->to) ? seryugo_write_at(opening->descriptor, opening->more, opening->more_length, kept) : EFBIG;
}

static int do_step(struct seryugo_opening *opening, const struct seryugo_step *step)
{
    int failure = 0;

    switch (step->kind) {
    case SERYUGO_STEP_CUT:
        do {
            failure = ftruncate(opening->descriptor, (off_t)step->to);
        } while (failure != 0 && errno == EINTR);
        break;
    case SERYUGO_STEP_GROW:
        failure = seryugo_allocate(opening->descriptor, opening->kept, step->to);
        /* Where room can't be had ahead, pwrite(2) makes it. */
        return failure == EOPNOTSUPP || failure == ENOSYS ? 0 : failure;
    case SERYUGO_STEP_STORE:
        return write_again(opening, step);
    case SERYUGO_STEP_SYNC:
        failure = fsync(opening->descriptor);
        break;
    default:
        failure = fsync(opening->folder);
        break;
    }
    return failure == 0 ? 0 : errno;
}

/* The machine's next step, for the bytes or else a sync. */
static bool next_step(struct seryugo *store, struct seryugo_step *step, bool *is_sync)
{
    *is_sync = false;
    (void)seryugo_store_begin(store, SERYUGO_WORK_BYTES, 0, step);
    if (step->kind == SERYUGO_STEP_NOTHING) {
        *is_sync = true;
        (void)seryugo_store_begin(store, SERYUGO_WORK_SYNC, 0, step);
    }
    return step->kind != SERYUGO_STEP_NOTHING;
}

static uint32_t do_as_asked(struct seryugo_opening *opening, struct seryugo *store, struct seryugo_step *step, bool is_sync)
{
    static const char *const words[] = {"", "cut the file", "give the file room", "write the file", "sync the file", "sync the folder"};
    int error = do_step(opening, step);

    (void)seryugo_store_end(store, is_sync, error == 0);
    return error == 0 ? (uint32_t)SERYUGO_DONE : seryugo_fail(opening, words[step->kind], error);
}

/* Does the machine's steps until it asks for none: what is in the file is on the disk then, and so is its name. */
static uint32_t do_all(struct seryugo_opening *opening, struct seryugo *store)
{
    struct seryugo_step step = {SERYUGO_STEP_NOTHING, 0, 0};
    uint32_t code = SERYUGO_DONE;
    bool is_sync = false;

    while (code == SERYUGO_DONE && next_step(store, &step, &is_sync)) {
        code = do_as_asked(opening, store, &step, is_sync);
    }
    return code;
}

/* Adds the new lines to a file that is open, with room for just these. */
static uint32_t add_more(struct seryugo_opening *opening, struct seryugo *store)
{
    struct seryugo_step step = {SERYUGO_STEP_NOTHING, 0, 0};
    uint32_t code = SERYUGO_DONE;

    (void)seryugo_store_begin(store, SERYUGO_WORK_ROOM, opening->kept + opening->more_length, &step);
    if (step.kind != SERYUGO_STEP_NOTHING) {
        code = do_as_asked(opening, store, &step, false);
    }
    if (code == SERYUGO_DONE && seryugo_store_accept(store, opening->more_length) != SERYUGO_DONE) {
        code = seryugo_fail(opening, "accept the new lines", EFBIG);
    }
    return code == SERYUGO_DONE ? do_all(opening, store) : code;
}

/* Cuts, writes again, syncs, and syncs the folder. Only then the file is open, and lines are added. */
uint32_t seryugo_mend(struct seryugo_opening *opening, struct seryugo *store)
{
    uint32_t code = seryugo_store_open(opening->kept, opening->length, store);

    if (code != SERYUGO_DONE) {
        return seryugo_refuse(opening, code, "no memory", 0);
    }
    code = do_all(opening, store);
    if (code == SERYUGO_DONE && opening->more_length != 0) {
        code = add_more(opening, store);
    }
    if (code != SERYUGO_DONE) {
        seryugo_close(*store);
    }
    return code;
}
