/* A journal's file, part 9: what callers do for an exchange under the room's lock. They take the room's state, store lines in
 * both files, and leave one of them. */
#ifndef _GNU_SOURCE
#define _GNU_SOURCE
#endif
#include "exchange.h"

#include <errno.h>
#include <string.h>

/* ---- stages ---- */

void seryugo_exchange_set_stage(struct seryugo_file *file, enum seryugo_stage stage)
{
    bool is_wanted = stage == SERYUGO_STAGE_TAKE || stage == SERYUGO_STAGE_JOIN || stage == SERYUGO_STAGE_NAMED
                     || stage == SERYUGO_STAGE_FAILED;

    file->exchange->stage = stage;
    atomic_store(&file->is_wanted, is_wanted);
    pthread_cond_signal(&file->exchange->due);
    pthread_cond_broadcast(&file->done);
}

/* ---- lines ---- */

/* Stores lines of a position in the new file. Returns 0 or errno. */
static int put_beside(struct seryugo_file *file, uint64_t at, const void *bytes, uint64_t length)
{
    struct seryugo_exchange *exchange = file->exchange;
    uint64_t place = at - exchange->view.shift;

    if (exchange->view.base != NULL) {
        memcpy(exchange->view.base + (at - exchange->view.start), bytes, length);
        return 0;
    }
    return seryugo_may_reach(place + length) ? seryugo_write_at(exchange->view.descriptor, bytes, length, place) : EFBIG;
}

int seryugo_exchange_copy(struct seryugo_file *file, uint64_t end)
{
    struct seryugo_exchange *exchange = file->exchange;
    int error = 0;

    while (error == 0 && exchange->copied < end) {
        uint64_t rest = end - exchange->copied;
        size_t length = 0, part = rest < SERYUGO_CHUNK ? (size_t)rest : SERYUGO_CHUNK;

        error = seryugo_read_at(file->descriptor, exchange->old.chunk, part, exchange->copied - file->shift, &length);
        /* A file that was cut by others has a 0 there, or nothing. */
        if (error == 0 && (length != part || memchr(exchange->old.chunk, 0, part) != NULL)) {
            error = EIO;
        }
        error = error == 0 ? put_beside(file, exchange->copied, exchange->old.chunk, length) : error;
        exchange->copied += error == 0 ? length : 0;
    }
    return error;
}

/* What the machine hears at once may be no more than what is unsynced at most. */
int seryugo_exchange_give_room(struct seryugo_file *file, uint64_t need)
{
    struct seryugo_exchange *exchange = file->exchange;
    uint64_t end = atomic_load(&exchange->end), wanted = need + file->segment;
    int error;

    if (need <= end) {
        return 0;
    }
    if (wanted - exchange->begun > SERYUGO_UNSYNCED_MOST) {
        return EAGAIN;
    }
    error = seryugo_allocate(exchange->view.descriptor, end - exchange->view.shift, wanted - exchange->view.shift);
    if (!file->is_mapped && (error == EOPNOTSUPP || error == ENOSYS)) {
        error = 0;
    }
    if (error == 0) {
        atomic_store(&exchange->end, wanted);
    }
    return error;
}

/* ---- the callers' part ---- */

/* The short journal has what all entries leave that are stored. It is made without the file's lock. */
static void take_state(struct seryugo_file *file, struct seryugo *room)
{
    struct seryugo_exchange *exchange = file->exchange;
    uint64_t count = 0;
    uint32_t code;

    seryugo_exchange_set_stage(file, SERYUGO_STAGE_TAKING);
    pthread_mutex_unlock(&file->lock);
    exchange->taken_at = file->stored;
    code = seryugo_compact(room, &exchange->journal, &count);
    exchange->entries_shift = file->next - count;
    pthread_mutex_lock(&file->lock);
    if (code != SERYUGO_DONE) {
        exchange->journal.at = NULL;
        exchange->why = "no memory";
    }
    seryugo_exchange_set_stage(file, code == SERYUGO_DONE ? SERYUGO_STAGE_MAKE : SERYUGO_STAGE_CLEAN);
}

/* From here on each line is stored in both files. */
static void store_in_both(struct seryugo_file *file)
{
    struct seryugo_exchange *exchange = file->exchange;
    uint64_t end = atomic_load(&exchange->end);

    if (file->stored - exchange->copied > SERYUGO_LAST_MOST || file->stored + file->margin > end) {
        seryugo_exchange_set_stage(file, SERYUGO_STAGE_COPY);
    } else if (seryugo_exchange_copy(file, file->stored) != 0) {
        exchange->why = "copy lines";
        seryugo_exchange_set_stage(file, SERYUGO_STAGE_CLEAN);
    } else {
        file->is_double = true;
        file->bound = file->bound < end ? file->bound : end;
        seryugo_exchange_set_stage(file, SERYUGO_STAGE_BOTH);
    }
}

/* How far lines may reach in the new file, the next call finds out. */
void seryugo_exchange_leave_old(struct seryugo_file *file)
{
    struct seryugo_view old = file->view;

    file->view = file->exchange->view;
    file->exchange->view = old;
    file->bound = file->stored;
    file->is_double = false;
    seryugo_seal_begin(file, file->exchange->entries_shift);
    seryugo_exchange_set_stage(file, SERYUGO_STAGE_CLEAN);
}

void seryugo_exchange_leave_new(struct seryugo_file *file, const char *why)
{
    file->exchange->why = why;
    file->is_double = false;
    seryugo_exchange_set_stage(file, SERYUGO_STAGE_CLEAN);
}

void seryugo_exchange_join(struct seryugo_file *file, struct seryugo *room)
{
    int state = 0;

    pthread_setcancelstate(PTHREAD_CANCEL_DISABLE, &state);
    pthread_mutex_lock(&file->lock);
    switch (file->exchange->stage) {
    case SERYUGO_STAGE_TAKE:
        take_state(file, room);
        break;
    case SERYUGO_STAGE_JOIN:
        store_in_both(file);
        break;
    case SERYUGO_STAGE_NAMED:
        seryugo_exchange_leave_old(file);
        break;
    case SERYUGO_STAGE_FAILED:
        seryugo_exchange_leave_new(file, NULL);
        break;
    default:
        break;
    }
    pthread_mutex_unlock(&file->lock);
    pthread_setcancelstate(state, &state);
}

/* Whether a caller without room waits: for the new file's name, or for a sync, which the thread makes before that. */
static bool is_soon_over(const struct seryugo_exchange *exchange, int error)
{
    return error != 0 && (exchange->stage == SERYUGO_STAGE_NAMING || (exchange->stage == SERYUGO_STAGE_BOTH && error == EAGAIN));
}

void seryugo_exchange_make_way(struct seryugo_file *file, uint64_t need)
{
    struct seryugo_exchange *exchange = file->exchange;
    int error = seryugo_exchange_give_room(file, need);

    pthread_mutex_lock(&file->lock);
    while (is_soon_over(exchange, error) && !atomic_load(&file->is_lost)) {
        pthread_cond_wait(&file->done, &file->lock);
    }
    if (exchange->stage == SERYUGO_STAGE_NAMED) {
        seryugo_exchange_leave_old(file);
    } else if (exchange->stage == SERYUGO_STAGE_FAILED) {
        seryugo_exchange_leave_new(file, NULL);
    } else if (exchange->stage == SERYUGO_STAGE_BOTH && error != 0) {
        seryugo_exchange_leave_new(file, SERYUGO_NO_ROOM);
    }
    pthread_mutex_unlock(&file->lock);
}

uint32_t seryugo_exchange_store(struct seryugo_file *file, const uint8_t *lines, uint64_t length)
{
    int error = put_beside(file, file->stored, lines, length);
    bool is_named = false;

    if (error == 0) {
        return SERYUGO_DONE;
    }
    pthread_mutex_lock(&file->lock);
    is_named = file->exchange->stage == SERYUGO_STAGE_NAMING || file->exchange->stage == SERYUGO_STAGE_NAMED;
    if (!is_named) {
        seryugo_exchange_leave_new(file, "write the new file");
    }
    pthread_mutex_unlock(&file->lock);
    if (is_named) {
        seryugo_file_lose(file, "pwrite", error);
    }
    return is_named ? SERYUGO_FILE_LOST : SERYUGO_DONE;
}
