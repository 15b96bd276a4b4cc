/* A journal's file, part 11: the new file of an exchange has the text of a short journal, and then the lines of the old file. It
 * is opened empty. Its machine accepts what is written, and the exchange's machine says when it may have the name. */
#ifndef _GNU_SOURCE
#define _GNU_SOURCE
#endif
#include "exchange.h"

#include <errno.h>
#include <sys/mman.h>
#include <unistd.h>

#ifndef MADV_POPULATE_WRITE
#define MADV_POPULATE_WRITE 23
#endif

/* ---- the machines ---- */

bool seryugo_beside_tell(struct seryugo_exchange *exchange, uint64_t position)
{
    uint64_t stored = position - exchange->view.shift, room = atomic_load(&exchange->end) - exchange->view.shift;

    seryugo_tell_room(&exchange->store, room < stored ? stored : room);
    return seryugo_tell_stored(&exchange->store, stored);
}

int seryugo_beside_sync(struct seryugo_exchange *exchange, uint64_t position)
{
    struct seryugo_step step = {SERYUGO_STEP_NOTHING, 0, 0};
    int error;

    if (!seryugo_beside_tell(exchange, position)) {
        return EFBIG;
    }
    (void)seryugo_store_begin(&exchange->store, SERYUGO_WORK_SYNC, 0, &step);
    if (step.kind != SERYUGO_STEP_SYNC) {
        return 0;
    }
    error = fdatasync(exchange->made.fresh.descriptor) == 0 ? 0 : errno;
    (void)seryugo_store_end(&exchange->store, true, error == 0);
    return error;
}

uint32_t seryugo_beside_move(struct seryugo_file *file)
{
    struct seryugo_exchange *exchange = file->exchange;
    struct seryugo_step step = {SERYUGO_STEP_NOTHING, 0, 0};

    (void)seryugo_exchange_begin(&exchange->machine, &file->store, &exchange->store, &step);
    return step.kind;
}

uint64_t seryugo_beside_mark(struct seryugo_file *file, uint32_t mark)
{
    uint64_t place = 0;

    (void)seryugo_exchange_mark(&file->exchange->machine, &file->store, &file->exchange->store, mark, &place);
    return place;
}

/* ---- what it has ---- */

/* Makes and locks the new file, while no fork copies its descriptor. */
static bool make_empty(struct seryugo_file *file)
{
    struct seryugo_exchange *exchange = file->exchange;
    struct seryugo_shorter *made = &exchange->made;
    uint32_t code;

    seryugo_hold_forks();
    exchange->old.descriptor = file->descriptor;
    code = seryugo_make_beside(&exchange->old, made);
    seryugo_let_forks();
    exchange->view.descriptor = made->fresh.descriptor;
    exchange->view.shift = exchange->taken_at - made->length;
    atomic_store(&exchange->end, exchange->view.shift);
    if (code != SERYUGO_DONE || seryugo_mark_beside(&exchange->old, made) != SERYUGO_DONE) {
        return false;
    }
    if (seryugo_exchange_open(exchange->taken_at - file->shift, made->length, &exchange->machine) != SERYUGO_DONE) {
        return seryugo_exchange_fails(exchange, "no memory", 0);
    }
    if (seryugo_mend(&made->fresh, &exchange->store) != SERYUGO_DONE) {
        exchange->store.at = NULL;
        return false;
    }
    return true;
}

/* Writes the text by parts, since only so much may be unsynced. */
static bool put_text(struct seryugo_exchange *exchange)
{
    struct seryugo_shorter *made = &exchange->made;
    const char *text = (const char *)seryugo_bytes_at(&made->text);
    int error = 0;

    for (uint64_t at = 0, part; error == 0 && at < made->length; at += part) {
        part = made->length - at < SERYUGO_UNSYNCED_EARLY ? made->length - at : SERYUGO_UNSYNCED_EARLY;
        error = seryugo_may_reach(at + part) ? seryugo_write_at(made->fresh.descriptor, text + at, part, at) : EFBIG;
        error = error == 0 ? seryugo_beside_sync(exchange, at + part + exchange->view.shift) : error;
    }
    exchange->begun = exchange->copied = exchange->taken_at;
    atomic_store(&exchange->end, exchange->taken_at);
    return error == 0 || seryugo_exchange_fails(exchange, "write the new file", error);
}

/* What was copied is on the disk then. */
static int settle(struct seryugo_exchange *exchange)
{
    int error = seryugo_beside_sync(exchange, exchange->copied);

    exchange->begun = error == 0 ? exchange->copied : exchange->begun;
    return error;
}

/* Copies lines up to what was told. If these are too many to be unsynced, it copies some, and syncs. A file that is mapped has no
 * memory for so many: then there is no room. */
static int copy_part(struct seryugo_file *file, uint64_t told)
{
    struct seryugo_exchange *exchange = file->exchange;
    uint64_t most = exchange->begun + SERYUGO_UNSYNCED_EARLY;
    bool is_part = exchange->view.base == NULL && told > most;
    uint64_t end = is_part ? most : told;
    int error = seryugo_exchange_give_room(file, end + 2 * file->margin);

    error = error == 0 ? seryugo_exchange_copy(file, end) : error;
    return error == 0 && is_part ? settle(exchange) : error;
}

bool seryugo_beside_catch_up(struct seryugo_file *file)
{
    uint64_t told = atomic_load(&file->told);
    int error;

    do {
        error = copy_part(file, told);
        told = atomic_load(&file->told);
    } while (error == 0 && told - file->exchange->copied > SERYUGO_LAST_MOST / 16);
    return error == 0 || seryugo_exchange_fails(file->exchange, "copy lines", error);
}

/* Maps the new file. A first sync takes long, and nobody waits for it. */
static bool map(struct seryugo_file *file)
{
    struct seryugo_exchange *exchange = file->exchange;
    struct seryugo_view *view = &exchange->view;
    int error = settle(exchange);

    if (error != 0) {
        return seryugo_exchange_fails(exchange, "sync the new file", error);
    }
    view->start = (exchange->begun - view->shift) / SERYUGO_PAGE * SERYUGO_PAGE + view->shift;
    if (file->is_mapped && !seryugo_map_view(view, SERYUGO_UNSYNCED_MOST + 2 * SERYUGO_PAGE)) {
        return seryugo_exchange_fails(exchange, "mmap", errno);
    }
    /* What is zeroed in memory is written by the next sync, so that is little. */
    if (view->base != NULL) {
        (void)madvise(view->base, file->segment / 4, MADV_POPULATE_WRITE);
    }
    return true;
}

bool seryugo_beside_make(struct seryugo_file *file)
{
    return make_empty(file) && put_text(file->exchange) && seryugo_beside_catch_up(file) && map(file)
           && seryugo_beside_catch_up(file);
}
