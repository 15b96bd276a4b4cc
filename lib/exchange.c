/* A journal's file, part 8: while callers go on, it is exchanged for a short one, which a thread makes beside. Until the new
 * file has the name, nothing of the old one is changed. Lines are in both files from before that until callers leave the old
 * one. */
#ifndef _GNU_SOURCE
#define _GNU_SOURCE
#endif
#include "exchange.h"

#include <errno.h>
#include <stdio.h>
#include <stdlib.h>
#include <string.h>
#include <sys/mman.h>
#include <unistd.h>

/* Begins with nothing. */
static void begin(struct seryugo_exchange *exchange)
{
    seryugo_begin_shorter(&exchange->old, &exchange->made);
    memset(&exchange->view, 0, sizeof exchange->view);
    exchange->why = NULL;
    exchange->is_over = false;
}

void seryugo_exchange_close_copies(struct seryugo_exchange *exchange)
{
    if (exchange->made.fresh.descriptor >= 0) {
        close(exchange->made.fresh.descriptor);
    }
    close(exchange->old.folder);
    exchange->made.fresh.descriptor = exchange->old.folder = -1;
}

void seryugo_exchange_free(struct seryugo_exchange *exchange)
{
    if (exchange->old.folder >= 0) {
        close(exchange->old.folder);
    }
    free(exchange);
}

void seryugo_file_exchanges(struct seryugo_file *file, struct seryugo_file_exchanges *told)
{
    memset(told, 0, sizeof *told);
    if (*file->alive != 0 && file->exchange != NULL) {
        pthread_mutex_lock(&file->lock);
        *told = file->exchange->told;
        pthread_mutex_unlock(&file->lock);
    }
}

/* ---- stages ---- */

/* Changes the stage and returns true. If a caller has cancelled the exchange, it returns false. */
static bool go_on(struct seryugo_file *file, enum seryugo_stage from, enum seryugo_stage to)
{
    bool is_so;

    pthread_mutex_lock(&file->lock);
    is_so = file->exchange->stage == from;
    if (is_so) {
        seryugo_exchange_set_stage(file, to);
    }
    pthread_mutex_unlock(&file->lock);
    return is_so;
}

bool seryugo_exchange_fails(struct seryugo_exchange *exchange, const char *words, int error)
{
    (void)seryugo_fail(&exchange->made.fresh, words, error);
    return false;
}

/* ---- the new file ---- */

/* Of a state that was taken makes the new file, if that is short. */
static bool make(struct seryugo_file *file)
{
    struct seryugo_exchange *exchange = file->exchange;
    struct seryugo journal = exchange->journal;
    uint64_t length = atomic_load(&file->told) - file->shift;

    exchange->journal.at = NULL;
    exchange->old.chunk = (char *)malloc(SERYUGO_CHUNK);
    if (exchange->old.chunk == NULL) {
        seryugo_close(journal);
        return seryugo_exchange_fails(exchange, "no memory", 0);
    }
    return seryugo_take_text(&journal, &exchange->made) == SERYUGO_DONE
           && length > SERYUGO_TIMES_SHORTER * exchange->made.length && seryugo_beside_make(file);
}

/* ---- its name ---- */

/* Begins to name the new file, if the machine says that it has all that the old one has. Returns false if it has less, or if a caller
 * has left it. */
static bool begin_naming(struct seryugo_file *file)
{
    struct seryugo_exchange *exchange = file->exchange;
    bool is_so = false;

    pthread_mutex_lock(&file->lock);
    if (exchange->stage == SERYUGO_STAGE_BOTH) {
        seryugo_file_catch_up(file);
        is_so = (seryugo_beside_tell(exchange, atomic_load(&file->told)) && seryugo_beside_move(file) == SERYUGO_STEP_RENAME)
                || seryugo_exchange_fails(exchange, "the new file has less than the old one", 0);
        seryugo_exchange_set_stage(file, is_so ? SERYUGO_STAGE_NAMING : SERYUGO_STAGE_FAILED);
    }
    pthread_mutex_unlock(&file->lock);
    return is_so;
}

/* Ends the machine's step, or cancels the exchange. Returns its way. */
static uint64_t end_step(struct seryugo_file *file, enum seryugo_ending ending)
{
    uint64_t way;

    pthread_mutex_lock(&file->lock);
    (void)seryugo_exchange_end(&file->exchange->machine, ending);
    way = seryugo_beside_mark(file, SERYUGO_EXCHANGE_WAY);
    pthread_mutex_unlock(&file->lock);
    return way;
}

/* Returns 0 or errno. After a failure either file may have the name on the disk. */
static int sync_folder(struct seryugo_file *file)
{
    uint64_t way;
    uint32_t step;
    int error = EIO;

    pthread_mutex_lock(&file->lock);
    step = seryugo_beside_move(file);
    pthread_mutex_unlock(&file->lock);
    if (step == SERYUGO_STEP_SYNC_FOLDER) {
        error = fsync(file->exchange->old.folder) == 0 ? 0 : errno;
    }
    way = end_step(file, error == 0 ? SERYUGO_ENDING_DONE : SERYUGO_ENDING_FAILED);
    return error == 0 && way != SERYUGO_WAY_OVER ? EIO : error;
}

/* The new file has the name on the disk, so it is the file that is synced and grows. */
static void go_over(struct seryugo_file *file)
{
    struct seryugo_exchange *exchange = file->exchange;
    struct seryugo store;
    uint64_t synced;
    int descriptor;

    seryugo_hold_forks();
    pthread_mutex_lock(&file->growing);
    pthread_mutex_lock(&file->lock);
    /* A caller who reads what is grown sees that it is wanted. */
    seryugo_exchange_set_stage(file, SERYUGO_STAGE_NAMED);
    synced = seryugo_beside_mark(file, SERYUGO_EXCHANGE_SYNCED) + file->shift;
    descriptor = file->descriptor;
    store = file->store;
    file->descriptor = exchange->made.fresh.descriptor;
    exchange->made.fresh.descriptor = descriptor;
    file->store = exchange->store;
    exchange->store = store;
    file->shift = exchange->view.shift;
    exchange->is_over = true;
    /* Lines that the machine hasn't accepted yet lie in room that callers have made meanwhile. */
    seryugo_tell_room(&file->store, atomic_load(&exchange->end) - file->shift);
    atomic_store(&file->grown, seryugo_mark_of(&file->store, SERYUGO_MARK_GROWN) + file->shift);
    atomic_store(&file->synced, synced);
    exchange->told.done++;
    seryugo_file_ask_locked(file);
    pthread_mutex_unlock(&file->lock);
    pthread_mutex_unlock(&file->growing);
    seryugo_let_forks();
}

static void name(struct seryugo_file *file)
{
    struct seryugo_exchange *exchange = file->exchange;
    int error = seryugo_beside_sync(exchange, atomic_load(&file->told));
    enum seryugo_ending ending;

    if (error != 0) {
        (void)seryugo_exchange_fails(exchange, "sync the new file", error);
        (void)go_on(file, SERYUGO_STAGE_BOTH, SERYUGO_STAGE_FAILED);
        return;
    }
    if (!begin_naming(file)) {
        return;
    }
    ending = seryugo_name_beside(&exchange->old, &exchange->made) == SERYUGO_DONE ? SERYUGO_ENDING_DONE : SERYUGO_ENDING_FAILED;
    if (end_step(file, ending) == SERYUGO_WAY_LEFT) {
        (void)go_on(file, SERYUGO_STAGE_NAMING, SERYUGO_STAGE_FAILED);
        return;
    }
    error = sync_folder(file);
    error = error == 0 ? seryugo_beside_sync(exchange, atomic_load(&file->told)) : error;
    if (error != 0) {
        seryugo_file_lose(file, "sync the new file", error);
        return;
    }
    go_over(file);
}

/* Nothing else is synced meanwhile: what is said to be synced is in both files. */
static void name_held(struct seryugo_file *file)
{
    pthread_mutex_lock(&file->lock);
    seryugo_hold_syncs(file);
    pthread_mutex_unlock(&file->lock);
    name(file);
    pthread_mutex_lock(&file->lock);
    seryugo_let_syncs(file);
    pthread_mutex_unlock(&file->lock);
}

/* ---- the thread ---- */

void seryugo_exchange_look(struct seryugo_file *file)
{
    struct seryugo_exchange *exchange = file->exchange;

    if (exchange != NULL && exchange->stage == SERYUGO_STAGE_NONE
        && atomic_load(&file->told) - file->shift >= exchange->next_try) {
        seryugo_exchange_set_stage(file, SERYUGO_STAGE_TAKE);
    }
}

/* Whether the new file is left, by what the machine says. If it was never opened, it has nothing. */
static bool may_be_removed(struct seryugo_file *file)
{
    return file->exchange->store.at == NULL || end_step(file, SERYUGO_ENDING_CANCELLED) == SERYUGO_WAY_LEFT;
}

/* Frees the new file of an exchange that failed, or else the old one. */
static void free_other(struct seryugo_file *file)
{
    struct seryugo_exchange *exchange = file->exchange;

    if (exchange->view.base != NULL) {
        munmap(exchange->view.base, exchange->view.end - exchange->view.start);
    }
    if (exchange->journal.at != NULL) {
        seryugo_close(exchange->journal);
    }
    if (may_be_removed(file)) {
        seryugo_remove_beside(&exchange->made);
    }
    if (exchange->machine.at != NULL) {
        seryugo_close(exchange->machine);
    }
    if (exchange->store.at != NULL) {
        seryugo_close(exchange->store);
    }
    exchange->journal.at = exchange->machine.at = exchange->store.at = NULL;
    free(exchange->old.chunk);
    exchange->old.chunk = NULL;
    seryugo_hold_forks();
    seryugo_free_shorter(&exchange->made);
    exchange->made.fresh.descriptor = -1;
    seryugo_let_forks();
}

/* Says how it ended, and when the next try is. */
static void clean(struct seryugo_file *file)
{
    struct seryugo_exchange *exchange = file->exchange;
    struct seryugo_file_exchanges *told = &exchange->told;
    const char *words = exchange->why == NULL ? exchange->made.found.words : exchange->why;
    uint64_t length = atomic_load(&file->told) - file->shift, next = (exchange->is_over ? SERYUGO_TIMES_SHORTER : 2) * length;

    free_other(file);
    pthread_mutex_lock(&file->lock);
    if (!exchange->is_over && words[0] != 0) {
        told->failed++;
        told->error = exchange->made.found.error;
        snprintf(told->words, sizeof told->words, "%s", words);
    }
    exchange->next_try = next < exchange->short_from ? exchange->short_from : next;
    begin(exchange);
    seryugo_exchange_set_stage(file, SERYUGO_STAGE_NONE);
    pthread_mutex_unlock(&file->lock);
}

/* Does what is due. Returns false if that is another's. */
static bool step(struct seryugo_file *file, enum seryugo_stage stage)
{
    switch (stage) {
    case SERYUGO_STAGE_MAKE:
        (void)go_on(file, stage, make(file) ? SERYUGO_STAGE_JOIN : SERYUGO_STAGE_CLEAN);
        return true;
    case SERYUGO_STAGE_COPY:
        (void)go_on(file, stage, seryugo_beside_catch_up(file) ? SERYUGO_STAGE_JOIN : SERYUGO_STAGE_CLEAN);
        return true;
    case SERYUGO_STAGE_BOTH:
        name_held(file);
        return true;
    case SERYUGO_STAGE_CLEAN:
        clean(file);
        return true;
    default:
        return false;
    }
}

/* A lost file is never exchanged: nobody knows what it has. */
static void *run(void *given)
{
    struct seryugo_file *file = (struct seryugo_file *)given;

    pthread_mutex_lock(&file->lock);
    while (!file->stops) {
        enum seryugo_stage stage = file->exchange->stage;
        bool is_done;

        pthread_mutex_unlock(&file->lock);
        is_done = !atomic_load(&file->is_lost) && step(file, stage);
        pthread_mutex_lock(&file->lock);
        if (!is_done && stage == file->exchange->stage && !file->stops) {
            pthread_cond_wait(&file->exchange->due, &file->lock);
        }
    }
    pthread_mutex_unlock(&file->lock);
    return NULL;
}

bool seryugo_exchange_new(struct seryugo_file *file, struct seryugo_opening *opening, uint64_t short_from)
{
    struct seryugo_exchange *exchange = (struct seryugo_exchange *)calloc(1, sizeof *exchange);

    if (exchange == NULL) {
        return false;
    }
    exchange->short_from = exchange->next_try = short_from;
    if (opening->found->is_shortened) {
        exchange->next_try = SERYUGO_TIMES_SHORTER * opening->kept;
    } else if (opening->kept >= short_from) {
        /* The opening has tried. */
        exchange->next_try = 2 * opening->kept;
    }
    exchange->old.messages = opening->messages;
    exchange->old.limit = opening->limit;
    exchange->old.is_sealed = opening->is_sealed;
    exchange->old.folder = opening->folder;
    strcpy(exchange->old.name, opening->name);
    begin(exchange);
    opening->folder = -1;
    file->exchange = exchange;
    return pthread_cond_init(&exchange->due, NULL) == 0 && seryugo_start_thread(&exchange->thread, run, file) == 0;
}

void seryugo_exchange_stop(struct seryugo_file *file)
{
    struct seryugo_exchange *exchange = file->exchange;

    if (exchange == NULL) {
        return;
    }
    pthread_mutex_lock(&file->lock);
    file->stops = true;
    pthread_cond_signal(&exchange->due);
    pthread_mutex_unlock(&file->lock);
    pthread_join(exchange->thread, NULL);
    pthread_mutex_lock(&file->lock);
    if (exchange->stage == SERYUGO_STAGE_NAMED) {
        seryugo_exchange_leave_old(file);
    } else if (exchange->stage != SERYUGO_STAGE_NONE) {
        seryugo_exchange_leave_new(file, exchange->why);
    }
    pthread_mutex_unlock(&file->lock);
    if (exchange->stage == SERYUGO_STAGE_CLEAN) {
        clean(file);
    }
}
