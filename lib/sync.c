/* A journal's file, part 7: threads wait until what they rest on is on the disk. One of them makes the sync, and the others wait
 * for the next one, which counts for all that was told before it begins. */
#ifndef _GNU_SOURCE
#define _GNU_SOURCE
#endif
#include "file.h"

#include <errno.h>
#include <limits.h>
#include <linux/futex.h>
#include <sys/syscall.h>
#include <unistd.h>

/* ---- who sleeps ---- */

/* Threads sleep in a round, which the end of a sync ends. The sync that is under way counts for one group of them. The other group
 * needs the next sync, and sleeps on. */
static uint32_t group_of(uint32_t round) { return (uint32_t)1 << (round & 1); }

/* Sleeps, unless the round is over. A thread that wakes asks again whether its wait is over. */
static void sleep_in(struct seryugo_file *file, uint32_t round, uint32_t group)
{
    syscall(SYS_futex, &file->round, FUTEX_WAIT_BITSET_PRIVATE, round, NULL, NULL, group);
}

static void wake(struct seryugo_file *file, int most, uint32_t groups)
{
    syscall(SYS_futex, &file->round, FUTEX_WAKE_BITSET_PRIVATE, most, NULL, NULL, groups);
}

/* Needs the lock. */
static uint32_t end_round(struct seryugo_file *file)
{
    pthread_cond_broadcast(&file->done);
    return atomic_fetch_add(&file->round, 1);
}

void seryugo_file_wake_all(struct seryugo_file *file)
{
    (void)end_round(file);
    wake(file, INT_MAX, FUTEX_BITSET_MATCH_ANY);
}

/* Another sync may be made. Needs the lock. */
static void end_syncing(struct seryugo_file *file)
{
    atomic_store(&file->is_syncing, false);
    if (file->waiters != NULL) {
        seryugo_file_ask_locked(file);
    }
}

void seryugo_hold_syncs(struct seryugo_file *file)
{
    while (atomic_load(&file->is_syncing)) {
        pthread_cond_wait(&file->done, &file->lock);
    }
    atomic_store(&file->is_syncing, true);
}

void seryugo_let_syncs(struct seryugo_file *file)
{
    end_syncing(file);
    seryugo_file_wake_all(file);
}

/* ---- one sync ---- */

/* Whether what was synced still has its last line end. A file that was cut and has grown since has a 0 there. */
static bool has_line_end(const struct seryugo_file *file, uint64_t synced)
{
    char last = 0;
    size_t length = 0;

    return seryugo_read_at(file->descriptor, &last, 1, synced - file->shift - 1, &length) == 0 && length == 1 && last == '\n';
}

void seryugo_block_signals(sigset_t *before)
{
    sigset_t blocked;

    sigfillset(&blocked);
    sigdelset(&blocked, SIGBUS);
    sigdelset(&blocked, SIGSEGV);
    pthread_sigmask(SIG_SETMASK, &blocked, before);
}

/* A signal's handler would interrupt the sync, and then nobody knows what is on the disk. Returns 0 or errno. */
static int sync_uninterrupted(int descriptor)
{
    sigset_t before;
    int error;

    seryugo_block_signals(&before);
    error = fdatasync(descriptor) == 0 ? 0 : errno;
    pthread_sigmask(SIG_SETMASK, &before, NULL);
    return error;
}

/* Makes a sync, whose step was begun. A sync that fails is never made again: the system may have forgotten what it couldn't write.
 * Needs the lock, and gives it back meanwhile. */
static void make_sync(struct seryugo_file *file)
{
    uint64_t synced = seryugo_mark_of(&file->store, SERYUGO_MARK_SYNCED) + file->shift;
    int error;

    /* Who sees that a sync is under way finds out for whom it counts. */
    atomic_store(&file->counts_to, seryugo_mark_of(&file->store, SERYUGO_MARK_STORED) + file->shift);
    atomic_store(&file->is_syncing, true);
    pthread_mutex_unlock(&file->lock);
    error = sync_uninterrupted(file->descriptor);
    pthread_mutex_lock(&file->lock);
    if (error != 0) {
        seryugo_file_lose_locked(file, "fdatasync", error);
    } else if (!seryugo_file_is_whole(file) || !has_line_end(file, synced)) {
        seryugo_file_lose_locked(file, "the file was cut by others", 0);
    }
    (void)seryugo_store_end(&file->store, true, !atomic_load(&file->is_lost));
    atomic_store(&file->synced, seryugo_mark_of(&file->store, SERYUGO_MARK_SYNCED) + file->shift);
}

/* Ends a sync, and wakes those for whom it counted, and one of the others to make the next sync. Needs the lock, and gives it
 * back: who is woken meets no lock that this thread has. */
static void end_sync(struct seryugo_file *file)
{
    uint32_t round;

    end_syncing(file);
    round = end_round(file);
    pthread_mutex_unlock(&file->lock);
    wake(file, 1, group_of(round + 1));
    wake(file, INT_MAX, group_of(round));
}

/* Syncs. Returns false if another thread does, grows the file or exchanges it: that thread wakes the others at its end. */
static bool sync_once(struct seryugo_file *file)
{
    pthread_mutex_lock(&file->lock);
    if (atomic_load(&file->is_syncing) || seryugo_file_begin(file, SERYUGO_WORK_SYNC, 0).kind != SERYUGO_STEP_SYNC) {
        pthread_mutex_unlock(&file->lock);
        return atomic_load(&file->is_lost);
    }
    make_sync(file);
    end_sync(file);
    return true;
}

/* ---- threads that wait ---- */

static bool is_settled(struct seryugo_file *file, uint64_t position)
{
    return atomic_load(&file->synced) >= position || atomic_load(&file->is_lost);
}

/* What is read of a sync after the round is true of that round, or the round is over. */
static void wait_until_settled(struct seryugo_file *file, uint64_t position)
{
    while (!is_settled(file, position)) {
        uint32_t round = atomic_load(&file->round);

        if (atomic_load(&file->is_syncing) || !sync_once(file)) {
            sleep_in(file, round, group_of(position <= atomic_load(&file->counts_to) ? round : round + 1));
        }
    }
}

void seryugo_file_try_sync(struct seryugo_file *file)
{
    if (!is_settled(file, atomic_load(&file->told))) {
        (void)sync_once(file);
    }
}

/* The code of a wait for this position, if that need not begin. SERYUGO_PARKED: it has to. */
static uint32_t code_of(struct seryugo_file *file, uint64_t position)
{
    if (*file->alive == 0) {
        return SERYUGO_FORKED;
    }
    if (is_settled(file, position)) {
        return atomic_load(&file->is_lost) ? SERYUGO_FILE_LOST : SERYUGO_DONE;
    }
    return position > atomic_load(&file->told) ? (uint32_t)SERYUGO_OUT_OF_BOUNDS : (uint32_t)SERYUGO_PARKED;
}

uint64_t seryugo_file_position(const struct seryugo_file *file)
{
    return file->keep == SERYUGO_KEEP_DISK ? atomic_load(&file->told) : 0;
}

uint32_t seryugo_file_wait(struct seryugo_file *file, uint64_t position)
{
    uint32_t code = code_of(file, position);
    int state = 0;

    if (code != SERYUGO_PARKED) {
        return code;
    }
    /* A thread that is cancelled here would leave the lock locked. */
    pthread_setcancelstate(PTHREAD_CANCEL_DISABLE, &state);
    wait_until_settled(file, position);
    pthread_setcancelstate(state, &state);
    return code_of(file, position);
}

uint32_t seryugo_file_sync(struct seryugo_file *file) { return seryugo_file_wait(file, atomic_load(&file->told)); }

/* ---- those who are told ---- */

uint32_t seryugo_file_when(struct seryugo_file *file, struct seryugo_file_waiter *waiter)
{
    uint32_t code = code_of(file, waiter->position);
    int state = 0;

    if (code != SERYUGO_PARKED) {
        return code;
    }
    pthread_setcancelstate(PTHREAD_CANCEL_DISABLE, &state);
    pthread_mutex_lock(&file->lock);
    code = code_of(file, waiter->position);
    if (code == SERYUGO_PARKED) {
        waiter->following = file->waiters;
        file->waiters = waiter;
        seryugo_file_ask_locked(file);
    }
    pthread_mutex_unlock(&file->lock);
    pthread_setcancelstate(state, &state);
    return code;
}

/* Takes those off the list whose wait is over. Needs the lock. */
static struct seryugo_file_waiter *take_settled(struct seryugo_file *file)
{
    struct seryugo_file_waiter *settled = NULL, **at = &file->waiters;

    while (*at != NULL) {
        struct seryugo_file_waiter *waiter = *at;

        if (is_settled(file, waiter->position)) {
            *at = waiter->following;
            waiter->following = settled;
            settled = waiter;
        } else {
            at = &waiter->following;
        }
    }
    return settled;
}

void seryugo_file_tell_settled(struct seryugo_file *file)
{
    struct seryugo_file_waiter *settled = take_settled(file);

    pthread_mutex_unlock(&file->lock);
    while (settled != NULL) {
        struct seryugo_file_waiter *waiter = settled;

        /* After the call its memory may be freed. */
        settled = waiter->following;
        waiter->wake(waiter);
    }
    pthread_mutex_lock(&file->lock);
}
