/* A journal's file, part 2: it grows ahead, and its helper's thread sees to that and to syncs. */
#ifndef _GNU_SOURCE
#define _GNU_SOURCE
#endif
#include "exchange.h"

#include <errno.h>
#include <stdio.h>
#include <string.h>
#include <sys/mman.h>
#include <sys/resource.h>
#include <time.h>
#include <unistd.h>
#include <fcntl.h>

#ifndef MADV_POPULATE_WRITE
#define MADV_POPULATE_WRITE 23
#endif

/* ---- calls of the system ---- */

int seryugo_write_at(int descriptor, const void *from, size_t size, uint64_t at)
{
    const char *rest = (const char *)from;

    while (size != 0) {
        ssize_t done = pwrite(descriptor, rest, size, (off_t)at);

        if (done < 0 && errno == EINTR) {
            continue;
        }
        if (done <= 0) {
            return done < 0 ? errno : EIO;
        }
        rest += done;
        size -= (size_t)done;
        at += (uint64_t)done;
    }
    return 0;
}

int seryugo_read_at(int descriptor, void *to, size_t size, uint64_t at, size_t *length)
{
    *length = 0;
    while (*length < size) {
        ssize_t done = pread(descriptor, (char *)to + *length, size - *length, (off_t)(at + *length));

        if (done < 0 && errno == EINTR) {
            continue;
        }
        if (done < 0) {
            return errno;
        }
        if (done == 0) {
            return 0;
        }
        *length += (size_t)done;
    }
    return 0;
}

bool seryugo_may_reach(uint64_t end)
{
    struct rlimit limit;

    return getrlimit(RLIMIT_FSIZE, &limit) != 0 || limit.rlim_cur == RLIM_INFINITY || end <= limit.rlim_cur;
}

/* ---- failures ---- */

static void tell(struct seryugo_file *file, const char *words, int error)
{
    char cause[96];

    file->error = error;
    if (error == 0) {
        snprintf(file->words, sizeof file->words, "%s", words);
    } else {
        snprintf(file->words, sizeof file->words, "%s: %s", words, strerror_r(error, cause, sizeof cause));
    }
}

void seryugo_file_lose_locked(struct seryugo_file *file, const char *words, int error)
{
    if (!atomic_load(&file->is_lost)) {
        tell(file, words, error);
        atomic_store(&file->is_lost, true);
    }
    seryugo_file_wake_all(file);
    seryugo_file_ask_locked(file);
}

void seryugo_file_lose(struct seryugo_file *file, const char *words, int error)
{
    pthread_mutex_lock(&file->lock);
    seryugo_file_lose_locked(file, words, error);
    pthread_mutex_unlock(&file->lock);
}

/* A store beyond the end would raise SIGBUS, and lose lines. fstat(2) would tell the end too. But after it the next store sets the
 * file's times anew, and the next sync writes these. */
bool seryugo_file_is_whole(const struct seryugo_file *file)
{
    uint64_t least = atomic_load(file->is_mapped ? &file->grown : &file->told);
    off_t end = lseek(file->descriptor, 0, SEEK_END);

    return end >= 0 && (uint64_t)end >= least - file->shift;
}

/* ---- the machine ---- */

uint64_t seryugo_mark_of(struct seryugo *store, uint32_t mark)
{
    uint64_t place = 0;

    (void)seryugo_store_mark(store, mark, &place);
    return place;
}

bool seryugo_tell_stored(struct seryugo *store, uint64_t end)
{
    uint64_t accepted = seryugo_mark_of(store, SERYUGO_MARK_ACCEPTED);
    struct seryugo_step step = {SERYUGO_STEP_NOTHING, 0, 0};

    if (end > accepted && seryugo_store_accept(store, end - accepted) != SERYUGO_DONE) {
        return false;
    }
    (void)seryugo_store_begin(store, SERYUGO_WORK_BYTES, 0, &step);
    if (step.kind != SERYUGO_STEP_NOTHING) {
        (void)seryugo_store_end(store, false, step.kind == SERYUGO_STEP_STORE);
    }
    return true;
}

void seryugo_tell_room(struct seryugo *store, uint64_t end)
{
    struct seryugo_step step = {SERYUGO_STEP_NOTHING, 0, 0};

    (void)seryugo_store_begin(store, SERYUGO_WORK_ROOM, end, &step);
    if (step.kind != SERYUGO_STEP_NOTHING) {
        (void)seryugo_store_end(store, false, step.kind == SERYUGO_STEP_GROW);
    }
}

void seryugo_file_catch_up(struct seryugo_file *file)
{
    uint64_t told = atomic_load_explicit(&file->told, memory_order_acquire);

    if (!seryugo_tell_stored(&file->store, told - file->shift)) {
        seryugo_file_lose_locked(file, "more is stored than may be unsynced", 0);
    }
}

struct seryugo_step seryugo_file_begin(struct seryugo_file *file, uint32_t work, uint64_t to)
{
    struct seryugo_step step = {SERYUGO_STEP_NOTHING, 0, 0};

    seryugo_file_catch_up(file);
    if (!atomic_load(&file->is_lost)) {
        (void)seryugo_store_begin(&file->store, work, to, &step);
    }
    return step;
}

/* ---- growing ---- */

/* The end of a page of the file. */
static uint64_t to_page(uint64_t at, uint64_t shift)
{
    return (at - shift + SERYUGO_PAGE - 1) / SERYUGO_PAGE * SERYUGO_PAGE + shift;
}

int seryugo_allocate(int descriptor, uint64_t from, uint64_t to)
{
    int error;

    if (!seryugo_may_reach(to)) {
        return EFBIG;
    }
    do {
        error = posix_fallocate(descriptor, (off_t)from, (off_t)(to - from));
    } while (error == EINTR);
    return error;
}

static int give_room(struct seryugo_file *file, uint64_t from, uint64_t to)
{
    int error;

    if (!seryugo_file_is_whole(file)) {
        seryugo_file_lose(file, "the file was cut by others", 0);
        return EIO;
    }
    error = seryugo_allocate(file->descriptor, from - file->shift, to - file->shift);
    /* Where room can't be had ahead, pwrite(2) makes it. */
    return !file->is_mapped && (error == EOPNOTSUPP || error == ENOSYS) ? 0 : error;
}

static void end_growing(struct seryugo_file *file, int error)
{
    pthread_mutex_lock(&file->lock);
    (void)seryugo_store_end(&file->store, false, error == 0);
    atomic_store(&file->grown, seryugo_mark_of(&file->store, SERYUGO_MARK_GROWN) + file->shift);
    if (!atomic_load(&file->is_lost)) {
        file->words[0] = 0;
        file->error = 0;
        if (error != 0) {
            tell(file, "posix_fallocate", error);
        }
    }
    /* What was stored meanwhile may be synced now. */
    seryugo_file_wake_all(file);
    pthread_mutex_unlock(&file->lock);
}

static int grow_to(struct seryugo_file *file, uint64_t from, uint64_t to)
{
    struct seryugo_step step;
    int error;

    pthread_mutex_lock(&file->lock);
    step = seryugo_file_begin(file, SERYUGO_WORK_ROOM, to - file->shift);
    pthread_mutex_unlock(&file->lock);
    if (step.kind != SERYUGO_STEP_GROW) {
        return EIO;
    }
    error = give_room(file, from, to);
    end_growing(file, error);
    return error;
}

/* By a segment, or only by what is needed. Two who grow would each take the other's room for free, so one does at a time. */
int seryugo_file_grow(struct seryugo_file *file, uint64_t need)
{
    uint64_t grown;
    int error = 0;

    pthread_mutex_lock(&file->growing);
    while (error == 0 && !atomic_load(&file->is_lost) && (grown = atomic_load(&file->grown)) < need) {
        uint64_t wanted = to_page(grown + file->segment, file->shift);

        error = grow_to(file, grown, wanted);
        if (error != 0 && to_page(need, file->shift) < wanted) {
            error = grow_to(file, grown, to_page(need, file->shift));
        }
    }
    pthread_mutex_unlock(&file->growing);
    return error;
}

int seryugo_file_cut_zeros(struct seryugo_file *file)
{
    struct seryugo_step step;
    int error = 0;

    pthread_mutex_lock(&file->lock);
    step = seryugo_file_begin(file, SERYUGO_WORK_CLOSING, 0);
    if (step.kind == SERYUGO_STEP_CUT) {
        error = ftruncate(file->descriptor, (off_t)step.to) == 0 && fsync(file->descriptor) == 0 ? 0 : errno;
        (void)seryugo_store_end(&file->store, false, error == 0);
    }
    pthread_mutex_unlock(&file->lock);
    return error;
}

/* ---- views ---- */

/* Room ahead is zeroed in memory, so that a store finds its page. Pages are taken one by one: a large one would be written
 * whole at each sync. */
static void populate(struct seryugo_file *file, uint64_t from, uint64_t to)
{
    struct seryugo_view view;

    pthread_mutex_lock(&file->lock);
    view = file->view;
    pthread_mutex_unlock(&file->lock);
    from = to_page(from < view.start ? view.start : from, view.shift);
    to = to < view.end ? to : view.end;
    if (view.base != NULL && from < to) {
        (void)madvise(view.base + (from - view.start), to - from, MADV_POPULATE_WRITE);
    }
}

/* The helper alone unmaps, because it may be populating the view. */
static void unmap_old_views(struct seryugo_file *file)
{
    struct seryugo_view view;

    while (file->old_count != 0) {
        view = file->old[--file->old_count];
        pthread_mutex_unlock(&file->lock);
        munmap(view.base, view.end - view.start);
        pthread_mutex_lock(&file->lock);
        pthread_cond_broadcast(&file->done);
    }
}

bool seryugo_map_view(struct seryugo_view *view, uint64_t size)
{
    off_t place = (off_t)(view->start - view->shift);
    void *base = mmap(NULL, size, PROT_READ | PROT_WRITE, MAP_SHARED, view->descriptor, place);

    if (base == MAP_FAILED) {
        return false;
    }
    (void)madvise(base, size, MADV_DONTFORK);
    (void)madvise(base, size, MADV_RANDOM);
    view->base = (uint8_t *)base;
    view->end = view->start + size;
    return true;
}

uint32_t seryugo_file_move_view(struct seryugo_file *file)
{
    struct seryugo_view view = file->view;

    view.start = (file->stored - view.shift) / SERYUGO_PAGE * SERYUGO_PAGE + view.shift;
    if (!seryugo_map_view(&view, file->view_size)) {
        return SERYUGO_NO_MEMORY;
    }
    pthread_mutex_lock(&file->lock);
    while (file->old_count == SERYUGO_OLD_VIEWS) {
        pthread_cond_wait(&file->done, &file->lock);
    }
    if (file->view.base != NULL) {
        file->old[file->old_count++] = file->view;
    }
    file->view = view;
    seryugo_file_ask_locked(file);
    pthread_mutex_unlock(&file->lock);
    return SERYUGO_DONE;
}

/* ---- the helper ---- */

void seryugo_file_ask_locked(struct seryugo_file *file)
{
    file->is_asked = true;
    pthread_cond_signal(&file->work);
}

void seryugo_file_ask(struct seryugo_file *file)
{
    pthread_mutex_lock(&file->lock);
    seryugo_file_ask_locked(file);
    pthread_mutex_unlock(&file->lock);
}

static struct timespec after(uint64_t milliseconds)
{
    struct timespec at;

    clock_gettime(CLOCK_MONOTONIC, &at);
    at.tv_sec += (time_t)(milliseconds / 1000);
    at.tv_nsec += (long)(milliseconds % 1000) * 1000000;
    if (at.tv_nsec >= 1000000000) {
        at.tv_sec++;
        at.tv_nsec -= 1000000000;
    }
    return at;
}

static bool has_passed(const struct timespec *due)
{
    struct timespec now = after(0);

    return now.tv_sec > due->tv_sec || (now.tv_sec == due->tv_sec && now.tv_nsec >= due->tv_nsec);
}

/* Sleeps until there may be work. Needs the lock. */
static void sleep_until_asked(struct seryugo_file *file, const struct timespec *due)
{
    int failure = 0;

    while (!file->is_asked && !file->stops && failure == 0) {
        if (file->period == 0) {
            failure = pthread_cond_wait(&file->work, &file->lock);
        } else {
            failure = pthread_cond_timedwait(&file->work, &file->lock, due);
        }
    }
    file->is_asked = false;
}

static void grow_ahead(struct seryugo_file *file)
{
    uint64_t was = atomic_load(&file->grown), need = atomic_load(&file->told) + file->margin + file->segment;

    if (was < need && !atomic_load(&file->is_lost) && seryugo_file_grow(file, need) == 0 && file->is_mapped) {
        populate(file, was, atomic_load(&file->grown));
    }
}

/* Those who were on the list and are on the disk were told before. Needs the lock. */
static bool is_sync_due(struct seryugo_file *file)
{
    uint64_t told = atomic_load(&file->told), synced = atomic_load(&file->synced);

    return told - synced >= SERYUGO_UNSYNCED_EARLY || file->waiters != NULL;
}

static void *help(void *given)
{
    struct seryugo_file *file = (struct seryugo_file *)given;
    struct timespec due = after(file->period);

    pthread_mutex_lock(&file->lock);
    while (!file->stops) {
        bool is_time, is_due;

        sleep_until_asked(file, &due);
        unmap_old_views(file);
        seryugo_file_tell_settled(file);
        is_due = is_sync_due(file);
        is_time = file->period != 0 && has_passed(&due);
        seryugo_seal_look(file, is_time);
        seryugo_exchange_look(file);
        pthread_mutex_unlock(&file->lock);
        grow_ahead(file);
        if (is_time || is_due) {
            seryugo_file_try_sync(file);
        }
        due = is_time ? after(file->period) : due;
        pthread_mutex_lock(&file->lock);
    }
    unmap_old_views(file);
    seryugo_file_tell_settled(file);
    pthread_mutex_unlock(&file->lock);
    return NULL;
}

/* Signals are the program's, so the library's threads take none but those that their own faults raise. */
int seryugo_start_thread(pthread_t *thread, void *(*run)(void *), void *given)
{
    sigset_t before;
    int error;

    seryugo_block_signals(&before);
    error = pthread_create(thread, NULL, run, given);
    pthread_sigmask(SIG_SETMASK, &before, NULL);
    return error;
}

int seryugo_file_start_helper(struct seryugo_file *file) { return seryugo_start_thread(&file->helper, help, file); }

void seryugo_file_stop_helper(struct seryugo_file *file)
{
    pthread_mutex_lock(&file->lock);
    file->stops = true;
    pthread_cond_signal(&file->work);
    pthread_mutex_unlock(&file->lock);
    pthread_join(file->helper, NULL);
    seryugo_exchange_stop(file);
}
