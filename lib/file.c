/* A journal's file, part 1: lines are stored under the room's lock. */
#ifndef _GNU_SOURCE
#define _GNU_SOURCE
#endif
#include "exchange.h"

#include <errno.h>
#include <stdlib.h>
#include <string.h>
#include <sys/mman.h>
#include <unistd.h>

/* After so many entries, or bytes of text, the room's journal is cut. */
#define CUT_ENTRIES 256
#define CUT_BYTES 65536

/* So many bytes after the last line are fetched for the next ones. */
#define AHEAD 256

/* Lines of a call have no more bytes than this in a room of numbers, even if it drains a full lane. */
#define NUMBERS_MARGIN ((uint64_t)128 << 10)
#define BYTES_MARGIN ((uint64_t)SERYUGO_LINE_MOST + 65536)

static const uint32_t *new_flag(void)
{
    uint32_t *flag = (uint32_t *)mmap(NULL, SERYUGO_PAGE, PROT_READ | PROT_WRITE, MAP_PRIVATE | MAP_ANONYMOUS, -1, 0);

    if (flag == MAP_FAILED) {
        return NULL;
    }
    if (madvise(flag, SERYUGO_PAGE, MADV_WIPEONFORK) != 0) {
        munmap(flag, SERYUGO_PAGE);
        return NULL;
    }
    *flag = 1;
    return flag;
}

/* ---- forks ---- */

/* All open files of the process. A forked child has copies of their descriptors, and would keep their locks after its parent's
 * end. */
static pthread_mutex_t list_lock = PTHREAD_MUTEX_INITIALIZER;
static pthread_once_t is_listed = PTHREAD_ONCE_INIT;
static struct seryugo_file *files;

void seryugo_hold_forks(void) { pthread_mutex_lock(&list_lock); }

void seryugo_let_forks(void) { pthread_mutex_unlock(&list_lock); }

/* To close a copy leaves the parent's lock as it is. */
static void in_child(void)
{
    for (struct seryugo_file *file = files; file != NULL; file = file->following) {
        if (file->descriptor >= 0) {
            close(file->descriptor);
        }
        file->descriptor = -1;
        if (file->exchange != NULL) {
            seryugo_exchange_close_copies(file->exchange);
        }
    }
    pthread_mutex_unlock(&list_lock);
}

static void watch_forks(void) { pthread_atfork(seryugo_hold_forks, seryugo_let_forks, in_child); }

void seryugo_file_list(struct seryugo_file *file)
{
    pthread_once(&is_listed, watch_forks);
    pthread_mutex_lock(&list_lock);
    file->following = files;
    files = file;
    pthread_mutex_unlock(&list_lock);
}

static void forget(struct seryugo_file *file)
{
    struct seryugo_file **at = &files;

    pthread_mutex_lock(&list_lock);
    while (*at != NULL && *at != file) {
        at = &(*at)->following;
    }
    if (*at != NULL) {
        *at = file->following;
    }
    pthread_mutex_unlock(&list_lock);
}

/* ---- handles ---- */

static bool has_locks(struct seryugo_file *file)
{
    pthread_condattr_t attributes;

    pthread_condattr_init(&attributes);
    pthread_condattr_setclock(&attributes, CLOCK_MONOTONIC);
    return pthread_mutex_init(&file->lock, NULL) == 0 && pthread_mutex_init(&file->growing, NULL) == 0
           && pthread_cond_init(&file->work, &attributes) == 0 && pthread_cond_init(&file->done, &attributes) == 0;
}

struct seryugo_file *seryugo_file_new(int descriptor, bool is_mapped, uint32_t messages, uint64_t limit)
{
    struct seryugo_file *file = (struct seryugo_file *)calloc(1, sizeof *file);

    if (file == NULL) {
        return NULL;
    }
    file->descriptor = file->view.descriptor = descriptor;
    file->is_mapped = is_mapped;
    file->entries_most = limit < CUT_ENTRIES ? limit : CUT_ENTRIES;
    file->margin = SERYUGO_SEAL_MOST + (messages == SERYUGO_NUMBERS ? NUMBERS_MARGIN : BYTES_MARGIN);
    file->alive = new_flag();
    file->lines = is_mapped ? NULL : (uint8_t *)malloc(file->margin);
    if (file->alive == NULL || (!is_mapped && file->lines == NULL) || !has_locks(file)) {
        seryugo_file_free(file);
        return NULL;
    }
    return file;
}

void seryugo_file_free(struct seryugo_file *file)
{
    if (file->view.base != NULL) {
        munmap(file->view.base, file->view.end - file->view.start);
    }
    for (size_t i = 0; i < file->old_count; i++) {
        munmap(file->old[i].base, file->old[i].end - file->old[i].start);
    }
    if (file->alive != NULL) {
        munmap((void *)(uintptr_t)file->alive, SERYUGO_PAGE);
    }
    if (file->store.at != NULL) {
        seryugo_close(file->store);
    }
    if (file->exchange != NULL) {
        seryugo_exchange_free(file->exchange);
    }
    if (file->seal != NULL) {
        seryugo_seal_free(file->seal);
    }
    free(file->lines);
    free(file);
}

uint32_t seryugo_file_state(const struct seryugo_file *file)
{
    if (*file->alive == 0) {
        return SERYUGO_FORKED;
    }
    return atomic_load_explicit(&file->is_lost, memory_order_relaxed) ? SERYUGO_FILE_LOST : SERYUGO_DONE;
}

static uint64_t least(uint64_t one, uint64_t other) { return one < other ? one : other; }

/* Finds out how far lines may reach. */
static uint32_t move_bound(struct seryugo_file *file, uint64_t need)
{
    uint32_t code = SERYUGO_DONE;

    if (file->is_mapped && need > file->view.end) {
        code = seryugo_file_move_view(file);
    }
    if (code == SERYUGO_DONE && need > atomic_load(&file->grown) && seryugo_file_grow(file, need) != 0) {
        code = SERYUGO_FILE_FULL;
    }
    if (code == SERYUGO_DONE && need > atomic_load(&file->synced) + SERYUGO_UNSYNCED_MOST) {
        code = seryugo_file_sync(file);
    }
    file->bound = least(atomic_load(&file->grown), atomic_load(&file->synced) + SERYUGO_UNSYNCED_MOST);
    file->bound = file->is_mapped ? least(file->bound, file->view.end) : file->bound;
    file->bound = file->is_double ? least(file->bound, atomic_load(&file->exchange->end)) : file->bound;
    return seryugo_file_state(file) == SERYUGO_DONE ? code : seryugo_file_state(file);
}

/* Sees to room for a call's lines, in memory, on the disk, and among what is unsynced. If an exchange ends meanwhile, the
 * bound may be that of the other file. */
static uint32_t make_room(struct seryugo_file *file)
{
    uint64_t need = file->stored + file->margin;
    uint32_t code;

    do {
        if (file->is_double) {
            seryugo_exchange_make_way(file, need);
        }
        code = move_bound(file, need);
    } while (code == SERYUGO_DONE && file->is_double && atomic_load(&file->is_wanted));
    return code;
}

/* A thread that is cancelled here would leave the locks locked. */
static uint32_t make_room_uncancelled(struct seryugo_file *file)
{
    int state = 0;
    uint32_t code;

    pthread_setcancelstate(PTHREAD_CANCEL_DISABLE, &state);
    code = make_room(file);
    pthread_setcancelstate(state, &state);
    return code;
}

bool seryugo_file_has_room(struct seryugo_file *file, uint64_t size)
{
    return file->stored + size <= file->bound || (make_room(file) == SERYUGO_DONE && file->stored + size <= file->bound);
}

uint32_t seryugo_file_reserve(struct seryugo_file *file, struct seryugo *room, uint64_t bytes)
{
    uint32_t code = seryugo_file_state(file);

    if (code != SERYUGO_DONE) {
        return code;
    }
    if (bytes > SERYUGO_FILE_MESSAGE_MOST) {
        return SERYUGO_TOO_LONG;
    }
    if (file->is_behind) {
        code = seryugo_file_note(file, room, NULL);
        if (code != SERYUGO_DONE) {
            return code;
        }
    }
    return file->stored + file->margin <= file->bound ? (uint32_t)SERYUGO_DONE : make_room_uncancelled(file);
}

/* What was stored becomes the file's: other threads may sync it. */
static void publish(struct seryugo_file *file, uint64_t next, uint64_t length)
{
    file->stored += length;
    file->next = next;
    atomic_store_explicit(&file->told, file->stored, memory_order_release);
}

/* Writes lines that were made in memory. After a failure nobody knows what is there. */
static uint32_t write_lines(struct seryugo_file *file, uint64_t length)
{
    int error = 0, state = 0;

    pthread_setcancelstate(PTHREAD_CANCEL_DISABLE, &state);
    if (length != 0) {
        uint64_t place = file->stored - file->view.shift;

        error = seryugo_may_reach(place + length) ? seryugo_write_at(file->view.descriptor, file->lines, length, place) : EFBIG;
    }
    pthread_setcancelstate(state, &state);
    if (error != 0) {
        seryugo_file_lose(file, "pwrite", error);
        return SERYUGO_FILE_LOST;
    }
    return SERYUGO_DONE;
}

uint32_t seryugo_file_store_text(struct seryugo_file *file, const char *lines, size_t length)
{
    uint32_t code = SERYUGO_DONE;

    if (file->is_mapped) {
        memcpy(file->view.base + (file->stored - file->view.start), lines, length);
    } else {
        memcpy(file->lines, lines, length);
        code = write_lines(file, length);
    }
    if (code == SERYUGO_DONE) {
        publish(file, file->next, length);
    }
    return code;
}

/* Stores the lines that fit. SERYUGO_FULL: some didn't. */
static uint32_t store_lines(struct seryugo_file *file, const struct seryugo *room)
{
    uint64_t count = 0, length = 0;
    size_t size = (size_t)(file->bound - file->stored);
    uint8_t *to = file->is_mapped ? file->view.base + (file->stored - file->view.start) : file->lines;
    uint32_t code;

    size = file->is_mapped || size < file->margin ? size : (size_t)file->margin;
    code = seryugo_entries_text(room, file->next, to, size, &count, &length);
    /* The next lines' memory was last written by the helper's processor. */
    __builtin_prefetch(to + length + AHEAD, 1);
    if (!file->is_mapped && (code == SERYUGO_DONE || code == SERYUGO_FULL) && write_lines(file, length) != SERYUGO_DONE) {
        return SERYUGO_FILE_LOST;
    }
    if (file->is_double && seryugo_exchange_store(file, to, length) != SERYUGO_DONE) {
        return SERYUGO_FILE_LOST;
    }
    publish(file, file->next + count, length);
    if (code == SERYUGO_NO_SUCH) {
        seryugo_file_lose(file, "the room's journal was cut before its entries were stored", 0);
    }
    if (code == SERYUGO_TOO_LONG) {
        seryugo_file_lose(file, "an entry's line would be too long", 0);
    }
    return code == SERYUGO_NO_SUCH || code == SERYUGO_TOO_LONG ? (uint32_t)SERYUGO_FILE_LOST : code;
}

/* Drops entries that are stored from the room's memory, now and then: a cut costs time too. */
static void drop_entries(struct seryugo_file *file, struct seryugo *room)
{
    if (file->next - file->cut_next >= file->entries_most || file->stored - file->cut_stored >= CUT_BYTES) {
        (void)seryugo_cut_open(room);
        file->cut_next = file->next;
        file->cut_stored = file->stored;
        seryugo_seal_count(file);
    }
}

uint32_t seryugo_file_note(struct seryugo_file *file, struct seryugo *room, uint64_t *position)
{
    uint32_t code = seryugo_file_state(file);

    if (code != SERYUGO_DONE) {
        return code;
    }
    if (atomic_load_explicit(&file->is_seal_wanted, memory_order_relaxed)) {
        seryugo_seal_piece(file);
    }
    code = store_lines(file, room);
    while (code == SERYUGO_FULL) {
        code = make_room_uncancelled(file);
        if (code == SERYUGO_DONE) {
            code = store_lines(file, room);
        }
    }
    file->is_behind = code != SERYUGO_DONE;
    if (code == SERYUGO_DONE) {
        drop_entries(file, room);
        if (atomic_load_explicit(&file->is_wanted, memory_order_relaxed)) {
            seryugo_exchange_join(file, room);
        }
    }
    if (file->stored >= file->mark) {
        file->mark = file->stored + file->segment / 4;
        seryugo_file_ask(file);
    }
    if (position != NULL) {
        *position = atomic_load(&file->told);
    }
    return code;
}

/* Syncs and seals the file, and removes the zeros after its text. It doesn't change a file that is lost. */
static uint32_t finish(struct seryugo_file *file)
{
    uint32_t code = seryugo_file_sync(file);
    int error;

    seryugo_file_stop_helper(file);
    if (code == SERYUGO_DONE) {
        seryugo_seal_last(file);
        code = seryugo_file_sync(file);
    }
    error = code == SERYUGO_DONE ? seryugo_file_cut_zeros(file) : 0;
    if (error == 0) {
        return code;
    }
    file->error = error;
    return SERYUGO_FILE_LOST;
}

uint32_t seryugo_file_close(struct seryugo_file *file)
{
    int state = 0, cause = 0;
    uint32_t code = SERYUGO_FORKED;

    pthread_setcancelstate(PTHREAD_CANCEL_DISABLE, &state);
    if (*file->alive != 0) {
        code = finish(file);
        cause = file->error;
    } else {
        /* The child has no such mapping, and something else may be there. */
        file->view.base = NULL;
    }
    forget(file);
    seryugo_let_file(file->descriptor);
    seryugo_file_free(file);
    pthread_setcancelstate(state, &state);
    errno = cause;
    return code;
}

const char *seryugo_file_error(struct seryugo_file *file, int *number)
{
    const char *words = NULL;

    if (*file->alive == 0) {
        *number = 0;
        return seryugo_code_text(SERYUGO_FORKED);
    }
    pthread_mutex_lock(&file->lock);
    *number = file->error;
    if (file->words[0] != 0) {
        words = file->words;
    }
    pthread_mutex_unlock(&file->lock);
    return words;
}
