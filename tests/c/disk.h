/* A disk for one file, in place of the system's: it has what the file had as the last good sync began. The program that has this
 * in it calls these fdatasync(2) and fsync(2). A test may hold a sync up, or have one fail. */
#ifndef DISK_H
#define DISK_H

#ifndef _GNU_SOURCE
#define _GNU_SOURCE
#endif
#include <errno.h>
#include <fcntl.h>
#include <pthread.h>
#include <signal.h>
#include <stdatomic.h>
#include <stdbool.h>
#include <stdint.h>
#include <stdio.h>
#include <stdlib.h>
#include <string.h>
#include <sys/stat.h>
#include <unistd.h>

#define DISK_MOST (1 << 20)

struct disk_image {
    size_t length;
    char bytes[DISK_MOST];
};

static pthread_mutex_t disk_lock = PTHREAD_MUTEX_INITIALIZER;
static pthread_cond_t disk_moved = PTHREAD_COND_INITIALIZER;
static struct disk_image disk_has;
static struct stat disk_file;
static bool disk_is_used;
/* A sync waits while this is set. */
static bool disk_is_held;
/* How many syncs have begun, and how many of these wait. */
static uint64_t disk_syncs, disk_waiting;
/* The sync that fails, counted from 1, or 0. */
static uint64_t disk_fails_at;
/* A sync takes up to so many microseconds. */
static unsigned disk_slowness;

static inline void disk_read(int descriptor, struct disk_image *image)
{
    ssize_t length = pread(descriptor, image->bytes, DISK_MOST, 0);

    if (length < 0 || length == DISK_MOST) {
        fprintf(stderr, "the file is too long for a simulated disk\n");
        _exit(7);
    }
    image->length = (size_t)length;
}

/* From now on this file is on the simulated disk, as it is. */
static inline void disk_begin(const char *path)
{
    int descriptor = open(path, O_RDONLY | O_CLOEXEC);

    pthread_mutex_lock(&disk_lock);
    if (descriptor < 0 || fstat(descriptor, &disk_file) != 0) {
        _exit(7);
    }
    disk_read(descriptor, &disk_has);
    disk_syncs = disk_waiting = disk_fails_at = 0;
    disk_is_used = true;
    pthread_mutex_unlock(&disk_lock);
    close(descriptor);
}

static inline void disk_end(void)
{
    pthread_mutex_lock(&disk_lock);
    disk_is_used = false;
    pthread_mutex_unlock(&disk_lock);
}

static inline void disk_hold(bool is_held)
{
    pthread_mutex_lock(&disk_lock);
    disk_is_held = is_held;
    pthread_cond_broadcast(&disk_moved);
    pthread_mutex_unlock(&disk_lock);
}

/* Waits until a sync is held up. */
static inline void disk_await_held(void)
{
    pthread_mutex_lock(&disk_lock);
    while (disk_waiting == 0) {
        pthread_cond_wait(&disk_moved, &disk_lock);
    }
    pthread_mutex_unlock(&disk_lock);
}

static inline bool disk_is_free(void)
{
    bool is_free;

    pthread_mutex_lock(&disk_lock);
    is_free = !disk_is_held;
    pthread_mutex_unlock(&disk_lock);
    return is_free;
}

/* A handler of the program's would interrupt a sync: no sync is made with signals that it may take. */
static inline void disk_needs_blocked_signals(void)
{
    sigset_t blocked;

    pthread_sigmask(SIG_BLOCK, NULL, &blocked);
    if (sigismember(&blocked, SIGUSR1) != 1) {
        fprintf(stderr, "a sync may be interrupted\n");
        _exit(8);
    }
}

/* Needs the lock, and gives it back while the disk works. */
static inline bool disk_works(void)
{
    uint64_t number = ++disk_syncs;

    while (disk_is_held) {
        disk_waiting++;
        pthread_cond_broadcast(&disk_moved);
        pthread_cond_wait(&disk_moved, &disk_lock);
        disk_waiting--;
    }
    if (disk_slowness != 0) {
        pthread_mutex_unlock(&disk_lock);
        usleep((unsigned)(number * 7919 % disk_slowness));
        pthread_mutex_lock(&disk_lock);
    }
    return number != disk_fails_at;
}

static inline bool disk_is_of(int descriptor)
{
    struct stat file;

    return disk_is_used && fstat(descriptor, &file) == 0 && file.st_ino == disk_file.st_ino && file.st_dev == disk_file.st_dev;
}

/* Needs the lock. */
static inline int disk_sync(int descriptor)
{
    struct disk_image *now = (struct disk_image *)malloc(sizeof *now);
    bool is_good;

    if (now == NULL) {
        _exit(7);
    }
    disk_read(descriptor, now);
    is_good = disk_works();
    if (is_good) {
        disk_has = *now;
    }
    free(now);
    errno = EIO;
    return is_good ? 0 : -1;
}

int fdatasync(int descriptor)
{
    int result = 0;

    pthread_mutex_lock(&disk_lock);
    if (disk_is_of(descriptor)) {
        disk_needs_blocked_signals();
        result = disk_sync(descriptor);
    }
    pthread_mutex_unlock(&disk_lock);
    return result;
}

int fsync(int descriptor)
{
    int result = 0;

    pthread_mutex_lock(&disk_lock);
    if (disk_is_of(descriptor)) {
        result = disk_sync(descriptor);
    }
    pthread_mutex_unlock(&disk_lock);
    return result;
}

#endif
