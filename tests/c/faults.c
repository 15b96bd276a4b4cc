/* Fails, shortens or interrupts calls of the system, or kills the program before them: a library for LD_PRELOAD.
 * FAULT=CALL:AT:KIND[:all] with a call below, which of its calls is met, from 1, and `fail`, `full`, `short`, `eintr` or `kill`;
 * with `all`, each later one too, apart from interrupted ones. Only files whose names have "journal" in them are met: write is
 * met as pwrite. */
#ifndef _GNU_SOURCE
#define _GNU_SOURCE
#endif
#include <dlfcn.h>
#include <errno.h>
#include <fcntl.h>
#include <signal.h>
#include <stdarg.h>
#include <stdatomic.h>
#include <stdio.h>
#include <stdlib.h>
#include <string.h>
#include <unistd.h>

static char call[32];
static char kind[16];
static int met_at;
static int meets_all;
static atomic_int calls;

__attribute__((constructor)) static void read_fault(void)
{
    const char *words = getenv("FAULT");
    char all[8] = "";

    if (words != NULL) {
        (void)sscanf(words, "%31[a-z_0-9]:%d:%15[a-z]:%7s", call, &met_at, kind, all);
        meets_all = strcmp(all, "all") == 0;
    }
}

/* Whether a descriptor leads to a file that is met. */
static int is_journal(int descriptor)
{
    char link[64], path[4096];
    ssize_t length;

    snprintf(link, sizeof link, "/proc/self/fd/%d", descriptor);
    length = readlink(link, path, sizeof path - 1);
    if (length <= 0) {
        return 0;
    }
    path[length] = 0;
    return strstr(path, "journal") != NULL;
}

/* Whether this call is met, and by which cause. */
static int meets(const char *name)
{
    int number;

    if (strcmp(name, call) != 0) {
        return 0;
    }
    number = atomic_fetch_add(&calls, 1) + 1;
    return number == met_at || (meets_all && number > met_at);
}

static int cause(void)
{
    if (strcmp(kind, "eintr") == 0) {
        return EINTR;
    }
    return strcmp(kind, "full") == 0 ? ENOSPC : EIO;
}

/* Says that the fault was met: the script counts these. Of a kill the program ends here. */
static void say(void)
{
    static const char words[] = "fault met\n";

    if (write(STDERR_FILENO, words, sizeof words - 1) < 0) {
        return;
    }
    if (strcmp(kind, "kill") == 0) {
        kill(getpid(), SIGKILL);
    }
}

#define REAL(type, name, ...) ((type)dlsym(RTLD_NEXT, name))(__VA_ARGS__)

typedef ssize_t writer(int, const void *, size_t, off_t);

/* A short write does a part. A failed one may have done a part, too, and one that was killed. */
ssize_t pwrite(int descriptor, const void *from, size_t size, off_t at)
{
    if (is_journal(descriptor) && meets("pwrite")) {
        if (strcmp(kind, "kill") == 0) {
            (void)REAL(writer *, "pwrite", descriptor, from, size / 2, at);
        }
        say();
        if (strcmp(kind, "short") == 0 && size > 1) {
            return REAL(writer *, "pwrite", descriptor, from, size / 2, at);
        }
        if (strcmp(kind, "short") != 0) {
            (void)REAL(writer *, "pwrite", descriptor, from, size / 3, at);
            errno = cause();
            return -1;
        }
    }
    return REAL(writer *, "pwrite", descriptor, from, size, at);
}

/* Defines a call that does nothing where it fails: with its name, its types and its parameters. */
#define FAILING(name, types, parameters, ...)                         \
    int name parameters                                               \
    {                                                                 \
        if (meets(#name)) {                                           \
            say();                                                    \
            errno = cause();                                          \
            return -1;                                                \
        }                                                             \
        return REAL(int (*) types, #name, __VA_ARGS__);               \
    }

FAILING(fsync, (int), (int descriptor), descriptor)
FAILING(fdatasync, (int), (int descriptor), descriptor)
FAILING(ftruncate, (int, off_t), (int descriptor, off_t length), descriptor, length)
FAILING(fchmod, (int, mode_t), (int descriptor, mode_t mode), descriptor, mode)
FAILING(flock, (int, int), (int descriptor, int operation), descriptor, operation)
FAILING(unlinkat, (int, const char *, int), (int folder, const char *name, int flags), folder, name, flags)
FAILING(renameat, (int, const char *, int, const char *), (int folder, const char *old, int other, const char *name),
        folder, old, other, name)

/* A file that can't be read again. */
ssize_t pread(int descriptor, void *to, size_t size, off_t at)
{
    if (is_journal(descriptor) && meets("pread")) {
        say();
        errno = cause();
        return -1;
    }
    return REAL(ssize_t (*)(int, void *, size_t, off_t), "pread", descriptor, to, size, at);
}

/* A growth that fails may have grown a part. */
int posix_fallocate(int descriptor, off_t from, off_t length)
{
    if (meets("posix_fallocate")) {
        say();
        if (length > 8192) {
            (void)REAL(int (*)(int, off_t, off_t), "posix_fallocate", descriptor, from, 4096);
        }
        return cause();
    }
    return REAL(int (*)(int, off_t, off_t), "posix_fallocate", descriptor, from, length);
}

int renameat2(int folder, const char *old, int other, const char *name, unsigned flags)
{
    if (meets("rename")) {
        say();
        errno = strcmp(kind, "short") == 0 ? EINVAL : cause();
        return -1;
    }
    return REAL(int (*)(int, const char *, int, const char *, unsigned), "renameat2", folder, old, other, name, flags);
}

int openat(int folder, const char *name, int flags, ...)
{
    mode_t mode = 0;
    va_list rest;

    va_start(rest, flags);
    mode = (flags & (O_CREAT | O_TMPFILE)) != 0 ? va_arg(rest, mode_t) : 0;
    va_end(rest);
    if (strstr(name, "journal") != NULL && meets("open")) {
        say();
        errno = cause();
        return -1;
    }
    return REAL(int (*)(int, const char *, int, ...), "openat", folder, name, flags, mode);
}
