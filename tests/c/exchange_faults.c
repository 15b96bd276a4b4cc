/* Calls of the system fail, or the program is killed before or after them, while four threads use a file that stays short:
 * `exchange_faults FOLDER [MOST]`. The K-th call of each kind is met, for K up to MOST (else 2), alone or with all later ones. Of
 * fsync the first three are met: those of the new file, of its folder, and of the folder once the file is renamed.
 * What returned is in the file then, each once. A try that failed leaves nothing beside, and a later one goes well. */
#include "exchanged.h"

#include <dlfcn.h>
#include <sys/file.h>
#include <sys/xattr.h>

enum kind { FAILS, FAILS_ALL, KILLS_BEFORE, KILLS_AFTER, KINDS };

static const char *const calls[] = {"openat", "flock", "fchmod", "fsetxattr", "ftruncate", "pwrite", "pread", "posix_fallocate",
                                    "mmap", "fsync", "fdatasync", "renameat", "unlinkat"};

/* Which call is met. None before the threads begin. */
static const char *met_call = "";
static enum kind met_kind;
static uint64_t met_at;
static _Atomic uint64_t made;

/* Whether this call fails now. A program that is killed after a call is killed here, too, after it has made that. */
static bool meets(const char *call, bool *is_last)
{
    uint64_t number;

    *is_last = false;
    if (strcmp(call, met_call) != 0) {
        return false;
    }
    number = atomic_fetch_add(&made, 1) + 1;
    if (number < met_at || (number > met_at && met_kind != FAILS_ALL)) {
        return false;
    }
    told->is_met = true;
    if (met_kind == KILLS_BEFORE) {
        kill(getpid(), SIGKILL);
    }
    *is_last = met_kind == KILLS_AFTER;
    errno = EIO;
    return met_kind != KILLS_AFTER;
}

/* Defines a call: with its type, its name, what it returns if it fails, its types, its parameters and their names. */
#define CALL(type, name, failure, types, parameters, ...)      \
    type name parameters                                       \
    {                                                          \
        type(*real) types = (type(*) types)dlsym(RTLD_NEXT, #name); \
        bool is_last;                                          \
        type result;                                           \
                                                               \
        if (meets(#name, &is_last)) {                          \
            return failure;                                    \
        }                                                      \
        result = real(__VA_ARGS__);                            \
        if (is_last) {                                         \
            kill(getpid(), SIGKILL);                           \
        }                                                      \
        return result;                                         \
    }

CALL(int, openat, -1, (int, const char *, int, ...), (int folder, const char *name, int flags, ...), folder, name, flags, 0600)
CALL(int, flock, -1, (int, int), (int descriptor, int operation), descriptor, operation)
CALL(int, fchmod, -1, (int, mode_t), (int descriptor, mode_t mode), descriptor, mode)
CALL(int, fsetxattr, -1, (int, const char *, const void *, size_t, int),
     (int descriptor, const char *name, const void *value, size_t size, int flags), descriptor, name, value, size, flags)
CALL(int, ftruncate, -1, (int, off_t), (int descriptor, off_t length), descriptor, length)
CALL(ssize_t, pwrite, -1, (int, const void *, size_t, off_t), (int descriptor, const void *from, size_t size, off_t at),
     descriptor, from, size, at)
CALL(ssize_t, pread, -1, (int, void *, size_t, off_t), (int descriptor, void *to, size_t size, off_t at), descriptor, to, size,
     at)
CALL(int, posix_fallocate, EIO, (int, off_t, off_t), (int descriptor, off_t from, off_t length), descriptor, from, length)
CALL(void *, mmap, MAP_FAILED, (void *, size_t, int, int, int, off_t),
     (void *place, size_t length, int protection, int flags, int descriptor, off_t at), place, length, protection, flags,
     descriptor, at)
CALL(int, fsync, -1, (int), (int descriptor), descriptor)
CALL(int, fdatasync, -1, (int), (int descriptor), descriptor)
CALL(int, renameat, -1, (int, const char *, int, const char *), (int folder, const char *old, int other, const char *name),
     folder, old, other, name)
CALL(int, unlinkat, -1, (int, const char *, int), (int folder, const char *name, int flags), folder, name, flags)

/* ---- one fault ---- */

/* After the fault, threads work until an exchange succeeds. Where each later call fails too, they don't. */
static void be_met(const char *call, enum kind kind, uint64_t at)
{
    open_board("met");
    met_call = call;
    met_kind = kind;
    met_at = at;
    (void)work_on_it(2, kind == FAILS_ALL ? 1 : UINT64_MAX);
    (void)seryugo_switchboard_close(&board);
    _exit(0);
}

/* Returns whether the fault was met. */
static bool meet(const char *call, enum kind kind, uint64_t at)
{
    int status = 0;
    bool is_met;
    pid_t child = fork();

    if (child == 0) {
        be_met(call, kind, at);
    }
    HAS(waitpid(child, &status, 0) == child);
    is_met = told->is_met;
    has(WIFEXITED(status) ? WEXITSTATUS(status) == 0 : WTERMSIG(status) == SIGKILL && is_met && kind >= KILLS_BEFORE, call,
        __LINE__);
    if (WIFEXITED(status) && strcmp(call, "unlinkat") != 0) {
        has_one_file("met");
    }
    look_at_it("met");
    return is_met;
}

static uint64_t most_of(const char *call, uint64_t most) { return strcmp(call, "fsync") == 0 && most < 3 ? 3 : most; }

int main(int many, char **words)
{
    uint64_t most = many > 2 ? strtoull(words[2], NULL, 10) : 2, cases = 0, met = 0;

    if (many < 2 || chdir(words[1]) != 0) {
        return 64;
    }
    share_what_is_told();
    for (size_t call = 0; call < sizeof calls / sizeof calls[0]; call++) {
        for (uint64_t way = 0; way < 2 * KINDS; way++) {
            enum kind kind = (enum kind)(way % KINDS);
            bool is_met = true;

            choose(3 * (way / KINDS));
            unlink("met");
            /* A child that was killed may have left it. */
            unlink("met.new");
            for (uint64_t at = 1; at <= most_of(calls[call], most) && is_met; at++) {
                is_met = meet(calls[call], kind, at);
                cases++;
                met += is_met;
            }
        }
    }
    printf("%llu cases of an exchange under four threads, of which %llu met their fault: nothing is lost or twice\n",
           (unsigned long long)cases, (unsigned long long)met);
    return 0;
}
