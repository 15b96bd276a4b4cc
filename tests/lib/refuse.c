/* Put before the C library by LD_PRELOAD, this refuses requests for memory or for threads, by their number.
 *
 * REFUSE         the request for memory that is refused, counted from 1
 * REFUSE_THREAD  the request for a thread that is refused
 * REFUSE_REST    if set, all later requests of that kind are refused too
 * TOLD           a file that is made at the first refusal
 * REFUSE_EACH    a folder: each request for memory is refused in turn, in a child that is forked there. Child N writes into the files
 *                out.N and err.N what a run with that request refused would write, and a line `N STATUS` tells how it ended. The
 *                program itself is refused nothing, and reads only what standard input leads to. Once it starts a thread no child is
 *                forked: that would have one thread alone.
 */
#define _GNU_SOURCE
#include <dlfcn.h>
#include <errno.h>
#include <fcntl.h>
#include <pthread.h>
#include <stdio.h>
#include <stdlib.h>
#include <sys/wait.h>
#include <unistd.h>

/* ---- one child for each request ---- */

/* Of a child: the request that is refused. */
static long refused_here;
static int has_threads;

/* Opens the file that a descriptor leads to once more, so that a child's place in it is its own. */
static int open_again(int descriptor) {
    char path[64];
    snprintf(path, sizeof path, "/proc/self/fd/%d", descriptor);
    return open(path, O_RDONLY);
}

static void read_on(void) {
    off_t place = lseek(0, 0, SEEK_CUR);
    int again = open_again(0);
    if (place < 0 || again < 0 || lseek(again, place, SEEK_SET) != place || dup2(again, 0) != 0)
        _exit(70);
    close(again);
}

/* What the program has written is there too. */
static void write_into(int descriptor, const char *folder, const char *name, long request) {
    char path[4096], part[4096];
    ssize_t length;
    int from = open_again(descriptor), to;
    snprintf(path, sizeof path, "%s/%s.%ld", folder, name, request);
    to = open(path, O_WRONLY | O_CREAT | O_TRUNC, 0600);
    while ((length = read(from, part, sizeof part)) > 0)
        if (write(to, part, (size_t)length) != length)
            _exit(70);
    if (length < 0 || dup2(to, descriptor) != descriptor)
        _exit(70);
    close(from);
    close(to);
}

static void tell(const char *folder, long request, int status) {
    char path[4096], line[64];
    int length = snprintf(line, sizeof line, "%ld %d\n", request, WIFEXITED(status) ? WEXITSTATUS(status) : 128 + WTERMSIG(status));
    int to;
    snprintf(path, sizeof path, "%s/statuses", folder);
    to = open(path, O_WRONLY | O_CREAT | O_APPEND, 0600);
    if (write(to, line, (size_t)length) != length)
        _exit(70);
    close(to);
}

/* Whether this is the child of this request. */
static int is_child(const char *folder, long request) {
    int status = 0;
    pid_t child = fork();
    if (child != 0) {
        if (child < 0 || waitpid(child, &status, 0) != child)
            _exit(70);
        tell(folder, request, status);
        return 0;
    }
    refused_here = request;
    read_on();
    write_into(1, folder, "out", request);
    write_into(2, folder, "err", request);
    return 1;
}

/* ---- the requests ---- */

static int refuses(long *requests, const char *variable) {
    const char *told = getenv("TOLD"), *each = getenv("REFUSE_EACH"), *number = getenv(variable);
    long request = __atomic_add_fetch(requests, 1, __ATOMIC_SEQ_CST);
    long refused = refused_here != 0 ? refused_here : number ? atol(number) : 0;
    if (each && refused_here == 0)
        return !has_threads && is_child(each, request);
    if (refused == 0 || request < refused || (request > refused && !getenv("REFUSE_REST")))
        return 0;
    if (told && request == refused)
        close(open(told, O_CREAT | O_WRONLY, 0600));
    return 1;
}

static int refuses_memory(void) {
    static long requests;
    if (!refuses(&requests, "REFUSE"))
        return 0;
    errno = ENOMEM;
    return 1;
}

void *malloc(size_t size) {
    static void *(*real)(size_t);
    if (!real)
        real = (void *(*)(size_t))dlsym(RTLD_NEXT, "malloc");
    return refuses_memory() ? NULL : real(size);
}

void *realloc(void *block, size_t size) {
    static void *(*real)(void *, size_t);
    if (!real)
        real = (void *(*)(void *, size_t))dlsym(RTLD_NEXT, "realloc");
    return refuses_memory() ? NULL : real(block, size);
}

int pthread_create(pthread_t *thread, const pthread_attr_t *attributes, void *(*start)(void *), void *argument) {
    static int (*real)(pthread_t *, const pthread_attr_t *, void *(*)(void *), void *);
    static long requests;
    has_threads = 1;
    if (!real)
        real = (int (*)(pthread_t *, const pthread_attr_t *, void *(*)(void *), void *))dlsym(RTLD_NEXT, "pthread_create");
    return refuses(&requests, "REFUSE_THREAD") ? EAGAIN : real(thread, attributes, start, argument);
}
