/* Put before the C library by LD_PRELOAD, this makes reads of standard input and writes to standard output short, or makes them
 * fail. Reads are counted from 1.
 *
 * READ_MOST      the most bytes that a read gives
 * READ_FAILS     the read that fails
 * READ_REST      if 1, all later reads fail too
 * READ_ERROR     the number of the error; else it is that of a fault of the device
 * READ_LATE      this many interrupted reads come first
 * READ_AGAIN     this many interrupted reads come before each other read
 * READ_LINES     if 1, each read gives line ends, as many as it is asked for
 * WRITE_MOST     the most bytes that a write takes
 * WRITE_ROOM     how many bytes are taken before writes fail
 * TOLD           a file that is made when a read fails
 * COUNTED        a file that has in the end how many reads were made, and how many bytes they gave
 */
#define _GNU_SOURCE
#include <dlfcn.h>
#include <errno.h>
#include <fcntl.h>
#include <limits.h>
#include <stdio.h>
#include <stdlib.h>
#include <string.h>
#include <unistd.h>

typedef ssize_t (*reads)(int, void *, size_t);
typedef ssize_t (*writes)(int, const void *, size_t);

static long calls, given, taken;
static long read_most, read_fails, read_rest, read_error, read_late, read_again, read_lines, write_most, write_room;

static long number_of(const char *variable, long otherwise) {
    const char *number = getenv(variable);
    return number ? atol(number) : otherwise;
}

__attribute__((constructor)) static void look(void) {
    read_most = number_of("READ_MOST", LONG_MAX);
    read_fails = number_of("READ_FAILS", LONG_MAX);
    read_rest = number_of("READ_REST", 0);
    read_error = number_of("READ_ERROR", EIO);
    read_late = number_of("READ_LATE", 0);
    read_again = number_of("READ_AGAIN", 0);
    read_lines = number_of("READ_LINES", 0);
    write_most = number_of("WRITE_MOST", LONG_MAX);
    write_room = number_of("WRITE_ROOM", LONG_MAX);
}

static size_t least(size_t one, long other) { return one < (size_t)other ? one : (size_t)other; }

ssize_t read(int file, void *to, size_t size) {
    static reads real;
    ssize_t count;
    if (!real)
        real = (reads)dlsym(RTLD_NEXT, "read");
    if (file != 0)
        return real(file, to, size);
    calls++;
    if (calls == read_fails || (calls > read_fails && read_rest)) {
        if (getenv("TOLD"))
            close(open(getenv("TOLD"), O_CREAT | O_WRONLY, 0600));
        errno = (int)read_error;
        return -1;
    }
    if (calls <= read_late || calls % (read_again + 1) != 0) {
        errno = EINTR;
        return -1;
    }
    size = least(size, read_most);
    count = read_lines ? (memset(to, '\n', size), (ssize_t)size) : real(file, to, size);
    given += count > 0 ? count : 0;
    return count;
}

ssize_t write(int file, const void *from, size_t size) {
    static writes real;
    ssize_t count;
    if (!real)
        real = (writes)dlsym(RTLD_NEXT, "write");
    if (file != 1)
        return real(file, from, size);
    if (taken == write_room) {
        errno = EPIPE;
        return -1;
    }
    count = real(file, from, least(least(size, write_most), write_room - taken));
    taken += count > 0 ? count : 0;
    return count;
}

void _exit(int status) {
    FILE *file = getenv("COUNTED") ? fopen(getenv("COUNTED"), "w") : NULL;
    if (file) {
        fprintf(file, "%ld reads gave %ld bytes\n", calls, given);
        fclose(file);
    }
    _Exit(status);
}
