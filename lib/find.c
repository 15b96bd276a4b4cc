/* A journal's file, part 3: it is found, locked, or made beside and named. */
#ifndef _GNU_SOURCE
#define _GNU_SOURCE
#endif
#include "open.h"

#include <errno.h>
#include <fcntl.h>
#include <limits.h>
#include <stdio.h>
#include <stdlib.h>
#include <string.h>
#include <sys/file.h>
#include <sys/stat.h>
#include <unistd.h>

#define HEADER_LENGTH 10

uint32_t seryugo_refuse(struct seryugo_opening *opening, uint32_t code, const char *words, int error)
{
    struct seryugo_file_found *found = opening->found;
    char cause[96];

    found->error = error;
    if (error == 0) {
        snprintf(found->words, sizeof found->words, "%s", words);
    } else {
        snprintf(found->words, sizeof found->words, "%s: %s", words, strerror_r(error, cause, sizeof cause));
    }
    return code;
}

uint32_t seryugo_fail(struct seryugo_opening *opening, const char *words, int error)
{
    return seryugo_refuse(opening, SERYUGO_FILE_FAILED, words, error);
}

static uint32_t fails(struct seryugo_opening *opening, const char *words) { return seryugo_fail(opening, words, errno); }

const char *seryugo_header(uint32_t messages, bool is_sealed)
{
    static const char *const headers[2][2] = {{"journal 1\n", "journal 3\n"}, {"journal 2\n", "journal 4\n"}};

    return headers[messages == SERYUGO_NUMBERS ? 0 : 1][is_sealed];
}

/* ---- the folder ---- */

/* Opens the folder of a path that has at least one slash, and takes the name behind the last. */
static uint32_t take_folder(struct seryugo_opening *opening, char *full)
{
    char *slash = strrchr(full, '/');

    if (strlen(slash + 1) >= sizeof opening->name) {
        return seryugo_refuse(opening, SERYUGO_FILE_FAILED, "the file's name", ENAMETOOLONG);
    }
    strcpy(opening->name, slash + 1);
    slash[slash == full] = 0;
    opening->folder = open(full, O_RDONLY | O_DIRECTORY | O_CLOEXEC);
    return opening->folder < 0 ? fails(opening, "open the folder") : (uint32_t)SERYUGO_DONE;
}

/* The path of a file that isn't there. Its folder has to be. */
static bool resolve_new(const char *path, char *full)
{
    const char *slash = strrchr(path, '/'), *name = slash == NULL ? path : slash + 1;
    char folder[PATH_MAX];
    struct stat link;

    if (lstat(path, &link) == 0 || *name == 0 || strlen(path) >= sizeof folder) {
        /* A link that leads nowhere is no place for a file. */
        errno = ENOENT;
        return false;
    }
    snprintf(folder, sizeof folder, "%.*s", slash == NULL ? 1 : (int)(slash - path) + 1, slash == NULL ? "." : path);
    if (realpath(folder, full) == NULL) {
        return false;
    }
    if (strlen(full) + strlen(name) + 2 > PATH_MAX) {
        errno = ENAMETOOLONG;
        return false;
    }
    strcat(strcat(full, strcmp(full, "/") == 0 ? "" : "/"), name);
    return true;
}

uint32_t seryugo_find_folder(struct seryugo_opening *opening)
{
    char full[PATH_MAX];

    if (realpath(opening->path, full) == NULL && (errno != ENOENT || !resolve_new(opening->path, full))) {
        return fails(opening, "find the folder");
    }
    if (strcmp(full, "/") == 0) {
        return seryugo_refuse(opening, SERYUGO_NO_JOURNAL, "a folder", EISDIR);
    }
    return take_folder(opening, full);
}

/* ---- the file ---- */

void seryugo_let_file(int descriptor)
{
    if (descriptor >= 0) {
        flock(descriptor, LOCK_UN);
        close(descriptor);
    }
}

/* The file isn't there, or was exchanged meanwhile. */
static uint32_t again(struct seryugo_opening *opening)
{
    seryugo_let_file(opening->descriptor);
    opening->descriptor = -1;
    return SERYUGO_NOTHING;
}

int seryugo_open_at(int folder, const char *name, int flags, mode_t mode)
{
    int descriptor;

    do {
        descriptor = openat(folder, name, flags | O_RDWR | O_CLOEXEC | O_NOFOLLOW | O_NONBLOCK | O_NOCTTY, mode);
    } while (descriptor < 0 && errno == EINTR);
    return descriptor;
}

bool seryugo_leads_to(const struct seryugo_opening *opening, const char *name, const struct stat *mine)
{
    struct stat there;

    return fstatat(opening->folder, name, &there, AT_SYMLINK_NOFOLLOW) == 0 && there.st_ino == mine->st_ino
           && there.st_dev == mine->st_dev;
}

uint32_t seryugo_lock_file(struct seryugo_opening *opening, const char *name)
{
    struct stat mine;
    int failure;

    do {
        failure = flock(opening->descriptor, LOCK_EX | LOCK_NB);
    } while (failure != 0 && errno == EINTR);
    if (failure != 0) {
        return errno == EWOULDBLOCK ? seryugo_refuse(opening, SERYUGO_FILE_BUSY, "another handle has the file", 0)
                                    : fails(opening, "lock the file");
    }
    if (fstat(opening->descriptor, &mine) != 0) {
        return fails(opening, "fstat");
    }
    if (!seryugo_leads_to(opening, name, &mine)) {
        return again(opening);
    }
    opening->length = (uint64_t)mine.st_size;
    return SERYUGO_DONE;
}

/* Opens the file of a name, if it is one. A pipe or a device isn't opened: that alone may do something. */
uint32_t seryugo_open_named(struct seryugo_opening *opening, const char *name)
{
    struct stat there;

    if (fstatat(opening->folder, name, &there, AT_SYMLINK_NOFOLLOW) != 0) {
        return errno == ENOENT ? again(opening) : fails(opening, "find the file");
    }
    if (!S_ISREG(there.st_mode)) {
        return seryugo_refuse(opening, SERYUGO_NO_JOURNAL, S_ISDIR(there.st_mode) ? "a folder" : "no ordinary file",
                              S_ISDIR(there.st_mode) ? EISDIR : 0);
    }
    opening->descriptor = seryugo_open_at(opening->folder, name, 0, 0);
    if (opening->descriptor < 0) {
        return errno == ENOENT ? again(opening) : fails(opening, "open the file");
    }
    if (fstat(opening->descriptor, &there) != 0 || !S_ISREG(there.st_mode)) {
        return seryugo_refuse(opening, SERYUGO_NO_JOURNAL, "no ordinary file", 0);
    }
    return seryugo_lock_file(opening, name);
}

/* ---- a new file ---- */

/* A file beside that is already there is this library's, if it has a beginning of the header and nothing else: its program was
 * killed. */
static uint32_t take_leftover(struct seryugo_opening *opening, const char *beside)
{
    char bytes[HEADER_LENGTH + 1];
    size_t length = 0;
    uint32_t code = seryugo_open_named(opening, beside);

    if (code != SERYUGO_DONE) {
        return code;
    }
    if (seryugo_read_at(opening->descriptor, bytes, sizeof bytes, 0, &length) != 0 || length > HEADER_LENGTH
        || memcmp(bytes, "journal 1\n", length < 8 ? length : 8) != 0) {
        return seryugo_refuse(opening, SERYUGO_FILE_FAILED, "a file of this name with .new is in the way", EEXIST);
    }
    return SERYUGO_DONE;
}

/* Gives the file its name, unless another file has it. */
static uint32_t name_file(struct seryugo_opening *opening, const char *beside)
{
    int folder = opening->folder;
    uint32_t code = SERYUGO_DONE;

    if (renameat2(folder, beside, folder, opening->name, RENAME_NOREPLACE) == 0) {
        return SERYUGO_DONE;
    }
    if ((errno != EINVAL && errno != ENOSYS) || linkat(folder, beside, folder, opening->name, 0) != 0) {
        code = errno == EEXIST ? (uint32_t)SERYUGO_NOTHING : fails(opening, "rename the new file");
    }
    unlinkat(folder, beside, 0);
    return code == SERYUGO_NOTHING ? again(opening) : code;
}

/* Makes the file beside, with its header on the disk, so that no file of the name is ever without one. */
static uint32_t create(struct seryugo_opening *opening)
{
    char beside[sizeof opening->name + 4];
    uint32_t code;
    int error;

    snprintf(beside, sizeof beside, "%s.new", opening->name);
    opening->descriptor = seryugo_open_at(opening->folder, beside, O_CREAT | O_EXCL, 0666);
    if (opening->descriptor < 0 && errno != EEXIST) {
        return fails(opening, "make a new file");
    }
    code = opening->descriptor < 0 ? take_leftover(opening, beside) : seryugo_lock_file(opening, beside);
    if (code != SERYUGO_DONE) {
        return code;
    }
    error = seryugo_may_reach(HEADER_LENGTH)
                ? seryugo_write_at(opening->descriptor, seryugo_header(opening->messages, opening->is_sealed), HEADER_LENGTH, 0)
                : EFBIG;
    if (error == 0 && fsync(opening->descriptor) != 0) {
        error = errno;
    }
    if (error != 0) {
        unlinkat(opening->folder, beside, 0);
        return seryugo_refuse(opening, SERYUGO_FILE_FAILED, "write the new file", error);
    }
    opening->length = HEADER_LENGTH;
    opening->found->is_new = true;
    return name_file(opening, beside);
}

uint32_t seryugo_find_file(struct seryugo_opening *opening)
{
    uint32_t code = SERYUGO_NOTHING;

    for (int tries = 0; tries < 100 && code == SERYUGO_NOTHING; tries++) {
        opening->found->is_new = false;
        code = seryugo_open_named(opening, opening->name);
        if (code == SERYUGO_NOTHING) {
            code = create(opening);
        }
    }
    if (code == SERYUGO_NOTHING) {
        return seryugo_refuse(opening, SERYUGO_FILE_BUSY, "the file is exchanged again and again", 0);
    }
    return code;
}
