/* A journal's file, part 5: it is exchanged for a short one, which is made beside. Until that one has the name, nothing of the old
 * file is changed. */
#ifndef _GNU_SOURCE
#define _GNU_SOURCE
#endif
#include "open.h"

#include <errno.h>
#include <fcntl.h>
#include <stdio.h>
#include <string.h>
#include <sys/stat.h>
#include <sys/xattr.h>
#include <unistd.h>

/* The extended attribute of a file that is being made while another one is in use. */
#define MARK "user.seryugo.beside"

/* Beside which file it was made. */
struct mark {
    uint64_t device;
    uint64_t inode;
};

void seryugo_begin_shorter(const struct seryugo_opening *opening, struct seryugo_shorter *made)
{
    memset(made, 0, sizeof *made);
    made->fresh.path = opening->path;
    made->fresh.messages = opening->messages;
    made->fresh.limit = opening->limit;
    made->fresh.is_sealed = opening->is_sealed;
    made->fresh.found = &made->found;
    made->fresh.folder = opening->folder;
    made->fresh.descriptor = -1;
    strcpy(made->fresh.name, opening->name);
    snprintf(made->beside, sizeof made->beside, "%s.new", opening->name);
}

/* Writes what `cml compact` writes, in the version of new files. */
uint32_t seryugo_take_text(struct seryugo *journal, struct seryugo_shorter *made)
{
    struct seryugo_sum sum = {0};
    uint32_t code = made->fresh.is_sealed ? seryugo_sealed_text(journal, 0, &sum, &made->text)
                                          : seryugo_journal_text(journal, 0, &made->text);
    const char *bytes;

    seryugo_close(*journal);
    if (code != SERYUGO_DONE) {
        return seryugo_refuse(&made->fresh, code, code == SERYUGO_TOO_LONG ? "a line would be too long" : "no memory", 0);
    }
    bytes = (const char *)seryugo_bytes_at(&made->text);
    made->length = (uint64_t)((const char *)memrchr(bytes, '\n', made->text.length - 1) + 1 - bytes);
    return SERYUGO_DONE;
}

static uint32_t write_text(struct seryugo_opening *opening, struct seryugo_shorter *made)
{
    struct seryugo journal;
    uint64_t count = 0;
    uint32_t code = seryugo_compact(&opening->room, &journal, &count);

    return code == SERYUGO_DONE ? seryugo_take_text(&journal, made) : seryugo_refuse(&made->fresh, code, "no memory", 0);
}

/* ---- the new file ---- */

/* Whether these bytes are those of the text, or zeros that a loss of power left of them. */
static bool are_of(const char *text, const char *bytes, size_t length)
{
    for (size_t at = 0; at < length; at++) {
        if (bytes[at] != text[at] && bytes[at] != 0) {
            return false;
        }
    }
    return true;
}

/* Whether this user or that of the old file has left a file, which has one name. */
static bool is_own(int old, int descriptor)
{
    struct stat was, is;

    return fstat(old, &was) == 0 && fstat(descriptor, &is) == 0 && is.st_nlink == 1
           && (is.st_uid == geteuid() || is.st_uid == was.st_uid);
}

static bool mark_of(int old, struct mark *mark)
{
    struct stat was;
    bool is_there = fstat(old, &was) == 0;

    mark->device = is_there ? (uint64_t)was.st_dev : 0;
    mark->inode = is_there ? (uint64_t)was.st_ino : 0;
    return is_there;
}

static bool is_marked(int old, int descriptor)
{
    struct mark wanted, found;

    return mark_of(old, &wanted) && fgetxattr(descriptor, MARK, &found, sizeof found) == (ssize_t)sizeof found
           && memcmp(&wanted, &found, sizeof found) == 0;
}

uint32_t seryugo_mark_beside(const struct seryugo_opening *opening, struct seryugo_shorter *made)
{
    struct mark mark;
    bool is_done = mark_of(opening->descriptor, &mark) && fsetxattr(made->fresh.descriptor, MARK, &mark, sizeof mark, 0) == 0;

    return is_done ? (uint32_t)SERYUGO_DONE : seryugo_fail(&made->fresh, "mark the new file", errno);
}

/* Whether a file has nothing that the new one won't have. */
static bool has_text_alone(const struct seryugo_opening *opening, const struct seryugo_shorter *made)
{
    const struct seryugo_opening *fresh = &made->fresh;
    const char *text = (const char *)seryugo_bytes_at(&made->text);
    bool is_so = fresh->length <= made->length;
    size_t length = 0;

    for (uint64_t at = 0; is_so && at < fresh->length; at += length) {
        size_t part = fresh->length - at < SERYUGO_CHUNK ? (size_t)(fresh->length - at) : SERYUGO_CHUNK;

        is_so = seryugo_read_at(fresh->descriptor, opening->chunk, part, at, &length) == 0 && length != 0;
        is_so = is_so && are_of(text + at, opening->chunk, length);
    }
    return is_so;
}

/* A file beside that is already there is taken, if a program was killed as it made it. */
static uint32_t take_leftover(const struct seryugo_opening *opening, struct seryugo_shorter *made)
{
    struct seryugo_opening *fresh = &made->fresh;
    uint32_t code = seryugo_open_named(fresh, made->beside);
    bool is_ours = code == SERYUGO_DONE && is_own(opening->descriptor, fresh->descriptor)
                   && (is_marked(opening->descriptor, fresh->descriptor) || has_text_alone(opening, made));

    return is_ours ? code : seryugo_fail(fresh, "a file of this name with .new is in the way", EEXIST);
}

/* Whether the system has a list of who may use the file, apart from its mode. */
static bool has_list(int descriptor) { return fgetxattr(descriptor, "system.posix_acl_access", NULL, 0) > 0; }

/* The same users may use the new file as the old one. */
static uint32_t keep_rights(int old, struct seryugo_opening *fresh)
{
    struct stat was, is;

    if (fstat(old, &was) != 0 || fstat(fresh->descriptor, &is) != 0) {
        return seryugo_fail(fresh, "fstat", errno);
    }
    if (was.st_nlink != 1) {
        return seryugo_refuse(fresh, SERYUGO_FILE_FAILED, "the file has two names", 0);
    }
    if (has_list(old) || has_list(fresh->descriptor)) {
        return seryugo_refuse(fresh, SERYUGO_FILE_FAILED, "the file has a list of who may use it", 0);
    }
    if ((was.st_uid != is.st_uid || was.st_gid != is.st_gid) && fchown(fresh->descriptor, was.st_uid, was.st_gid) != 0) {
        return seryugo_fail(fresh, "give the new file its owner", errno);
    }
    return fchmod(fresh->descriptor, was.st_mode & 07777) == 0 ? (uint32_t)SERYUGO_DONE
                                                               : seryugo_fail(fresh, "give the new file its mode", errno);
}

uint32_t seryugo_make_beside(const struct seryugo_opening *opening, struct seryugo_shorter *made)
{
    struct seryugo_opening *fresh = &made->fresh;
    uint32_t code;
    bool is_new;

    fresh->descriptor = seryugo_open_at(fresh->folder, made->beside, O_CREAT | O_EXCL, 0600);
    is_new = fresh->descriptor >= 0;
    if (!is_new && errno != EEXIST) {
        return seryugo_fail(fresh, "make a new file", errno);
    }
    code = is_new ? seryugo_lock_file(fresh, made->beside) : take_leftover(opening, made);
    /* If another program was first to lock it, it is that one's. */
    made->is_made = code == SERYUGO_DONE || (is_new && code == SERYUGO_FILE_FAILED);
    return code == SERYUGO_DONE ? keep_rights(opening->descriptor, fresh) : code;
}

/* Writes and syncs the new file, and reads it as each opening does: so the room is what the file says. */
static uint32_t fill(struct seryugo_shorter *made)
{
    struct seryugo_opening *fresh = &made->fresh;
    int error = fresh->length == 0 || ftruncate(fresh->descriptor, 0) == 0 ? 0 : errno;
    uint32_t code;

    if (error == 0) {
        error = seryugo_may_reach(made->length)
                    ? seryugo_write_at(fresh->descriptor, seryugo_bytes_at(&made->text), made->length, 0)
                    : EFBIG;
    }
    if (error == 0 && fsync(fresh->descriptor) != 0) {
        error = errno;
    }
    if (error != 0) {
        return seryugo_fail(fresh, "write the new file", error);
    }
    fresh->length = made->length;
    code = seryugo_judge(fresh);
    return code != SERYUGO_DONE || fresh->kept == made->length ? code : seryugo_fail(fresh, "read the new file", EIO);
}

/* ---- the exchange ---- */

static bool has_name(const struct seryugo_opening *opening, const char *name)
{
    struct stat mine;

    return fstat(opening->descriptor, &mine) == 0 && seryugo_leads_to(opening, name, &mine);
}

uint32_t seryugo_name_beside(const struct seryugo_opening *opening, struct seryugo_shorter *made)
{
    made->is_made = has_name(&made->fresh, made->beside);
    if (!made->is_made || !has_name(opening, opening->name)) {
        return seryugo_refuse(&made->fresh, SERYUGO_FILE_FAILED, "others have exchanged the file", 0);
    }
    if (renameat(opening->folder, made->beside, opening->folder, opening->name) != 0) {
        return seryugo_fail(&made->fresh, "rename the new file", errno);
    }
    made->is_made = false;
    (void)fremovexattr(made->fresh.descriptor, MARK);
    return SERYUGO_DONE;
}

void seryugo_remove_beside(const struct seryugo_shorter *made)
{
    if (made->is_made) {
        unlinkat(made->fresh.folder, made->beside, 0);
    }
}

void seryugo_free_shorter(struct seryugo_shorter *made)
{
    seryugo_bytes_free(made->text);
    made->fresh.folder = -1;
    seryugo_free_opening(&made->fresh);
}

/* The opening goes on with the new file, which was locked before it had the name. */
static void take_over(struct seryugo_opening *opening, struct seryugo_opening *fresh)
{
    struct seryugo_opening old = *opening;

    *opening = *fresh;
    opening->found = old.found;
    opening->found->is_shortened = true;
    *fresh = old;
}

/* Says why the file wasn't exchanged, and removes what was made. */
static uint32_t give_up(struct seryugo_opening *opening, const struct seryugo_shorter *made)
{
    opening->found->error = made->found.error;
    memcpy(opening->found->words, made->found.words, sizeof made->found.words);
    seryugo_remove_beside(made);
    /* Lines that were added to a file without a name would be lost. */
    if (!has_name(opening, opening->name)) {
        return seryugo_refuse(opening, SERYUGO_FILE_FAILED, "others have exchanged the file", 0);
    }
    return SERYUGO_DONE;
}

/* Makes the new file, and has it take the old one's place. */
static uint32_t try_exchange(struct seryugo_opening *opening, struct seryugo_shorter *made)
{
    uint32_t code = seryugo_make_beside(opening, made);

    if (code == SERYUGO_DONE) {
        code = fill(made);
    }
    if (code == SERYUGO_DONE) {
        code = seryugo_name_beside(opening, made);
    }
    if (code != SERYUGO_DONE) {
        return give_up(opening, made);
    }
    take_over(opening, &made->fresh);
    return SERYUGO_DONE;
}

uint32_t seryugo_shorten_file(struct seryugo_opening *opening, uint64_t short_from)
{
    struct seryugo_shorter made;
    uint32_t code;

    if (!opening->is_old && (short_from == 0 || opening->kept < short_from)) {
        return SERYUGO_DONE;
    }
    seryugo_begin_shorter(opening, &made);
    code = write_text(opening, &made);
    if (code != SERYUGO_DONE) {
        code = give_up(opening, &made);
    } else if (opening->is_old || opening->kept > SERYUGO_TIMES_SHORTER * made.length) {
        code = try_exchange(opening, &made);
    }
    seryugo_free_shorter(&made);
    return code;
}
