/* A journal's file, part 4: what is in it is read and judged. Nothing is written before the file is found to be lawful. */
#ifndef _GNU_SOURCE
#define _GNU_SOURCE
#endif
#include "exchange.h"

#include <errno.h>
#include <fcntl.h>
#include <stdio.h>
#include <stdlib.h>
#include <string.h>
#include <sys/stat.h>
#include <sys/vfs.h>
#include <unistd.h>

#define HEADER_LENGTH 10
#define DEFAULT_SEGMENT ((uint64_t)4 << 20)
#define LIMIT_MOST ((uint64_t)1 << 32)
#define EXT4_MAGIC 0xEF53
#define XFS_MAGIC 0x58465342

/* ---- reading ---- */

/* Counts what was read. A reading that has stopped says no more than that. */
static void count(struct seryugo_opening *opening)
{
    (void)seryugo_reading_entries(&opening->reading, &opening->found->entries);
    (void)seryugo_reading_lines(&opening->reading, &opening->found->lines);
    (void)seryugo_reading_kept(&opening->reading, &opening->found->kept);
}

const char *seryugo_fault_text(uint64_t fault, uint64_t line)
{
    /* By their numbers, as the crate cml_journal words them. */
    static const char *const texts[] = {
        "too few words",
        "unknown word",
        "no colon",
        "bad number",
        "bad message",
        "wrong reply",
        "bad bytes",
        "no header",
        "another version",
        "another type of messages",
        "gap",
        "wrong end",
        "wrong sum",
        "too many entries",
        "line too long",
    };

    if (line == 2 && fault == SERYUGO_FAULT_GAP) {
        return "begins after a cut";
    }
    return fault < sizeof texts / sizeof texts[0] ? texts[fault] : "a fault";
}

/* Says by name why a text with this fault isn't read. */
static uint32_t refuse_fault(struct seryugo_opening *opening, uint64_t fault)
{
    bool is_header = opening->found->lines == 0;

    if (is_header && fault == SERYUGO_FAULT_OTHER_VERSION) {
        return seryugo_refuse(opening, SERYUGO_OTHER_VERSION, "a version that this library doesn't know", 0);
    }
    if (is_header && fault == SERYUGO_FAULT_OTHER_MESSAGES) {
        return seryugo_refuse(opening, SERYUGO_OTHER_MESSAGES,
                              opening->messages == SERYUGO_NUMBERS ? "it has bytes" : "it has numbers", 0);
    }
    if (is_header) {
        return seryugo_refuse(opening, SERYUGO_NO_JOURNAL, "the first line is none of a journal", 0);
    }
    if (opening->found->lines == 1 && fault == SERYUGO_FAULT_GAP) {
        return seryugo_refuse(opening, SERYUGO_BEGINS_LATER, "what was before the cut isn't known", 0);
    }
    return seryugo_refuse(opening, SERYUGO_FAULT, seryugo_fault_text(fault, opening->found->lines + 1), 0);
}

static uint32_t refuse_text(struct seryugo_opening *opening, uint32_t code)
{
    uint64_t fault = 0;

    count(opening);
    opening->found->kept = 0;
    if (seryugo_reading_state(&opening->reading, SERYUGO_READING_FAULT, &fault) == SERYUGO_DONE) {
        return refuse_fault(opening, fault);
    }
    if (code == SERYUGO_NO_JOURNAL) {
        return seryugo_refuse(opening, code, "the first line is none of a journal", 0);
    }
    return seryugo_refuse(opening, code, code == SERYUGO_NO_MEMORY ? "no memory" : "the journal was changed", 0);
}

/* Reads the text up to its first byte 0, or to the file's end. */
static uint32_t read_text(struct seryugo_opening *opening)
{
    uint32_t code = SERYUGO_DONE;
    size_t length = SERYUGO_CHUNK, part = SERYUGO_CHUNK;

    while (part == SERYUGO_CHUNK) {
        int error = seryugo_read_at(opening->descriptor, opening->chunk, SERYUGO_CHUNK, opening->text, &length);

        if (error != 0) {
            return seryugo_fail(opening, "read the file", error);
        }
        opening->chunk[length] = 0;
        part = strlen(opening->chunk);
        code = seryugo_reading_take(&opening->reading, opening->chunk, part);
        if (code != SERYUGO_DONE) {
            return refuse_text(opening, code);
        }
        opening->text += part;
    }
    return SERYUGO_DONE;
}

/* Where the last byte other than 0 is, plus one. */
static uint32_t find_end(struct seryugo_opening *opening)
{
    size_t length = 0;

    opening->end = opening->text;
    for (uint64_t at = opening->text; at < opening->length; at += length) {
        int error = seryugo_read_at(opening->descriptor, opening->chunk, SERYUGO_CHUNK, at, &length);

        if (error != 0 || length == 0) {
            return seryugo_fail(opening, "read the file", error == 0 ? EIO : error);
        }
        for (size_t i = length; i > 0; i--) {
            if (opening->chunk[i - 1] != 0) {
                opening->end = at + i;
                break;
            }
        }
    }
    return SERYUGO_DONE;
}

/* A file of zeros alone is no journal. A new one has its header on the disk before it has its name. An empty file may become
 * one, and so may what a crash left of the header in it. */
static bool is_blank(const struct seryugo_opening *opening)
{
    return opening->text == 0 && (opening->end != 0 || opening->length > HEADER_LENGTH);
}

/* ---- what follows ---- */

/* The last line that is kept, without its line feed, or nothing if it is longer than the end of a piece. */
static int last_line(struct seryugo_opening *opening, char *line, size_t size)
{
    uint64_t kept = opening->found->kept, from = kept < size ? 0 : kept - size + 1;
    size_t length = 0;
    int error = seryugo_read_at(opening->descriptor, line, (size_t)(kept - from), from, &length);
    char *before;

    line[length == 0 ? 0 : length - 1] = 0;
    before = strrchr(line, '\n');
    if (before != NULL) {
        memmove(line, before + 1, strlen(before));
    } else if (from != 0) {
        line[0] = 0;
    }
    return error;
}

/* Adds lines by which a piece ends that has sums, and a new one begins. `word` has the sum, or is empty. */
static void begin_piece(struct seryugo_opening *opening, const char *header, bool is_ended, const char *word)
{
    uint64_t entries = opening->found->entries;
    size_t length = is_ended ? 0 : seryugo_end_line(opening->more, sizeof opening->more, entries, word);

    opening->piece = opening->found->kept + length;
    opening->more_length = length + seryugo_piece_head(opening->more + length, sizeof opening->more - length, header, entries, word);
}

/* The sum of the last piece, if the text has sums. The line `end` has it, or else what was read. */
static uint32_t find_sum(struct seryugo_opening *opening, const char *line, bool is_ended, char *word)
{
    struct seryugo_sum sum = {0};
    uint32_t code = SERYUGO_DONE;

    if (is_ended) {
        const char *at = strchr(line + 4, ' ');

        snprintf(word, SERYUGO_SUM_WORD, "%s", at == NULL ? "" : at + 1);
    } else {
        code = seryugo_reading_sum(&opening->reading, &sum);
        if (code == SERYUGO_DONE) {
            seryugo_sum_word(&sum, word);
        }
    }
    return code == SERYUGO_NOTHING ? (uint32_t)SERYUGO_DONE : code;
}

/* Prepares the lines that follow the kept text, if the file isn't exchanged. After an open piece without sums there are none: new
 * entries continue it. Else they end the last piece, if it is open, and begin one of the same version that names its sum. */
static uint32_t prepare_more(struct seryugo_opening *opening)
{
    struct seryugo_file_found *found = opening->found;
    char line[256], header[HEADER_LENGTH + 1] = "", word[SERYUGO_SUM_WORD] = "";
    size_t length = 0;
    int error = seryugo_read_at(opening->descriptor, header, HEADER_LENGTH, 0, &length);
    bool has_header = header[HEADER_LENGTH - 1] == '\n', is_ended;

    error = error == 0 ? last_line(opening, line, sizeof line) : error;
    if (error != 0) {
        return seryugo_fail(opening, "read the file", error);
    }
    is_ended = strncmp(line, "end ", 4) == 0;
    if (found->kept != 0 && find_sum(opening, line, is_ended, word) != SERYUGO_DONE) {
        return seryugo_refuse(opening, SERYUGO_NO_MEMORY, "no memory", 0);
    }
    /* Without sums only headers and ends are lines and no entries. */
    opening->is_old = has_header && (strcmp(header, seryugo_header(opening->messages, opening->is_sealed)) != 0
                                     || (!opening->is_sealed && found->lines > found->entries + 1));
    if (found->kept == 0) {
        found->kept = has_header ? HEADER_LENGTH : 0;
        strcpy(opening->more, has_header ? "" : seryugo_header(opening->messages, opening->is_sealed));
        opening->more_length = strlen(opening->more);
    } else if (is_ended || word[0] != 0) {
        begin_piece(opening, header, is_ended, word);
    }
    opening->kept = found->kept;
    opening->next = found->entries;
    return SERYUGO_DONE;
}

/* ---- what is cut off ---- */

static int copy_to(struct seryugo_opening *opening, int other, uint64_t from, uint64_t end)
{
    for (uint64_t at = from; at < end;) {
        size_t length = 0, part = end - at < SERYUGO_CHUNK ? (size_t)(end - at) : SERYUGO_CHUNK;
        int error = seryugo_read_at(opening->descriptor, opening->chunk, part, at, &length);

        if (error == 0 && length != 0) {
            error = seryugo_may_reach(at - from + length) ? seryugo_write_at(other, opening->chunk, length, at - from) : EFBIG;
        }
        if (error != 0 || length == 0) {
            return error == 0 ? EIO : error;
        }
        at += length;
    }
    return fsync(other) == 0 && fsync(opening->folder) == 0 ? 0 : errno;
}

/* Saves what is cut off in a file that didn't exist, on the disk before the cut. */
static uint32_t save(struct seryugo_opening *opening)
{
    struct seryugo_file_found *found = opening->found;
    int other = -1, error;
    struct stat mine;

    for (int number = 1; other < 0 && number < 10000; number++) {
        if (snprintf(found->saved, sizeof found->saved, "%s.cut-%d", opening->name, number) >= (int)sizeof found->saved) {
            errno = ENAMETOOLONG;
            break;
        }
        other = openat(opening->folder, found->saved, O_WRONLY | O_CREAT | O_EXCL | O_CLOEXEC, 0600);
        if (other < 0 && errno != EEXIST && errno != EINTR) {
            break;
        }
    }
    error = other < 0 ? errno : copy_to(opening, other, found->kept, opening->end);
    if (error == 0 && fstat(opening->descriptor, &mine) == 0) {
        (void)fchmod(other, mine.st_mode & 07777);
    }
    if (other >= 0) {
        close(other);
        if (error != 0) {
            unlinkat(opening->folder, found->saved, 0);
        }
    }
    if (error != 0) {
        found->saved[0] = 0;
        return seryugo_fail(opening, "save what is cut off", error);
    }
    return SERYUGO_DONE;
}

/* ---- all of it ---- */

/* A store into memory needs room that the system keeps free for it: ext4 and xfs do so. */
static bool may_be_mapped(const struct seryugo_opening *opening, const struct seryugo_file_options *options)
{
    struct statfs system;

    if ((options->flags & SERYUGO_FILE_BY_WRITES) != 0 || fstatfs(opening->descriptor, &system) != 0) {
        return false;
    }
    return (uint64_t)system.f_type == EXT4_MAGIC || (uint64_t)system.f_type == XFS_MAGIC;
}

uint32_t seryugo_judge(struct seryugo_opening *opening)
{
    uint32_t code;

    opening->chunk = (char *)malloc(SERYUGO_CHUNK + 1);
    code = opening->chunk == NULL ? (uint32_t)SERYUGO_NO_MEMORY : seryugo_open_reading(opening->messages, &opening->reading);
    if (code != SERYUGO_DONE) {
        return seryugo_refuse(opening, code, "no memory", 0);
    }
    opening->has_reading = true;
    code = read_text(opening);
    if (code == SERYUGO_DONE) {
        code = find_end(opening);
    }
    if (code != SERYUGO_DONE) {
        return code;
    }
    code = seryugo_reading_end(&opening->reading);
    if (is_blank(opening) || (code != SERYUGO_DONE && code != SERYUGO_TEXT_OPEN && code != SERYUGO_TORN)) {
        return refuse_text(opening, SERYUGO_NO_JOURNAL);
    }
    count(opening);
    code = prepare_more(opening);
    if (code == SERYUGO_DONE) {
        code = seryugo_room_restore(&opening->reading, opening->limit, &opening->room);
        opening->has_room = code == SERYUGO_DONE;
        code = opening->has_room ? code : seryugo_refuse(opening, code, "no room can be made of the journal", 0);
    }
    return code;
}

/* Makes the handle, and starts its helper. */
static uint32_t start(struct seryugo_opening *opening, const struct seryugo_file_options *options,
                      struct seryugo *store, struct seryugo_file **file)
{
    bool is_mapped = may_be_mapped(opening, options);
    struct seryugo_file *made = seryugo_file_new(opening->descriptor, is_mapped, opening->messages, opening->limit);
    uint64_t segment = options->segment == 0 ? DEFAULT_SEGMENT : options->segment;

    if (made == NULL) {
        seryugo_close(*store);
        return seryugo_refuse(opening, SERYUGO_NO_MEMORY, "no memory", 0);
    }
    made->store = *store;
    made->stored = seryugo_mark_of(store, SERYUGO_MARK_STORED);
    made->bound = made->stored;
    made->next = opening->next;
    made->cut_next = made->next;
    made->cut_stored = made->stored;
    made->segment = (segment + SERYUGO_PAGE - 1) / SERYUGO_PAGE * SERYUGO_PAGE;
    made->view_size = 16 * made->segment + 2 * made->margin / SERYUGO_PAGE * SERYUGO_PAGE;
    made->period = options->sync_milliseconds;
    made->keep = options->keep;
    made->is_asked = true;
    atomic_store(&made->told, made->stored);
    atomic_store(&made->synced, seryugo_mark_of(store, SERYUGO_MARK_SYNCED));
    atomic_store(&made->grown, seryugo_mark_of(store, SERYUGO_MARK_GROWN));
    if (opening->is_sealed && !seryugo_seal_new(made, opening->messages, opening->piece)) {
        seryugo_file_free(made);
        return seryugo_refuse(opening, SERYUGO_NO_MEMORY, "no memory", 0);
    }
    if (options->short_from != 0 && !seryugo_exchange_new(made, opening, options->short_from)) {
        seryugo_file_free(made);
        return seryugo_refuse(opening, SERYUGO_NO_MEMORY, "no memory", 0);
    }
    if (seryugo_file_start_helper(made) != 0) {
        seryugo_exchange_stop(made);
        seryugo_file_free(made);
        return seryugo_refuse(opening, SERYUGO_NO_MEMORY, "no thread can be started", EAGAIN);
    }
    seryugo_file_list(made);
    *file = made;
    return SERYUGO_DONE;
}

static uint32_t open_all(struct seryugo_opening *opening, const struct seryugo_file_options *options, struct seryugo_file **file)
{
    struct seryugo_file_found *found = opening->found;
    struct seryugo store;
    uint32_t code = seryugo_find_folder(opening);

    if (code == SERYUGO_DONE) {
        code = seryugo_find_file(opening);
    }
    if (code == SERYUGO_DONE) {
        code = seryugo_judge(opening);
    }
    if (code != SERYUGO_DONE) {
        return code;
    }
    found->cut_off = opening->end < found->kept ? 0 : opening->end - found->kept;
    if (found->cut_off > SERYUGO_LINE_MOST) {
        code = save(opening);
    }
    if (code == SERYUGO_DONE) {
        code = seryugo_shorten_file(opening, options->short_from);
    }
    if (code == SERYUGO_DONE) {
        code = seryugo_mend(opening, &store);
    }
    return code == SERYUGO_DONE ? start(opening, options, &store, file) : code;
}

void seryugo_free_opening(struct seryugo_opening *opening)
{
    if (opening->has_reading) {
        seryugo_close(opening->reading);
    }
    if (opening->has_room) {
        seryugo_close(opening->room);
    }
    seryugo_let_file(opening->descriptor);
    if (opening->folder >= 0) {
        close(opening->folder);
    }
    free(opening->chunk);
}

uint32_t seryugo_file_open(const char *path, uint32_t messages, uint64_t limit, const struct seryugo_file_options *options,
                           struct seryugo *room, struct seryugo_file_found *found, struct seryugo_file **file)
{
    static const struct seryugo_file_options each_second = {.sync_milliseconds = 1000};
    struct seryugo_file_found unwanted;
    struct seryugo_opening opening;
    int state = 0;
    uint32_t code;

    found = found == NULL ? &unwanted : found;
    memset(found, 0, sizeof *found);
    memset(&opening, 0, sizeof opening);
    opening.path = path;
    opening.messages = messages;
    opening.limit = limit;
    opening.found = found;
    opening.folder = opening.descriptor = -1;
    options = options == NULL ? &each_second : options;
    opening.is_sealed = (options->flags & SERYUGO_FILE_SEALED) != 0;
    if (messages > SERYUGO_BYTES || limit == 0 || limit > LIMIT_MOST || options->keep > SERYUGO_KEEP_DISK) {
        return seryugo_refuse(&opening, SERYUGO_OUT_OF_BOUNDS, "no such messages, limit or level", 0);
    }
    pthread_setcancelstate(PTHREAD_CANCEL_DISABLE, &state);
    code = open_all(&opening, options, file);
    if (code == SERYUGO_DONE) {
        *room = opening.room;
        opening.has_room = false;
        opening.descriptor = -1;
    }
    seryugo_free_opening(&opening);
    pthread_setcancelstate(state, &state);
    return code;
}
