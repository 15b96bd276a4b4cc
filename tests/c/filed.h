/* What file.c, file_traps.c and shortened.c share: one room, whose journal is in a file, and files of other kinds. */
#ifndef FILED_H
#define FILED_H

#ifndef _GNU_SOURCE
#define _GNU_SOURCE
#endif
#include "checks.h"
#include "seryugo_switchboard.h"
#include <errno.h>
#include <fcntl.h>
#include <signal.h>
#include <string.h>
#include <sys/resource.h>
#include <sys/stat.h>
#include <sys/wait.h>
#include <unistd.h>

static struct seryugo room;
static struct seryugo_file *file;
static struct seryugo_file_found found;
static bool has_room;
static uint64_t short_from;
static char content[8 << 20];

static void free_all(void)
{
    if (file != NULL) {
        (void)seryugo_file_close(file);
        file = NULL;
    }
    close_one(&has_room, room);
}

static void has(bool condition, const char *what, int line)
{
    if (!condition) {
        fprintf(stderr, "line %d: not so: %s (%s)\n", line, what, found.words);
        exit(1);
    }
}

#define HAS(condition) has(condition, #condition, __LINE__)

/* ---- files ---- */

static inline void put(const char *path, const char *bytes, size_t length)
{
    FILE *stream = fopen(path, "w");

    HAS(stream != NULL && fwrite(bytes, 1, length, stream) == length && fclose(stream) == 0);
}

static inline size_t get(const char *path)
{
    FILE *stream = fopen(path, "r");
    size_t length;

    HAS(stream != NULL);
    length = fread(content, 1, sizeof content, stream);
    fclose(stream);
    return length;
}

static inline bool is_there(const char *path) { return access(path, F_OK) == 0; }

/* The file has this at its beginning. */
static inline void begins(const char *path, const char *text, int line)
{
    size_t length = get(path);

    if (length < strlen(text) || memcmp(content, text, strlen(text)) != 0) {
        fprintf(stderr, "line %d: the file has\n%.*s", line, (int)(length < 2000 ? length : 2000), content);
        exit(1);
    }
}

#define BEGINS(path, text) begins(path, text, __LINE__)

/* Nothing but zeros is behind the text, also while the file is open. */
static inline void has_a_clean_end(const char *path, int line)
{
    size_t length = get(path), at = strnlen(content, length);

    while (at < length && content[at] == 0) {
        at++;
    }
    is(at, length, line);
}

static uint32_t open_as(const char *path, uint32_t messages, uint32_t flags)
{
    struct seryugo_file_options options = {.flags = flags, .segment = 4096, .short_from = short_from};
    uint32_t code = seryugo_file_open(path, messages, 1000, &options, &room, &found, &file);

    has_room = code == SERYUGO_DONE;
    if (code != SERYUGO_DONE) {
        file = NULL;
    }
    return code;
}

static uint32_t open_numbers(const char *path) { return open_as(path, SERYUGO_NUMBERS, 0); }

/* Makes a call's entry, keeps it, and says what the note returned. */
static uint32_t send_kept(uint64_t seat, uint64_t message)
{
    uint32_t code = seryugo_file_reserve(file, &room, 0);

    if (code != SERYUGO_DONE) {
        return code;
    }
    RETURNS(DONE, seryugo_send(&room, seat, 0, message));
    return seryugo_file_note(file, &room, NULL);
}

static uint64_t new_seat(void)
{
    uint64_t seat = 0;

    RETURNS(DONE, seryugo_new_seat(&room, &seat));
    return seat;
}

/* Opens, sends one message, and closes. */
static inline void go_on(const char *path, int line)
{
    uint64_t seat, name = 0, before = 0;
    uint32_t code = open_numbers(path);

    returns(code, SERYUGO_DONE, line);
    RETURNS(DONE, seryugo_entries(&room, &before));
    seat = new_seat();
    if (seryugo_kind(&room, 0, &name) != SERYUGO_DONE) {
        RETURNS(DONE, seryugo_new_mailbox(&room, seat, &name));
        before++;
    }
    returns(send_kept(seat, 77), SERYUGO_DONE, line);
    RETURNS(DONE, seryugo_file_close(file));
    file = NULL;
    close_one(&has_room, room);
    returns(open_numbers(path), SERYUGO_DONE, line);
    is(found.entries, before + 1, line);
    free_all();
}

#endif
