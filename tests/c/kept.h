/* What keep.c and sealed.c share: a room whose journal is appended to a file, piece by piece, and a reading of that file. */
#ifndef KEPT_H
#define KEPT_H

#include "checks.h"

#include <string.h>

/* What is to be freed: at most one of each kind at a time. */
static struct seryugo room, journal, reading;
static struct seryugo_bytes text;
static bool has_room, has_journal, has_reading, has_text;

/* In place of a file: the pieces one after the other. */
static char file[2 * 1024 * 1024];
static size_t kept;

static void free_kept(void)
{
    free_one(&has_text, text);
    close_one(&has_journal, journal);
    close_one(&has_reading, reading);
    close_one(&has_room, room);
}

/* Takes the journal, and appends its text to the file: a sealed piece, if there is a sum. */
static void append(struct seryugo_sum *sum)
{
    uint64_t from, count;

    RETURNS(DONE, seryugo_cut_at(&room, &from));
    RETURNS(DONE, seryugo_take_journal(&room, &journal, &count));
    has_journal = true;
    RETURNS(DONE, sum ? seryugo_sealed_text(&journal, from, sum, &text) : seryugo_journal_text(&journal, from, &text));
    has_text = true;
    /* The text outlives the journal. */
    close_one(&has_journal, journal);
    memcpy(file + kept, seryugo_bytes_at(&text), text.length);
    kept += text.length;
    free_one(&has_text, text);
}

/* The file has these bytes from a place on. */
static void has_there(size_t place, const char *expected, int line)
{
    if (kept - place < strlen(expected) || memcmp(file + place, expected, strlen(expected)) != 0) {
        fprintf(stderr, "line %d: the file has\n%.*s", line, (int)kept, file);
        exit(1);
    }
}

static void open_reading(void)
{
    RETURNS(DONE, seryugo_reading_open(&reading));
    has_reading = true;
}

#endif
