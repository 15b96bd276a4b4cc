/* A journal's file, part 10: pieces with sums. The helper's thread sums what callers have stored. A caller under the room's
 * lock ends a piece by a line with its sum, and begins the next one. */
#ifndef _GNU_SOURCE
#define _GNU_SOURCE
#endif
#include "exchange.h"

#include <stdio.h>
#include <stdlib.h>
#include <string.h>

/* A piece ends after so many entries, or at a sync in the background. */
#define ENTRIES_MOST 65536

/* The most bytes that a caller sums. */
#define CALLER_MOST ((uint64_t)4 << 10)

/* So many bytes are summed at once: the helper has other work. */
#define PART ((size_t)128 << 10)

struct seryugo_seal {
    /* The open piece from its header on, and the sum of what is summed of it. */
    struct seryugo summing;
    struct seryugo_sum sum;
    /* All before this position is summed. */
    uint64_t summed;
    /* The entry with which the piece begins, and by how much less an entry's position is in the text. */
    uint64_t from;
    uint64_t shift;
    uint32_t messages;
    /* The next are under the file's lock. A thread sums without that. */
    bool is_busy;
    bool is_due;
    char part[PART];
};

/* ---- lines ---- */

void seryugo_sum_word(const struct seryugo_sum *sum, char *word)
{
    for (size_t at = 0; at < sizeof sum->bytes; at++) {
        sprintf(word + 2 * at, "%02x", sum->bytes[at]);
    }
}

size_t seryugo_end_line(char *to, size_t size, uint64_t entries, const char *word)
{
    return (size_t)snprintf(to, size, "end %llu %s\n", (unsigned long long)entries, word);
}

size_t seryugo_piece_head(char *to, size_t size, const char *header, uint64_t entries, const char *word)
{
    int length = snprintf(to, size, "%.9s%s%s\n", header, word[0] == 0 ? "" : " ", word);

    if (entries != 0) {
        length += snprintf(to + length, size - (size_t)length, "from %llu\n", (unsigned long long)entries);
    }
    return (size_t)length;
}

/* ---- summing ---- */

/* A piece begins at a position. Nothing of it is summed yet. */
static void begin_piece(struct seryugo_seal *seal, uint64_t position, uint64_t from)
{
    if (seal->summing.at != NULL) {
        seryugo_close(seal->summing);
    }
    seal->summing.at = NULL;
    seal->summed = position;
    seal->from = from;
    seal->is_due = false;
}

/* Sums the next bytes up to a position, but no more than a part. Returns false if their sum isn't known. */
static bool sum_part(struct seryugo_file *file, uint64_t end)
{
    struct seryugo_seal *seal = file->seal;
    uint64_t rest = end - seal->summed;
    size_t length = 0, part = rest < PART ? (size_t)rest : PART;

    if (seal->summing.at == NULL && seryugo_open_summing(&seal->summing) != SERYUGO_DONE) {
        return false;
    }
    if (seryugo_read_at(file->descriptor, seal->part, part, seal->summed - file->shift, &length) != 0 || length != part) {
        return false;
    }
    seal->summed += length;
    return seryugo_summing_take_from(&seal->summing, &seal->sum, seal->part, length) == SERYUGO_DONE;
}

/* Nothing is sealed while the file is exchanged: other lines are before these in the new file. */
static bool is_at_rest(const struct seryugo_file *file)
{
    return !atomic_load(&file->is_lost) && (file->exchange == NULL || file->exchange->stage == SERYUGO_STAGE_NONE);
}

/* Sums a part without the lock. */
static bool sum_stored(struct seryugo_file *file, uint64_t end)
{
    bool is_summed;

    file->seal->is_busy = true;
    pthread_mutex_unlock(&file->lock);
    is_summed = sum_part(file, end);
    pthread_mutex_lock(&file->lock);
    file->seal->is_busy = false;
    return is_summed;
}

void seryugo_seal_look(struct seryugo_file *file, bool is_time)
{
    struct seryugo_seal *seal = file->seal;
    uint64_t told = atomic_load(&file->told);
    bool is_summed;

    if (seal == NULL || seal->is_busy || !is_at_rest(file)) {
        return;
    }
    seal->is_due = seal->is_due || is_time;
    is_summed = told == seal->summed || sum_stored(file, told);
    if (atomic_load(&file->told) - seal->summed <= CALLER_MOST) {
        atomic_store(&file->is_seal_wanted, seal->is_due);
    } else {
        file->is_asked = file->is_asked || is_summed;
    }
}

/* ---- seals ---- */

/* Sums the last bytes, ends the piece, and begins the next one, unless the file is being closed. */
static void end_piece(struct seryugo_file *file, bool is_last)
{
    struct seryugo_seal *seal = file->seal;
    uint64_t entries = file->next - seal->shift;
    char lines[SERYUGO_SEAL_MOST], word[SERYUGO_SUM_WORD] = "";
    size_t end, length;

    if (!sum_part(file, file->stored)) {
        return;
    }
    seryugo_sum_word(&seal->sum, word);
    length = end = seryugo_end_line(lines, sizeof lines, entries, word);
    if (!is_last) {
        length += seryugo_piece_head(lines + end, sizeof lines - end, seryugo_header(seal->messages, true), entries, word);
    }
    if (seryugo_file_store_text(file, lines, length) == SERYUGO_DONE) {
        begin_piece(seal, file->stored - (length - end), file->next);
    }
}

/* Whether a caller has something to seal, and little to sum. */
static bool may_end(const struct seryugo_file *file)
{
    const struct seryugo_seal *seal = file->seal;

    return is_at_rest(file) && !seal->is_busy && file->next != seal->from && file->stored - seal->summed <= CALLER_MOST
           && file->stored + SERYUGO_SEAL_MOST <= file->bound;
}

static void seal_piece(struct seryugo_file *file)
{
    struct seryugo_seal *seal = file->seal;
    bool may;

    pthread_mutex_lock(&file->lock);
    atomic_store(&file->is_seal_wanted, false);
    may = seal->is_busy = may_end(file);
    pthread_mutex_unlock(&file->lock);
    if (may) {
        end_piece(file, false);
        pthread_mutex_lock(&file->lock);
        seal->is_busy = false;
        pthread_mutex_unlock(&file->lock);
    }
}

void seryugo_seal_piece(struct seryugo_file *file)
{
    int state = 0;

    pthread_setcancelstate(PTHREAD_CANCEL_DISABLE, &state);
    seal_piece(file);
    pthread_setcancelstate(state, &state);
}

void seryugo_seal_count(struct seryugo_file *file)
{
    struct seryugo_seal *seal = file->seal;

    if (seal != NULL && file->next - seal->from >= ENTRIES_MOST) {
        pthread_mutex_lock(&file->lock);
        seal->is_due = true;
        seryugo_file_ask_locked(file);
        pthread_mutex_unlock(&file->lock);
    }
}

void seryugo_seal_last(struct seryugo_file *file)
{
    struct seryugo_seal *seal = file->seal;
    bool may = seal != NULL && is_at_rest(file) && seryugo_file_has_room(file, SERYUGO_SEAL_MOST);

    while (may && file->stored - seal->summed > PART) {
        may = sum_part(file, file->stored);
    }
    if (may) {
        end_piece(file, true);
    }
}

/* ---- handles ---- */

bool seryugo_seal_new(struct seryugo_file *file, uint32_t messages, uint64_t piece)
{
    struct seryugo_seal *seal = (struct seryugo_seal *)calloc(1, sizeof *seal);

    file->seal = seal;
    if (seal == NULL) {
        return false;
    }
    seal->messages = messages;
    begin_piece(seal, piece, file->next);
    return true;
}

void seryugo_seal_begin(struct seryugo_file *file, uint64_t shift)
{
    if (file->seal != NULL) {
        file->seal->shift = shift;
        begin_piece(file->seal, file->shift, shift);
    }
}

void seryugo_seal_free(struct seryugo_seal *seal)
{
    if (seal->summing.at != NULL) {
        seryugo_close(seal->summing);
    }
    free(seal);
}
