/* What exchanges.c, exchange_faults.c and exchange_syncs.c share: four threads on a switchboard whose file stays short, what
 * their calls returned, and a look at what is left of them. */
#ifndef EXCHANGED_H
#define EXCHANGED_H

#include "filed.h"

#include <dirent.h>
#include <stdatomic.h>
#include <sys/mman.h>

#define THREADS 4
/* Values of a mailbox count from 0. So many of each are remembered. */
#define VALUES ((uint64_t)1 << 20)

/* What returned, which outlives a kill. */
struct told {
    _Atomic uint64_t sent[THREADS];
    _Atomic uint8_t got[THREADS][VALUES];
    _Atomic bool is_bad;
    /* The file is lost, or there is no room. */
    _Atomic bool is_refused;
    /* A fault was met. */
    _Atomic bool is_met;
};

static struct told *told;
static struct seryugo_switchboard board;
static struct seryugo_seat seats[THREADS];
static struct seryugo_file_options options;
static uint32_t messages;
static _Atomic bool is_over;
/* How many threads work. */
static _Atomic uint64_t working;
/* So many values each of them sends at most, and so many more twice a millisecond. On a busy machine they would add lines faster
 * than these are copied. */
static _Atomic uint64_t allowed;
static uint64_t pace = 20;

/* ---- messages ---- */

/* A message of bytes has the number and then bytes of all kinds. */
static uint32_t send_value(struct seryugo_seat *seat, uint64_t mailbox, uint64_t value)
{
    char bytes[80];
    size_t length;

    if (messages == SERYUGO_NUMBERS) {
        return seryugo_seat_send(seat, mailbox, value);
    }
    length = (size_t)snprintf(bytes, sizeof bytes, "%llu", (unsigned long long)value);
    bytes[length++] = '.';
    for (; length < sizeof bytes - value % 50; length++) {
        bytes[length] = length % 7 == 0 ? (char)(128 + value + length) : '.';
    }
    return seryugo_seat_bytes_send(seat, mailbox, bytes, length);
}

static uint32_t poll_value(struct seryugo_seat *seat, uint64_t mailbox, uint64_t *value)
{
    struct seryugo_bytes message;
    uint32_t code;

    if (messages == SERYUGO_NUMBERS) {
        return seryugo_seat_recv_poll(seat, mailbox, value);
    }
    code = seryugo_seat_bytes_recv_poll(seat, mailbox, &message);
    if (code == SERYUGO_DONE) {
        *value = strtoull((const char *)seryugo_bytes_at(&message), NULL, 10);
        seryugo_bytes_free(message);
    }
    return code;
}

/* ---- four threads ---- */

/* Waits until more values are allowed. */
static bool may_send(uint64_t me)
{
    while (!is_over && told->sent[me] >= allowed) {
        usleep(100);
    }
    return !is_over && told->sent[me] < VALUES;
}

/* Sends the next value of its own mailbox, and receives one from each in turn, or else from its own. So few wait. */
static void *work(void *given)
{
    struct seryugo_seat *seat = (struct seryugo_seat *)given;
    uint64_t me = (uint64_t)(seat - seats), value = 0;
    uint32_t code = SERYUGO_DONE;

    for (uint64_t at = 0; may_send(me) && code == SERYUGO_DONE; at++) {
        uint64_t from = (me + at) % THREADS;

        code = send_value(seat, me, told->sent[me]);
        told->sent[me] += code == SERYUGO_DONE;
        code = code == SERYUGO_DONE ? poll_value(seat, from, &value) : code;
        if (code == SERYUGO_NOTHING) {
            from = me;
            code = poll_value(seat, from, &value);
        }
        if (code == SERYUGO_DONE) {
            told->is_bad = told->is_bad || value >= VALUES || atomic_exchange(&told->got[from][value], 1) != 0;
        }
        code = code == SERYUGO_NOTHING ? (uint32_t)SERYUGO_DONE : code;
    }
    told->is_refused = told->is_refused || code == SERYUGO_FILE_LOST || code == SERYUGO_FILE_FULL || code == SERYUGO_NO_MEMORY;
    told->is_bad = told->is_bad || (code != SERYUGO_DONE && !told->is_refused);
    seryugo_seat_leave(seat);
    working--;
    return NULL;
}

static void open_board(const char *path)
{
    is_over = false;
    allowed = 0;
    RETURNS(DONE, seryugo_switchboard_open_file(path, messages, &options, &found, &board));
    for (size_t at = 0; at < THREADS; at++) {
        RETURNS(DONE, seryugo_seat_open(&board, &seats[at]));
    }
    for (size_t at = 0; at < THREADS; at++) {
        RETURNS(DONE, seryugo_seat_mailbox_again(&seats[0], at));
    }
}

/* Has four threads work on the board until so many short files have taken its file's place, so many tries have failed, calls are
 * refused, all values are sent, or it is over. Returns how many have failed. */
static uint64_t work_on_it(uint64_t done, uint64_t failed)
{
    struct seryugo_file_exchanges ended = {.done = 0};
    pthread_t threads[THREADS];

    working = THREADS;
    for (size_t at = 0; at < THREADS; at++) {
        HAS(pthread_create(&threads[at], NULL, work, &seats[at]) == 0);
    }
    while (ended.done < done && ended.failed < failed && !told->is_bad && !told->is_refused && !is_over && working > 0) {
        usleep(500);
        allowed += pace;
        seryugo_file_exchanges(board.file, &ended);
    }
    is_over = true;
    for (size_t at = 0; at < THREADS; at++) {
        pthread_join(threads[at], NULL);
    }
    HAS(!told->is_bad);
    memcpy(found.words, ended.words, sizeof found.words);
    return ended.failed;
}

/* Works until it is over, or so many short files have taken the place. None fails, unless lines are still added faster than they
 * are copied. */
static inline void work_well(uint64_t done)
{
    uint64_t failed = work_on_it(done, UINT64_MAX);

    has(failed == 0 || strcmp(found.words, "copy lines") == 0, found.words, __LINE__);
}

/* ---- what is left ---- */

/* In a mailbox wait the values from one on up to another one. All before were received once, and not all of these calls returned.
 * Returns how many didn't. */
static inline uint64_t count_unsaid(struct seryugo_seat *seat, uint64_t mailbox)
{
    uint64_t value = 0, first = 0, next = 0, unsaid = 0;
    bool is_first = true;

    while (poll_value(seat, mailbox, &value) == SERYUGO_DONE) {
        first = is_first ? value : first;
        HAS((is_first || value == next) && value < VALUES && told->got[mailbox][value] == 0);
        next = value + 1;
        is_first = false;
    }
    /* If none waits, a call that sent one may not have returned. */
    next = is_first ? told->sent[mailbox] : next;
    first = is_first ? next : first;
    HAS(next == told->sent[mailbox] || next == told->sent[mailbox] + 1);
    for (value = 0; value < first; value++) {
        unsaid += told->got[mailbox][value] == 0;
    }
    for (; value < next; value++) {
        told->got[mailbox][value] = 1;
    }
    return unsaid;
}

/* Opens the file after a child's end, and looks at all that is left. What was received now is said to be. */
static inline void look_at_it(const char *path)
{
    uint64_t unsaid = 0;

    open_board(path);
    for (size_t at = 0; at < THREADS; at++) {
        unsaid += count_unsaid(&seats[0], at);
    }
    HAS(!told->is_bad && unsaid <= THREADS);
    for (size_t at = 0; at < THREADS; at++) {
        seryugo_seat_leave(&seats[at]);
    }
    RETURNS(DONE, seryugo_switchboard_close(&board));
    memset((void *)told, 0, sizeof *told);
}

/* Nothing is left beside the file. */
static inline void has_one_file(const char *name)
{
    DIR *folder = opendir(".");
    struct dirent *entry;

    HAS(folder != NULL);
    while ((entry = readdir(folder)) != NULL) {
        has(strncmp(entry->d_name, name, strlen(name)) != 0 || strcmp(entry->d_name, name) == 0, entry->d_name, __LINE__);
    }
    closedir(folder);
}

static void choose(uint64_t way)
{
    static const uint64_t segments[] = {4096, 65536, 4096, 0};

    messages = way % 2 == 0 ? SERYUGO_NUMBERS : SERYUGO_BYTES;
    options.flags = way % 4 < 2 ? 0 : SERYUGO_FILE_BY_WRITES;
    options.flags |= way % 3 == 1 ? (uint32_t)SERYUGO_FILE_SEALED : 0;
    options.segment = segments[way / 4 % 4];
    options.sync_milliseconds = way % 3 == 0 ? 1 : 20;
    options.short_from = 1000;
}

static inline void share_what_is_told(void)
{
    told = (struct told *)mmap(NULL, sizeof *told, PROT_READ | PROT_WRITE, MAP_SHARED | MAP_ANONYMOUS, -1, 0);
    HAS(told != MAP_FAILED);
}

#endif
