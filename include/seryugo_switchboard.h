/*
 * Threads on one room: calls that block, end at a time limit, and wake each other. The library seryugo has no threads, so this
 * header brings the lock and the waiting, by POSIX threads. All its code is here. It is tested, and not proved.
 *
 *     #include <seryugo_switchboard.h>
 *     #include <stdio.h>
 *
 *     static uint64_t mailbox;
 *
 *     static void *receive(void *seat)
 *     {
 *         uint64_t message = 0;
 *
 *         if (seryugo_seat_recv(seat, mailbox, NULL, &message) == SERYUGO_DONE) {
 *             printf("received %d\n", (int)message);
 *         }
 *         seryugo_seat_leave(seat);
 *         return NULL;
 *     }
 *
 *     int main(void)
 *     {
 *         struct seryugo_switchboard board;
 *         struct seryugo_seat ann, ben;
 *         pthread_t thread;
 *
 *         seryugo_switchboard_open(65536, &board);
 *         seryugo_seat_open(&board, &ann);
 *         seryugo_seat_open(&board, &ben);
 *         seryugo_seat_new_mailbox(&ann, &mailbox);
 *         pthread_create(&thread, NULL, receive, &ben);
 *         seryugo_seat_send(&ann, mailbox, 5);
 *         seryugo_seat_leave(&ann);
 *         pthread_join(thread, NULL);
 *         seryugo_switchboard_close(&board);
 *         return 0;
 *     }
 *
 * Compile with -pthread, and with -std=gnu11 or _POSIX_C_SOURCE 200809L.
 *
 * When does a call that waits return?
 *
 * - With SERYUGO_DONE or SERYUGO_CLOSED, once it has what it waits for.
 * - With SERYUGO_TIMED_OUT, at its deadline.
 * - With SERYUGO_STALLED, if each other seat waits or has left: nobody could answer it. A seat that was opened and doesn't wait may
 *   still send. So open the seats of all threads before the first one waits. If threads come later, keep a seat open meanwhile.
 *
 * With SERYUGO_KEEP_DISK each of these comes once the disk has what it rests on. A deadline bounds the wait for a message alone.
 *
 * pthread_cancel ends a thread that waits in a call: the call did nothing, and its seat is free. A thread that waits for the disk isn't
 * cancelled: its call returns. Let the seat leave in a cleanup function
 * of the thread (pthread_cleanup_push). While a sink runs, its thread isn't cancelled. Between seryugo_switchboard_lock and
 * seryugo_switchboard_unlock, disable cancellation yourself.
 *
 * Keep these rules. One thread at a time uses a seat. A seat and a switchboard stay where they are in memory. The rules of seryugo.h
 * hold too.
 */
#ifndef SERYUGO_SWITCHBOARD_H
#define SERYUGO_SWITCHBOARD_H

#include <errno.h>
#include <pthread.h>
#include <seryugo.h>
#include <seryugo_file.h>
#include <stdlib.h>
#include <string.h>
#include <time.h>

#ifdef __cplusplus
extern "C" {
#endif

struct seryugo_seat;

/* A room, its lock, and its seats by their numbers. Read `room` for calls that have no function here, between seryugo_switchboard_lock
 * and seryugo_switchboard_unlock. The other fields are the header's. */
struct seryugo_switchboard {
    struct seryugo room;
    pthread_mutex_t lock;
    /* The seat of the number `first` + k is at k, or null once it has left. */
    struct seryugo_seat **seats;
    uint64_t first;
    size_t made;
    size_t capacity;
    struct seryugo_keeper keeper;
    bool cuts;
    /* Where the journal is kept, or null. */
    struct seryugo_file *file;
    bool is_lost;
};

/* A thread's seat. The fields are the header's. */
struct seryugo_seat {
    struct seryugo_switchboard *board;
    uint64_t number;
    pthread_cond_t due;
};

/* ---- switchboards ---- */

/* Makes a switchboard on a room that is open, for example on one that seryugo_room_restore opened. It closes the room with itself.
 * SERYUGO_NO_MEMORY: the room is still yours. */
static inline uint32_t seryugo_switchboard_of(struct seryugo room, struct seryugo_switchboard *board)
{
    if (pthread_mutex_init(&board->lock, NULL) != 0) {
        return SERYUGO_NO_MEMORY;
    }
    board->room = room;
    board->seats = NULL;
    board->first = 0;
    board->made = 0;
    board->capacity = 0;
    memset(&board->keeper, 0, sizeof board->keeper);
    board->cuts = false;
    board->file = NULL;
    board->is_lost = false;
    return SERYUGO_DONE;
}

/* Opens a switchboard whose messages are numbers. It fails as seryugo_room_open does. */
static inline uint32_t seryugo_switchboard_open(uint64_t limit, struct seryugo_switchboard *board)
{
    struct seryugo room;
    uint32_t code = seryugo_room_open(limit, &room);

    if (code == SERYUGO_DONE) {
        code = seryugo_switchboard_of(room, board);
        if (code != SERYUGO_DONE) {
            seryugo_close(room);
        }
    }
    return code;
}

/* Opens a switchboard whose messages are bytes. */
static inline uint32_t seryugo_bytes_switchboard_open(uint64_t limit, struct seryugo_switchboard *board)
{
    struct seryugo room;
    uint32_t code = seryugo_bytes_room_open(limit, &room);

    if (code == SERYUGO_DONE) {
        code = seryugo_switchboard_of(room, board);
        if (code != SERYUGO_DONE) {
            seryugo_close(room);
        }
    }
    return code;
}

/* Opens a switchboard whose journal is kept in the file `path`: before a call returns, its entry is there, and survives the
 * end of the program. It makes the file, or goes on where its journal ends. Objects have the numbers that they had, and seats
 * are new. `options` and `found` may be null. It fails as seryugo_file_open does, and *found has the cause.
 *
 * Each call may fail with SERYUGO_FILE_FULL, and then wasn't made. It may fail with SERYUGO_FILE_LOST, which wakes all who
 * wait: nobody knows whether it is in the file. A message of more than SERYUGO_FILE_MESSAGE_MOST bytes is SERYUGO_TOO_LONG. A
 * lane's message is kept once the lane is drained.
 *
 * With SERYUGO_KEEP_DISK in `options` a call returns once its entry is on the disk. Then lock and unlock the switchboard before you
 * use a message of a feed: seryugo_switchboard_unlock waits for the entry by which the feed has it. */
static inline uint32_t seryugo_switchboard_open_file(const char *path, uint32_t messages,
                                                     const struct seryugo_file_options *options, struct seryugo_file_found *found,
                                                     struct seryugo_switchboard *board)
{
    struct seryugo room;
    struct seryugo_file *file = NULL;
    uint32_t code = seryugo_file_open(path, messages, 65536, options, &room, found, &file);

    if (code != SERYUGO_DONE) {
        return code;
    }
    code = seryugo_switchboard_of(room, board);
    if (code == SERYUGO_DONE) {
        board->file = file;
    } else {
        (void)seryugo_file_close(file);
        seryugo_close(room);
    }
    return code;
}

/* Waits until all calls that returned are on the disk. It fails as seryugo_file_sync does, and without a file it does nothing. */
static inline uint32_t seryugo_switchboard_sync(struct seryugo_switchboard *board)
{
    return board->file == NULL ? (uint32_t)SERYUGO_DONE : seryugo_file_sync(board->file);
}

/* Closes a switchboard and its room, once each seat has left. Entries that a sink refused are lost. With a file it returns
 * whether all is on the disk, with errno, as seryugo_file_close does, and the switchboard is closed in any case. */
static inline uint32_t seryugo_switchboard_close(struct seryugo_switchboard *board)
{
    uint32_t code = SERYUGO_DONE, closed;
    int cause = errno;

    if (board->file != NULL) {
        code = seryugo_file_note(board->file, &board->room, NULL);
        closed = seryugo_file_close(board->file);
        cause = errno;
        code = code == SERYUGO_DONE ? closed : code;
    }
    if (board->keeper.is_kept) {
        seryugo_close(board->keeper.journal);
    }
    seryugo_close(board->room);
    free(board->seats);
    pthread_mutex_destroy(&board->lock);
    errno = cause;
    return code;
}

/* Says what becomes of a full journal, before the first call: the call that finds it full cuts it, hands its entries to the sink, and is
 * then made. The sink runs under the lock. A sink in C++ must not throw. Without a sink (null) the entries are dropped. If you don't call
 * this, calls fail with SERYUGO_JOURNAL_FULL. If the sink returns false, so does the call that found the journal full, and no entry is
 * lost. SERYUGO_WRONG_HANDLE: the journal is kept in a file, and never full.
 *
 * With a sink a message of more than SERYUGO_FILE_MESSAGE_MOST bytes is SERYUGO_TOO_LONG as it is sent, since no text could have it. Of a
 * swap both messages count. Send no longer one on a lane: a lane has no switchboard that could refuse it. */
static inline uint32_t seryugo_switchboard_when_full(struct seryugo_switchboard *board, seryugo_sink *sink, void *context)
{
    if (board->file != NULL) {
        return SERYUGO_WRONG_HANDLE;
    }
    board->keeper.sink = sink;
    board->keeper.context = context;
    board->cuts = true;
    return SERYUGO_DONE;
}

/* Signals the thread of the next seat that is due, if there is one. It needs the lock, so that the seat doesn't leave meanwhile. */
static inline bool seryugo_wakes_next(struct seryugo_switchboard *board)
{
    uint64_t number = 0;

    if (seryugo_next_due(&board->room, &number) != SERYUGO_DONE) {
        return false;
    }
    if (number - board->first < board->made && board->seats[number - board->first] != NULL) {
        pthread_cond_signal(&board->seats[number - board->first]->due);
    }
    return true;
}

/* Locks a switchboard, for calls of seryugo.h on its room: lanes, feeds, the journal and readers. */
static inline void seryugo_switchboard_lock(struct seryugo_switchboard *board)
{
    pthread_mutex_lock(&board->lock);
}

/* Wakes all waiting threads once the file is lost: their calls fail too. */
static inline void seryugo_lose(struct seryugo_switchboard *board)
{
    for (size_t at = 0; at < board->made && !board->is_lost; at++) {
        if (board->seats[at] != NULL) {
            pthread_cond_signal(&board->seats[at]->due);
        }
    }
    board->is_lost = true;
}

/* Keeps the entries of the calls that were made under this lock, if the journal has a file. */
static inline uint32_t seryugo_note(struct seryugo_switchboard *board)
{
    uint32_t code = board->file == NULL ? (uint32_t)SERYUGO_DONE : seryugo_file_note(board->file, &board->room, NULL);

    if (code == SERYUGO_FILE_LOST) {
        seryugo_lose(board);
    }
    return code;
}

/* Returns what the calls under this lock rest on. They wait for that position once the switchboard is unlocked. 0: for nothing. */
static inline uint64_t seryugo_rests_on(const struct seryugo_switchboard *board)
{
    return board->file == NULL ? 0 : seryugo_file_position(board->file);
}

/* Waits until that is on the disk, without the lock. Calls of other threads go on meanwhile. */
static inline uint32_t seryugo_settle(struct seryugo_switchboard *board, uint64_t position)
{
    uint32_t code = position == 0 ? (uint32_t)SERYUGO_DONE : seryugo_file_wait(board->file, position);
    int state = 0;

    if (code == SERYUGO_FILE_LOST) {
        pthread_setcancelstate(PTHREAD_CANCEL_DISABLE, &state);
        pthread_mutex_lock(&board->lock);
        seryugo_lose(board);
        pthread_mutex_unlock(&board->lock);
        pthread_setcancelstate(state, &state);
    }
    return code;
}

/* Keeps the entries, wakes all threads whose calls may go on now, and unlocks the switchboard. */
static inline uint32_t seryugo_unlock_unsettled(struct seryugo_switchboard *board)
{
    uint32_t code = seryugo_note(board);

    while (seryugo_wakes_next(board)) {
    }
    pthread_mutex_unlock(&board->lock);
    return code;
}

/* Wakes all threads whose calls may go on now, and unlocks the switchboard. With a file it returns whether the entries of your
 * calls are kept, as seryugo_file_note does. With SERYUGO_KEEP_DISK it waits for the disk: use what your calls have read only once
 * it has returned SERYUGO_DONE. */
static inline uint32_t seryugo_switchboard_unlock(struct seryugo_switchboard *board)
{
    uint32_t code = seryugo_unlock_unsettled(board);

    return code == SERYUGO_DONE ? seryugo_settle(board, seryugo_rests_on(board)) : code;
}

/* Does so after one call of a seat: it wakes one thread, and that thread's call wakes the next. Returns what the call rests on. */
static inline uint64_t seryugo_let_go(struct seryugo_switchboard *board)
{
    uint64_t position = seryugo_rests_on(board);

    (void)seryugo_wakes_next(board);
    pthread_mutex_unlock(&board->lock);
    return position;
}

/* Hands the entries since the last cut to the sink, at the end or before a pause. It fails as seryugo_keep does. It fails with
 * SERYUGO_WRONG_HANDLE if the journal is kept in a file, or if seryugo_switchboard_when_full wasn't called: the journal stays. */
static inline uint32_t seryugo_switchboard_keep(struct seryugo_switchboard *board)
{
    uint32_t code;
    int state = 0;

    if (!board->cuts) {
        return SERYUGO_WRONG_HANDLE;
    }

    pthread_setcancelstate(PTHREAD_CANCEL_DISABLE, &state);
    seryugo_switchboard_lock(board);
    code = seryugo_keep(&board->keeper, &board->room);
    (void)seryugo_unlock_unsettled(board);
    pthread_setcancelstate(state, &state);
    return code;
}

/* ---- seats ---- */

/* Grows the list to hold a seat of this number. */
static inline bool seryugo_grow_seats(struct seryugo_switchboard *board, uint64_t number)
{
    size_t needed;
    size_t capacity = board->capacity == 0 ? 8 : 2 * board->capacity;
    struct seryugo_seat **seats;

    if (board->made == 0) {
        board->first = number;
    }
    needed = (size_t)(number - board->first) + 1;
    if (needed > board->capacity) {
        capacity = capacity < needed ? needed : capacity;
        seats = (struct seryugo_seat **)realloc(board->seats, capacity * sizeof *seats);
        if (seats == NULL) {
            return false;
        }
        board->seats = seats;
        board->capacity = capacity;
    }
    while (board->made < needed) {
        board->seats[board->made++] = NULL;
    }
    return true;
}

/* Makes the condition by which a seat's thread waits, whose deadlines are times of CLOCK_MONOTONIC. */
static inline bool seryugo_has_condition(pthread_cond_t *due)
{
    pthread_condattr_t attributes;
    bool is_made;

    if (pthread_condattr_init(&attributes) != 0) {
        return false;
    }
    is_made = pthread_condattr_setclock(&attributes, CLOCK_MONOTONIC) == 0 && pthread_cond_init(due, &attributes) == 0;
    pthread_condattr_destroy(&attributes);
    return is_made;
}

/* Opens a seat. The only refusal is SERYUGO_NO_MEMORY, and then the seat isn't open. */
static inline uint32_t seryugo_seat_open(struct seryugo_switchboard *board, struct seryugo_seat *seat)
{
    uint32_t code = SERYUGO_NO_MEMORY;

    if (!seryugo_has_condition(&seat->due)) {
        return code;
    }
    seryugo_switchboard_lock(board);
    code = seryugo_new_seat(&board->room, &seat->number);
    if (code == SERYUGO_DONE && !seryugo_grow_seats(board, seat->number)) {
        (void)seryugo_leave(&board->room, seat->number);
        code = SERYUGO_NO_MEMORY;
    }
    if (code == SERYUGO_DONE) {
        seat->board = board;
        board->seats[seat->number - board->first] = seat;
    }
    (void)seryugo_unlock_unsettled(board);
    if (code != SERYUGO_DONE) {
        pthread_cond_destroy(&seat->due);
    }
    return code;
}

/* A seat leaves: it makes no more calls. Let each seat leave at its end, or the others wait for it for ever. */
static inline void seryugo_seat_leave(struct seryugo_seat *seat)
{
    struct seryugo_switchboard *board = seat->board;

    seryugo_switchboard_lock(board);
    (void)seryugo_leave(&board->room, seat->number);
    board->seats[seat->number - board->first] = NULL;
    (void)seryugo_unlock_unsettled(board);
    pthread_cond_destroy(&seat->due);
}

/* ---- how a call waits ---- */

/* The time this many milliseconds from now: a deadline for the calls below. */
static inline struct timespec seryugo_in_milliseconds(uint64_t milliseconds)
{
    struct timespec at;

    clock_gettime(CLOCK_MONOTONIC, &at);
    at.tv_sec += (time_t)(milliseconds / 1000);
    at.tv_nsec += (long)(milliseconds % 1000) * 1000000;
    if (at.tv_nsec >= 1000000000) {
        at.tv_sec++;
        at.tv_nsec -= 1000000000;
    }
    return at;
}

/* A call that is being made. */
struct seryugo_turn {
    struct seryugo_seat *seat;
    const struct timespec *deadline;
    bool is_again;
    uint32_t code;
    /* With a file or a sink: the call wasn't made. With a file: it was made, but isn't kept. */
    bool is_refused;
    bool is_unkept;
    /* The process is a forked child: another thread of its parent may have the lock for ever. */
    bool is_forked;
};

/* Locks the switchboard for a seat's call. */
static inline struct seryugo_turn seryugo_begin(struct seryugo_seat *seat, const struct timespec *deadline)
{
    struct seryugo_turn turn = {seat, deadline, false, SERYUGO_DONE, false, false, false};
    struct seryugo_switchboard *board = seat->board;

    if (board->file != NULL && seryugo_file_state(board->file) == SERYUGO_FORKED) {
        turn.code = SERYUGO_FORKED;
        turn.is_forked = true;
        return turn;
    }
    seryugo_switchboard_lock(board);
    return turn;
}

/* Withdraws the call of a thread that was cancelled while it waited. pthread_cond_wait has locked the switchboard again before. */
static inline void seryugo_take_back(void *given)
{
    struct seryugo_seat *seat = (struct seryugo_seat *)given;

    (void)seryugo_withdraw(&seat->board->room, seat->number);
    (void)seryugo_let_go(seat->board);
}

/* Sleeps until the seat's thread is signalled. Returns false at the deadline. */
static inline bool seryugo_wait_once(struct seryugo_seat *seat, const struct timespec *deadline)
{
    /* In C pthread_cleanup_push may be a setjmp. */
    volatile int failure = 0;

    pthread_cleanup_push(seryugo_take_back, seat);
    if (deadline == NULL) {
        pthread_cond_wait(&seat->due, &seat->board->lock);
    } else {
        failure = pthread_cond_timedwait(&seat->due, &seat->board->lock, deadline);
    }
    pthread_cleanup_pop(0);
    return failure == 0;
}

/* Waits until the seat is due, and returns true; or returns false at the deadline. */
static inline bool seryugo_wait_until_due(struct seryugo_turn *turn)
{
    struct seryugo_seat *seat = turn->seat;
    bool has_time = true;

    while (!seat->board->is_lost && seryugo_is_due(&seat->board->room, seat->number) == SERYUGO_NOTHING) {
        if (!has_time) {
            return false;
        }
        has_time = seryugo_wait_once(seat, turn->deadline);
    }
    return true;
}

/* Makes room in a full journal, if that is wanted. A sink that writes would be a point at which its thread may be cancelled. */
static inline bool seryugo_cut_if_full(struct seryugo_turn *turn)
{
    struct seryugo_switchboard *board = turn->seat->board;
    int state = 0;
    bool has_room;

    if (!board->cuts || turn->code != SERYUGO_JOURNAL_FULL) {
        return false;
    }
    pthread_setcancelstate(PTHREAD_CANCEL_DISABLE, &state);
    has_room = seryugo_cut_for_retry(&board->keeper, &board->room, &turn->code);
    pthread_setcancelstate(state, &state);
    return has_room;
}

/* Whether a file or a sink takes the journal, which has to be written then. */
static inline bool seryugo_is_written(const struct seryugo_switchboard *board)
{
    return board->file != NULL || board->keeper.sink != NULL;
}

/* Whether the call may be made: its line, whose message has so many bytes, can be written, and the file has room for it. */
static inline bool seryugo_may_call(struct seryugo_turn *turn, uint64_t bytes)
{
    struct seryugo_switchboard *board = turn->seat->board;

    if (turn->is_forked) {
        return false;
    }
    if (bytes == UINT64_MAX) {
        turn->code = SERYUGO_NO_MEMORY;
        turn->is_refused = true;
    } else if (board->file != NULL) {
        turn->code = seryugo_file_reserve(board->file, &board->room, bytes);
        turn->is_refused = turn->code != SERYUGO_DONE;
    } else if (bytes > SERYUGO_FILE_MESSAGE_MOST && seryugo_is_written(board)) {
        turn->code = SERYUGO_TOO_LONG;
        turn->is_refused = true;
    }
    return !turn->is_refused;
}

/* Keeps the call's entry. If the call was refused or isn't kept, a parked seat waits no longer. */
static inline bool seryugo_is_kept(struct seryugo_turn *turn)
{
    struct seryugo_switchboard *board = turn->seat->board;
    uint32_t code = turn->is_refused ? turn->code : seryugo_note(board);

    if (code == SERYUGO_DONE) {
        return true;
    }
    if (code == SERYUGO_FILE_LOST) {
        seryugo_lose(board);
    }
    turn->is_unkept = !turn->is_refused && turn->code == SERYUGO_DONE;
    turn->code = code;
    (void)seryugo_withdraw(&board->room, turn->seat->number);
    return false;
}

/* Unlocks the switchboard after a call, and waits until its answer is on the disk. If that fails, so does the call. */
static inline void seryugo_finish(struct seryugo_turn *turn)
{
    struct seryugo_switchboard *board = turn->seat->board;
    uint64_t position = seryugo_let_go(board);
    uint32_t code = seryugo_settle(board, position);

    if (code != SERYUGO_DONE) {
        turn->is_unkept = turn->is_unkept || turn->code == SERYUGO_DONE;
        turn->code = code;
    }
}

/* Returns true if the call has to be made again: the journal was full and has room now, or the call had to wait. Else it unlocks the
 * switchboard. */
static inline bool seryugo_finish_or_repeat(struct seryugo_turn *turn)
{
    struct seryugo_switchboard *board = turn->seat->board;
    bool was_again = turn->is_again;

    turn->is_again = false;
    if (turn->is_forked) {
        return false;
    }
    if (!seryugo_is_kept(turn)) {
        (void)seryugo_let_go(board);
        return false;
    }
    if (seryugo_cut_if_full(turn)) {
        return true;
    }
    if (turn->code == SERYUGO_PARKED) {
        (void)seryugo_wakes_next(board);
        if (seryugo_wait_until_due(turn)) {
            turn->is_again = true;
            return true;
        }
        turn->code = SERYUGO_TIMED_OUT;
        (void)seryugo_withdraw(&board->room, turn->seat->number);
    }
    /* A parked seat that had no memory for its message may still be parked. */
    if (turn->code == SERYUGO_NO_MEMORY && was_again) {
        (void)seryugo_withdraw(&board->room, turn->seat->number);
    }
    seryugo_finish(turn);
    return false;
}

/* Makes one call of `seat`, in which turn.is_again is there. Its message has so many bytes. */
#define SERYUGO_TURN(deadline, bytes, call)                       \
    struct seryugo_turn turn = seryugo_begin(seat, deadline);     \
                                                                  \
    do {                                                          \
        if (seryugo_may_call(&turn, bytes)) {                     \
            turn.code = (call);                                   \
        }                                                         \
    } while (seryugo_finish_or_repeat(&turn))

/* The body of a function that makes a call without bytes, with bytes, and one that may hand bytes over: these are freed if the
 * call isn't kept. */
#define SERYUGO_MAKE(deadline, call)                              \
    SERYUGO_TURN(deadline, 0, call);                              \
    return turn.code
#define SERYUGO_MAKE_SENT(bytes, call)                            \
    SERYUGO_TURN(NULL, bytes, call);                              \
    return turn.code
#define SERYUGO_MAKE_GOT(deadline, bytes, got, call)              \
    SERYUGO_TURN(deadline, bytes, call);                          \
    if (turn.is_unkept) {                                         \
        seryugo_bytes_free(*(got));                               \
    }                                                             \
    return turn.code

/*
 * ---- a seat's calls ----
 *
 * Each makes the call of seryugo.h of the same name, with its codes. A call with a deadline waits until then, or without end if the
 * deadline is null. If it returns SERYUGO_TIMED_OUT, it did nothing.
 */

static inline uint32_t seryugo_seat_new_mailbox(struct seryugo_seat *seat, uint64_t *mailbox)
{
    SERYUGO_MAKE(NULL, seryugo_new_mailbox(&seat->board->room, seat->number, mailbox));
}

static inline uint32_t seryugo_seat_send(struct seryugo_seat *seat, uint64_t mailbox, uint64_t message)
{
    SERYUGO_MAKE(NULL, seryugo_send(&seat->board->room, seat->number, mailbox, message));
}

/* Receives the next message of a mailbox or a port. */
static inline uint32_t seryugo_seat_recv(struct seryugo_seat *seat, uint64_t source, const struct timespec *deadline,
                                         uint64_t *message)
{
    SERYUGO_MAKE(deadline, seryugo_recv(&seat->board->room, seat->number, source, turn.is_again, message));
}

static inline uint32_t seryugo_seat_recv_poll(struct seryugo_seat *seat, uint64_t source, uint64_t *message)
{
    SERYUGO_MAKE(NULL, seryugo_recv_poll(&seat->board->room, seat->number, source, message));
}

static inline uint32_t seryugo_seat_new_channel(struct seryugo_seat *seat, uint64_t *channel)
{
    SERYUGO_MAKE(NULL, seryugo_new_channel(&seat->board->room, seat->number, channel));
}

static inline uint32_t seryugo_seat_new_port(struct seryugo_seat *seat, uint64_t channel, uint64_t *port)
{
    SERYUGO_MAKE(NULL, seryugo_new_port(&seat->board->room, seat->number, channel, port));
}

static inline uint32_t seryugo_seat_copy_port(struct seryugo_seat *seat, uint64_t port, uint64_t *copy)
{
    SERYUGO_MAKE(NULL, seryugo_copy_port(&seat->board->room, seat->number, port, copy));
}

static inline uint32_t seryugo_seat_close_port(struct seryugo_seat *seat, uint64_t port)
{
    SERYUGO_MAKE(NULL, seryugo_close_port(&seat->board->room, seat->number, port));
}

static inline uint32_t seryugo_seat_multicast(struct seryugo_seat *seat, uint64_t channel, uint64_t message)
{
    SERYUGO_MAKE(NULL, seryugo_multicast(&seat->board->room, seat->number, channel, message));
}

static inline uint32_t seryugo_seat_new_ivar(struct seryugo_seat *seat, uint64_t *variable)
{
    SERYUGO_MAKE(NULL, seryugo_new_ivar(&seat->board->room, seat->number, variable));
}

static inline uint32_t seryugo_seat_new_mvar(struct seryugo_seat *seat, uint64_t *variable)
{
    SERYUGO_MAKE(NULL, seryugo_new_mvar(&seat->board->room, seat->number, variable));
}

static inline uint32_t seryugo_seat_mvar_init(struct seryugo_seat *seat, uint64_t message, uint64_t *variable)
{
    SERYUGO_MAKE(NULL, seryugo_mvar_init(&seat->board->room, seat->number, message, variable));
}

static inline uint32_t seryugo_seat_put(struct seryugo_seat *seat, uint64_t variable, uint64_t message)
{
    SERYUGO_MAKE(NULL, seryugo_put(&seat->board->room, seat->number, variable, message));
}

static inline uint32_t seryugo_seat_get(struct seryugo_seat *seat, uint64_t variable, const struct timespec *deadline,
                                        uint64_t *message)
{
    SERYUGO_MAKE(deadline, seryugo_get(&seat->board->room, seat->number, variable, turn.is_again, message));
}

static inline uint32_t seryugo_seat_get_poll(struct seryugo_seat *seat, uint64_t variable, uint64_t *message)
{
    SERYUGO_MAKE(NULL, seryugo_get_poll(&seat->board->room, seat->number, variable, message));
}

static inline uint32_t seryugo_seat_take(struct seryugo_seat *seat, uint64_t variable, const struct timespec *deadline,
                                         uint64_t *message)
{
    SERYUGO_MAKE(deadline, seryugo_take(&seat->board->room, seat->number, variable, turn.is_again, message));
}

static inline uint32_t seryugo_seat_take_poll(struct seryugo_seat *seat, uint64_t variable, uint64_t *message)
{
    SERYUGO_MAKE(NULL, seryugo_take_poll(&seat->board->room, seat->number, variable, message));
}

static inline uint32_t seryugo_seat_swap(struct seryugo_seat *seat, uint64_t variable, uint64_t message,
                                         const struct timespec *deadline, uint64_t *held)
{
    SERYUGO_MAKE(deadline, seryugo_swap(&seat->board->room, seat->number, variable, message, turn.is_again, held));
}

/* Makes the mailbox of this number, unless it is there: a program that goes on from a file finds its mailboxes so. Numbers of
 * objects count from 0, as the objects are made. SERYUGO_WRONG_KIND: the number is another object's. SERYUGO_NO_SUCH: there is
 * none of the number before. */
static inline uint32_t seryugo_mailbox_again(struct seryugo *room, uint64_t seat, uint64_t number)
{
    uint64_t kind = 0, made = 0;

    if (seryugo_kind(room, number, &kind) == SERYUGO_DONE) {
        return kind == SERYUGO_MAILBOX ? SERYUGO_DONE : SERYUGO_WRONG_KIND;
    }
    if (number != 0 && seryugo_kind(room, number - 1, &kind) != SERYUGO_DONE) {
        return SERYUGO_NO_SUCH;
    }
    return seryugo_new_mailbox(room, seat, &made);
}

static inline uint32_t seryugo_seat_mailbox_again(struct seryugo_seat *seat, uint64_t number)
{
    SERYUGO_MAKE(NULL, seryugo_mailbox_again(&seat->board->room, seat->number, number));
}

/* ---- the calls of a switchboard of bytes that have a message ---- */

/* How many bytes both messages of a swap have, if the journal has to be written. UINT64_MAX: there is no memory to find out. */
static inline uint64_t seryugo_swap_bytes(struct seryugo_seat *seat, uint64_t variable, size_t length)
{
    struct seryugo_bytes held;
    uint64_t both = length;
    uint32_t code = SERYUGO_NOTHING;

    if (seryugo_is_written(seat->board)) {
        code = seryugo_bytes_held(&seat->board->room, variable, &held);
    }
    if (code == SERYUGO_DONE) {
        both += held.length;
        seryugo_bytes_free(held);
    }
    if (code == SERYUGO_NO_MEMORY) {
        return UINT64_MAX;
    }
    return both;
}

static inline uint32_t seryugo_seat_bytes_send(struct seryugo_seat *seat, uint64_t mailbox, const void *at, size_t length)
{
    SERYUGO_MAKE_SENT(length, seryugo_bytes_send(&seat->board->room, seat->number, mailbox, at, length));
}

static inline uint32_t seryugo_seat_bytes_recv(struct seryugo_seat *seat, uint64_t source, const struct timespec *deadline,
                                               struct seryugo_bytes *message)
{
    SERYUGO_MAKE_GOT(deadline, 0, message, seryugo_bytes_recv(&seat->board->room, seat->number, source, turn.is_again, message));
}

static inline uint32_t seryugo_seat_bytes_recv_poll(struct seryugo_seat *seat, uint64_t source, struct seryugo_bytes *message)
{
    SERYUGO_MAKE_GOT(NULL, 0, message, seryugo_bytes_recv_poll(&seat->board->room, seat->number, source, message));
}

static inline uint32_t seryugo_seat_bytes_multicast(struct seryugo_seat *seat, uint64_t channel, const void *at, size_t length)
{
    SERYUGO_MAKE_SENT(length, seryugo_bytes_multicast(&seat->board->room, seat->number, channel, at, length));
}

static inline uint32_t seryugo_seat_bytes_mvar_init(struct seryugo_seat *seat, const void *at, size_t length, uint64_t *variable)
{
    SERYUGO_MAKE_SENT(length, seryugo_bytes_mvar_init(&seat->board->room, seat->number, at, length, variable));
}

static inline uint32_t seryugo_seat_bytes_put(struct seryugo_seat *seat, uint64_t variable, const void *at, size_t length)
{
    SERYUGO_MAKE_SENT(length, seryugo_bytes_put(&seat->board->room, seat->number, variable, at, length));
}

static inline uint32_t seryugo_seat_bytes_get(struct seryugo_seat *seat, uint64_t variable, const struct timespec *deadline,
                                              struct seryugo_bytes *message)
{
    SERYUGO_MAKE_GOT(deadline, 0, message, seryugo_bytes_get(&seat->board->room, seat->number, variable, turn.is_again, message));
}

static inline uint32_t seryugo_seat_bytes_get_poll(struct seryugo_seat *seat, uint64_t variable, struct seryugo_bytes *message)
{
    SERYUGO_MAKE_GOT(NULL, 0, message, seryugo_bytes_get_poll(&seat->board->room, seat->number, variable, message));
}

static inline uint32_t seryugo_seat_bytes_take(struct seryugo_seat *seat, uint64_t variable, const struct timespec *deadline,
                                               struct seryugo_bytes *message)
{
    SERYUGO_MAKE_GOT(deadline, 0, message,
                     seryugo_bytes_take(&seat->board->room, seat->number, variable, turn.is_again, message));
}

static inline uint32_t seryugo_seat_bytes_take_poll(struct seryugo_seat *seat, uint64_t variable, struct seryugo_bytes *message)
{
    SERYUGO_MAKE_GOT(NULL, 0, message, seryugo_bytes_take_poll(&seat->board->room, seat->number, variable, message));
}

static inline uint32_t seryugo_seat_bytes_swap(struct seryugo_seat *seat, uint64_t variable, const void *at, size_t length,
                                               const struct timespec *deadline, struct seryugo_bytes *held)
{
    SERYUGO_MAKE_GOT(deadline, seryugo_swap_bytes(seat, variable, length), held,
                     seryugo_bytes_swap(&seat->board->room, seat->number, variable, at, length, turn.is_again, held));
}

#ifdef __cplusplus
}
#endif

#endif
