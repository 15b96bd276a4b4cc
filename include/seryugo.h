/*
 * Mailboxes, channels and variables for threads: the library libseryugo. The messages of a room are 64-bit numbers, or bytes. For
 * calls that block, include seryugo_switchboard.h. It begins with a program of fifteen lines.
 *
 * A room is a board of objects with a journal of every accepted call, and seats that make the calls. A thread sends on a lane
 * without the room's lock, and receives on a feed without it. docs/INSTALL.md says how you link a program with the library, and
 * docs/C.md what is proved.
 *
 * Keep these rules. The library tests all else.
 *
 * - Make one call at a time on a handle. Order each after the one before by a lock, or by the start or the join of a thread. If
 *   several threads use a room, put a lock round it. No call here blocks.
 * - A lane and a feed have separate handles. One thread may use such a handle without the room's lock while others use the
 *   room.
 * - Use a handle after it was opened and until it is closed. Don't use it or a copy of it after that.
 * - Pass good pointers that don't overlap.
 * - Make no call from a signal handler, nor from the child of a fork of a process with threads.
 */
#ifndef SERYUGO_H
#define SERYUGO_H

#include <stdbool.h>
#include <stddef.h>
#include <stdint.h>

/* The version of this header, as a text and as a number: major * 65536 + minor * 256 + patch. The library that is installed with
 * the header has the same. seryugo_version returns the number of the library that a program runs with. */
#define SERYUGO_VERSION "0.2.0"
#define SERYUGO_VERSION_NUMBER 512

#ifdef __cplusplus
extern "C" {
#endif

/* What a call returns. If it returns a refusal (SERYUGO_GONE to SERYUGO_UNSEEN), SERYUGO_WRONG_HANDLE or SERYUGO_OUT_OF_BOUNDS,
 * it writes nothing. Each function says what a refusal leaves as it was. */
enum seryugo_code {
    /* The call is done, and has written what it gives, if it gives anything. */
    SERYUGO_DONE = 0,
    /* A poll found nothing, a variable is empty, or no seat is due. The call wrote nothing. */
    SERYUGO_NOTHING = 1,
    /* The variable was full, and stays as it was. */
    SERYUGO_PUT = 2,
    /* The port is closed. The call wrote nothing. */
    SERYUGO_CLOSED = 3,
    /* The call would block: its seat is parked. Once the seat is due, it makes the same call again with is_again, and no other
     * call. The call wrote nothing. */
    SERYUGO_PARKED = 4,
    /* The seat can't make this call. There is no such seat, or it has left. Or it is parked, and this isn't its call made again
     * with is_again. Or is_again is true, and it isn't parked. Of a lane: its room has closed it. */
    SERYUGO_GONE = 5,
    /* A lane or a feed is open, so that the journal can't be cut. */
    SERYUGO_BUSY = 6,
    /* There is no object, no lane, no feed or no entry of this name, number or position. */
    SERYUGO_NO_SUCH = 7,
    /* The object can't take this call, or an open feed alone may make it. */
    SERYUGO_WRONG_KIND = 8,
    /* The journal has as many entries since the last cut as its limit says. */
    SERYUGO_JOURNAL_FULL = 9,
    /* The call would block, every other seat is parked or has left, and no lane is open: nothing could answer the call. */
    SERYUGO_STALLED = 10,
    SERYUGO_NO_MEMORY = 11,
    /* The room saw fewer of the lane's messages than were sent on it. */
    SERYUGO_UNSEEN = 12,
    /* The lane has no free slot. The message isn't sent. */
    SERYUGO_FULL = 13,
    /* The lane is still open, because one of its messages was refused. The call wrote the count of those before it. */
    SERYUGO_STILL_OPEN = 14,
    /* The handle leads to something that takes no such call, such as a lane in place of a room. Nothing was changed. */
    SERYUGO_WRONG_HANDLE = 15,
    /* Nothing was changed. A limit isn't from 1 to 2^32, a capacity isn't from 1 to 1024, a message has more than 2^32 - 1 bytes,
     * a null pointer has a length, or a kind in an entry or a number for what is wanted is none. */
    SERYUGO_OUT_OF_BOUNDS = 16,
    /* A checked journal is unlawful. */
    SERYUGO_UNLAWFUL = 17,
    /* The text of a journal has a fault, or begins after a cut. */
    SERYUGO_FAULT = 18,
    /* The text of a journal ends within a line, or has none. */
    SERYUGO_TORN = 19,
    /* A line of a journal's text would have more than 4,194,304 bytes, which no reading takes. */
    SERYUGO_TOO_LONG = 20,
    /* The deadline has passed, and the call did nothing. Only the calls of seryugo_switchboard.h return it. */
    SERYUGO_TIMED_OUT = 21,
    /* The lines of a journal's text are whole, and its last piece has no end: a program still writes it, or was stopped. */
    SERYUGO_TEXT_OPEN = 22,
    /* A text has no whole line, and no journal begins so. */
    SERYUGO_NO_JOURNAL = 23,
    /* Only calls on a journal's file return the codes from here on (seryugo_file.h). Another handle or program has the file open. */
    SERYUGO_FILE_BUSY = 24,
    /* The journal's version is none that this library knows. */
    SERYUGO_OTHER_VERSION = 25,
    /* The journal has messages of the other type: bytes in place of numbers, or numbers in place of bytes. */
    SERYUGO_OTHER_MESSAGES = 26,
    /* The journal begins after a cut, so that nobody knows what its first entries left. */
    SERYUGO_BEGINS_LATER = 27,
    /* The system refused a call on the file while it was opened. */
    SERYUGO_FILE_FAILED = 28,
    /* The disk is full, or the file may not grow: the call wasn't made. It may be made again. */
    SERYUGO_FILE_FULL = 29,
    /* The file has failed, or was changed by others. This and each later call fails. Open the file again. */
    SERYUGO_FILE_LOST = 30,
    /* The handle is its parent's: a process that was forked can't use it. */
    SERYUGO_FORKED = 31
};

/* Returns a code in words, for an error message. The text is constant. */
static inline const char *seryugo_code_text(uint32_t code)
{
    static const char *const texts[] = {
        "done",
        "nothing there",
        "the variable was full",
        "the port is closed",
        "the seat is parked",
        "the seat can't make this call",
        "a lane or a feed is open",
        "no such object, lane, feed or entry",
        "the object can't take this call",
        "the journal is full",
        "stalled: no other seat can answer",
        "no memory",
        "fewer messages were seen than sent",
        "the lane is full",
        "the lane is still open",
        "the handle takes no such call",
        "an argument is out of bounds",
        "the journal is unlawful",
        "the journal's text has a fault",
        "the journal's text is torn",
        "a line would be too long",
        "timed out",
        "the journal's last piece has no end",
        "the text is no journal",
        "the file is in use",
        "the journal is of another version",
        "the journal has messages of another type",
        "the journal begins after a cut",
        "the file can't be opened",
        "the file can't grow",
        "the file is lost: open it again",
        "the file is the parent's: this process was forked",
    };

    return code < sizeof texts / sizeof *texts ? texts[code] : "unknown code";
}

/*
 * Which call returns which refusal, without the prefix. Every call on a handle may return WRONG_HANDLE. What a refusal leaves as it was
 * is said at each call.
 *
 *     room_open, bytes_room_open            OUT_OF_BOUNDS, NO_MEMORY
 *     new_seat                              NO_MEMORY
 *     leave, withdraw                       GONE
 *     a seat's call that makes an object    GONE, JOURNAL_FULL, NO_MEMORY
 *     a seat's call on an object            GONE, NO_SUCH, WRONG_KIND, JOURNAL_FULL, NO_MEMORY; STALLED if it may block
 *     the same with a message of bytes      OUT_OF_BOUNDS too
 *     lane_open                             NO_SUCH, WRONG_KIND, NO_MEMORY, OUT_OF_BOUNDS
 *     lane_send, bytes_lane_send            FULL; with bytes OUT_OF_BOUNDS, NO_MEMORY
 *     lane_finish                           GONE
 *     lane_close                            UNSEEN, JOURNAL_FULL, NO_MEMORY, NO_SUCH
 *     lane_drain, lane_drop                 JOURNAL_FULL, NO_MEMORY, NO_SUCH; lane_drop STILL_OPEN
 *     lane_abandon, feed_end                NO_SUCH
 *     feed_open                             NO_SUCH, WRONG_KIND, JOURNAL_FULL, NO_MEMORY, OUT_OF_BOUNDS
 *     feed_pump                             JOURNAL_FULL, NO_MEMORY, NO_SUCH
 *     bytes_feed_recv                       NO_MEMORY
 *     reserve                               NO_MEMORY
 *     cut                                   BUSY
 *     take_journal, take_journal_open       NO_MEMORY; take_journal BUSY
 *     compact, compact_and_cut              NO_MEMORY, JOURNAL_FULL
 *     entry, taken_entry                    NO_SUCH; with bytes NO_MEMORY
 *     journal_text, sealed_text             NO_MEMORY, OUT_OF_BOUNDS, TOO_LONG
 *     checker_open, reading_open            NO_MEMORY
 *     checker_feed, checker_feed_journal    UNLAWFUL, NO_MEMORY; OUT_OF_BOUNDS, and of a journal NO_SUCH
 *     checker_verdict                       UNLAWFUL
 *     reading_take                          FAULT, UNLAWFUL, NO_MEMORY, OUT_OF_BOUNDS
 *     reading_end                           TEXT_OPEN, TORN, NO_JOURNAL, and by what the reading stopped
 *     reading_sum                           NO_MEMORY
 *     room_restore, reading_compact         FAULT, UNLAWFUL, NO_MEMORY; room_restore OUT_OF_BOUNDS
 *     readers                               NO_SUCH; bytes_held NO_MEMORY; is_open CLOSED; is_full JOURNAL_FULL
 */

/* A handle to a room, a lane, a feed, a checker, a reading or a journal that was taken. A call that opens it writes it, and
 * seryugo_close closes it. */
struct seryugo {
    void *at;
};

/* Returns the version of the library that the program runs with: major * 65536 + minor * 256 + patch. If it isn't
 * SERYUGO_VERSION_NUMBER, the program was compiled with the header of another version. Then make no other call. */
uint32_t seryugo_version(void);

/* ---- rooms and seats ---- */

/* Which messages a room, a checker or a reading has. */
enum seryugo_messages { SERYUGO_NUMBERS = 0, SERYUGO_BYTES = 1 };

/* Opens a room of these messages with no objects and no seats. Its journal takes `limit` entries between two cuts. A room of bytes
 * differs from one of numbers only in the calls that have a message. If the call fails with SERYUGO_OUT_OF_BOUNDS or SERYUGO_NO_MEMORY,
 * *room is as it was. */
uint32_t seryugo_open_room(uint32_t messages, uint64_t limit, struct seryugo *room);

static inline uint32_t seryugo_room_open(uint64_t limit, struct seryugo *room)
{
    return seryugo_open_room(SERYUGO_NUMBERS, limit, room);
}

static inline uint32_t seryugo_bytes_room_open(uint64_t limit, struct seryugo *room)
{
    return seryugo_open_room(SERYUGO_BYTES, limit, room);
}

/* Closes a room, a lane, a feed, a checker, a reading or a taken journal, and frees its memory. A room doesn't close its lanes,
 * its feeds and its taken journals. Close each of these handles too, before the room or after it. */
void seryugo_close(struct seryugo handle);

/* Makes a free seat, and writes its number: how many seats were made before. In a restored room those of its journal count too.
 * The only refusal is SERYUGO_NO_MEMORY. While a seat is free, no call fails with SERYUGO_STALLED. So make all seats before the
 * first one blocks, and let each leave at its end. */
uint32_t seryugo_new_seat(struct seryugo *room, uint64_t *seat);

/* A free seat leaves: it makes no more calls. SERYUGO_GONE if it may make none. Then call seryugo_next_due, because parked seats
 * may be stalled now. */
uint32_t seryugo_leave(struct seryugo *room, uint64_t seat);

/* Withdraws a parked seat's call, for a thread that waits no longer, as at a time limit. The seat is free then, and the call has done
 * nothing. SERYUGO_GONE: the seat isn't parked, and nothing is changed. Then call seryugo_next_due: if what the seat waited for is
 * there, another seat that waits for the same may be due. */
uint32_t seryugo_withdraw(struct seryugo *room, uint64_t seat);

/*
 * ---- a seat's calls ----
 *
 * A call is tested for these refusals in this order: SERYUGO_GONE, SERYUGO_NO_SUCH, SERYUGO_WRONG_KIND, SERYUGO_JOURNAL_FULL,
 * SERYUGO_STALLED and SERYUGO_NO_MEMORY. SERYUGO_GONE changes nothing: a parked seat stays parked. After any other refusal the
 * seat is free, and nothing else is changed. Messages of bytes have two exceptions, below. An answered call adds one entry to the
 * journal. The call that makes an object writes its name, which no other object gets.
 *
 * A call with `is_again` may block. Make it with false first. If it returns SERYUGO_PARKED, release the lock and sleep until the
 * seat is woken. Then make the call again with true, until it returns something else. After each call, also after one that
 * returned SERYUGO_PARKED, ask seryugo_next_due which seat to wake.
 */

/* Makes a mailbox, and writes its name. */
uint32_t seryugo_new_mailbox(struct seryugo *room, uint64_t seat, uint64_t *mailbox);

/* Sends a message to a mailbox. */
uint32_t seryugo_send(struct seryugo *room, uint64_t seat, uint64_t mailbox, uint64_t message);

/* Receives the next message of a mailbox or a port, and writes it. Returns SERYUGO_CLOSED if the port is closed. */
uint32_t seryugo_recv(struct seryugo *room, uint64_t seat, uint64_t source, bool is_again, uint64_t *message);

/* The same, but it never blocks: returns SERYUGO_NOTHING if there is no message. */
uint32_t seryugo_recv_poll(struct seryugo *room, uint64_t seat, uint64_t source, uint64_t *message);

/* Makes a channel, and writes its name. */
uint32_t seryugo_new_channel(struct seryugo *room, uint64_t seat, uint64_t *channel);

/* Makes a port of a channel, which receives what is multicast from now on, and writes its name. */
uint32_t seryugo_new_port(struct seryugo *room, uint64_t seat, uint64_t channel, uint64_t *port);

/* Makes a port at the same place as this one, and writes its name. Returns SERYUGO_CLOSED if this one is closed. */
uint32_t seryugo_copy_port(struct seryugo *room, uint64_t seat, uint64_t port, uint64_t *copy);

/* Closes a port. Returns SERYUGO_CLOSED if it was closed before. */
uint32_t seryugo_close_port(struct seryugo *room, uint64_t seat, uint64_t port);

/* Sends a message to every port of a channel. */
uint32_t seryugo_multicast(struct seryugo *room, uint64_t seat, uint64_t channel, uint64_t message);

/* Makes an empty i-variable, which can be filled once, and writes its name. */
uint32_t seryugo_new_ivar(struct seryugo *room, uint64_t seat, uint64_t *variable);

/* Makes an empty m-variable, which can be emptied again, and writes its name. */
uint32_t seryugo_new_mvar(struct seryugo *room, uint64_t seat, uint64_t *variable);

/* Makes an m-variable that holds this message, and writes its name. */
uint32_t seryugo_mvar_init(struct seryugo *room, uint64_t seat, uint64_t message, uint64_t *variable);

/* Fills an empty variable. Returns SERYUGO_PUT if it is full, and leaves it as it was. */
uint32_t seryugo_put(struct seryugo *room, uint64_t seat, uint64_t variable, uint64_t message);

/* Reads a variable, which keeps its message. The second never blocks: returns SERYUGO_NOTHING if the variable is empty. */
uint32_t seryugo_get(struct seryugo *room, uint64_t seat, uint64_t variable, bool is_again, uint64_t *message);
uint32_t seryugo_get_poll(struct seryugo *room, uint64_t seat, uint64_t variable, uint64_t *message);

/* Reads and empties an m-variable. The second never blocks: returns SERYUGO_NOTHING if the variable is empty. */
uint32_t seryugo_take(struct seryugo *room, uint64_t seat, uint64_t variable, bool is_again, uint64_t *message);
uint32_t seryugo_take_poll(struct seryugo *room, uint64_t seat, uint64_t variable, uint64_t *message);

/* Stores a message in a full m-variable, and writes the message that it held before. */
uint32_t seryugo_swap(struct seryugo *room, uint64_t seat, uint64_t variable, uint64_t message, bool is_again, uint64_t *held);

/*
 * ---- messages of bytes ----
 *
 * In a room of bytes these calls take the place of those of the same name. SERYUGO_WRONG_HANDLE: a room of numbers doesn't take
 * them, and a room of bytes doesn't take the calls above that have a message. All other calls are the same for both.
 *
 * A call that sends copies the bytes once, before it returns: the buffer stays yours. A message has 0 to 2^32 - 1 bytes. A null
 * pointer with length 0 is the empty message. SERYUGO_OUT_OF_BOUNDS: the pointer is null and the length isn't 0, or the length
 * is larger. Then, and if there is no memory for the copy (SERYUGO_NO_MEMORY), nothing is changed: a parked seat stays parked. A
 * null pointer is tested first, and the copy after SERYUGO_WRONG_HANDLE and SERYUGO_GONE.
 *
 * A call that receives hands a message over: it writes the struct, and you own the message until you free it. Up to 78 bytes lie
 * in the struct itself. Nothing is copied of more: the journal, other receivers and you share them. The bytes never change, and
 * don't write to them. seryugo_bytes_at says where they are. You may copy the struct, and read the bytes by each copy until one of
 * them is freed. If there is no memory to keep a message, the call fails with SERYUGO_NO_MEMORY before anything is received, and
 * nothing is changed: a parked seat stays parked. A call that would block never fails so, nor one that would get no message. A
 * variable's message of up to 78 bytes never does. On an open feed's port this may come before SERYUGO_WRONG_KIND.
 *
 * One case is special: a seat that is parked in seryugo_bytes_recv, _get, _take or _swap makes its call again with is_again, and
 * it fails with SERYUGO_NO_MEMORY. Then the seat may still be parked, or be free. Make the call again with is_again: if that
 * returns SERYUGO_GONE, the seat is free.
 */

/* The most bytes of a message that lie in the struct. */
#define SERYUGO_IN_PLACE 78

/* What keeps a message of more than 78 bytes. */
struct seryugo_share {
    void *at;
};

/* A message: how many bytes it has, where they are if they are more than 78, what keeps these, and up to 78 bytes. Read the bytes
 * by seryugo_bytes_at. */
struct seryugo_bytes {
    size_t length;
    const uint8_t *block;
    struct seryugo_share owner;
    uint8_t in_place[78];
};

/* Where the bytes of a message are. Up to 78 are in the struct: use the pointer while the struct is there. For more bytes the
 * pointer is good until seryugo_bytes_free, also once the struct is gone. It is never null. */
static inline const uint8_t *seryugo_bytes_at(const struct seryugo_bytes *message)
{
    return message->length > SERYUGO_IN_PLACE ? message->block : message->in_place;
}

/* Frees a message that a call handed over. Call it once for each. The room needn't be open any more. */
static inline void seryugo_bytes_free(struct seryugo_bytes message);

/* As seryugo_recv, seryugo_recv_poll, seryugo_get, seryugo_get_poll, seryugo_take and seryugo_take_poll. */
uint32_t seryugo_bytes_recv(struct seryugo *room, uint64_t seat, uint64_t source, bool is_again, struct seryugo_bytes *message);
uint32_t seryugo_bytes_recv_poll(struct seryugo *room, uint64_t seat, uint64_t source, struct seryugo_bytes *message);
uint32_t seryugo_bytes_get(struct seryugo *room, uint64_t seat, uint64_t variable, bool is_again, struct seryugo_bytes *message);
uint32_t seryugo_bytes_get_poll(struct seryugo *room, uint64_t seat, uint64_t variable, struct seryugo_bytes *message);
uint32_t seryugo_bytes_take(struct seryugo *room, uint64_t seat, uint64_t variable, bool is_again, struct seryugo_bytes *message);
uint32_t seryugo_bytes_take_poll(struct seryugo *room, uint64_t seat, uint64_t variable, struct seryugo_bytes *message);

/* As seryugo_send. */
static inline uint32_t seryugo_bytes_send(struct seryugo *room, uint64_t seat, uint64_t mailbox, const void *at, size_t length);

/* As seryugo_multicast. */
static inline uint32_t seryugo_bytes_multicast(struct seryugo *room, uint64_t seat, uint64_t channel, const void *at, size_t length);

/* As seryugo_mvar_init. */
static inline uint32_t seryugo_bytes_mvar_init(struct seryugo *room, uint64_t seat, const void *at, size_t length, uint64_t *variable);

/* As seryugo_put. */
static inline uint32_t seryugo_bytes_put(struct seryugo *room, uint64_t seat, uint64_t variable, const void *at, size_t length);

/* As seryugo_swap. What the variable held is handed over. */
static inline uint32_t seryugo_bytes_swap(struct seryugo *room, uint64_t seat, uint64_t variable, const void *at, size_t length,
                                          bool is_again, struct seryugo_bytes *held);

/* ---- a call as data ---- */

enum seryugo_call_kind {
    SERYUGO_CALL_NEW_MAILBOX = 0,
    SERYUGO_CALL_NEW_CHANNEL = 1,
    SERYUGO_CALL_NEW_PORT = 2,
    SERYUGO_CALL_COPY_PORT = 3,
    SERYUGO_CALL_CLOSE_PORT = 4,
    SERYUGO_CALL_NEW_IVAR = 5,
    SERYUGO_CALL_NEW_MVAR = 6,
    SERYUGO_CALL_MVAR_INIT = 7,
    SERYUGO_CALL_SEND = 8,
    SERYUGO_CALL_MULTICAST = 9,
    SERYUGO_CALL_RECV = 10,
    SERYUGO_CALL_RECV_POLL = 11,
    SERYUGO_CALL_PUT = 12,
    SERYUGO_CALL_GET = 13,
    SERYUGO_CALL_GET_POLL = 14,
    SERYUGO_CALL_TAKE = 15,
    SERYUGO_CALL_TAKE_POLL = 16,
    SERYUGO_CALL_SWAP = 17
};

/* Any of the calls above, for a program that has calls as data. `kind` is one of enum seryugo_call_kind. `takes_numbers` and
 * `takes_bytes` say in which rooms it may be made. It sends `number` in a room of numbers, and in one of bytes the `length` bytes
 * from `at` on. What its kind doesn't have isn't read. */
struct seryugo_asked {
    uint32_t kind;
    bool is_again;
    bool takes_numbers;
    bool takes_bytes;
    uint64_t seat;
    uint64_t object;
    uint64_t number;
    const void *at;
    size_t length;
};

/* Makes such a call, as the function of its name does. Writes the name or the number that it gives to *given, or hands over a message
 * of bytes. SERYUGO_WRONG_HANDLE: the call isn't for such a room. SERYUGO_OUT_OF_BOUNDS: there is no call of this kind, or the
 * pointer is null and the length isn't 0. */
static inline uint32_t seryugo_call(struct seryugo *room, struct seryugo_asked asked, uint64_t *given, struct seryugo_bytes *message);

/*
 * ---- who is woken ----
 *
 * The room knows which parked seats may go on: these are due. A message makes one seat due that waits at the mailbox. A value
 * makes one seat due for each kind of call that waits at the m-variable. All seats become due that wait at a port of the channel,
 * at the i-variable or at the port that closes. If the journal becomes full, or no seat can go on, all parked seats are due.
 *
 * Call seryugo_next_due before you release the lock after one of these:
 *
 * - a seat's call, whether it was answered, refused or parked, seryugo_withdraw and seryugo_leave;
 * - seryugo_lane_close, seryugo_lane_drain, seryugo_lane_drop and seryugo_lane_abandon;
 * - seryugo_feed_open and seryugo_feed_pump.
 *
 * The other calls make no seat due. Release the lock, and then wake the thread of the seat that was written. A woken thread takes
 * the lock, makes its seat's call again with is_again, and calls seryugo_next_due as after any call. So one seryugo_next_due for
 * each of these calls is enough: a woken thread wakes the next. You may also call it until it returns SERYUGO_NOTHING, and wake
 * all these threads.
 *
 * Keep two rules, or a thread sleeps for ever. Each seat that was written asks again, or withdraws its call. A wake that comes
 * before the sleep isn't lost: keep a flag for each seat, or call seryugo_is_due under the lock before each sleep. An unwoken
 * thread may sleep on, or ask again at once.
 */

/* Writes the next due seat that wasn't written since it last asked. The seat that has been due the longest comes first.
 * SERYUGO_NOTHING: each due seat was written before. */
uint32_t seryugo_next_due(struct seryugo *room, uint64_t *seat);

/* Returns SERYUGO_DONE if a seat is due, and SERYUGO_NOTHING if it may sleep on or isn't parked. It changes nothing. */
uint32_t seryugo_is_due(const struct seryugo *room, uint64_t seat);

/*
 * ---- lanes ----
 *
 * While a lane is open, no call fails with SERYUGO_STALLED, and seryugo_cut fails with SERYUGO_BUSY. seryugo_cut_open doesn't.
 * Close your lanes before you block.
 */

/* Opens a lane to a mailbox or a channel, whose ring has room for `capacity` messages (1 to 1024). It writes a handle to the lane
 * and the lane's number. If it fails with SERYUGO_NO_SUCH, SERYUGO_WRONG_KIND, SERYUGO_NO_MEMORY or SERYUGO_OUT_OF_BOUNDS, the
 * room and *lane are as they were. */
uint32_t seryugo_lane_open(struct seryugo *room, uint64_t target, size_t capacity, struct seryugo *lane, uint64_t *lane_number);

/* Sends a message on a lane, without the room's lock. The room's next drain may move it into the journal. Returns SERYUGO_FULL if
 * it sees no free slot, but never while the lane has accepted fewer messages than its capacity. */
uint32_t seryugo_lane_send(struct seryugo *lane, uint64_t message);

/* The same of a lane in a room of bytes: copies the message, and sends it. A message that finds no free slot isn't sent. */
static inline uint32_t seryugo_bytes_lane_send(struct seryugo *lane, const void *at, size_t length);

/* Ends a lane, without the room's lock: nothing more is sent on it, and seryugo_lane_close takes its handle. SERYUGO_GONE: the
 * room had closed the lane. The lane has ended then too, and only seryugo_close takes its handle. */
uint32_t seryugo_lane_finish(struct seryugo *lane);

/* Moves what it sees of a finished lane into the journal. If the journal has as many of the lane's messages then as were sent on
 * it, the call closes the lane, and only seryugo_close takes the lane's handle. Else you may try again.
 *
 * SERYUGO_UNSEEN: the counts differ, and what was seen has moved. SERYUGO_JOURNAL_FULL or SERYUGO_NO_MEMORY: a message was
 * refused, and those before it have moved. SERYUGO_NO_SUCH: the room has no open lane of this number, and nothing was changed.
 * SERYUGO_WRONG_HANDLE: the lane has not finished, or was closed. The call uses both handles. It doesn't test that the lane is
 * this room's: it compares counts. */
uint32_t seryugo_lane_close(struct seryugo *room, struct seryugo *lane);

/* Moves what it sees of an open lane into the journal, in order, and writes how many messages. It stops if one is refused.
 * SERYUGO_JOURNAL_FULL or SERYUGO_NO_MEMORY: the first was refused, and none has moved. SERYUGO_NO_SUCH: no open lane has the
 * number. */
uint32_t seryugo_lane_drain(struct seryugo *room, uint64_t lane_number, uint64_t *count);

/* The same, and closes the lane if no message was refused, even if some were not seen: those are lost. SERYUGO_STILL_OPEN: one was
 * refused, but not the first. It fails as seryugo_lane_drain does, and then the lane stays open. */
uint32_t seryugo_lane_drop(struct seryugo *room, uint64_t lane_number, uint64_t *count);

/* Closes an open lane at once. Messages still in its ring are lost. The only refusal is SERYUGO_NO_SUCH: no open lane has the
 * number. */
uint32_t seryugo_lane_abandon(struct seryugo *room, uint64_t lane_number);

/* ---- feeds ---- */

/* Opens a feed of what is multicast on a channel from now on. Its ring has room for `capacity` messages (1 to 1024). It writes a
 * handle to the feed and the feed's number. It makes a port for the feed, by an entry of the journal, and fails as that would. If
 * it fails, *feed is as it was, and no port is made. */
uint32_t seryugo_feed_open(struct seryugo *room, uint64_t channel, size_t capacity, struct seryugo *feed, uint64_t *feed_number);

/* Receives what an open feed is owed into its ring, while the ring has a free slot, and writes how many messages. It stops if one
 * is refused. SERYUGO_JOURNAL_FULL or SERYUGO_NO_MEMORY: the first was refused, and none was received. SERYUGO_NO_SUCH: no
 * open feed has the number. */
uint32_t seryugo_feed_pump(struct seryugo *room, uint64_t feed_number, uint64_t *count);

/* Takes the next message that was pumped, without the room's lock. Returns SERYUGO_NOTHING if it sees none. */
uint32_t seryugo_feed_recv(struct seryugo *feed, uint64_t *message);

/* The same of a feed in a room of bytes: hands the message over. SERYUGO_NO_MEMORY: the message is still to be taken. */
uint32_t seryugo_bytes_feed_recv(struct seryugo *feed, struct seryugo_bytes *message);

/* Writes the name of a feed's port. */
uint32_t seryugo_feed_port(const struct seryugo *feed, uint64_t *port);

/* Ends an open feed: nothing more is pumped into it. You can still take what is left in it, and its port is a port like any other
 * from now on. The only refusal is SERYUGO_NO_SUCH: no open feed has the number. */
uint32_t seryugo_feed_end(struct seryugo *room, uint64_t feed_number);

/* ---- the journal ---- */

/* Allocates memory for `entries` more entries. The only refusal is SERYUGO_NO_MEMORY. What was reserved before stays reserved. */
uint32_t seryugo_reserve(struct seryugo *room, size_t entries);

/* Cuts the journal: drops its entries, so that it takes as many again. Objects stay, and names and positions go on counting. What
 * was reserved stays reserved. If is_open, lanes and feeds may be open, and the call is never refused: their rings go on, and if you
 * close a lane later, seryugo_lane_close counts what was cut away too. Else the only refusal is SERYUGO_BUSY: a lane or a feed is
 * open. */
uint32_t seryugo_cut_by(struct seryugo *room, bool is_open);

static inline uint32_t seryugo_cut(struct seryugo *room)
{
    return seryugo_cut_by(room, false);
}

static inline uint32_t seryugo_cut_open(struct seryugo *room)
{
    return seryugo_cut_by(room, true);
}

enum seryugo_maker_kind { SERYUGO_SEAT = 0, SERYUGO_LANE = 1, SERYUGO_FEED = 2 };

enum seryugo_reply_kind {
    SERYUGO_REPLY_DONE = 0,
    SERYUGO_REPLY_MADE = 1,
    SERYUGO_REPLY_GOT = 2,
    SERYUGO_REPLY_NOTHING = 3,
    SERYUGO_REPLY_PUT = 4,
    SERYUGO_REPLY_CLOSED = 5
};

/* Who made a call: a seat, a lane or a feed, by its number. */
struct seryugo_maker {
    uint32_t kind;
    uint64_t number;
};

/* One accepted call: who made it, by its number; the call, with its object and its message, each 0 if it has none; and the reply,
 * with the name or the message that it gives, or 0. */
struct seryugo_entry {
    struct seryugo_maker maker;
    struct {
        uint32_t kind;
        uint64_t object;
        uint64_t message;
    } call;
    struct {
        uint32_t kind;
        uint64_t given;
    } reply;
};

/* Bytes that an entry has: where they are, and how many. Both are 0 for the empty message, and where the entry has none. */
struct seryugo_place {
    const uint8_t *at;
    size_t length;
};

/* The same of a room of bytes: the call, with its object and the message that was sent; and the reply, with the name that it
 * gives or the message that was received. The entry's handle keeps both messages. */
struct seryugo_bytes_entry {
    struct seryugo_maker maker;
    struct {
        uint32_t kind;
        uint64_t object;
        struct seryugo_place message;
    } call;
    struct {
        uint32_t kind;
        uint64_t name;
        struct seryugo_place message;
    } reply;
    struct seryugo owner;
};

/* Where an entry is looked for: in a room's journal, or in a taken one. */
enum seryugo_entry_source { SERYUGO_OF_ROOM = 0, SERYUGO_OF_JOURNAL = 1 };

/* Writes an entry: of a room the one at this position, counted from 0 since the room was opened, and of a taken journal the one at this
 * place, from 0. SERYUGO_NO_SUCH: there is none (yet), or it was cut away. SERYUGO_OUT_OF_BOUNDS: there is no such source. */
uint32_t seryugo_entry_at(const struct seryugo *handle, uint32_t source, uint64_t at, struct seryugo_entry *entry);

/* Hands over an entry of bytes. Free it by seryugo_bytes_entry_free. SERYUGO_NO_MEMORY: nothing is written. */
uint32_t seryugo_bytes_entry_at(const struct seryugo *handle, uint32_t source, uint64_t at, struct seryugo_bytes_entry *entry);

static inline uint32_t seryugo_entry(const struct seryugo *room, uint64_t at, struct seryugo_entry *entry)
{
    return seryugo_entry_at(room, SERYUGO_OF_ROOM, at, entry);
}

static inline uint32_t seryugo_bytes_entry(const struct seryugo *room, uint64_t at, struct seryugo_bytes_entry *entry)
{
    return seryugo_bytes_entry_at(room, SERYUGO_OF_ROOM, at, entry);
}

static inline uint32_t seryugo_taken_entry(const struct seryugo *journal, uint64_t place, struct seryugo_entry *entry)
{
    return seryugo_entry_at(journal, SERYUGO_OF_JOURNAL, place, entry);
}

static inline uint32_t seryugo_bytes_taken_entry(const struct seryugo *journal, uint64_t place, struct seryugo_bytes_entry *entry)
{
    return seryugo_bytes_entry_at(journal, SERYUGO_OF_JOURNAL, place, entry);
}

/* Frees an entry that was handed over, with its messages. Call it once for each. */
static inline void seryugo_bytes_entry_free(struct seryugo_bytes_entry entry)
{
    seryugo_close(entry.owner);
}

/* What is taken out of a room. */
enum seryugo_taking {
    /* The entries since the last cut, oldest first. The journal is cut. Unlike seryugo_cut this takes what was reserved along with them:
     * reserve again. SERYUGO_NO_MEMORY or SERYUGO_BUSY: nothing is cut. */
    SERYUGO_TAKE_CUT = 0,
    /* The same while lanes and feeds are open, as seryugo_cut_open. The only refusal is SERYUGO_NO_MEMORY: nothing is cut. */
    SERYUGO_TAKE_CUT_OPEN = 1,
    /* A short journal. It leaves what all calls of the room leave: the same objects, with the same messages still to be received.
     * Whatever may follow these calls may follow it, with the same replies. The room's last seat makes all its entries, even if it has
     * made none so far. (seryugo_reading_compact takes the last seat that has made one.) The room stays as it was. It takes time for
     * each object and each message that is kept, under the room's lock. SERYUGO_NO_MEMORY, or SERYUGO_JOURNAL_FULL for more than 2^32
     * entries. */
    SERYUGO_TAKE_SHORT = 2,
    /* The same, and the room's journal is cut as by seryugo_cut_open. So the short journal stands for all entries before. Its text begins
     * at position 0. The text of a later journal follows it from position seryugo_cut_at - cut + *count, where `cut` is what
     * seryugo_cut_at wrote after this call, under the same lock. SERYUGO_NO_MEMORY: nothing is cut. */
    SERYUGO_TAKE_SHORT_AND_CUT = 3
};

/* Writes a handle to what is taken, and how many entries it has. If it is refused, *journal and *count are as they were.
 * SERYUGO_OUT_OF_BOUNDS: there is no such taking. Use the handle without the room's lock, and close it like any other. */
uint32_t seryugo_take_by(struct seryugo *room, uint32_t taking, struct seryugo *journal, uint64_t *count);

static inline uint32_t seryugo_take_journal(struct seryugo *room, struct seryugo *journal, uint64_t *count)
{
    return seryugo_take_by(room, SERYUGO_TAKE_CUT, journal, count);
}

static inline uint32_t seryugo_take_journal_open(struct seryugo *room, struct seryugo *journal, uint64_t *count)
{
    return seryugo_take_by(room, SERYUGO_TAKE_CUT_OPEN, journal, count);
}

static inline uint32_t seryugo_compact(struct seryugo *room, struct seryugo *journal, uint64_t *count)
{
    return seryugo_take_by(room, SERYUGO_TAKE_SHORT, journal, count);
}

static inline uint32_t seryugo_compact_and_cut(struct seryugo *room, struct seryugo *journal, uint64_t *count)
{
    return seryugo_take_by(room, SERYUGO_TAKE_SHORT_AND_CUT, journal, count);
}

/*
 * Hands over the entries of a taken journal, of numbers or of bytes, as text: one piece, whose first entry is at position `from`.
 * Pass what seryugo_cut_at wrote before seryugo_take_journal, under the same lock. Such a piece is after that of the cut
 * before. So a server that appends each text to a file has its whole history there, and a later process goes on from it
 * (seryugo_room_restore). docs/FORMATS.md, "Journals", has the lines.
 *
 * The journal stays as it was. The text has no null byte at its end. You own it until you free it by seryugo_bytes_free, and it may
 * outlive the journal and the room.
 *
 * The call writes nothing if it returns one of these. SERYUGO_NO_MEMORY: there is no memory for the text, or it would have more
 * than 2^32 - 1 bytes. SERYUGO_OUT_OF_BOUNDS: the position after the last entry would be 2^64 or more. SERYUGO_TOO_LONG: a line
 * would have more than 4,194,304 bytes, which no reading takes. In a message, each byte outside 0x21 to 0x7E, and each `%`, takes
 * three bytes of the line. So a server that keeps its journal sends no message of more than 1,398,000 bytes.
 */
uint32_t seryugo_journal_text(const struct seryugo *journal, uint64_t from, struct seryugo_bytes *text);

/*
 * Writes the lines of a room's entries from position `from` on into your memory, as many whole lines as fit into `size` bytes. The
 * room stays as it was, and nothing is handed over. *count is how many lines these are, and *length how many bytes they have. The
 * bytes after them stay. A reading takes these lines in a piece: the text has no header and no last line.
 *
 * SERYUGO_DONE: no entry is left. SERYUGO_FULL: the next line doesn't fit. SERYUGO_TOO_LONG: it would have more than 4,194,304 bytes.
 * SERYUGO_NO_MEMORY: there is none for a line of more than 1,024 bytes. SERYUGO_NO_SUCH: an entry from `from` on was cut away, and
 * both counts are 0.
 */
uint32_t seryugo_entries_text(const struct seryugo *room, uint64_t from, void *buffer, size_t size, uint64_t *count, uint64_t *length);

/* A sum over a piece of text: SHA-256, if is_there is 1. Fill it with 0 before the first piece. */
struct seryugo_sum {
    uint8_t is_there;
    uint8_t bytes[32];
};

/* The same with sums, by which damage is seen: the text's last line has the sum of its lines before, and its first line the sum of the
 * piece before. So a reading sees each changed byte, and a piece that is doubled, exchanged or left out before another. The last sum names
 * the whole journal: keep it elsewhere to see whether last pieces are missing, and nobody can rewrite the past.
 *
 * *sum is the sum of the piece before, which seryugo_sealed_text or seryugo_reading_sum wrote. Begin a text with none. The call writes
 * the sum of this piece there. If it hands over no text, *sum is as it was. All pieces of a text have sums, or none has.
 * SERYUGO_OUT_OF_BOUNDS: as for seryugo_journal_text, or sum->is_there is neither 0 nor 1, so that nobody has filled it. */
uint32_t seryugo_sealed_text(struct seryugo *journal, uint64_t from, struct seryugo_sum *sum, struct seryugo_bytes *text);

/* The library reads a `bool`, which no other byte may be. */
static inline uint32_t seryugo_sealed_text_tested(struct seryugo *journal, uint64_t from, struct seryugo_sum *sum,
                                                  struct seryugo_bytes *text)
{
    return sum->is_there > 1 ? (uint32_t)SERYUGO_OUT_OF_BOUNDS : (seryugo_sealed_text)(journal, from, sum, text);
}

#define seryugo_sealed_text(journal, from, sum, text) seryugo_sealed_text_tested(journal, from, sum, text)

/*
 * ---- checked journals ----
 *
 * A checker says how far a journal is a lawful history of one thread, wherever the journal comes from. Feed it the entries in
 * order, from the first that the journal ever had. It keeps what the objects need, and no entry.
 *
 * A call that feeds returns SERYUGO_DONE if all entries are lawful so far. Once it returns SERYUGO_UNLAWFUL, each later one does
 * too. SERYUGO_NO_MEMORY: some of the entries were seen. seryugo_checker_verdict says how many in all: go on after them.
 */

/* Opens a checker of journals with these messages. SERYUGO_NO_MEMORY: *checker is as it was. */
uint32_t seryugo_open_checker(uint32_t messages, struct seryugo *checker);

static inline uint32_t seryugo_checker_open(struct seryugo *checker)
{
    return seryugo_open_checker(SERYUGO_NUMBERS, checker);
}

static inline uint32_t seryugo_bytes_checker_open(struct seryugo *checker)
{
    return seryugo_open_checker(SERYUGO_BYTES, checker);
}

/* Checks one entry of numbers, as seryugo_entry and seryugo_taken_entry write it. It doesn't read what the entry's kinds don't
 * have. SERYUGO_OUT_OF_BOUNDS: one of the kinds is none, and nothing is changed. */
uint32_t seryugo_checker_feed(struct seryugo *checker, const struct seryugo_entry *entry);

/* Checks the entries of a taken journal of the same messages, from this place on. SERYUGO_NO_SUCH: the journal is shorter, and
 * nothing is changed. */
uint32_t seryugo_checker_feed_journal(struct seryugo *checker, struct seryugo *journal, uint64_t place);

/* Checks one entry of bytes, whether it was handed over or you filled the struct. It copies the bytes, and doesn't read `owner`.
 * SERYUGO_OUT_OF_BOUNDS: one of the kinds is none, or a pointer is null with a length, and nothing is changed. */
static inline uint32_t seryugo_bytes_checker_feed(struct seryugo *checker, const struct seryugo_bytes_entry *entry);

/* Writes how many entries were found lawful. SERYUGO_UNLAWFUL: the entry at that position is not. */
uint32_t seryugo_checker_verdict(const struct seryugo *checker, uint64_t *count);

/*
 * ---- a journal that is read back ----
 *
 * A reading reads the text of a journal, and checks the entries as it comes. It keeps what the objects need, what waits in them,
 * and one line. Give it the text from the journal's first piece on, in order, in parts of any size. A part may end anywhere.
 *
 * A reading stops at the first fault, at the first unlawful entry, or if there is no memory for what it reads. From then on
 * seryugo_reading_take and seryugo_reading_end return the code by which it stopped, and nothing more is read.
 */

/* Opens a reading of a journal of numbers, whose first line is `journal 1` or begins with `journal 3`, or of one of bytes, which has
 * 2 or 4 there. A journal of the other kind, or of a version to come, has a fault on its first line. SERYUGO_NO_MEMORY: *reading is as
 * it was. */
uint32_t seryugo_open_reading(uint32_t messages, struct seryugo *reading);

static inline uint32_t seryugo_reading_open(struct seryugo *reading)
{
    return seryugo_open_reading(SERYUGO_NUMBERS, reading);
}

static inline uint32_t seryugo_bytes_reading_open(struct seryugo *reading)
{
    return seryugo_open_reading(SERYUGO_BYTES, reading);
}

/* Reads the next part of the text. The buffer stays yours. The text ends before its first byte 0: nothing behind that is read.
 *
 * SERYUGO_DONE: there is no fault so far, and all entries are lawful. SERYUGO_FAULT: the text has a fault. It is on the line after
 * those that seryugo_reading_lines counts. SERYUGO_UNLAWFUL: the entry at the position that seryugo_reading_entries writes is
 * unlawful. SERYUGO_NO_MEMORY: the reading has stopped too. Open another, and read the text again. SERYUGO_OUT_OF_BOUNDS: the
 * pointer is null and the length isn't 0. Then nothing is changed. */
static inline uint32_t seryugo_reading_take(struct seryugo *reading, const void *at, size_t length);

enum seryugo_reading_wanted {
    /* How many entries were read and are lawful. */
    SERYUGO_READING_ENTRIES = 0,
    /* How many lines were read to their ends, modulo 2^64. */
    SERYUGO_READING_LINES = 1,
    /* Ask this once the text is at its end. It writes nothing. SERYUGO_DONE: the last piece has its end. SERYUGO_TEXT_OPEN: it has none.
     * SERYUGO_TORN: the text ends within a line, or is empty. SERYUGO_NO_JOURNAL: it has no whole line, and no journal begins so. */
    SERYUGO_READING_END = 2,
    /* How many bytes of the text may be kept, modulo 2^64: those of its whole lines, but for a header without a line behind it. */
    SERYUGO_READING_KEPT = 3,
    /* Which fault the reading stopped by, of enum seryugo_fault. SERYUGO_NOTHING: it stopped by none. */
    SERYUGO_READING_FAULT = 4
};

/* The first fault of a line, from left to right. */
enum seryugo_fault {
    SERYUGO_FAULT_SHORT = 0,
    SERYUGO_FAULT_UNKNOWN_WORD = 1,
    SERYUGO_FAULT_NO_COLON = 2,
    SERYUGO_FAULT_BAD_NUMBER = 3,
    SERYUGO_FAULT_BAD_MESSAGE = 4,
    SERYUGO_FAULT_WRONG_REPLY = 5,
    SERYUGO_FAULT_BAD_BYTES = 6,
    /* A piece doesn't begin with a header that may be there. */
    SERYUGO_FAULT_NO_HEADER = 7,
    /* The header's version is none that this library knows; or it has messages of the other type. */
    SERYUGO_FAULT_OTHER_VERSION = 8,
    SERYUGO_FAULT_OTHER_MESSAGES = 9,
    /* A piece doesn't begin where the one before ended. The first begins at 0. */
    SERYUGO_FAULT_GAP = 10,
    /* The position in a piece's last line isn't the one after its last entry; or a sum isn't that of the lines. */
    SERYUGO_FAULT_WRONG_END = 11,
    SERYUGO_FAULT_WRONG_SUM = 12,
    SERYUGO_FAULT_TOO_MANY = 13,
    SERYUGO_FAULT_TOO_LONG = 14
};

/* Writes what is wanted of a reading, which stays as it was. SERYUGO_OUT_OF_BOUNDS: nothing has this number. */
uint32_t seryugo_reading_state(const struct seryugo *reading, uint32_t wanted, uint64_t *number);

static inline uint32_t seryugo_reading_entries(const struct seryugo *reading, uint64_t *count)
{
    return seryugo_reading_state(reading, SERYUGO_READING_ENTRIES, count);
}

static inline uint32_t seryugo_reading_lines(const struct seryugo *reading, uint64_t *lines)
{
    return seryugo_reading_state(reading, SERYUGO_READING_LINES, lines);
}

static inline uint32_t seryugo_reading_kept(const struct seryugo *reading, uint64_t *bytes)
{
    return seryugo_reading_state(reading, SERYUGO_READING_KEPT, bytes);
}

static inline uint32_t seryugo_reading_end(const struct seryugo *reading)
{
    uint64_t unwritten = 0;

    return seryugo_reading_state(reading, SERYUGO_READING_END, &unwritten);
}

/* Writes the sum of the last piece that was read. If the text is torn, and its last piece has no end yet, writes the sum of that
 * piece's whole lines: end it by a line `end N` with this sum, in 64 hex digits. SERYUGO_NOTHING: the text has no sums, nothing was read,
 * or the last whole line is a header, and sum->is_there is 0. If the reading has stopped, its sum is of no use. SERYUGO_NO_MEMORY:
 * *sum is as it was. */
uint32_t seryugo_reading_sum(const struct seryugo *reading, struct seryugo_sum *sum);

static inline uint32_t seryugo_reading_sum_filled(const struct seryugo *reading, struct seryugo_sum *sum)
{
    uint32_t code = (seryugo_reading_sum)(reading, sum);

    sum->is_there = code == SERYUGO_NOTHING ? 0 : sum->is_there;
    return code;
}

#define seryugo_reading_sum(reading, sum) seryugo_reading_sum_filled(reading, sum)

/* Opens a room on what was read, and writes a handle to it. The room is as if it had answered all these calls, and had cut its
 * journal then. So its objects, and what waits in them, are those after the last entry. seryugo_entries and seryugo_cut_at write
 * what seryugo_reading_entries wrote, and names and positions go on from there. The journal takes `limit` entries between two
 * cuts. The messages are those of the reading: numbers or bytes.
 *
 * The seats, lanes and feeds of the journal are gone. A call of such a seat fails with SERYUGO_GONE, and the port of such a feed
 * is a port like any other. The first seat that you make has the number after the highest seat of the journal. The first lane
 * and the first feed have such numbers too. Those of the journal take no memory, whatever their numbers are.
 *
 * The call spends the reading: its handle leads to nothing then, and takes no call but seryugo_close. Close it. If the text was
 * torn, the room has the entries whose lines were whole. The call doesn't say so: call seryugo_reading_end before it.
 *
 * SERYUGO_OUT_OF_BOUNDS: the limit isn't from 1 to 2^32. SERYUGO_FAULT or SERYUGO_UNLAWFUL: the reading has stopped by this. After
 * these three the reading and *room are as they were. SERYUGO_NO_MEMORY: there is no memory, or the journal names a seat, a lane
 * or a feed whose number is 2^63 - 1 or more. *room is as it was, and the reading is spent. Open another, and read the text
 * again. */
uint32_t seryugo_room_restore(struct seryugo *reading, uint64_t limit, struct seryugo *room);

/* Makes a short journal of what was read: it leaves the same to later calls. Each object has its name and kind, each port its
 * channel and whether it is open, and each variable what it holds. What waits in a mailbox or at an open port waits, in order.
 * Whatever may follow the long journal may follow the short one, with the same replies, and nothing else.
 *
 * The call writes a handle to the short journal, and how many entries it has. It is a taken journal like any other, and its first
 * entry is at position 0: pass 0 to seryugo_journal_text. The seat with the highest number of the long journal made all of its
 * entries, so new seats have the numbers that they would have after the long one. If no seat made any, it is seat 0. What was
 * counted begins anew: positions of entries, numbers of lanes and feeds, and how many messages an object sent and received.
 *
 * The call spends the reading, as seryugo_room_restore does. Close it. If the text was torn, the short journal leaves what the
 * whole lines leave. The call doesn't say so: call seryugo_reading_end before it.
 *
 * SERYUGO_FAULT or SERYUGO_UNLAWFUL: the reading has stopped by this, and stays as it was. SERYUGO_NO_MEMORY: there is no memory,
 * and the reading is spent. After these *journal and *count are as they were. */
uint32_t seryugo_reading_compact(struct seryugo *reading, struct seryugo *journal, uint64_t *count);

/*
 * ---- readers ----
 *
 * None changes anything. Each writes a number, or returns SERYUGO_NO_SUCH if no object of this name has such a number.
 */

enum seryugo_object_kind {
    SERYUGO_MAILBOX = 0,
    SERYUGO_CHANNEL = 1,
    SERYUGO_PORT = 2,
    SERYUGO_IVAR = 3,
    SERYUGO_MVAR = 4
};

/* What is read of an object, or of the journal. */
enum seryugo_reader {
    /* How many messages were sent to a mailbox, or multicast on a channel. */
    SERYUGO_READ_SENT = 0,
    /* How many were received from a mailbox or a port. */
    SERYUGO_READ_GOT = 1,
    /* How many wait in a mailbox, or are owed to an open port. */
    SERYUGO_READ_OWED = 2,
    /* How many messages of a mailbox or a channel are kept, and the place of the first of these. */
    SERYUGO_READ_KEPT = 3,
    SERYUGO_READ_FIRST = 4,
    /* An object's kind. */
    SERYUGO_READ_KIND = 5,
    /* A port's channel; and how many messages were multicast on that channel before the first that the port receives. */
    SERYUGO_READ_CHANNEL = 6,
    SERYUGO_READ_START = 7,
    /* 1 if a port is open, and else 0. */
    SERYUGO_READ_IS_OPEN = 8,
    /* How many calls were accepted since the room was opened; how many of these entries were cut away; and how many entries the journal
     * takes between two cuts. These take no object: any number will do. */
    SERYUGO_READ_ENTRIES = 9,
    SERYUGO_READ_CUT_AT = 10,
    SERYUGO_READ_LIMIT = 11
};

/* Writes what this reads. SERYUGO_OUT_OF_BOUNDS: no reader has this number. */
uint32_t seryugo_read(const struct seryugo *room, uint32_t reader, uint64_t object, uint64_t *number);

static inline uint32_t seryugo_sent(const struct seryugo *room, uint64_t object, uint64_t *count)
{
    return seryugo_read(room, SERYUGO_READ_SENT, object, count);
}

static inline uint32_t seryugo_got(const struct seryugo *room, uint64_t object, uint64_t *count)
{
    return seryugo_read(room, SERYUGO_READ_GOT, object, count);
}

static inline uint32_t seryugo_owed(const struct seryugo *room, uint64_t object, uint64_t *count)
{
    return seryugo_read(room, SERYUGO_READ_OWED, object, count);
}

static inline uint32_t seryugo_kept(const struct seryugo *room, uint64_t object, uint64_t *count)
{
    return seryugo_read(room, SERYUGO_READ_KEPT, object, count);
}

static inline uint32_t seryugo_first(const struct seryugo *room, uint64_t object, uint64_t *count)
{
    return seryugo_read(room, SERYUGO_READ_FIRST, object, count);
}

static inline uint32_t seryugo_kind(const struct seryugo *room, uint64_t object, uint64_t *kind)
{
    return seryugo_read(room, SERYUGO_READ_KIND, object, kind);
}

static inline uint32_t seryugo_channel_of(const struct seryugo *room, uint64_t port, uint64_t *channel)
{
    return seryugo_read(room, SERYUGO_READ_CHANNEL, port, channel);
}

static inline uint32_t seryugo_start_of(const struct seryugo *room, uint64_t port, uint64_t *start)
{
    return seryugo_read(room, SERYUGO_READ_START, port, start);
}

static inline uint32_t seryugo_entries(const struct seryugo *room, uint64_t *count)
{
    return seryugo_read(room, SERYUGO_READ_ENTRIES, 0, count);
}

static inline uint32_t seryugo_cut_at(const struct seryugo *room, uint64_t *count)
{
    return seryugo_read(room, SERYUGO_READ_CUT_AT, 0, count);
}

static inline uint32_t seryugo_limit(const struct seryugo *room, uint64_t *count)
{
    return seryugo_read(room, SERYUGO_READ_LIMIT, 0, count);
}

/* Returns SERYUGO_DONE if a port is open, and else SERYUGO_CLOSED. */
static inline uint32_t seryugo_is_open(const struct seryugo *room, uint64_t port)
{
    uint64_t is_open = 1;
    uint32_t code = seryugo_read(room, SERYUGO_READ_IS_OPEN, port, &is_open);

    return is_open != 0 ? code : (uint32_t)SERYUGO_CLOSED;
}

/* The message that a variable holds. SERYUGO_NOTHING: it is empty. */
uint32_t seryugo_held(const struct seryugo *room, uint64_t variable, uint64_t *message);

/* The same of a room of bytes: hands the message over. */
uint32_t seryugo_bytes_held(const struct seryugo *room, uint64_t variable, struct seryugo_bytes *message);

/* Returns SERYUGO_DONE if the journal takes more entries, and else SERYUGO_JOURNAL_FULL. */
uint32_t seryugo_is_full(const struct seryugo *room);

/*
 * ---- a journal that is cut by itself ----
 *
 * A keeper cuts the full journal of one room, and hands its entries to a sink of yours. Fill it so, with a sink or, to drop the entries,
 * with a null pointer:
 *
 *     struct seryugo_keeper keeper = { .sink = append, .context = file };
 *
 * Make each call that may find the journal full in a loop, under the room's lock:
 *
 *     do {
 *         code = seryugo_send(&room, seat, mailbox, message);
 *     } while (seryugo_cut_for_retry(&keeper, &room, &code));
 *
 * Lanes and feeds may be open. A parked seat that is refused with SERYUGO_JOURNAL_FULL is free: its call is made again without is_again.
 *
 * To put a short journal in place of what the sink has, call seryugo_compact, write its text from position 0, and call seryugo_shorten
 * with its count: all this under one lock. Don't call seryugo_compact_and_cut.
 */

/* Takes the entries of a taken journal. The first is at position `from`, which is what seryugo_journal_text wants. Returns true if it has
 * them. If it returns false, the keeper keeps them, and hands them over again before any later ones. The journal's handle is the
 * keeper's. A sink in C++ must not throw. */
typedef bool seryugo_sink(void *context, struct seryugo *journal, uint64_t from, uint64_t count);

struct seryugo_keeper {
    seryugo_sink *sink;
    void *context;
    /* Entries that the sink hasn't taken yet, if is_kept. Fill these with 0. */
    struct seryugo journal;
    uint64_t from;
    uint64_t count;
    bool is_kept;
    /* What is added, modulo 2^64, to a position that counts since the room was opened. Fill it with 0. */
    uint64_t shift;
};

/* Hands over the entries that the keeper keeps. Returns true if it keeps none then. */
static inline bool seryugo_hand_over(struct seryugo_keeper *keeper)
{
    if (keeper->is_kept && keeper->sink(keeper->context, &keeper->journal, keeper->from, keeper->count)) {
        keeper->is_kept = false;
        seryugo_close(keeper->journal);
    }
    return !keeper->is_kept;
}

/* Cuts the journal, and hands its entries over. Call it at the end too: the last entries are only in the room. SERYUGO_JOURNAL_FULL: the
 * sink has refused entries, which the keeper keeps; if it kept some before, nothing is cut. SERYUGO_NO_MEMORY: nothing is cut. */
static inline uint32_t seryugo_keep(struct seryugo_keeper *keeper, struct seryugo *room)
{
    uint32_t code;

    if (keeper->sink == NULL) {
        return seryugo_cut_open(room);
    }
    if (!seryugo_hand_over(keeper)) {
        return SERYUGO_JOURNAL_FULL;
    }
    code = seryugo_cut_at(room, &keeper->from);
    if (code == SERYUGO_DONE) {
        code = seryugo_take_journal_open(room, &keeper->journal, &keeper->count);
    }
    if (code != SERYUGO_DONE) {
        return code;
    }
    keeper->from += keeper->shift;
    keeper->is_kept = true;
    return seryugo_hand_over(keeper) ? (uint32_t)SERYUGO_DONE : (uint32_t)SERYUGO_JOURNAL_FULL;
}

/* Cuts the journal after a short one that seryugo_compact wrote under the same lock, with this count. The short journal stands for the
 * entries that the keeper keeps, too: they are dropped. From then on the sink's `from` counts from the short journal's beginning. It is
 * never refused. */
static inline uint32_t seryugo_shorten(struct seryugo_keeper *keeper, struct seryugo *room, uint64_t count)
{
    uint64_t cut = 0;
    uint32_t code = seryugo_cut_open(room);

    if (code == SERYUGO_DONE) {
        code = seryugo_cut_at(room, &cut);
    }
    if (code != SERYUGO_DONE) {
        return code;
    }
    keeper->shift = count - cut;
    if (keeper->is_kept) {
        keeper->is_kept = false;
        seryugo_close(keeper->journal);
    }
    return code;
}

/* Says whether a call that returned this code is to be made again: the journal was full, and has room now. If it has none, *code is what
 * seryugo_keep returned. */
static inline bool seryugo_cut_for_retry(struct seryugo_keeper *keeper, struct seryugo *room, uint32_t *code)
{
    if (*code != SERYUGO_JOURNAL_FULL) {
        return false;
    }
    *code = seryugo_keep(keeper, room);
    return *code == SERYUGO_DONE;
}

/* The old name of seryugo_cut_for_retry. */
static inline bool seryugo_makes_room(struct seryugo_keeper *keeper, struct seryugo *room, uint32_t *code)
{
    return seryugo_cut_for_retry(keeper, room, code);
}

/*
 * ---- what the library exports for the inline functions above ----
 *
 * Don't call these from C. Those whose names end in _from don't test the pointer: unless the length is 0, it has to be good.
 */

uint32_t seryugo_call_from(struct seryugo *room, const struct seryugo_asked *asked, uint64_t *given, struct seryugo_bytes *message);
void seryugo_bytes_release(struct seryugo_share owner);
uint32_t seryugo_bytes_send_from(struct seryugo *room, uint64_t seat, uint64_t mailbox, const void *at, size_t length);
uint32_t seryugo_bytes_multicast_from(struct seryugo *room, uint64_t seat, uint64_t channel, const void *at, size_t length);
uint32_t seryugo_bytes_mvar_init_from(struct seryugo *room, uint64_t seat, const void *at, size_t length, uint64_t *variable);
uint32_t seryugo_bytes_put_from(struct seryugo *room, uint64_t seat, uint64_t variable, const void *at, size_t length);
uint32_t seryugo_bytes_swap_from(struct seryugo *room, uint64_t seat, uint64_t variable, const void *at, size_t length, bool is_again,
                                 struct seryugo_bytes *held);
uint32_t seryugo_bytes_lane_send_from(struct seryugo *lane, const void *at, size_t length);
uint32_t seryugo_bytes_checker_feed_from(struct seryugo *checker, const struct seryugo_maker *maker, uint32_t call, uint64_t object,
                                         const void *sent, size_t sent_length, uint32_t reply, uint64_t name, const void *got,
                                         size_t got_length);
uint32_t seryugo_reading_take_from(struct seryugo *reading, const void *at, size_t length);

/* Whether a pointer is null though it has a length. */
static inline bool seryugo_is_astray(const void *at, size_t length)
{
    return at == NULL && length != 0;
}

static inline uint32_t seryugo_call(struct seryugo *room, struct seryugo_asked asked, uint64_t *given, struct seryugo_bytes *message)
{
    if (seryugo_is_astray(asked.at, asked.length)) {
        return SERYUGO_OUT_OF_BOUNDS;
    }
    if (asked.at == NULL) {
        asked.at = "";
    }
    return seryugo_call_from(room, &asked, given, message);
}

static inline void seryugo_bytes_free(struct seryugo_bytes message)
{
    if (message.length > SERYUGO_IN_PLACE) {
        seryugo_bytes_release(message.owner);
    }
}

static inline uint32_t seryugo_bytes_send(struct seryugo *room, uint64_t seat, uint64_t mailbox, const void *at, size_t length)
{
    return seryugo_is_astray(at, length) ? (uint32_t)SERYUGO_OUT_OF_BOUNDS : seryugo_bytes_send_from(room, seat, mailbox, at, length);
}

static inline uint32_t seryugo_bytes_multicast(struct seryugo *room, uint64_t seat, uint64_t channel, const void *at, size_t length)
{
    return seryugo_is_astray(at, length) ? (uint32_t)SERYUGO_OUT_OF_BOUNDS
                                         : seryugo_bytes_multicast_from(room, seat, channel, at, length);
}

static inline uint32_t seryugo_bytes_mvar_init(struct seryugo *room, uint64_t seat, const void *at, size_t length, uint64_t *variable)
{
    return seryugo_is_astray(at, length) ? (uint32_t)SERYUGO_OUT_OF_BOUNDS
                                         : seryugo_bytes_mvar_init_from(room, seat, at, length, variable);
}

static inline uint32_t seryugo_bytes_put(struct seryugo *room, uint64_t seat, uint64_t variable, const void *at, size_t length)
{
    return seryugo_is_astray(at, length) ? (uint32_t)SERYUGO_OUT_OF_BOUNDS : seryugo_bytes_put_from(room, seat, variable, at, length);
}

static inline uint32_t seryugo_bytes_swap(struct seryugo *room, uint64_t seat, uint64_t variable, const void *at, size_t length,
                                          bool is_again, struct seryugo_bytes *held)
{
    return seryugo_is_astray(at, length) ? (uint32_t)SERYUGO_OUT_OF_BOUNDS
                                         : seryugo_bytes_swap_from(room, seat, variable, at, length, is_again, held);
}

static inline uint32_t seryugo_bytes_lane_send(struct seryugo *lane, const void *at, size_t length)
{
    return seryugo_is_astray(at, length) ? (uint32_t)SERYUGO_OUT_OF_BOUNDS : seryugo_bytes_lane_send_from(lane, at, length);
}

static inline uint32_t seryugo_bytes_checker_feed(struct seryugo *checker, const struct seryugo_bytes_entry *entry)
{
    if (seryugo_is_astray(entry->call.message.at, entry->call.message.length)
        || seryugo_is_astray(entry->reply.message.at, entry->reply.message.length)) {
        return SERYUGO_OUT_OF_BOUNDS;
    }
    return seryugo_bytes_checker_feed_from(checker, &entry->maker, entry->call.kind, entry->call.object, entry->call.message.at,
                                           entry->call.message.length, entry->reply.kind, entry->reply.name,
                                           entry->reply.message.at, entry->reply.message.length);
}

static inline uint32_t seryugo_reading_take(struct seryugo *reading, const void *at, size_t length)
{
    return seryugo_is_astray(at, length) ? (uint32_t)SERYUGO_OUT_OF_BOUNDS : seryugo_reading_take_from(reading, at, length);
}

#ifdef __cplusplus
}
#endif

#endif
