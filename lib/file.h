/* What the parts of the journal's file share: file.c stores lines, disk.c grows and maps the file and has the helper's
 * thread, sync.c syncs and waits for that, open.c opens, exchange.c and beside.c shorten, seal.c seals.
 *
 * Places are positions. A position counts all bytes that were stored while the file is open, and only grows. An exchange makes
 * the file shorter, so a place in the file is a position less a shift. Only the machine and the system are given places in the
 * file. */
#ifndef SERYUGO_LIB_FILE_H
#define SERYUGO_LIB_FILE_H

#include "seryugo_file.h"

#include <pthread.h>
#include <signal.h>
#include <stdatomic.h>

/* ---- the rule ---- */

/* The rule of a journal's file is a machine of numbers, proved in the crate cml_store. It makes no call of the system: a driver asks
 * it for a step, does the step, and says how it went. All places are bytes from the file's beginning. A handle leads to it. */

/* How many bytes are accepted and not synced at most. So many are written again when a file is opened, because a sync that failed
 * for an earlier process may have left them in memory alone. */
#define SERYUGO_UNSYNCED_MOST ((uint64_t)64 << 20)

enum seryugo_work {
    /* What was accepted is to be stored; the same, and the zeros at the end are cut off; room up to a place; a sync. */
    SERYUGO_WORK_BYTES = 0,
    SERYUGO_WORK_CLOSING = 1,
    SERYUGO_WORK_ROOM = 2,
    SERYUGO_WORK_SYNC = 3
};

enum seryugo_step_kind {
    SERYUGO_STEP_NOTHING = 0,
    /* Cut the file to `to` bytes. */
    SERYUGO_STEP_CUT = 1,
    /* Give the file room up to `to`. The new bytes read as 0. */
    SERYUGO_STEP_GROW = 2,
    /* Store the text from `from` up to `to`. */
    SERYUGO_STEP_STORE = 3,
    SERYUGO_STEP_SYNC = 4,
    SERYUGO_STEP_SYNC_FOLDER = 5,
    /* Give the new file of an exchange the name. */
    SERYUGO_STEP_RENAME = 6
};

struct seryugo_step {
    uint32_t kind;
    uint64_t from;
    uint64_t to;
};

enum seryugo_mark {
    SERYUGO_MARK_ACCEPTED = 0,
    SERYUGO_MARK_STORED = 1,
    SERYUGO_MARK_SYNCED = 2,
    SERYUGO_MARK_GROWN = 3,
    /* 1 if the file is open, 2 if it has failed for good, and else 0. */
    SERYUGO_MARK_STAGE = 4
};

/* Opens the machine of a file of `size` bytes, of which the first `kept` are kept. SERYUGO_NO_MEMORY, SERYUGO_OUT_OF_BOUNDS. */
uint32_t seryugo_store_open(uint64_t kept, uint64_t size, struct seryugo *store);

/* Accepts as many bytes more. SERYUGO_GONE: the file isn't open. SERYUGO_FULL: too many aren't synced. SERYUGO_TOO_LONG. */
uint32_t seryugo_store_accept(struct seryugo *store, uint64_t bytes);

/* Begins the next step of this work, and writes it. Only SERYUGO_WORK_ROOM reads `to`. */
uint32_t seryugo_store_begin(struct seryugo *store, uint32_t work, uint64_t to, struct seryugo_step *step);

/* Ends the sync that is under way, or the step on the bytes. */
uint32_t seryugo_store_end(struct seryugo *store, bool is_sync, bool is_done);

/* Writes a mark. */
uint32_t seryugo_store_mark(struct seryugo *store, uint32_t mark, uint64_t *place);

/* An exchange has a machine too. Its steps are SERYUGO_STEP_RENAME and SERYUGO_STEP_SYNC_FOLDER. */
enum seryugo_ending { SERYUGO_ENDING_FAILED = 0, SERYUGO_ENDING_DONE = 1, SERYUGO_ENDING_CANCELLED = 2 };

enum seryugo_exchange_mark {
    /* How far a sync is acknowledged, as a place of the old file. */
    SERYUGO_EXCHANGE_SYNCED = 0,
    /* One of the next, or 0. */
    SERYUGO_EXCHANGE_WAY = 1
};

enum seryugo_way {
    /* Lines go to the new file alone; only another opening heals the file; or the new file may be removed. */
    SERYUGO_WAY_OVER = 1,
    SERYUGO_WAY_LOST = 2,
    SERYUGO_WAY_LEFT = 3
};

/* Opens the machine of an exchange. The new file begins with `length` bytes, which stand for the old file's first `taken`.
 * SERYUGO_NO_MEMORY. */
uint32_t seryugo_exchange_open(uint64_t taken, uint64_t length, struct seryugo *exchange);

/* Begins the next step by what the machines of both files say, and writes it. */
uint32_t seryugo_exchange_begin(struct seryugo *exchange, struct seryugo *old, struct seryugo *fresh, struct seryugo_step *step);

/* Ends the step, or cancels the exchange, unless a step has begun. */
uint32_t seryugo_exchange_end(struct seryugo *exchange, uint32_t ending);

/* Writes what is read off an exchange. */
uint32_t seryugo_exchange_mark(struct seryugo *exchange, struct seryugo *old, struct seryugo *fresh, uint32_t mark, uint64_t *place);

/* Writes a handle to a text of which nothing is summed yet. SERYUGO_NO_MEMORY. */
uint32_t seryugo_open_summing(struct seryugo *summing);

/* Sums the text's next bytes, and writes the sum of all so far. SERYUGO_NO_MEMORY: it isn't written, but the bytes are summed. */
uint32_t seryugo_summing_take_from(struct seryugo *summing, struct seryugo_sum *sum, const void *at, size_t length);

/* ---- the file ---- */

/* The most bytes of a line, with its line feed. */
#define SERYUGO_LINE_MOST 4194305

#define SERYUGO_PAGE ((uint64_t)4096)
/* From so many unsynced bytes on the helper syncs early. */
#define SERYUGO_UNSYNCED_EARLY ((uint64_t)32 << 20)
#define SERYUGO_OLD_VIEWS 8
/* The most bytes of a line that ends a piece, with the lines by which the next one begins. */
#define SERYUGO_SEAL_MOST 256
/* A sum's word, and a 0. */
#define SERYUGO_SUM_WORD 65

#define SERYUGO_HIDDEN __attribute__((visibility("hidden")))

/* Where callers store lines: a file, and the part of it in memory from `start` to `end`. */
struct seryugo_view {
    int descriptor;
    uint64_t shift;
    uint8_t *base;
    uint64_t start;
    uint64_t end;
};

struct seryugo_exchange;
struct seryugo_seal;

struct seryugo_file {
    /* A page that the system empties in a forked process: 1 in the process that opened the file, and else 0. */
    const volatile uint32_t *alive;

    /* These belong to whoever has the room's lock. Where the next line is stored, and how far lines may reach now. */
    uint64_t stored;
    uint64_t bound;
    /* The helper is asked again from here on. */
    uint64_t mark;
    /* The position of the next entry, and where the room's journal was cut. */
    uint64_t next;
    uint64_t cut_next;
    uint64_t cut_stored;
    uint64_t entries_most;
    /* How many bytes the lines of one call have at most. */
    uint64_t margin;
    struct seryugo_view view;
    /* Lines on their way, where they are written by pwrite(2). */
    uint8_t *lines;
    bool is_behind;
    bool is_mapped;
    /* Lines are stored in the new file of an exchange, too. */
    bool is_double;

    /* What all threads read. Positions are counts of bytes that only grow: `told` was stored, and `synced` is on the disk. */
    _Atomic uint64_t told;
    _Atomic uint64_t synced;
    _Atomic uint64_t grown;
    _Atomic bool is_lost;
    /* An exchange waits for a caller, or a piece does, which can be sealed. */
    _Atomic bool is_wanted;
    _Atomic bool is_seal_wanted;
    /* The next change under `lock` alone. A sync is under way, which counts up to a position, or none may be made. Threads that
     * wait for it sleep as long as `round` is as they have read it. */
    _Atomic bool is_syncing;
    _Atomic uint64_t counts_to;
    _Atomic uint32_t round;

    /* The next are under `lock`. A thread that grows the file has `growing`, and one that syncs it `is_syncing`. An exchange
     * takes both before it gives the file a new descriptor. */
    pthread_mutex_t lock;
    pthread_mutex_t growing;
    pthread_cond_t work;
    pthread_cond_t done;
    struct seryugo store;
    struct seryugo_view old[SERYUGO_OLD_VIEWS];
    size_t old_count;
    struct seryugo_file_waiter *waiters;
    uint64_t ahead;
    bool is_asked;
    bool stops;
    int error;
    char words[256];
    /* Null, if the file is never made short. */
    struct seryugo_exchange *exchange;
    /* Null, if the text has no sums. */
    struct seryugo_seal *seal;

    /* The process's next open file. */
    struct seryugo_file *following;
    /* The file that is synced and grows, which has a position less `shift` there. */
    int descriptor;
    uint64_t shift;
    uint64_t segment;
    uint64_t view_size;
    uint64_t period;
    /* Of seryugo_file_keep. */
    uint32_t keep;
    pthread_t helper;
};

/* disk.c */

/* Writes all bytes at a place, also after a short or an interrupted write. Returns 0 or errno. */
SERYUGO_HIDDEN int seryugo_write_at(int descriptor, const void *from, size_t size, uint64_t at);

/* Reads as many bytes as there are, up to `size`. Returns 0 or errno. */
SERYUGO_HIDDEN int seryugo_read_at(int descriptor, void *to, size_t size, uint64_t at, size_t *length);

/* Whether RLIMIT_FSIZE lets a file reach so far. A call that goes beyond would end the program by SIGXFSZ. */
SERYUGO_HIDDEN bool seryugo_may_reach(uint64_t end);

/* Gives a file room from one place to another. Returns 0 or errno. */
SERYUGO_HIDDEN int seryugo_allocate(int descriptor, uint64_t from, uint64_t to);

SERYUGO_HIDDEN uint64_t seryugo_mark_of(struct seryugo *store, uint32_t mark);

/* Tell a machine what was done before it was asked: text is stored up to a place, and there is room. While room is made, the machine
 * hears of text later. False: more is stored than may be unsynced. */
SERYUGO_HIDDEN bool seryugo_tell_stored(struct seryugo *store, uint64_t end);
SERYUGO_HIDDEN void seryugo_tell_room(struct seryugo *store, uint64_t end);

/* Marks the file as lost for good, with the first cause. The second needs the lock. */
SERYUGO_HIDDEN void seryugo_file_lose(struct seryugo_file *file, const char *words, int error);
SERYUGO_HIDDEN void seryugo_file_lose_locked(struct seryugo_file *file, const char *words, int error);

/* Whether the file still has all that it was given. */
SERYUGO_HIDDEN bool seryugo_file_is_whole(const struct seryugo_file *file);

/* Tells the machine of lines that calls have stored under the room's lock since it was last asked. Needs the lock. */
SERYUGO_HIDDEN void seryugo_file_catch_up(struct seryugo_file *file);

/* Begins a step, if the file isn't lost. Needs the lock. */
SERYUGO_HIDDEN struct seryugo_step seryugo_file_begin(struct seryugo_file *file, uint32_t work, uint64_t to);

/* Gives the file room up to `need` bytes at least. Returns 0 or errno. */
SERYUGO_HIDDEN int seryugo_file_grow(struct seryugo_file *file, uint64_t need);

/* Maps a view of so many bytes from its start on. */
SERYUGO_HIDDEN bool seryugo_map_view(struct seryugo_view *view, uint64_t size);

/* Maps the part of the file in which the next line is stored. The one before is the helper's. */
SERYUGO_HIDDEN uint32_t seryugo_file_move_view(struct seryugo_file *file);

/* Once all is synced: cuts off the zeros behind the text. Returns 0 or errno. */
SERYUGO_HIDDEN int seryugo_file_cut_zeros(struct seryugo_file *file);

/* Tells the helper that there may be work. The first needs the lock. */
SERYUGO_HIDDEN void seryugo_file_ask_locked(struct seryugo_file *file);
SERYUGO_HIDDEN void seryugo_file_ask(struct seryugo_file *file);

SERYUGO_HIDDEN int seryugo_start_thread(pthread_t *thread, void *(*run)(void *), void *given);
SERYUGO_HIDDEN int seryugo_file_start_helper(struct seryugo_file *file);
SERYUGO_HIDDEN void seryugo_file_stop_helper(struct seryugo_file *file);

/* sync.c */

/* Blocks the thread's signals but those that its own faults raise. */
SERYUGO_HIDDEN void seryugo_block_signals(sigset_t *before);

/* Has all who sleep ask again whether their wait is over. Needs the lock. */
SERYUGO_HIDDEN void seryugo_file_wake_all(struct seryugo_file *file);

/* One sync is made at a time, and none while a new file gets the name. Both need the lock. */
SERYUGO_HIDDEN void seryugo_hold_syncs(struct seryugo_file *file);
SERYUGO_HIDDEN void seryugo_let_syncs(struct seryugo_file *file);

/* Syncs what was told, if no other thread syncs. The helper never waits: others may need room, which it makes. */
SERYUGO_HIDDEN void seryugo_file_try_sync(struct seryugo_file *file);

/* Tells those on the list whose position is on the disk, or all once the file is lost. The helper alone calls this, so that what
 * is called meets no lock of another thread. Needs the lock, and gives it back meanwhile. */
SERYUGO_HIDDEN void seryugo_file_tell_settled(struct seryugo_file *file);

/* seal.c */

/* The first line of a journal with these messages. It has 10 bytes. */
SERYUGO_HIDDEN const char *seryugo_header(uint32_t messages, bool is_sealed);

/* Writes a sum's word. */
SERYUGO_HIDDEN void seryugo_sum_word(const struct seryugo_sum *sum, char *word);

/* Write the line that ends a piece after so many entries, and the lines by which a piece of the header's version begins. The word
 * is a sum's, or empty. Both return how many bytes they have. */
SERYUGO_HIDDEN size_t seryugo_end_line(char *to, size_t size, uint64_t entries, const char *word);
SERYUGO_HIDDEN size_t seryugo_piece_head(char *to, size_t size, const char *header, uint64_t entries, const char *word);

/* Seals a file whose open piece begins at a position. False: there is no memory for it. */
SERYUGO_HIDDEN bool seryugo_seal_new(struct seryugo_file *file, uint32_t messages, uint64_t piece);

/* An exchange is over: the new file is an open piece. An entry's position is less so much there. */
SERYUGO_HIDDEN void seryugo_seal_begin(struct seryugo_file *file, uint64_t shift);

/* The helper's part: sums what was stored. A caller seals that, if it is time. Needs the lock, and gives it back meanwhile. */
SERYUGO_HIDDEN void seryugo_seal_look(struct seryugo_file *file, bool is_time);

/* A caller's part, under the room's lock: seals the open piece; or has it sealed soon, if it has many entries. */
SERYUGO_HIDDEN void seryugo_seal_piece(struct seryugo_file *file);
SERYUGO_HIDDEN void seryugo_seal_count(struct seryugo_file *file);

/* Seals what a file that is being closed has, if there is room. No caller is left, and no helper. */
SERYUGO_HIDDEN void seryugo_seal_last(struct seryugo_file *file);

SERYUGO_HIDDEN void seryugo_seal_free(struct seryugo_seal *seal);

/* find.c */

/* Closes a file, and unlocks it: a program that another thread starts may have a copy of the descriptor for a moment. */
SERYUGO_HIDDEN void seryugo_let_file(int descriptor);

/* file.c */

/* Whether there is room for so many bytes, which it makes if it can. */
SERYUGO_HIDDEN bool seryugo_file_has_room(struct seryugo_file *file, uint64_t size);

/* Stores lines that are no entries. There is room for them. SERYUGO_FILE_LOST: that failed. */
SERYUGO_HIDDEN uint32_t seryugo_file_store_text(struct seryugo_file *file, const char *lines, size_t length);

/* Makes a handle on an open descriptor, with its locks and the page that a fork empties. Returns null if there is no memory. */
SERYUGO_HIDDEN struct seryugo_file *seryugo_file_new(int descriptor, bool is_mapped, uint32_t messages, uint64_t limit);

/* Puts a file on the list of those that a forked child closes. */
SERYUGO_HIDDEN void seryugo_file_list(struct seryugo_file *file);

/* No fork copies a descriptor between these. */
SERYUGO_HIDDEN void seryugo_hold_forks(void);
SERYUGO_HIDDEN void seryugo_let_forks(void);

/* Frees a handle whose helper has ended or never ran, but not its descriptor. */
SERYUGO_HIDDEN void seryugo_file_free(struct seryugo_file *file);

#endif
