/* A file that is exchanged for a short one while callers go on. */
#ifndef SERYUGO_LIB_EXCHANGE_H
#define SERYUGO_LIB_EXCHANGE_H

#include "open.h"

/* What is due next, and who does it: the exchange's thread, or the next caller under the room's lock. */
enum seryugo_stage {
    /* The helper sees whether the file is long. The thread does the rest. */
    SERYUGO_STAGE_NONE,
    /* A caller takes the room's state. */
    SERYUGO_STAGE_TAKE,
    SERYUGO_STAGE_TAKING,
    /* The thread makes the new file. */
    SERYUGO_STAGE_MAKE,
    /* A caller copies the last lines. If they are too many, the thread copies first. */
    SERYUGO_STAGE_JOIN,
    SERYUGO_STAGE_COPY,
    /* Callers store each line in both files. The thread syncs and names the new one. */
    SERYUGO_STAGE_BOTH,
    SERYUGO_STAGE_NAMING,
    /* A caller leaves the old file. */
    SERYUGO_STAGE_NAMED,
    /* A caller leaves the new file, because the exchange failed. */
    SERYUGO_STAGE_FAILED,
    /* The thread frees what one of them had. */
    SERYUGO_STAGE_CLEAN
};

struct seryugo_exchange {
    /* These are under the file's lock. */
    enum seryugo_stage stage;
    struct seryugo_file_exchanges told;
    /* Why a caller gave it up, or null. */
    const char *why;
    /* A file of so many bytes is tried. */
    uint64_t next_try;
    uint64_t short_from;
    pthread_cond_t due;
    pthread_t thread;
    /* The next belong to the one who does what is due. */
    /* The room's state, the position at which it was taken, and by how much less an entry's position is after it. */
    struct seryugo journal;
    uint64_t taken_at;
    uint64_t entries_shift;
    /* The lines up to `begun` were on the new file's disk before it was mapped. Those up to `copied` are there, and there is room up
     * to `end`. */
    uint64_t begun;
    uint64_t copied;
    _Atomic uint64_t end;
    struct seryugo_view view;
    /* The new file's machine, and that of the exchange. */
    struct seryugo store;
    struct seryugo machine;
    /* The file that is synced and grows is the new one. */
    bool is_over;
    struct seryugo_opening old;
    struct seryugo_shorter made;
};

/* A caller copies no more than this. */
#define SERYUGO_LAST_MOST ((uint64_t)64 << 10)

#define SERYUGO_NO_ROOM "give the new file room"

/* exchange.c: the thread's part */

/* Starts the thread for exchanges of a file that is being opened, whose folder it takes. False: there is no memory for it. */
SERYUGO_HIDDEN bool seryugo_exchange_new(struct seryugo_file *file, struct seryugo_opening *opening, uint64_t short_from);

/* Begins an exchange, once the file is long. Needs the lock. */
SERYUGO_HIDDEN void seryugo_exchange_look(struct seryugo_file *file);

/* Ends the thread, and an exchange that is under way. No caller is left, and no helper. */
SERYUGO_HIDDEN void seryugo_exchange_stop(struct seryugo_file *file);

/* Notes why the new file isn't made, and returns false. */
SERYUGO_HIDDEN bool seryugo_exchange_fails(struct seryugo_exchange *exchange, const char *words, int error);

/* Closes the copies that a forked child has. */
SERYUGO_HIDDEN void seryugo_exchange_close_copies(struct seryugo_exchange *exchange);

SERYUGO_HIDDEN void seryugo_exchange_free(struct seryugo_exchange *exchange);

/* beside.c: the new file, which is the thread's until callers store lines there */

/* Makes the new file of a text, and copies the lines since the state was taken. */
SERYUGO_HIDDEN bool seryugo_beside_make(struct seryugo_file *file);

/* Gives room for more lines and copies them, as long as callers have added many. So the last ones are few. */
SERYUGO_HIDDEN bool seryugo_beside_catch_up(struct seryugo_file *file);

/* Tells the new file's machine of its room, and of lines up to a position. False: more is stored than may be unsynced. */
SERYUGO_HIDDEN bool seryugo_beside_tell(struct seryugo_exchange *exchange, uint64_t position);

/* Syncs the lines up to a position. Returns 0 or errno. */
SERYUGO_HIDDEN int seryugo_beside_sync(struct seryugo_exchange *exchange, uint64_t position);

/* Begins the exchange's next step, and returns its kind. The second reads a mark. Both need the lock. */
SERYUGO_HIDDEN uint32_t seryugo_beside_move(struct seryugo_file *file);
SERYUGO_HIDDEN uint64_t seryugo_beside_mark(struct seryugo_file *file, uint32_t mark);

/* joining.c: the callers' part */

/* Has the one who does what is due then do it. Needs the lock. */
SERYUGO_HIDDEN void seryugo_exchange_set_stage(struct seryugo_file *file, enum seryugo_stage stage);

/* Copies lines of the old file up to a position. Returns 0 or errno. */
SERYUGO_HIDDEN int seryugo_exchange_copy(struct seryugo_file *file, uint64_t end);

/* Gives the new file room for lines up to a position, by segments. Returns 0 or errno. EAGAIN: a sync has to be
 * first. */
SERYUGO_HIDDEN int seryugo_exchange_give_room(struct seryugo_file *file, uint64_t need);

/* Lines are stored in the new file alone, or in the old one alone. Both need the lock. */
SERYUGO_HIDDEN void seryugo_exchange_leave_old(struct seryugo_file *file);
SERYUGO_HIDDEN void seryugo_exchange_leave_new(struct seryugo_file *file, const char *why);

/* Does what is due of a caller, who has stored all entries of the room. */
SERYUGO_HIDDEN void seryugo_exchange_join(struct seryugo_file *file, struct seryugo *room);

/* Stores a caller's lines in the new file too. SERYUGO_FILE_LOST: that failed, and the new file has the name. */
SERYUGO_HIDDEN uint32_t seryugo_exchange_store(struct seryugo_file *file, const uint8_t *lines, uint64_t length);

/* Gives the new file room up to `need`. If there is none, or if the exchange has ended, lines are stored in one file again. */
SERYUGO_HIDDEN void seryugo_exchange_make_way(struct seryugo_file *file, uint64_t need);

#endif
