/*
 * A room's journal in a file: each call that returned survives the end of the program, even by kill -9. Most programs call
 * seryugo_switchboard_open_file of seryugo_switchboard.h, which makes these calls for them. The code is in C: it is tested,
 * and not proved.
 *
 * What holds after what:
 *
 * - After a kill, a panic or an abort: each call that returned before. This costs a store into memory for each call.
 * - After a loss of power: what was synced, and a beginning of the rest. A thread syncs each second. seryugo_file_sync waits
 *   until all before it is on the disk. With SERYUGO_KEEP_DISK each call waits so: each call that returned is there.
 *
 * The text in the file ends before its first byte 0, at its last line end. docs/FORMATS.md, "Journals", has the lines. The
 * file is mapped on ext4 and xfs. Elsewhere, as on NFS, lines are written by pwrite(2), and there a full disk may show only
 * after a call was made.
 *
 * Keep these rules.
 *
 * - Make seryugo_file_reserve and seryugo_file_note under the lock of the room, as all calls on the room. All other calls may
 *   be made by any thread without that lock.
 * - Don't change the file while it is open. The lock by flock(2) keeps out only who asks for it. If another program cuts the
 *   file, a call ends the program by SIGBUS, or fails with SERYUGO_FILE_LOST once the file grows or is synced.
 * - Don't cut or take the room's journal: the file does so.
 */
#ifndef SERYUGO_FILE_H
#define SERYUGO_FILE_H

#include <seryugo.h>

#ifdef __cplusplus
extern "C" {
#endif

/* A journal's file that is open. */
struct seryugo_file;

/* The most bytes of a message, and of both messages of a swap, in a room whose journal has a file. So no line is too long. */
#define SERYUGO_FILE_MESSAGE_MOST 1398000

enum seryugo_file_flag {
    /* Writes by pwrite(2) on each file system. */
    SERYUGO_FILE_BY_WRITES = 1,
    /* The text has sums, as seryugo_sealed_text writes them, by which opening finds a changed byte. The helper's thread sums what
     * was stored. After 65,536 entries, or each sync_milliseconds, the next seryugo_file_note seals that by a line with the sum, and
     * begins a piece. So do closing and opening. Of what isn't sealed yet opening finds only what makes a line wrong or an entry
     * unlawful. While the file is exchanged nothing is sealed. */
    SERYUGO_FILE_SEALED = 2
};

/* What a call waits for, before it returns. */
enum seryugo_file_keep {
    /* Its entry is stored: it survives the end of the process. */
    SERYUGO_KEEP_PROCESS = 0,
    /* Its entry is on the disk, and each entry that its answer rests on: they survive a loss of power. */
    SERYUGO_KEEP_DISK = 1
};

/* How a file is kept. Pass null for: each second. */
struct seryugo_file_options {
    /* Milliseconds from one sync to the next. With 0 the file is synced only by seryugo_file_sync, by seryugo_file_close, and
     * where 32 MiB aren't synced yet. */
    uint64_t sync_milliseconds;
    /* Of seryugo_file_flag. */
    uint32_t flags;
    /* By how many bytes the file grows. 0 is 4 MiB. Tests use less. */
    uint64_t segment;
    /* A file of so many bytes is exchanged for a short one, if that is much shorter: as it is opened, and while it is open. 0 is
     * never. */
    uint64_t short_from;
    /* Of seryugo_file_keep. */
    uint32_t keep;
};

/* What opening found, before it exchanged the file. If it failed, the cause. */
struct seryugo_file_found {
    /* Entries and lines that were read. A fault is on the line after these, and an unlawful entry is at the position of these. */
    uint64_t entries;
    uint64_t lines;
    /* How many bytes of the file are kept, and how many behind them were cut off, apart from zeros at the end. */
    uint64_t kept;
    uint64_t cut_off;
    /* There was no file. */
    bool is_new;
    /* The file was exchanged for a short one. */
    bool is_shortened;
    /* The cause as errno, or 0. If the file was opened: why it wasn't exchanged. */
    int error;
    /* In the same folder, the name of the file that has what was cut off, or nothing. So much is saved only of more than a
     * line's length. */
    char saved[256];
    /* The cause in words, or nothing. */
    char words[256];
};

/*
 * Opens a room on the journal in the file `path`, and keeps its journal there. If there is no file, it makes one. Else it
 * recovers the room: objects, and what waits in them, are those after the last whole line. `messages` are SERYUGO_NUMBERS or
 * SERYUGO_BYTES, and `limit` is the room's. *found is always written, unless it is null. The room is yours: close the file
 * first, and then the room.
 *
 * Opening exchanges a file for a short one, if it has sums and SERYUGO_FILE_SEALED isn't set, or the other way round, or if it
 * has a line `end` and no sums. It does so too with a file of `short_from` bytes, if that has more than four times the bytes of
 * the short one. The short one has what seryugo_compact leaves. Objects keep their numbers, and seats get those that they would
 * have got. Positions, and counts of what was sent and received, begin anew. What was before goes, with its sums: copy the file
 * first, if you want that.
 *
 * - Opening makes the new file beside, with `.new` after the name. It locks, syncs and reads that file before it gives it the
 *   name. After a kill the name leads to the old file or to the new one, and that is whole. Of a link it exchanges the target.
 * - The new file has the mode and the owner of the old one. If it can't have them, or the old one has two names or an access
 *   list, there is no exchange. Nor is there if a file with `.new` has other bytes than the new one would get: that file stays.
 * - If it can't exchange the file, opening removes the new one, and says why in *found. It goes on with the old one, after a line
 *   `end` by a new piece. It fails with SERYUGO_FILE_FAILED if others have exchanged the file, or if it can't sync the folder.
 *
 * With `short_from` the file stays short while it is open, too. It is tried once it has so many bytes, and more than four times
 * what it had after the last exchange. A caller of seryugo_file_note takes the room's state, as seryugo_compact does, and the
 * others wait for that alone. The library's thread makes the new file beside, as above.
 *
 * - Each line is stored in both files, until the new one has the name on the disk. So after a kill the name leads to a file that
 *   has each call that returned. What is synced is on the disk in each file to which the name may lead.
 * - A `.new` that a kill leaves has a mark, by which the next exchange takes it. The mark is an extended attribute of the user's:
 *   on a file system without them the file gets long.
 * - If an exchange fails, the old file goes on until it has twice the bytes, and seryugo_file_exchanges says why. But if the
 *   folder or the new file can't be synced once that has the name, calls fail with SERYUGO_FILE_LOST.
 *
 * These refusals leave the file as it was. SERYUGO_FILE_BUSY, SERYUGO_NO_JOURNAL, SERYUGO_OTHER_VERSION,
 * SERYUGO_OTHER_MESSAGES and SERYUGO_BEGINS_LATER: as they say. SERYUGO_FAULT, SERYUGO_UNLAWFUL: the journal was changed.
 * SERYUGO_OUT_OF_BOUNDS: the limit isn't from 1 to 2^32, or there are no such messages or no such level.
 *
 * SERYUGO_FILE_FAILED or SERYUGO_NO_MEMORY: what the file had is still there, but its end may be cut off, and the file may be
 * new or exchanged.
 */
uint32_t seryugo_file_open(const char *path, uint32_t messages, uint64_t limit, const struct seryugo_file_options *options,
                           struct seryugo *room, struct seryugo_file_found *found, struct seryugo_file **file);

/* Sees to room for the lines of the next call, before it is made. `bytes` is how many the call's message has, of a swap with
 * those of the message that the variable holds, and else 0. It waits for a sync if 64 MiB aren't synced yet.
 *
 * If it fails, don't make the call. SERYUGO_FILE_FULL: the disk is full, or RLIMIT_FSIZE doesn't allow more. SERYUGO_TOO_LONG:
 * a message of more than SERYUGO_FILE_MESSAGE_MOST bytes. SERYUGO_NO_MEMORY, SERYUGO_FILE_LOST or SERYUGO_FORKED. */
uint32_t seryugo_file_reserve(struct seryugo_file *file, struct seryugo *room, uint64_t bytes);

/* Stores the lines of all entries since the last note, before the lock is released. Those of a call for which
 * seryugo_file_reserve made room always fit. Writes a position, unless `position` is null: how many bytes were stored so far,
 * also those that an exchange dropped. The entries leave the room.
 *
 * SERYUGO_FILE_FULL: some entries aren't stored yet (many calls were made before this one). They stay in the room, and the
 * next seryugo_file_reserve or seryugo_file_note stores them. SERYUGO_FILE_LOST or SERYUGO_FORKED: they aren't stored. */
uint32_t seryugo_file_note(struct seryugo_file *file, struct seryugo *room, uint64_t *position);

/* Says whether calls may be made: SERYUGO_DONE, SERYUGO_FILE_LOST, or SERYUGO_FORKED. It takes no lock, so a child of a fork asks
 * this before it takes one, which a thread that isn't there may have. */
uint32_t seryugo_file_state(const struct seryugo_file *file);

/* Waits until all that was stored before is on the disk. SERYUGO_FILE_LOST: a sync has failed, so nobody knows what is there. */
uint32_t seryugo_file_sync(struct seryugo_file *file);

/* Returns what a call waits for that was noted, or that read the room: the position up to which the file has lines now. If you
 * ask once the room's lock is free, calls of other threads may be before it. With SERYUGO_KEEP_PROCESS it is 0: such a call waits
 * for nothing. */
uint64_t seryugo_file_position(const struct seryugo_file *file);

/* Waits until the file is on the disk up to a position, without the room's lock. If no other thread makes a sync, the caller
 * does. Else it waits for the next one, which counts for all threads that wait. It can't be cancelled.
 *
 * SERYUGO_FILE_LOST: a sync has failed. SERYUGO_OUT_OF_BOUNDS: no line is there yet. SERYUGO_FORKED. */
uint32_t seryugo_file_wait(struct seryugo_file *file, uint64_t position);

/* A callback for when the file is on the disk up to a position, so that no thread waits. The memory is the caller's. It must not
 * move or be freed before `wake` is called. */
struct seryugo_file_waiter {
    uint64_t position;
    void (*wake)(struct seryugo_file_waiter *waiter);
    /* The file's own. */
    struct seryugo_file_waiter *following;
};

/* A thread of the library's calls `wake` once: after a sync, or once the file is lost, and before the file is closed. It may ask
 * seryugo_file_wait which it was. `wake` must not wait for the room's lock.
 *
 * SERYUGO_PARKED: it will be called. With each other code it won't be, and that is what seryugo_file_wait returns at once. */
uint32_t seryugo_file_when(struct seryugo_file *file, struct seryugo_file_waiter *waiter);

/* Syncs the file, cuts off the zeros behind its text, and closes it. It returns as seryugo_file_sync, and the handle is closed
 * in any case. Since nobody can ask the handle then, errno is the cause, or 0. In a child of a fork it only frees what the child
 * has. */
uint32_t seryugo_file_close(struct seryugo_file *file);

/* Returns in words why calls fail with SERYUGO_FILE_FULL or SERYUGO_FILE_LOST, or null, and writes the cause as errno or 0.
 * The words are there until the file is closed. */
const char *seryugo_file_error(struct seryugo_file *file, int *number);

/* What became of exchanges while the file is open. */
struct seryugo_file_exchanges {
    /* How many short files took the file's place, and how many tries failed. */
    uint64_t done;
    uint64_t failed;
    /* Why the last one failed, as errno or 0, and in words. */
    int error;
    char words[256];
};

/* Writes what became of exchanges for a short file since the file was opened. */
void seryugo_file_exchanges(struct seryugo_file *file, struct seryugo_file_exchanges *told);

/* Returns a fault of enum seryugo_fault on this line, counted from 1, in the words of `cml check`. The text is constant. */
const char *seryugo_fault_text(uint64_t fault, uint64_t line);

#ifdef __cplusplus
}
#endif

#endif
