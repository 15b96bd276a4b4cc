/* What the parts of an opening share: find.c finds or makes the file, open.c reads it, shorten.c may exchange it, and mend.c goes
 * on with it. exchange.c makes a short file beside as shorten.c does. */
#ifndef SERYUGO_LIB_OPEN_H
#define SERYUGO_LIB_OPEN_H

#include "file.h"

#include <sys/stat.h>

/* So many bytes are read at once. */
#define SERYUGO_CHUNK ((size_t)256 << 10)

/* A file that is being opened. */
struct seryugo_opening {
    const char *path;
    uint32_t messages;
    uint64_t limit;
    /* New pieces have sums. */
    bool is_sealed;
    struct seryugo_file_found *found;
    /* The folder and the file, or -1, and the file's name there. */
    int folder;
    int descriptor;
    char name[256];
    /* How many bytes the file has, how many up to its first byte 0, and how many up to its last other byte. */
    uint64_t length;
    uint64_t text;
    uint64_t end;
    /* How many bytes are kept, the position of the next entry, and where the piece begins that goes on. */
    uint64_t kept;
    uint64_t next;
    uint64_t piece;
    /* The text isn't of the version of new files, or has a line `end` and no sums. */
    bool is_old;
    /* What is read, and then the room that was made of it. */
    struct seryugo reading;
    bool has_reading;
    struct seryugo room;
    bool has_room;
    char *chunk;
    /* The lines that are written behind what is kept. */
    char more[256];
    size_t more_length;
};

/* A file that isn't old is exchanged only if it has more than so many times the bytes of the short one. */
#define SERYUGO_TIMES_SHORTER 4

/* What may take a file's place. */
struct seryugo_shorter {
    /* The new file, as if it alone were opened. */
    struct seryugo_opening fresh;
    struct seryugo_file_found found;
    char beside[sizeof((struct seryugo_opening *)NULL)->name + 4];
    struct seryugo_bytes text;
    /* So many bytes of the text are in the file: all but the last line, which would end it. */
    uint64_t length;
    /* The file beside is this opening's. */
    bool is_made;
};

/* Writes the cause of a refusal, and returns its code. */
SERYUGO_HIDDEN uint32_t seryugo_refuse(struct seryugo_opening *opening, uint32_t code, const char *words, int error);

/* The same of a call that the system refused. */
SERYUGO_HIDDEN uint32_t seryugo_fail(struct seryugo_opening *opening, const char *words, int error);

/* Reads and judges the file, and makes a room of it. The file is as it was. */
SERYUGO_HIDDEN uint32_t seryugo_judge(struct seryugo_opening *opening);

/* Exchanges the file for a short one, if it is old, or if it has `short_from` bytes and that makes it much shorter. If that
 * can't be done, *found says why, and the opening is as it was. It fails only if others have exchanged the file. */
SERYUGO_HIDDEN uint32_t seryugo_shorten_file(struct seryugo_opening *opening, uint64_t short_from);

/* Begins with nothing. The folder stays the opening's. */
SERYUGO_HIDDEN void seryugo_begin_shorter(const struct seryugo_opening *opening, struct seryugo_shorter *made);

/* Writes the text of a short journal, which it closes. */
SERYUGO_HIDDEN uint32_t seryugo_take_text(struct seryugo *journal, struct seryugo_shorter *made);

/* Makes the new file, or takes one that a killed program left. It is locked, and has the rights of the opening's file. */
SERYUGO_HIDDEN uint32_t seryugo_make_beside(const struct seryugo_opening *opening, struct seryugo_shorter *made);

/* Marks the new file: a later opening takes it, whatever it has, until it has got the name of this opening's file. */
SERYUGO_HIDDEN uint32_t seryugo_mark_beside(const struct seryugo_opening *opening, struct seryugo_shorter *made);

/* Gives the new file the name. Others may have given either name to a file of theirs, which stays. */
SERYUGO_HIDDEN uint32_t seryugo_name_beside(const struct seryugo_opening *opening, struct seryugo_shorter *made);

/* Removes the new file, unless it has got the name or others have its own. */
SERYUGO_HIDDEN void seryugo_remove_beside(const struct seryugo_shorter *made);

/* Frees what a try has. */
SERYUGO_HIDDEN void seryugo_free_shorter(struct seryugo_shorter *made);

/* Frees what an opening has. What it gave away it doesn't have any more. */
SERYUGO_HIDDEN void seryugo_free_opening(struct seryugo_opening *opening);

/* Cuts the file, writes it again and syncs it, as the machine says, which it opens. */
SERYUGO_HIDDEN uint32_t seryugo_mend(struct seryugo_opening *opening, struct seryugo *store);

/* Finds the file's folder and name, behind links. */
SERYUGO_HIDDEN uint32_t seryugo_find_folder(struct seryugo_opening *opening);

/* Opens and locks the file, or makes one. */
SERYUGO_HIDDEN uint32_t seryugo_find_file(struct seryugo_opening *opening);

/* Opens a file of this name in a folder, but follows no link. Returns its descriptor, or -1. */
SERYUGO_HIDDEN int seryugo_open_at(int folder, const char *name, int flags, mode_t mode);

/* Opens and locks the file of a name. SERYUGO_NOTHING: there is none, or it was exchanged meanwhile. */
SERYUGO_HIDDEN uint32_t seryugo_open_named(struct seryugo_opening *opening, const char *name);

/* Locks the file, and sees that it still has the name: it may have been exchanged before it was locked. */
SERYUGO_HIDDEN uint32_t seryugo_lock_file(struct seryugo_opening *opening, const char *name);

/* Whether a name leads to the file of this state. */
SERYUGO_HIDDEN bool seryugo_leads_to(const struct seryugo_opening *opening, const char *name, const struct stat *mine);

#endif
