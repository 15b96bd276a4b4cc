/* The library's messages of bytes, as texts of this program. No other file uses `struct seryugo_bytes`. */
#ifndef FOLLOW_BYTES_H
#define FOLLOW_BYTES_H

#include "text.h"

#include <seryugo.h>

/* Appends the next message of a mailbox. Returns false if there is none. */
bool bytes_received(struct seryugo *room, uint64_t seat, uint64_t mailbox, struct text *into);

/* Appends what a variable holds, without an entry of the journal. Returns false if it is empty. */
bool bytes_held(struct seryugo *room, uint64_t variable, struct text *into);

/* Stores a message in a full m-variable. */
void bytes_store(struct seryugo *room, uint64_t seat, uint64_t variable, struct span message);

/* Takes the journal, and appends its text: one piece, whose first entry is at position `from`. `sum` is that of the piece before, and
 * then of this one. */
void bytes_piece(struct seryugo *room, uint64_t from, struct seryugo_sum *sum, struct text *into);

/* Appends the text of a short journal, and closes the journal. Returns the sum. */
struct seryugo_sum bytes_short(struct seryugo journal, struct text *into);

#endif
