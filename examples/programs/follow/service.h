/* The service: queues of texts for numbered clients, in a room of the library. All that it knows is in the room, so a room that is
 * restored from the journal goes on with the same queues and clients.
 *
 * A queue is an m-variable that holds `queue NAME`, and the mailbox that is made next. A client is an m-variable that holds
 * `client NUMBER REQUEST ANSWER`: its last request that was performed, and the answer. */
#ifndef FOLLOW_SERVICE_H
#define FOLLOW_SERVICE_H

#include "names.h"
#include "text.h"

#include <seryugo.h>

/* How many requests a batch has at the most. */
#define BATCH_MOST 1024

struct service {
    struct seryugo room;
    uint64_t seat;
    struct names names;
    /* The text in the stream begins with a short journal that stands for `cut` entries, and has `count`. At first both are 0. */
    uint64_t cut;
    uint64_t count;
    /* The sum of the last piece, which the next one names. */
    struct seryugo_sum sum;
};

/* Opens the service on what was read, and spends the reading. If the journal is another program's, or has no sums, the process
 * ends. */
void service_open(struct service *service, struct seryugo *reading);

/* Performs a request, and appends the answer's line. A request that was performed before is answered as it was then. Returns
 * whether the answer rests on what the room holds: then send it only once the batch is kept. */
bool service_answer(struct service *service, struct span line, struct text *answers);

/* Appends the piece of the journal with the entries since the last one. */
void service_take_piece(struct service *service, struct text *piece);

/* How many entries the text in the stream has. */
uint64_t service_entries(struct service *service);

/* Makes a short journal in place of all pieces, if it has at most this many entries, and appends its text. Later pieces follow it.
 * Returns false if it has more, if there is no memory for it, or if the last piece wasn't taken. */
bool service_shorten(struct service *service, uint64_t most, struct text *text);

void service_close(struct service *service);

#endif
