#include "leader.h"

#include "connections.h"
#include "errors.h"
#include "stream.h"

#include <inttypes.h>
#include <stdio.h>

/* A short journal takes the place of the pieces if it has at most this part of their entries. */
#define PART 4

struct leader {
    const struct lease *lease;
    struct service *service;
    struct connections connections;
    /* The ID of the last entry that this leader added. */
    struct id last;
    /* When the lease was renewed last. */
    int64_t renewed;
    /* A short journal is made once the stream has this many entries of the journal. */
    uint64_t least;
    uint64_t look_at;
};

/* Performs the lines that are there, as far as a batch takes them. Returns whether an answer rests on what the room holds. */
static bool perform_batch(struct leader *leader)
{
    bool rests = false;

    for (int i = 0; i < BATCH_MOST; i++) {
        struct span line;
        struct connection *connection = connections_next_line(&leader->connections, &line);

        if (connection == NULL) {
            break;
        }
        rests = service_answer(leader->service, line, &connection->answers) || rests;
        connections_drop_line(connection, line);
    }
    return rests;
}

/* Adds this leader's next entry. */
static void add(struct leader *leader, enum kind kind, const struct text *text)
{
    struct entry entry;

    leader->last.sequence++;
    entry = (struct entry){ leader->last, kind, { text->at, text->length } };
    if (!stream_add(leader->lease->redis, &entry)) {
        fail(STATUS_REPLACED, "stream %s: replaced: another process leads, and Redis refused piece %s", leader->lease->redis->key,
             id_text(leader->last).at);
    }
}

/* Adds the journal's next piece to the stream. A piece without entries is added too: so Redis says that no other leads. */
static void keep(struct leader *leader)
{
    struct text piece = { NULL, 0, 0 };

    service_take_piece(leader->service, &piece);
    add(leader, ENTRY_PIECE, &piece);
    text_free(&piece);
}

/* Puts a short journal in the place of all pieces, if these are long. If it would be too long, they have to double first. */
static void shorten(struct leader *leader)
{
    struct text text = { NULL, 0, 0 };
    uint64_t entries = service_entries(leader->service);

    if (entries < leader->look_at) {
        return;
    }
    leader->look_at = 2 * entries;
    if (service_shorten(leader->service, entries / PART, &text)) {
        add(leader, ENTRY_SHORT, &text);
        entries = PART * service_entries(leader->service);
        leader->look_at = entries > leader->least ? entries : leader->least;
    }
    text_free(&text);
}

/* Renews the lease in time. If the lease is another's, an empty piece asks Redis who leads. */
static void renew(struct leader *leader)
{
    if (now() - leader->renewed < leader->lease->milliseconds / 4) {
        return;
    }
    leader->renewed = now();
    if (!lease_renew(leader->lease) && !lease_take(leader->lease)) {
        keep(leader);
    }
}

void lead(const struct lease *lease, uint64_t epoch, struct service *service, int listener, const char *address, uint64_t least)
{
    struct leader leader = {
        .lease = lease, .service = service, .last = { epoch, 1 }, .least = least, .look_at = least
    };

    connections_open(&leader.connections, listener, address);
    printf("leads by epoch %" PRIu64 " after %" PRIu64 " entries\n", epoch, service_entries(service));
    while (!is_stopping) {
        uint64_t before = service_entries(leader.service);
        bool kept = false;

        connections_wait(&leader.connections, lease->milliseconds / 4);
        if (perform_batch(&leader)) {
            keep(&leader);
            kept = true;
        }
        connections_release(&leader.connections);
        /* The leader's seat makes the short journal, as a follower's does, only once the seat has made an entry. */
        if (kept && service_entries(leader.service) != before) {
            shorten(&leader);
        }
        renew(&leader);
    }
    connections_close(&leader.connections);
    lease_release(lease);
}
