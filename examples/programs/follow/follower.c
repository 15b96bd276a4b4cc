#include "follower.h"

#include "bytes.h"
#include "errors.h"

#include <inttypes.h>
#include <stdio.h>
#include <string.h>

/* Milliseconds for which Redis holds back an answer at the most, which is less than the connection waits for one. */
#define WAIT_MOST 1000

void follower_open(struct follower *follower, struct redis *redis)
{
    follower->redis = redis;
    follower->epoch = 0;
    follower->last = (struct id){ 0, 0 };
    follower->tells_leaders = false;
    require_done(seryugo_bytes_reading_open(&follower->reading), "a reading");
}

/* Ends the process by what is wrong with a piece. */
static _Noreturn void refuse(struct follower *follower, struct id id, uint32_t code)
{
    uint64_t lines, entries;

    require_done(seryugo_reading_lines(&follower->reading, &lines), "a count");
    require_done(seryugo_reading_entries(&follower->reading, &entries), "a count");
    if (code == SERYUGO_FAULT) {
        fail(STATUS_FAULT, "stream %s: piece %s has a fault: line %" PRIu64 " of the journal, after %" PRIu64 " entries",
             follower->redis->key, id_text(id).at, lines + 1, entries);
    }
    if (code == SERYUGO_UNLAWFUL) {
        fail(STATUS_FAULT, "stream %s: piece %s is unlawful at entry %" PRIu64, follower->redis->key, id_text(id).at, entries);
    }
    if (code == SERYUGO_TORN || code == SERYUGO_TEXT_OPEN || code == SERYUGO_NO_JOURNAL) {
        fail(STATUS_FAULT, "stream %s: piece %s is torn after line %" PRIu64 " of the journal", follower->redis->key,
             id_text(id).at, lines);
    }
    require_done(code, "a piece that is read");
    fail(STATUS_FAULT, "stream %s: piece %s can't be read", follower->redis->key, id_text(id).at);
}

static void take_leader(struct follower *follower, const struct entry *entry)
{
    follower->epoch = entry->id.epoch;
    if (follower->tells_leaders) {
        printf("%.*s leads by epoch %" PRIu64 "\n", (int)entry->value.length, entry->value.at, follower->epoch);
    }
}

static uint64_t entries_of(struct follower *follower)
{
    uint64_t entries;

    require_done(seryugo_reading_entries(&follower->reading, &entries), "a count");
    return entries;
}

/* Reads and checks the text of a piece. */
static void read_text(struct follower *follower, const struct entry *entry)
{
    uint32_t code;

    code = seryugo_reading_take(&follower->reading, entry->value.at, entry->value.length);
    if (code == SERYUGO_DONE) {
        code = seryugo_reading_end(&follower->reading);
    }
    if (code != SERYUGO_DONE) {
        refuse(follower, entry->id, code);
    }
}

static void take_piece(struct follower *follower, const struct entry *entry)
{
    if (entry->id.epoch != follower->epoch) {
        fail(STATUS_FAULT, "stream %s: piece %s is no leader's", follower->redis->key, id_text(entry->id).at);
    }
    read_text(follower, entry);
}

/* Requires that a short journal is what all pieces before it leave, and spends what was read of them. */
static void require_same(struct follower *follower, const struct entry *entry)
{
    struct text text = { NULL, 0, 0 };
    struct seryugo journal;
    uint64_t count;

    require_done(seryugo_reading_compact(&follower->reading, &journal, &count), "a short journal");
    bytes_short(journal, &text);
    if (text.length != entry->value.length || memcmp(text.at, entry->value.at, text.length) != 0) {
        fail(STATUS_FAULT, "stream %s: short piece %s isn't what the pieces before it leave", follower->redis->key,
             id_text(entry->id).at);
    }
    text_free(&text);
}

/* Begins anew with a short journal. If each entry before it was taken, it is checked against them. Else they were dropped before
 * this process has read them. */
static void take_short(struct follower *follower, const struct entry *entry)
{
    bool is_next = follower->last.epoch == entry->id.epoch && follower->last.sequence + 1 == entry->id.sequence;

    if (is_next) {
        require_same(follower, entry);
    }
    seryugo_close(follower->reading);
    require_done(seryugo_bytes_reading_open(&follower->reading), "a reading");
    follower->epoch = entry->id.epoch;
    read_text(follower, entry);
    if (!is_next && follower->tells_leaders) {
        printf("begins anew with short piece %s after %" PRIu64 " entries\n", id_text(entry->id).at, entries_of(follower));
    }
}

static void take(void *context, const struct entry *entry)
{
    struct follower *follower = context;

    switch (entry->kind) {
    case ENTRY_LEADER:
        take_leader(follower, entry);
        break;
    case ENTRY_PIECE:
        take_piece(follower, entry);
        break;
    case ENTRY_SHORT:
        take_short(follower, entry);
        break;
    }
    follower->last = entry->id;
}

/* Reads what is there, and doesn't wait for more. If the process is to stop, it leaves the rest. */
static void catch_up(struct follower *follower)
{
    while (!is_stopping && stream_read(follower->redis, 0, take, follower) != 0) {
    }
}

/* Adds a leader's first entry after what was read. Redis refuses it if another leader was faster. */
static bool begin_epoch(struct follower *follower, const struct lease *lease, uint64_t epoch)
{
    struct id read = follower->redis->seen;
    struct entry first = { { epoch, 1 }, ENTRY_LEADER, { lease->name, strlen(lease->name) } };
    bool added = stream_add(follower->redis, &first);

    /* What earlier leaders added since is still to be read. */
    follower->redis->seen = read;
    return added;
}

/* Takes the lease if it is free. If Redis was away, the leader has the time of a lease to renew it. */
static bool may_lead(const struct follower *follower, const struct lease *lease)
{
    return now() >= follower->redis->back + lease->milliseconds && lease_take(lease);
}

bool follower_wait(struct follower *follower, const struct lease *lease, uint64_t *epoch)
{
    int wait = lease->milliseconds / 8 < WAIT_MOST ? lease->milliseconds / 8 : WAIT_MOST;

    catch_up(follower);
    follower->tells_leaders = true;
    printf("follows after %" PRIu64 " entries\n", entries_of(follower));
    while (!is_stopping) {
        if (stream_read(follower->redis, wait, take, follower) != 0 || !may_lead(follower, lease)) {
            continue;
        }
        *epoch = follower->redis->seen.epoch + 1;
        if (begin_epoch(follower, lease, *epoch)) {
            catch_up(follower);
            if (!is_stopping) {
                return true;
            }
        }
        lease_release(lease);
    }
    return false;
}

void follower_close(struct follower *follower)
{
    seryugo_close(follower->reading);
}
