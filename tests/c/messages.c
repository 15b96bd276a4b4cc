/* Each call with messages of bytes once and more, on one thread, with what it is to return. If there is no memory for a call, the
 * program frees all that it has, and ends with status 5. */
#include "checks.h"

#include <string.h>

/* What is to be freed: at most one of each kind at a time. */
static struct seryugo room, lane, feed, journal, checker;
static struct seryugo_bytes message;
static struct seryugo_bytes_entry entry;
static bool has_room, has_lane, has_feed, has_journal, has_checker, has_message, has_entry;

static void free_entry(void)
{
    if (has_entry) {
        seryugo_bytes_entry_free(entry);
    }
    has_entry = false;
}

static void free_all(void)
{
    free_one(&has_message, message);
    free_entry();
    close_one(&has_checker, checker);
    close_one(&has_lane, lane);
    close_one(&has_feed, feed);
    close_one(&has_room, room);
    close_one(&has_journal, journal);
}

/* The call hands this message over. */
static void hands(uint32_t code, const char *bytes, size_t length, int line)
{
    returns(code, SERYUGO_DONE, line);
    has_message = true;
    if (message.length != length || memcmp(seryugo_bytes_at(&message), bytes, length) != 0) {
        fprintf(stderr, "line %d: another message\n", line);
        exit(1);
    }
    free_one(&has_message, message);
}

#define HANDS(text, call) hands(call, text, sizeof(text) - 1, __LINE__)

/* As many bytes as lie in the struct, and one more. */
#define SHORT "a message of as many bytes as lie in the struct itself, so that none is shared"
#define LONG "a message of one byte more than lie in the struct, so that it's shared with all"

#define SEND(seat, mailbox, text) seryugo_bytes_send(&room, seat, mailbox, text, sizeof(text) - 1)

static uint64_t one, two, mailbox, channel, port, once, full;

static void try_rooms(void)
{
    RETURNS(OUT_OF_BOUNDS, seryugo_bytes_room_open(0, &room));
    RETURNS(OUT_OF_BOUNDS, seryugo_bytes_room_open(((uint64_t)1 << 32) + 1, &room));
    RETURNS(DONE, seryugo_bytes_room_open(200, &room));
    has_room = true;
    RETURNS(DONE, seryugo_new_seat(&room, &one));
    RETURNS(DONE, seryugo_new_seat(&room, &two));
    RETURNS(DONE, seryugo_new_mailbox(&room, one, &mailbox));
    RETURNS(DONE, seryugo_new_channel(&room, one, &channel));
    RETURNS(DONE, seryugo_new_port(&room, one, channel, &port));
    RETURNS(DONE, seryugo_new_ivar(&room, one, &once));
}

static void try_mailboxes(void)
{
    uint64_t due = 77, number = 77;

    RETURNS(NO_SUCH, SEND(one, 99, "x"));
    RETURNS(WRONG_KIND, SEND(one, channel, "x"));
    RETURNS(NOTHING, seryugo_bytes_recv_poll(&room, one, mailbox, &message));
    RETURNS(DONE, SEND(one, mailbox, ""));
    RETURNS(DONE, SEND(one, mailbox, SHORT));
    RETURNS(DONE, SEND(one, mailbox, LONG));
    RETURNS(DONE, seryugo_bytes_send(&room, one, mailbox, NULL, 0));
    HANDS("", seryugo_bytes_recv(&room, two, mailbox, false, &message));
    HANDS(SHORT, seryugo_bytes_recv(&room, two, mailbox, false, &message));
    HANDS(LONG, seryugo_bytes_recv_poll(&room, two, mailbox, &message));
    HANDS("", seryugo_bytes_recv(&room, two, mailbox, false, &message));
    RETURNS(PARKED, seryugo_bytes_recv(&room, two, mailbox, false, &message));
    RETURNS(STALLED, seryugo_bytes_recv(&room, one, mailbox, false, &message));
    RETURNS(DONE, SEND(one, mailbox, "wakes the other one"));
    RETURNS(DONE, seryugo_next_due(&room, &due));
    IS(two, due);
    HANDS("wakes the other one", seryugo_bytes_recv(&room, two, mailbox, true, &message));
    RETURNS(GONE, seryugo_bytes_recv(&room, two, mailbox, true, &message));
    RETURNS(WRONG_HANDLE, seryugo_send(&room, one, mailbox, 5));
    RETURNS(WRONG_HANDLE, seryugo_recv_poll(&room, one, mailbox, &number));
    IS(77, number);
}

static void try_bounds(void)
{
    size_t over = ((size_t)1 << 32);

    RETURNS(OUT_OF_BOUNDS, seryugo_bytes_send(&room, one, mailbox, NULL, 1));
    RETURNS(OUT_OF_BOUNDS, seryugo_bytes_send(&room, one, mailbox, "x", over));
    RETURNS(OUT_OF_BOUNDS, seryugo_bytes_multicast(&room, one, channel, NULL, 1));
    RETURNS(OUT_OF_BOUNDS, seryugo_bytes_multicast(&room, one, channel, "x", over));
    RETURNS(OUT_OF_BOUNDS, seryugo_bytes_put(&room, one, once, NULL, 1));
    RETURNS(OUT_OF_BOUNDS, seryugo_bytes_put(&room, one, once, "x", over));
    RETURNS(OUT_OF_BOUNDS, seryugo_bytes_mvar_init(&room, one, NULL, 1, &full));
    RETURNS(OUT_OF_BOUNDS, seryugo_bytes_mvar_init(&room, one, "x", over, &full));
}

static void try_channels(void)
{
    RETURNS(DONE, seryugo_bytes_multicast(&room, one, channel, "to all", 6));
    HANDS("to all", seryugo_bytes_recv(&room, one, port, false, &message));
    RETURNS(NOTHING, seryugo_bytes_recv_poll(&room, one, port, &message));
    RETURNS(DONE, seryugo_close_port(&room, one, port));
    RETURNS(CLOSED, seryugo_bytes_recv(&room, one, port, false, &message));
}

static void try_variables(void)
{
    RETURNS(NOTHING, seryugo_bytes_get_poll(&room, one, once, &message));
    RETURNS(NOTHING, seryugo_bytes_held(&room, once, &message));
    RETURNS(DONE, seryugo_bytes_put(&room, one, once, "for good", 8));
    RETURNS(PUT, seryugo_bytes_put(&room, one, once, "too late", 8));
    HANDS("for good", seryugo_bytes_get(&room, one, once, false, &message));
    HANDS("for good", seryugo_bytes_held(&room, once, &message));
    RETURNS(WRONG_KIND, seryugo_bytes_take(&room, one, once, false, &message));
    RETURNS(DONE, seryugo_bytes_mvar_init(&room, one, "the first that it held", 22, &full));
    RETURNS(OUT_OF_BOUNDS, seryugo_bytes_swap(&room, one, full, NULL, 1, false, &message));
    HANDS("the first that it held", seryugo_bytes_swap(&room, one, full, "second", 6, false, &message));
    HANDS("second", seryugo_bytes_take(&room, one, full, false, &message));
    RETURNS(NOTHING, seryugo_bytes_take_poll(&room, one, full, &message));
    RETURNS(NO_SUCH, seryugo_bytes_held(&room, mailbox, &message));
}

static void try_lanes(void)
{
    uint64_t number, count;

    RETURNS(DONE, seryugo_lane_open(&room, mailbox, 2, &lane, &number));
    has_lane = true;
    RETURNS(DONE, seryugo_bytes_lane_send(&lane, "on a lane", 9));
    RETURNS(OUT_OF_BOUNDS, seryugo_bytes_lane_send(&lane, NULL, 9));
    RETURNS(WRONG_HANDLE, seryugo_lane_send(&lane, 9));
    RETURNS(DONE, seryugo_bytes_lane_send(&lane, LONG, sizeof(LONG) - 1));
    RETURNS(FULL, seryugo_bytes_lane_send(&lane, "x", 1));
    /* Without memory for an entry the drain would stop halfway, and write how many it moved. */
    RETURNS(DONE, seryugo_reserve(&room, 2));
    RETURNS(DONE, seryugo_lane_drain(&room, number, &count));
    IS(2, count);
    RETURNS(DONE, seryugo_lane_finish(&lane));
    RETURNS(DONE, seryugo_lane_close(&room, &lane));
    close_one(&has_lane, lane);
    HANDS("on a lane", seryugo_bytes_recv(&room, one, mailbox, false, &message));
    HANDS(LONG, seryugo_bytes_recv(&room, one, mailbox, false, &message));
}

static void try_feeds(void)
{
    uint64_t number, count;

    RETURNS(DONE, seryugo_feed_open(&room, channel, 2, &feed, &number));
    has_feed = true;
    RETURNS(NOTHING, seryugo_bytes_feed_recv(&feed, &message));
    RETURNS(DONE, seryugo_bytes_multicast(&room, one, channel, "by a feed, to one who waits", 27));
    RETURNS(DONE, seryugo_reserve(&room, 1));
    RETURNS(DONE, seryugo_feed_pump(&room, number, &count));
    IS(1, count);
    RETURNS(WRONG_HANDLE, seryugo_feed_recv(&feed, &count));
    HANDS("by a feed, to one who waits", seryugo_bytes_feed_recv(&feed, &message));
    RETURNS(DONE, seryugo_feed_port(&feed, &count));
    RETURNS(DONE, seryugo_feed_end(&room, number));
    close_one(&has_feed, feed);
}

static void has(struct seryugo_place place, const char *text, int line)
{
    is(place.length, strlen(text), line);
    if (place.length != 0 && memcmp(place.at, text, place.length) != 0) {
        fprintf(stderr, "line %d: other bytes\n", line);
        exit(1);
    }
}

#define HAS(text, place) has(place, text, __LINE__)

static void try_entries(void)
{
    RETURNS(DONE, seryugo_bytes_entry(&room, 7, &entry));
    has_entry = true;
    IS(SERYUGO_SEAT, entry.maker.kind);
    IS(one, entry.maker.number);
    IS(SERYUGO_CALL_SEND, entry.call.kind);
    IS(mailbox, entry.call.object);
    HAS(LONG, entry.call.message);
    IS(SERYUGO_REPLY_DONE, entry.reply.kind);
    HAS("", entry.reply.message);
    free_entry();
    RETURNS(DONE, seryugo_bytes_entry(&room, 10, &entry));
    has_entry = true;
    IS(SERYUGO_CALL_RECV, entry.call.kind);
    IS(SERYUGO_REPLY_GOT, entry.reply.kind);
    HAS(SHORT, entry.reply.message);
    free_entry();
    RETURNS(DONE, seryugo_bytes_entry(&room, 1, &entry));
    has_entry = true;
    IS(SERYUGO_REPLY_MADE, entry.reply.kind);
    IS(channel, entry.reply.name);
    free_entry();
    RETURNS(NO_SUCH, seryugo_bytes_entry(&room, 999, &entry));
}

/* The journal is taken, and the room is closed: the entries outlive it. */
static uint64_t try_a_taken_journal(void)
{
    uint64_t count;

    RETURNS(DONE, seryugo_take_journal(&room, &journal, &count));
    has_journal = true;
    RETURNS(NO_SUCH, seryugo_bytes_entry(&room, 7, &entry));
    close_one(&has_room, room);
    RETURNS(DONE, seryugo_bytes_taken_entry(&journal, 7, &entry));
    has_entry = true;
    HAS(LONG, entry.call.message);
    free_entry();
    RETURNS(NO_SUCH, seryugo_bytes_taken_entry(&journal, count, &entry));
    return count;
}

static void feed_all_but(uint64_t count, uint64_t left_out)
{
    for (uint64_t place = 0; place < count; place++) {
        if (place == left_out) {
            continue;
        }
        RETURNS(DONE, seryugo_bytes_taken_entry(&journal, place, &entry));
        has_entry = true;
        RETURNS(DONE, seryugo_bytes_checker_feed(&checker, &entry));
        free_entry();
    }
}

static void try_a_checker(uint64_t count)
{
    struct seryugo_bytes_entry other;
    uint64_t found = 77;

    RETURNS(DONE, seryugo_bytes_checker_open(&checker));
    has_checker = true;
    feed_all_but(count, count);
    RETURNS(DONE, seryugo_checker_verdict(&checker, &found));
    IS(count, found);
    memset(&other, 0, sizeof other);
    other.call.kind = 99;
    RETURNS(OUT_OF_BOUNDS, seryugo_bytes_checker_feed(&checker, &other));
    other.call.kind = SERYUGO_CALL_SEND;
    other.call.message.length = 1;
    RETURNS(OUT_OF_BOUNDS, seryugo_bytes_checker_feed(&checker, &other));
    RETURNS(WRONG_HANDLE, seryugo_bytes_checker_feed_from(&journal, &other.maker, 0, 0, "", 0, 0, 0, "", 0));
    other.call.message.length = 0;
    other.call.object = mailbox;
    other.reply.kind = SERYUGO_REPLY_PUT;
    RETURNS(UNLAWFUL, seryugo_bytes_checker_feed(&checker, &other));
    RETURNS(UNLAWFUL, seryugo_checker_verdict(&checker, &found));
    IS(count, found);
    close_one(&has_checker, checker);
}

static void try_a_whole_journal(uint64_t count)
{
    uint64_t found = 77;

    RETURNS(DONE, seryugo_bytes_checker_open(&checker));
    has_checker = true;
    RETURNS(NO_SUCH, seryugo_checker_feed_journal(&checker, &journal, count + 1));
    RETURNS(WRONG_HANDLE, seryugo_checker_feed_journal(&journal, &checker, 0));
    RETURNS(DONE, seryugo_checker_feed_journal(&checker, &journal, 0));
    RETURNS(DONE, seryugo_checker_feed_journal(&checker, &journal, count));
    RETURNS(DONE, seryugo_checker_verdict(&checker, &found));
    IS(count, found);
    RETURNS(WRONG_HANDLE, seryugo_checker_verdict(&journal, &found));
    RETURNS(UNLAWFUL, seryugo_checker_feed_journal(&checker, &journal, 8));
    close_one(&has_checker, checker);
}

int main(void)
{
    uint64_t count;

    try_rooms();
    try_mailboxes();
    try_bounds();
    try_channels();
    try_variables();
    try_lanes();
    try_feeds();
    try_entries();
    count = try_a_taken_journal();
    try_a_checker(count);
    try_a_whole_journal(count);
    free_all();
    puts("each call returns what it should");
    return 0;
}
