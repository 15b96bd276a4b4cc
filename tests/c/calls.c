/* Each call of the library once and more, on one thread, with what it returns. If there is no memory for a call, the program closes
 * all that it has, and ends with status 5. */
#include "checks.h"

#include <string.h>

static struct seryugo room, lane, feed, journal, checker, other_room, other_lane;
static bool has_room, has_lane, has_feed, has_journal, has_checker, has_other_room, has_other_lane;

static void free_all(void)
{
    close_one(&has_lane, lane);
    close_one(&has_feed, feed);
    close_one(&has_journal, journal);
    close_one(&has_checker, checker);
    close_one(&has_room, room);
    close_one(&has_other_lane, other_lane);
    close_one(&has_other_room, other_room);
}

/* The library and the header have one version, which the header has as a text too. */
static void try_the_version(void)
{
    uint32_t version = seryugo_version();
    char text[40];

    IS(SERYUGO_VERSION_NUMBER, version);
    snprintf(text, sizeof text, "%u.%u.%u", (unsigned)(version >> 16), (unsigned)(version >> 8 & 255), (unsigned)(version & 255));
    IS(0, strcmp(text, SERYUGO_VERSION));
}

/* A new room with a lane of two slots to its mailbox. */
static void open_room_with_lane(struct seryugo *made, bool *has_made, struct seryugo *made_lane, bool *has_made_lane)
{
    uint64_t seat = 77, mailbox = 77, number = 77;

    RETURNS(DONE, seryugo_room_open(100, made));
    *has_made = true;
    RETURNS(DONE, seryugo_new_seat(made, &seat));
    RETURNS(DONE, seryugo_new_mailbox(made, seat, &mailbox));
    RETURNS(DONE, seryugo_lane_open(made, mailbox, 2, made_lane, &number));
    *has_made_lane = true;
    IS(0, number);
}

/* A call as data, which is made as by the function of its name. */
static uint32_t ask(uint32_t kind, bool is_again, uint64_t object, uint64_t number, uint64_t *given)
{
    struct seryugo_asked asked = { kind, is_again, true, false, 0, object, number, NULL, 0 };
    struct seryugo_bytes message;

    return seryugo_call(&room, asked, given, &message);
}

static void try_calls_as_data(void)
{
    struct seryugo_asked astray = { SERYUGO_CALL_SEND, false, true, true, 0, 0, 0, NULL, 1 };
    struct seryugo_bytes message;
    uint64_t mailbox = 77, seat = 77, given = 77;

    RETURNS(DONE, seryugo_room_open(100, &room));
    has_room = true;
    RETURNS(DONE, seryugo_new_seat(&room, &seat));
    RETURNS(DONE, seryugo_new_seat(&room, &seat));
    RETURNS(DONE, ask(SERYUGO_CALL_NEW_MAILBOX, false, 0, 0, &mailbox));
    IS(0, mailbox);
    RETURNS(NOTHING, ask(SERYUGO_CALL_RECV_POLL, false, mailbox, 0, &given));
    RETURNS(PARKED, ask(SERYUGO_CALL_RECV, false, mailbox, 0, &given));
    RETURNS(GONE, ask(SERYUGO_CALL_SEND, false, mailbox, 5, &given));
    RETURNS(DONE, seryugo_send(&room, 1, mailbox, 5));
    IS(77, given);
    RETURNS(DONE, ask(SERYUGO_CALL_RECV, true, mailbox, 0, &given));
    IS(5, given);
    RETURNS(OUT_OF_BOUNDS, ask(SERYUGO_CALL_SWAP + 1, false, mailbox, 0, &given));
    RETURNS(OUT_OF_BOUNDS, seryugo_call(&room, astray, &given, &message));
    astray.length = 0;
    astray.takes_numbers = false;
    RETURNS(WRONG_HANDLE, seryugo_call(&room, astray, &given, &message));
    IS(5, given);
    close_one(&has_room, room);
}

/* The end of another room's lane of the same number, with another count of messages, closes nothing. The lane's end closes it. */
static void try_an_end_of_another_room(void)
{
    uint64_t count = 77, message = 77;

    open_room_with_lane(&room, &has_room, &lane, &has_lane);
    open_room_with_lane(&other_room, &has_other_room, &other_lane, &has_other_lane);
    RETURNS(DONE, seryugo_lane_send(&other_lane, 5));
    RETURNS(DONE, seryugo_lane_send(&other_lane, 6));
    RETURNS(FULL, seryugo_lane_send(&other_lane, 7));
    RETURNS(DONE, seryugo_lane_finish(&other_lane));
    RETURNS(DONE, seryugo_lane_send(&lane, 5));
    RETURNS(UNSEEN, seryugo_lane_close(&room, &other_lane));
    RETURNS(DONE, seryugo_lane_drain(&room, 0, &count));
    IS(0, count);
    RETURNS(DONE, seryugo_lane_send(&lane, 6));
    RETURNS(DONE, seryugo_lane_finish(&lane));
    RETURNS(DONE, seryugo_lane_close(&room, &lane));
    RETURNS(DONE, seryugo_recv(&room, 0, 0, false, &message));
    IS(5, message);
    RETURNS(DONE, seryugo_recv(&room, 0, 0, false, &message));
    IS(6, message);
    RETURNS(NOTHING, seryugo_recv_poll(&room, 0, 0, &message));
    RETURNS(DONE, seryugo_lane_drop(&other_room, 0, &count));
    IS(2, count);
    free_all();
}

/* A number that names nothing is refused, and nothing is written. */
static void try_unknown_numbers(void)
{
    struct seryugo other;
    struct seryugo_entry entry;
    struct seryugo_bytes_entry bytes_entry;
    uint64_t count = 77;

    RETURNS(OUT_OF_BOUNDS, seryugo_open_room(2, 100, &other));
    RETURNS(OUT_OF_BOUNDS, seryugo_open_checker(2, &other));
    RETURNS(OUT_OF_BOUNDS, seryugo_open_reading(2, &other));
    RETURNS(OUT_OF_BOUNDS, seryugo_read(&room, SERYUGO_READ_LIMIT + 1, 0, &count));
    RETURNS(OUT_OF_BOUNDS, seryugo_read(&room, UINT32_MAX, 0, &count));
    RETURNS(OUT_OF_BOUNDS, seryugo_entry_at(&room, SERYUGO_OF_JOURNAL + 1, 0, &entry));
    RETURNS(OUT_OF_BOUNDS, seryugo_bytes_entry_at(&room, SERYUGO_OF_JOURNAL + 1, 0, &bytes_entry));
    RETURNS(OUT_OF_BOUNDS, seryugo_take_by(&room, SERYUGO_TAKE_SHORT_AND_CUT + 1, &other, &count));
    RETURNS(OUT_OF_BOUNDS, seryugo_reading_state(&room, SERYUGO_READING_FAULT + 1, &count));
    IS(77, count);
    RETURNS(WRONG_HANDLE, seryugo_reading_end(&room));
}

static void try_rooms(uint64_t *one, uint64_t *two)
{
    RETURNS(OUT_OF_BOUNDS, seryugo_room_open(0, &room));
    RETURNS(OUT_OF_BOUNDS, seryugo_room_open(((uint64_t)1 << 32) + 1, &room));
    RETURNS(DONE, seryugo_room_open(100, &room));
    has_room = true;
    RETURNS(DONE, seryugo_new_seat(&room, one));
    RETURNS(DONE, seryugo_new_seat(&room, two));
    IS(0, *one);
    IS(1, *two);
    RETURNS(GONE, seryugo_leave(&room, 2));
    try_unknown_numbers();
}

static void try_mailboxes(uint64_t one, uint64_t two)
{
    uint64_t mailbox = 77;
    uint64_t message = 77;
    uint64_t due = 77;

    RETURNS(GONE, seryugo_new_mailbox(&room, 2, &mailbox));
    IS(77, mailbox);
    RETURNS(DONE, seryugo_new_mailbox(&room, one, &mailbox));
    IS(0, mailbox);
    RETURNS(NO_SUCH, seryugo_send(&room, one, 1, 5));
    RETURNS(NOTHING, seryugo_recv_poll(&room, one, mailbox, &message));
    RETURNS(GONE, seryugo_recv(&room, two, mailbox, true, &message));
    RETURNS(PARKED, seryugo_recv(&room, two, mailbox, false, &message));
    RETURNS(GONE, seryugo_send(&room, two, mailbox, 5));
    RETURNS(STALLED, seryugo_recv(&room, one, mailbox, false, &message));
    IS(77, message);
    RETURNS(NOTHING, seryugo_is_due(&room, two));
    RETURNS(NOTHING, seryugo_next_due(&room, &due));
    IS(77, due);
    RETURNS(DONE, seryugo_send(&room, one, mailbox, 5));
    RETURNS(NOTHING, seryugo_is_due(&room, one));
    RETURNS(DONE, seryugo_is_due(&room, two));
    RETURNS(DONE, seryugo_next_due(&room, &due));
    IS(two, due);
    RETURNS(NOTHING, seryugo_next_due(&room, &due));
    RETURNS(DONE, seryugo_is_due(&room, two));
    RETURNS(DONE, seryugo_recv(&room, two, mailbox, true, &message));
    IS(5, message);
    RETURNS(NOTHING, seryugo_is_due(&room, two));
    RETURNS(NOTHING, seryugo_is_due(&room, 2));
}

static void try_channels(uint64_t seat)
{
    uint64_t channel, port, late, copy, message = 77;

    RETURNS(DONE, seryugo_new_channel(&room, seat, &channel));
    RETURNS(DONE, seryugo_new_port(&room, seat, channel, &port));
    RETURNS(DONE, seryugo_multicast(&room, seat, channel, 6));
    RETURNS(DONE, seryugo_new_port(&room, seat, channel, &late));
    RETURNS(DONE, seryugo_start_of(&room, late, &message));
    IS(1, message);
    RETURNS(DONE, seryugo_channel_of(&room, late, &message));
    IS(channel, message);
    RETURNS(NO_SUCH, seryugo_channel_of(&room, channel, &message));
    RETURNS(NO_SUCH, seryugo_start_of(&room, 99, &message));
    RETURNS(DONE, seryugo_close_port(&room, seat, late));
    RETURNS(WRONG_KIND, seryugo_send(&room, seat, channel, 6));
    RETURNS(DONE, seryugo_copy_port(&room, seat, port, &copy));
    RETURNS(DONE, seryugo_recv(&room, seat, copy, false, &message));
    IS(6, message);
    RETURNS(DONE, seryugo_is_open(&room, copy));
    RETURNS(DONE, seryugo_close_port(&room, seat, copy));
    RETURNS(CLOSED, seryugo_close_port(&room, seat, copy));
    RETURNS(CLOSED, seryugo_recv(&room, seat, copy, false, &message));
    RETURNS(CLOSED, seryugo_is_open(&room, copy));
    RETURNS(NO_SUCH, seryugo_is_open(&room, channel));
    RETURNS(DONE, seryugo_owed(&room, port, &message));
    IS(1, message);
}

static void try_variables(uint64_t seat)
{
    uint64_t once, often, full, message = 77;

    RETURNS(DONE, seryugo_new_ivar(&room, seat, &once));
    RETURNS(DONE, seryugo_new_mvar(&room, seat, &often));
    RETURNS(DONE, seryugo_mvar_init(&room, seat, 8, &full));
    RETURNS(NOTHING, seryugo_get_poll(&room, seat, once, &message));
    RETURNS(NOTHING, seryugo_take_poll(&room, seat, often, &message));
    RETURNS(NOTHING, seryugo_held(&room, once, &message));
    RETURNS(DONE, seryugo_put(&room, seat, once, 9));
    RETURNS(PUT, seryugo_put(&room, seat, once, 10));
    RETURNS(DONE, seryugo_get(&room, seat, once, false, &message));
    IS(9, message);
    RETURNS(DONE, seryugo_swap(&room, seat, full, 11, false, &message));
    IS(8, message);
    RETURNS(DONE, seryugo_held(&room, full, &message));
    IS(11, message);
    RETURNS(DONE, seryugo_take(&room, seat, full, false, &message));
    IS(11, message);
    RETURNS(WRONG_KIND, seryugo_take(&room, seat, once, false, &message));
    RETURNS(NO_SUCH, seryugo_held(&room, 0, &message));
}

static void try_kinds(void)
{
    static const enum seryugo_object_kind kinds[] = { SERYUGO_MAILBOX, SERYUGO_CHANNEL, SERYUGO_PORT, SERYUGO_PORT,
                                                      SERYUGO_PORT, SERYUGO_IVAR, SERYUGO_MVAR, SERYUGO_MVAR };
    uint64_t kind;

    for (uint64_t object = 0; object < sizeof kinds / sizeof *kinds; object++) {
        RETURNS(DONE, seryugo_kind(&room, object, &kind));
        IS(kinds[object], kind);
    }
    RETURNS(NO_SUCH, seryugo_kind(&room, 99, &kind));
}

static void try_lanes(void)
{
    uint64_t number = 77, count = 77;

    RETURNS(OUT_OF_BOUNDS, seryugo_lane_open(&room, 0, 0, &lane, &number));
    RETURNS(OUT_OF_BOUNDS, seryugo_lane_open(&room, 0, 1025, &lane, &number));
    RETURNS(WRONG_KIND, seryugo_lane_open(&room, 2, 2, &lane, &number));
    RETURNS(NO_SUCH, seryugo_lane_open(&room, 99, 2, &lane, &number));
    IS(77, number);
    RETURNS(DONE, seryugo_lane_open(&room, 0, 2, &lane, &number));
    has_lane = true;
    IS(0, number);
    RETURNS(DONE, seryugo_lane_send(&lane, 20));
    RETURNS(DONE, seryugo_lane_send(&lane, 21));
    RETURNS(FULL, seryugo_lane_send(&lane, 22));
    RETURNS(BUSY, seryugo_cut(&room));
    RETURNS(DONE, seryugo_lane_drain(&room, number, &count));
    IS(2, count);
    RETURNS(NO_SUCH, seryugo_lane_drain(&room, 1, &count));
    RETURNS(DONE, seryugo_lane_send(&lane, 22));
    RETURNS(WRONG_HANDLE, seryugo_lane_close(&room, &lane));
    RETURNS(WRONG_HANDLE, seryugo_lane_close(&lane, &room));
    RETURNS(WRONG_HANDLE, seryugo_lane_send(&room, 22));
    RETURNS(WRONG_HANDLE, seryugo_send(&lane, 0, 0, 22));
    RETURNS(WRONG_HANDLE, seryugo_next_due(&lane, &count));
    RETURNS(WRONG_HANDLE, seryugo_is_due(&lane, 0));
    RETURNS(DONE, seryugo_lane_finish(&lane));
    RETURNS(WRONG_HANDLE, seryugo_lane_send(&lane, 23));
    RETURNS(DONE, seryugo_lane_close(&room, &lane));
    RETURNS(WRONG_HANDLE, seryugo_lane_close(&room, &lane));
    RETURNS(DONE, seryugo_owed(&room, 0, &count));
    IS(3, count);
    close_one(&has_lane, lane);
    RETURNS(DONE, seryugo_lane_open(&room, 0, 2, &lane, &number));
    has_lane = true;
    IS(1, number);
    RETURNS(DONE, seryugo_lane_send(&lane, 23));
    RETURNS(DONE, seryugo_lane_drop(&room, number, &count));
    IS(1, count);
    RETURNS(NO_SUCH, seryugo_lane_abandon(&room, number));
    RETURNS(GONE, seryugo_lane_finish(&lane));
    close_one(&has_lane, lane);
}

static void try_feeds(uint64_t seat)
{
    uint64_t number, port, count, message = 77;

    RETURNS(WRONG_KIND, seryugo_feed_open(&room, 0, 2, &feed, &number));
    RETURNS(DONE, seryugo_feed_open(&room, 1, 2, &feed, &number));
    has_feed = true;
    RETURNS(DONE, seryugo_feed_port(&feed, &port));
    RETURNS(WRONG_KIND, seryugo_recv(&room, seat, port, false, &message));
    RETURNS(NOTHING, seryugo_feed_recv(&feed, &message));
    RETURNS(DONE, seryugo_multicast(&room, seat, 1, 30));
    RETURNS(DONE, seryugo_multicast(&room, seat, 1, 31));
    /* Without memory for an entry the pump would stop halfway, and tell how many it moved. */
    RETURNS(DONE, seryugo_reserve(&room, 2));
    RETURNS(DONE, seryugo_feed_pump(&room, number, &count));
    IS(2, count);
    RETURNS(DONE, seryugo_feed_recv(&feed, &message));
    IS(30, message);
    RETURNS(DONE, seryugo_feed_end(&room, number));
    RETURNS(NO_SUCH, seryugo_feed_pump(&room, number, &count));
    RETURNS(DONE, seryugo_feed_recv(&feed, &message));
    IS(31, message);
    RETURNS(NOTHING, seryugo_feed_recv(&feed, &message));
    close_one(&has_feed, feed);
}

static void try_the_journal(uint64_t seat)
{
    struct seryugo_entry entry;
    uint64_t count, entries, cut;

    RETURNS(DONE, seryugo_entry(&room, 2, &entry));
    IS(SERYUGO_CALL_SEND, entry.call.kind);
    IS(0, entry.call.object);
    IS(5, entry.call.message);
    IS(seat, entry.maker.number);
    RETURNS(DONE, seryugo_sent(&room, 0, &count));
    IS(5, count);
    RETURNS(DONE, seryugo_got(&room, 0, &count));
    IS(1, count);
    RETURNS(DONE, seryugo_kept(&room, 0, &count));
    RETURNS(DONE, seryugo_first(&room, 0, &count));
    IS(0, count);
    RETURNS(NO_SUCH, seryugo_sent(&room, 99, &count));
    RETURNS(DONE, seryugo_entries(&room, &entries));
    RETURNS(NO_SUCH, seryugo_entry(&room, entries, &entry));
    RETURNS(DONE, seryugo_reserve(&room, 10));
    RETURNS(DONE, seryugo_is_full(&room));
    RETURNS(DONE, seryugo_cut(&room));
    RETURNS(NO_SUCH, seryugo_entry(&room, 2, &entry));
    RETURNS(DONE, seryugo_cut_at(&room, &cut));
    IS(entries, cut);
    RETURNS(DONE, seryugo_limit(&room, &count));
    IS(100, count);
}

/* A lane goes on after two cuts, and its close counts what was cut away. */
static void try_open_cuts(void)
{
    struct seryugo_entry entry;
    uint64_t number, entries, cut, count;

    RETURNS(DONE, seryugo_lane_open(&room, 0, 2, &lane, &number));
    has_lane = true;
    RETURNS(DONE, seryugo_lane_send(&lane, 24));
    RETURNS(DONE, seryugo_lane_drain(&room, number, &count));
    RETURNS(BUSY, seryugo_cut(&room));
    RETURNS(WRONG_HANDLE, seryugo_cut_open(&lane));
    RETURNS(DONE, seryugo_cut_open(&room));
    RETURNS(DONE, seryugo_entries(&room, &entries));
    RETURNS(DONE, seryugo_cut_at(&room, &cut));
    IS(entries, cut);
    RETURNS(DONE, seryugo_lane_send(&lane, 25));
    RETURNS(DONE, seryugo_lane_drain(&room, number, &count));
    count = 77;
    RETURNS(WRONG_HANDLE, seryugo_take_journal_open(&lane, &journal, &count));
    IS(77, count);
    RETURNS(DONE, seryugo_take_journal_open(&room, &journal, &count));
    has_journal = true;
    IS(1, count);
    RETURNS(DONE, seryugo_taken_entry(&journal, 0, &entry));
    IS(SERYUGO_LANE, entry.maker.kind);
    IS(number, entry.maker.number);
    IS(25, entry.call.message);
    close_one(&has_journal, journal);
    RETURNS(DONE, seryugo_lane_send(&lane, 26));
    RETURNS(DONE, seryugo_lane_finish(&lane));
    RETURNS(DONE, seryugo_lane_close(&room, &lane));
    close_one(&has_lane, lane);
    RETURNS(DONE, seryugo_entry(&room, entries + 1, &entry));
    IS(26, entry.call.message);
    RETURNS(DONE, seryugo_cut(&room));
}

static void try_a_taken_journal(uint64_t seat)
{
    struct seryugo_entry entry;
    uint64_t count = 77, number, message;

    RETURNS(DONE, seryugo_lane_open(&room, 0, 2, &lane, &number));
    has_lane = true;
    RETURNS(BUSY, seryugo_take_journal(&room, &journal, &count));
    IS(77, count);
    RETURNS(DONE, seryugo_lane_abandon(&room, number));
    close_one(&has_lane, lane);
    RETURNS(DONE, seryugo_send(&room, seat, 0, 40));
    RETURNS(DONE, seryugo_recv_poll(&room, seat, 0, &message));
    RETURNS(DONE, seryugo_take_journal(&room, &journal, &count));
    has_journal = true;
    IS(2, count);
    RETURNS(DONE, seryugo_taken_entry(&journal, 0, &entry));
    IS(SERYUGO_CALL_SEND, entry.call.kind);
    IS(40, entry.call.message);
    RETURNS(DONE, seryugo_taken_entry(&journal, 1, &entry));
    IS(SERYUGO_REPLY_GOT, entry.reply.kind);
    IS(message, entry.reply.given);
    RETURNS(NO_SUCH, seryugo_taken_entry(&journal, 2, &entry));
    RETURNS(WRONG_HANDLE, seryugo_taken_entry(&room, 0, &entry));
    RETURNS(WRONG_HANDLE, seryugo_entries(&journal, &count));
    RETURNS(DONE, seryugo_cut_at(&room, &count));
    RETURNS(NO_SUCH, seryugo_entry(&room, count, &entry));
}

/* The journal of another room, which is checked from its first entry on. */
static void try_a_checker(void)
{
    struct seryugo_entry entry;
    struct seryugo_bytes message;
    uint64_t seat, mailbox, count = 77, found = 77;

    close_one(&has_journal, journal);
    close_one(&has_room, room);
    RETURNS(DONE, seryugo_room_open(100, &room));
    has_room = true;
    RETURNS(DONE, seryugo_new_seat(&room, &seat));
    RETURNS(DONE, seryugo_new_mailbox(&room, seat, &mailbox));
    RETURNS(DONE, seryugo_send(&room, seat, mailbox, 50));
    RETURNS(DONE, seryugo_recv(&room, seat, mailbox, false, &found));
    RETURNS(WRONG_HANDLE, seryugo_bytes_send(&room, seat, mailbox, "x", 1));
    RETURNS(WRONG_HANDLE, seryugo_bytes_recv_poll(&room, seat, mailbox, &message));
    RETURNS(DONE, seryugo_take_journal(&room, &journal, &count));
    has_journal = true;
    IS(3, count);
    RETURNS(DONE, seryugo_checker_open(&checker));
    has_checker = true;
    RETURNS(DONE, seryugo_checker_feed_journal(&checker, &journal, 0));
    RETURNS(DONE, seryugo_checker_verdict(&checker, &found));
    IS(count, found);
    close_one(&has_checker, checker);
    RETURNS(DONE, seryugo_checker_open(&checker));
    has_checker = true;
    for (uint64_t place = 0; place < count; place++) {
        RETURNS(DONE, seryugo_taken_entry(&journal, place, &entry));
        RETURNS(DONE, seryugo_checker_feed(&checker, &entry));
    }
    entry.maker.kind = 3;
    RETURNS(OUT_OF_BOUNDS, seryugo_checker_feed(&checker, &entry));
    entry.maker.kind = SERYUGO_SEAT;
    RETURNS(WRONG_HANDLE, seryugo_checker_feed(&room, &entry));
    RETURNS(UNLAWFUL, seryugo_checker_feed(&checker, &entry));
    RETURNS(UNLAWFUL, seryugo_checker_verdict(&checker, &found));
    IS(count, found);
}

int main(void)
{
    uint64_t one, two;

    try_the_version();
    try_calls_as_data();
    try_an_end_of_another_room();
    try_rooms(&one, &two);
    try_mailboxes(one, two);
    try_channels(one);
    try_variables(one);
    try_kinds();
    try_lanes();
    try_feeds(one);
    try_the_journal(one);
    try_open_cuts();
    try_a_taken_journal(one);
    RETURNS(DONE, seryugo_leave(&room, two));
    RETURNS(GONE, seryugo_leave(&room, two));
    try_a_checker();
    free_all();
    puts("each call returns what it should");
    return 0;
}
