/* A journal is read and made short, or that of a room in use: each call for that, with what it is to return. Another room goes on from
 * the short journal. If there is no memory for a call, the program frees all that it has, and ends with status 5. */
#include "checks.h"

#include <string.h>

/* What is to be freed: at most one of each kind at a time. */
static struct seryugo room, lane, journal, reading;
static struct seryugo_bytes text;
static bool has_room, has_lane, has_journal, has_reading, has_text;

static void free_all(void)
{
    free_one(&has_text, text);
    close_one(&has_journal, journal);
    close_one(&has_reading, reading);
    close_one(&has_lane, lane);
    close_one(&has_room, room);
}

/* Two pieces, with entries of a lane and of a feed. */
static const char long_journal[] = "journal 1\n"
                                   "seat 1 mailbox: made 0\n"
                                   "seat 0 send 0 5: done\n"
                                   "seat 0 send 0 7: done\n"
                                   "seat 1 recv 0: 5\n"
                                   "end 4\n"
                                   "journal 1\n"
                                   "from 4\n"
                                   "lane 3 send 0 11: done\n"
                                   "seat 0 channel: made 1\n"
                                   "seat 0 port 1: made 2\n"
                                   "feed 0 port 1: made 3\n"
                                   "seat 1 multicast 1 9: done\n"
                                   "feed 0 recv 3: 9\n"
                                   "seat 1 port 1: made 4\n"
                                   "seat 0 close 4: done\n"
                                   "seat 1 mvar 8: made 5\n"
                                   "end 13\n";

/* What they leave, by entries of the seat with the highest number. */
static const char short_journal[] = "journal 1\n"
                                    "seat 1 mailbox: made 0\n"
                                    "seat 1 channel: made 1\n"
                                    "seat 1 port 1: made 2\n"
                                    "seat 1 multicast 1 9: done\n"
                                    "seat 1 port 1: made 3\n"
                                    "seat 1 port 1: made 4\n"
                                    "seat 1 mvar: made 5\n"
                                    "seat 1 send 0 7: done\n"
                                    "seat 1 send 0 11: done\n"
                                    "seat 1 close 4: done\n"
                                    "seat 1 put 5 8: done\n"
                                    "end 11\n";

static const char bytes_journal[] = "journal 2\n"
                                    "lane 0 mailbox: made 0\n"
                                    "lane 0 send 0 =: done\n"
                                    "lane 0 send 0 =a%20b: done\n"
                                    "lane 0 recv 0: =\n"
                                    "end 4\n";

/* Opens a reading of numbers, or of bytes, and has it read this text, whose end returns this code. */
static void read_text(const char *given, bool is_bytes, uint32_t code, int line)
{
    returns(is_bytes ? seryugo_bytes_reading_open(&reading) : seryugo_reading_open(&reading), SERYUGO_DONE, line);
    has_reading = true;
    returns(seryugo_reading_take(&reading, given, strlen(given)), SERYUGO_DONE, line);
    returns(seryugo_reading_end(&reading), code, line);
}

/* The journal, from this position on, has just this text. It isn't closed. */
static void is_written(uint64_t from, const char *expected, int line)
{
    returns(seryugo_journal_text(&journal, from, &text), SERYUGO_DONE, line);
    has_text = true;
    if (text.length != strlen(expected) || memcmp(seryugo_bytes_at(&text), expected, text.length) != 0) {
        fprintf(stderr, "line %d: the text is\n%.*s", line, (int)text.length, (const char *)seryugo_bytes_at(&text));
        exit(1);
    }
    free_one(&has_text, text);
}

/* The short journal of what was read has just this text, and this many entries. The reading is spent then. */
static void shortens(const char *expected, uint64_t entries, int line)
{
    uint64_t count = 77;

    returns(seryugo_reading_compact(&reading, &journal, &count), SERYUGO_DONE, line);
    has_journal = true;
    is(count, entries, line);
    returns(seryugo_reading_compact(&reading, &journal, &count), SERYUGO_WRONG_HANDLE, line);
    returns(seryugo_reading_end(&reading), SERYUGO_WRONG_HANDLE, line);
    close_one(&has_reading, reading);
    is_written(0, expected, line);
}

static void try_numbers(void)
{
    struct seryugo_entry entry;

    read_text(long_journal, false, SERYUGO_DONE, __LINE__);
    shortens(short_journal, 11, __LINE__);
    RETURNS(DONE, seryugo_taken_entry(&journal, 8, &entry));
    IS(SERYUGO_SEAT, entry.maker.kind);
    IS(1, entry.maker.number);
    IS(11, entry.call.message);
    RETURNS(NO_SUCH, seryugo_taken_entry(&journal, 11, &entry));
    close_one(&has_journal, journal);
    /* It is its own short journal. */
    read_text(short_journal, false, SERYUGO_DONE, __LINE__);
    shortens(short_journal, 11, __LINE__);
    close_one(&has_journal, journal);
}

static void try_bytes(void)
{
    read_text(bytes_journal, true, SERYUGO_DONE, __LINE__);
    shortens("journal 2\nseat 0 mailbox: made 0\nseat 0 send 0 =a%20b: done\nend 2\n", 2, __LINE__);
    close_one(&has_journal, journal);
}

/* A torn text is taken up to its last whole line. */
static void try_torn_texts(void)
{
    read_text("journal 1\nseat 7 mailbox: made 0\nlane 0 send 0 5: done\nseat 0 rec", false, SERYUGO_TORN, __LINE__);
    shortens("journal 1\nseat 7 mailbox: made 0\nseat 7 send 0 5: done\nend 2\n", 2, __LINE__);
    close_one(&has_journal, journal);
    read_text("", true, SERYUGO_TORN, __LINE__);
    shortens("journal 2\nend 0\n", 0, __LINE__);
    close_one(&has_journal, journal);
}

/* A call that isn't done writes nothing. */
static void try_wrong_calls(void)
{
    uint64_t count = 77;

    RETURNS(DONE, seryugo_reading_open(&reading));
    has_reading = true;
    RETURNS(UNLAWFUL, seryugo_reading_take(&reading, "journal 1\nseat 0 send 0 5: done\n", 32));
    RETURNS(UNLAWFUL, seryugo_reading_compact(&reading, &journal, &count));
    RETURNS(UNLAWFUL, seryugo_reading_compact(&reading, &journal, &count));
    RETURNS(UNLAWFUL, seryugo_reading_end(&reading));
    close_one(&has_reading, reading);
    RETURNS(DONE, seryugo_bytes_reading_open(&reading));
    has_reading = true;
    RETURNS(FAULT, seryugo_reading_take(&reading, "what\n", 5));
    RETURNS(FAULT, seryugo_reading_compact(&reading, &journal, &count));
    close_one(&has_reading, reading);
    RETURNS(DONE, seryugo_room_open(10, &room));
    has_room = true;
    RETURNS(WRONG_HANDLE, seryugo_reading_compact(&room, &journal, &count));
    close_one(&has_room, room);
    IS(77, count);
}

/* A room that goes on from the short journal has what one has that goes on from the long one. */
static void try_a_room_of(const char *given, uint64_t entries)
{
    uint64_t found = 77;

    read_text(given, false, SERYUGO_DONE, __LINE__);
    RETURNS(DONE, seryugo_room_restore(&reading, 50, &room));
    has_room = true;
    close_one(&has_reading, reading);
    RETURNS(DONE, seryugo_entries(&room, &found));
    IS(entries, found);
    RETURNS(DONE, seryugo_new_seat(&room, &found));
    IS(2, found);
    RETURNS(DONE, seryugo_recv(&room, 2, 0, false, &found));
    IS(7, found);
    RETURNS(DONE, seryugo_recv(&room, 2, 0, false, &found));
    IS(11, found);
    RETURNS(NOTHING, seryugo_recv_poll(&room, 2, 0, &found));
    RETURNS(DONE, seryugo_recv(&room, 2, 2, false, &found));
    IS(9, found);
    RETURNS(NOTHING, seryugo_recv_poll(&room, 2, 3, &found));
    RETURNS(CLOSED, seryugo_is_open(&room, 4));
    RETURNS(DONE, seryugo_take(&room, 2, 5, false, &found));
    IS(8, found);
    RETURNS(DONE, seryugo_new_mailbox(&room, 2, &found));
    IS(6, found);
    close_one(&has_room, room);
}

/* A room in use, whose lane is open: two seats, of which the second leaves, and three messages, of which two are received. */
static void use_a_room(void)
{
    uint64_t found;

    RETURNS(DONE, seryugo_room_open(6, &room));
    has_room = true;
    RETURNS(DONE, seryugo_new_seat(&room, &found));
    RETURNS(DONE, seryugo_new_seat(&room, &found));
    RETURNS(DONE, seryugo_new_mailbox(&room, 0, &found));
    RETURNS(DONE, seryugo_leave(&room, 1));
    RETURNS(DONE, seryugo_lane_open(&room, 0, 4, &lane, &found));
    has_lane = true;
    RETURNS(DONE, seryugo_send(&room, 0, 0, 5));
    RETURNS(DONE, seryugo_send(&room, 0, 0, 6));
    RETURNS(DONE, seryugo_lane_send(&lane, 7));
    RETURNS(DONE, seryugo_lane_drain(&room, 0, &found));
    RETURNS(DONE, seryugo_recv(&room, 0, 0, false, &found));
    RETURNS(DONE, seryugo_recv(&room, 0, 0, false, &found));
    RETURNS(JOURNAL_FULL, seryugo_is_full(&room));
}

/* Its last seat makes the short journal. The message that is still in the lane's ring isn't in it. */
static void try_a_room_in_use(void)
{
    static const char expected[] = "journal 1\nseat 1 mailbox: made 0\nseat 1 send 0 7: done\nend 2\n";
    uint64_t count = 77, cut, found;

    use_a_room();
    RETURNS(DONE, seryugo_lane_send(&lane, 8));
    RETURNS(WRONG_HANDLE, seryugo_compact(&lane, &journal, &count));
    RETURNS(WRONG_HANDLE, seryugo_compact_and_cut(&lane, &journal, &count));
    IS(77, count);
    RETURNS(DONE, seryugo_compact(&room, &journal, &count));
    has_journal = true;
    IS(2, count);
    is_written(0, expected, __LINE__);
    close_one(&has_journal, journal);
    RETURNS(DONE, seryugo_cut_at(&room, &found));
    IS(0, found);
    RETURNS(DONE, seryugo_compact_and_cut(&room, &journal, &count));
    has_journal = true;
    IS(2, count);
    is_written(0, expected, __LINE__);
    close_one(&has_journal, journal);
    RETURNS(DONE, seryugo_cut_at(&room, &cut));
    IS(6, cut);
    /* What comes now follows it. */
    RETURNS(DONE, seryugo_lane_drain(&room, 0, &found));
    RETURNS(DONE, seryugo_recv(&room, 0, 0, false, &found));
    IS(7, found);
    RETURNS(DONE, seryugo_take_journal_open(&room, &journal, &found));
    has_journal = true;
    is_written(count, "journal 1\nfrom 2\nlane 0 send 0 8: done\nseat 0 recv 0: 7\nend 4\n", __LINE__);
    close_one(&has_journal, journal);
    close_one(&has_lane, lane);
    close_one(&has_room, room);
}

int main(void)
{
    try_numbers();
    try_bytes();
    try_torn_texts();
    try_wrong_calls();
    try_a_room_of(long_journal, 13);
    try_a_room_of(short_journal, 11);
    try_a_room_in_use();
    free_all();
    puts("each journal is made short");
    return 0;
}
