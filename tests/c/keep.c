/* A journal leaves the room as text, piece by piece, is read back in parts, and another room goes on from it: each call for that
 * once and more, with what it is to return. If there is no memory for a call, the program frees all that it has, and ends with
 * status 5. */
#include "kept.h"

static struct seryugo lane, feed;
static struct seryugo_bytes message;
static bool has_lane, has_feed, has_message;

static void free_all(void)
{
    free_one(&has_message, message);
    close_one(&has_lane, lane);
    close_one(&has_feed, feed);
    free_kept();
}

/* The file has just this. */
#define HAS_KEPT(expected) (has_there(0, expected, __LINE__), IS(strlen(expected), kept))

static const char first_piece[] = "journal 1\n"
                                  "seat 1 mailbox: made 0\n"
                                  "seat 0 send 0 5: done\n"
                                  "seat 0 send 0 7: done\n"
                                  "seat 1 recv 0: 5\n"
                                  "end 4\n";

static const char both_pieces[] = "journal 1\n"
                                  "seat 1 mailbox: made 0\n"
                                  "seat 0 send 0 5: done\n"
                                  "seat 0 send 0 7: done\n"
                                  "seat 1 recv 0: 5\n"
                                  "end 4\n"
                                  "journal 1\n"
                                  "from 4\n"
                                  "lane 0 send 0 11: done\n"
                                  "seat 0 channel: made 1\n"
                                  "seat 0 port 1: made 2\n"
                                  "feed 0 port 1: made 3\n"
                                  "seat 1 multicast 1 9: done\n"
                                  "feed 0 recv 3: 9\n"
                                  "seat 1 mvar 8: made 4\n"
                                  "end 11\n";

/* A room of numbers, whose journal is taken. */
static void open_numbers(void)
{
    uint64_t seat, mailbox, found;

    RETURNS(DONE, seryugo_room_open(100, &room));
    has_room = true;
    RETURNS(DONE, seryugo_new_seat(&room, &seat));
    RETURNS(DONE, seryugo_new_seat(&room, &seat));
    RETURNS(DONE, seryugo_new_mailbox(&room, 1, &mailbox));
    RETURNS(DONE, seryugo_send(&room, 0, mailbox, 5));
    RETURNS(DONE, seryugo_send(&room, 0, mailbox, 7));
    RETURNS(DONE, seryugo_recv(&room, 1, mailbox, false, &found));
}

/* Lines of entries that are still in the room. */
static void try_lines(void)
{
    static const char lines[] = "seat 0 send 0 5: done\nseat 0 send 0 7: done\n";
    char buffer[64] = "";
    uint64_t lines_count = 77, length = 77;

    RETURNS(FULL, seryugo_entries_text(&room, 1, buffer, sizeof lines - 1, &lines_count, &length));
    IS(2, lines_count);
    IS(sizeof lines - 1, length);
    IS(0, strcmp(lines, buffer));
    RETURNS(DONE, seryugo_entries_text(&room, 3, buffer, sizeof buffer, &lines_count, &length));
    IS(1, lines_count);
    IS(0, memcmp("seat 1 recv 0: 5\nd", buffer, 18));
    RETURNS(FULL, seryugo_entries_text(&room, 3, buffer, 16, &lines_count, &length));
    IS(0, lines_count);
    IS(0, length);
    RETURNS(DONE, seryugo_entries_text(&room, 4, buffer, sizeof buffer, &lines_count, &length));
    IS(0, lines_count);
}

static void try_text(void)
{
    uint64_t count = 77;

    try_lines();
    RETURNS(WRONG_HANDLE, seryugo_journal_text(&room, 0, &text));
    RETURNS(DONE, seryugo_take_journal(&room, &journal, &count));
    has_journal = true;
    IS(4, count);
    text.length = 77;
    RETURNS(OUT_OF_BOUNDS, seryugo_journal_text(&journal, UINT64_MAX - 3, &text));
    IS(77, text.length);
    RETURNS(DONE, seryugo_journal_text(&journal, UINT64_MAX - 4, &text));
    has_text = true;
    free_one(&has_text, text);
    RETURNS(DONE, seryugo_journal_text(&journal, 0, &text));
    has_text = true;
    memcpy(file, seryugo_bytes_at(&text), text.length);
    kept = text.length;
    free_one(&has_text, text);
    close_one(&has_journal, journal);
    HAS_KEPT(first_piece);
}

/* A second piece, with entries of a lane and of a feed. */
static void try_a_second_piece(void)
{
    uint64_t channel, number, count, name;

    RETURNS(DONE, seryugo_lane_open(&room, 0, 2, &lane, &number));
    has_lane = true;
    RETURNS(DONE, seryugo_lane_send(&lane, 11));
    RETURNS(DONE, seryugo_lane_drop(&room, number, &count));
    IS(1, count);
    close_one(&has_lane, lane);
    RETURNS(DONE, seryugo_new_channel(&room, 0, &channel));
    RETURNS(DONE, seryugo_new_port(&room, 0, channel, &name));
    RETURNS(DONE, seryugo_feed_open(&room, channel, 2, &feed, &number));
    has_feed = true;
    RETURNS(DONE, seryugo_multicast(&room, 1, channel, 9));
    RETURNS(DONE, seryugo_feed_pump(&room, number, &count));
    RETURNS(DONE, seryugo_feed_end(&room, number));
    close_one(&has_feed, feed);
    RETURNS(DONE, seryugo_mvar_init(&room, 1, 8, &name));
    append(NULL);
    HAS_KEPT(both_pieces);
    close_one(&has_room, room);
}

/* Takes what the file has up to `end`, in parts of this many bytes, and returns what the last part or the end returns. */
static uint32_t take_parts(size_t end, size_t part)
{
    uint32_t code = SERYUGO_DONE;

    for (size_t at = 0; at < end && code == SERYUGO_DONE; at += part) {
        code = seryugo_reading_take(&reading, file + at, part < end - at ? part : end - at);
    }
    return code == SERYUGO_DONE ? seryugo_reading_end(&reading) : code;
}

static void counts(uint64_t entries, uint64_t lines, int line)
{
    uint64_t found = 77;

    returns(seryugo_reading_entries(&reading, &found), SERYUGO_DONE, line);
    is(found, entries, line);
    returns(seryugo_reading_lines(&reading, &found), SERYUGO_DONE, line);
    is(found, lines, line);
}

#define COUNTS(entries, lines) counts(entries, lines, __LINE__)

static void try_parts(void)
{
    static const size_t parts[] = { 1, 2, 7, sizeof file };

    for (size_t i = 0; i < sizeof parts / sizeof *parts; i++) {
        open_reading();
        RETURNS(DONE, take_parts(kept, parts[i]));
        COUNTS(11, 16);
        close_one(&has_reading, reading);
    }
}

/* A text that ends too early is torn, or its last piece is open, unless it ends after a piece. */
static void try_torn_texts(void)
{
    for (size_t end = 0; end < kept; end += 13) {
        uint32_t code = end > 0 && file[end - 1] == '\n' ? SERYUGO_TEXT_OPEN : SERYUGO_TORN;

        open_reading();
        returns(take_parts(end, 50), code, __LINE__);
        close_one(&has_reading, reading);
    }
    open_reading();
    RETURNS(TORN, seryugo_reading_end(&reading));
    RETURNS(DONE, take_parts(strlen(first_piece), 50));
    RETURNS(TORN, seryugo_reading_take(&reading, "j", 1) == SERYUGO_DONE ? seryugo_reading_end(&reading) : 77);
    COUNTS(4, 6);
    close_one(&has_reading, reading);
}

/* A reading of this text stops so, after this many entries and lines. It stays so, and no room and no journal is made of it. */
static void stops(const char *given, uint32_t code, uint64_t entries, uint64_t lines, int line)
{
    uint64_t count = 77;

    open_reading();
    returns(seryugo_reading_take(&reading, given, strlen(given)), code, line);
    counts(entries, lines, line);
    returns(seryugo_reading_take(&reading, "end 1\n", 6), code, line);
    returns(seryugo_reading_take(&reading, NULL, 0), code, line);
    returns(seryugo_reading_end(&reading), code, line);
    returns(seryugo_room_restore(&reading, 0, &room), SERYUGO_OUT_OF_BOUNDS, line);
    returns(seryugo_room_restore(&reading, 1, &room), code, line);
    returns(seryugo_reading_compact(&reading, &journal, &count), code, line);
    is(count, 77, line);
    counts(entries, lines, line);
    close_one(&has_reading, reading);
}

#define STOPS(code, entries, lines, given) stops(given, SERYUGO_##code, entries, lines, __LINE__)

/* The fault that a reading of this text stops by. */
static void has_fault(const char *given, uint64_t expected, int line)
{
    uint64_t fault = 77;

    open_reading();
    returns(seryugo_reading_state(&reading, SERYUGO_READING_FAULT, &fault), SERYUGO_NOTHING, line);
    is(fault, 77, line);
    returns(seryugo_reading_take(&reading, given, strlen(given)), SERYUGO_FAULT, line);
    returns(seryugo_reading_state(&reading, SERYUGO_READING_FAULT, &fault), SERYUGO_DONE, line);
    is(fault, expected, line);
    close_one(&has_reading, reading);
}

#define HAS_FAULT(fault, given) has_fault(given, SERYUGO_FAULT_##fault, __LINE__)

static void try_faults(void)
{
    HAS_FAULT(SHORT, "journal 1\nseat\n");
    HAS_FAULT(UNKNOWN_WORD, "journal 1\nseat 0 listen: done\n");
    HAS_FAULT(BAD_NUMBER, "journal 1\nseat 0 send 00 5: done\n");
    HAS_FAULT(BAD_MESSAGE, "journal 1\nseat 0 send 0 05: done\n");
    HAS_FAULT(WRONG_REPLY, "journal 1\nseat 0 send 0 5: none\n");
    HAS_FAULT(BAD_BYTES, "journal 1\nseat 0\t\n");
    HAS_FAULT(NO_HEADER, "{}\n");
    HAS_FAULT(OTHER_VERSION, "journal 5\n");
    HAS_FAULT(OTHER_MESSAGES, "journal 2\n");
    HAS_FAULT(GAP, "journal 1\nfrom 4\n");
    HAS_FAULT(WRONG_END, "journal 1\nend 1\n");
}

static void try_wrong_texts(void)
{
    STOPS(FAULT, 0, 0, "journal 2\n");
    STOPS(FAULT, 0, 0, "\n");
    STOPS(FAULT, 0, 1, "journal 1\nfrom 4\nend 4\n");
    STOPS(FAULT, 1, 2, "journal 1\nseat 1 mailbox: made 0\nseat 0 send 0 05: done\n");
    STOPS(FAULT, 1, 2, "journal 1\nseat 1 mailbox: made 0\nend 2\n");
    STOPS(FAULT, 1, 4, "journal 1\nseat 1 mailbox: made 0\nend 1\njournal 1\nfrom 2\n");
    STOPS(UNLAWFUL, 0, 2, "journal 1\nseat 0 send 0 5: done\nend 1\n");
    STOPS(UNLAWFUL, 0, 2, "journal 1\nseat 1 mailbox: made 1\nend 1\n");
    STOPS(UNLAWFUL, 2, 4, "journal 1\nseat 1 mailbox: made 0\nseat 0 send 0 5: done\nseat 1 recv 0: 6\nend 3\n");
}

/* More seats than there is memory for. */
static const char many_seats[] = "journal 1\nseat 18446744073709551615 mailbox: made 0\n";

static void try_wrong_calls(void)
{
    uint64_t found = 77;
    uint32_t code;

    open_reading();
    RETURNS(OUT_OF_BOUNDS, seryugo_reading_take(&reading, NULL, 1));
    RETURNS(DONE, seryugo_reading_take(&reading, NULL, 0));
    RETURNS(WRONG_HANDLE, seryugo_send(&reading, 0, 0, 5));
    RETURNS(WRONG_HANDLE, seryugo_checker_verdict(&reading, &found));
    RETURNS(WRONG_HANDLE, seryugo_journal_text(&reading, 0, &text));
    code = seryugo_room_open(1, &room);
    has_room = code == SERYUGO_DONE;
    RETURNS(DONE, code);
    RETURNS(WRONG_HANDLE, seryugo_reading_take(&room, "journal 1\n", 10));
    RETURNS(WRONG_HANDLE, seryugo_reading_entries(&room, &found));
    RETURNS(WRONG_HANDLE, seryugo_reading_lines(&room, &found));
    RETURNS(WRONG_HANDLE, seryugo_reading_end(&room));
    RETURNS(WRONG_HANDLE, seryugo_room_restore(&room, 1, &journal));
    RETURNS(WRONG_HANDLE, seryugo_reading_compact(&room, &journal, &found));
    IS(77, found);
    close_one(&has_room, room);
    close_one(&has_reading, reading);
    open_reading();
    RETURNS(DONE, seryugo_reading_take(&reading, many_seats, strlen(many_seats)));
    COUNTS(1, 2);
    RETURNS(NO_MEMORY, seryugo_room_restore(&reading, 1, &room));
    RETURNS(WRONG_HANDLE, seryugo_reading_take(&reading, "end 1\n", 6));
    close_one(&has_reading, reading);
}

/* Reads the file, and opens a room on it. */
static void restore(uint64_t limit)
{
    RETURNS(DONE, take_parts(kept, 1000));
    RETURNS(OUT_OF_BOUNDS, seryugo_room_restore(&reading, 0, &room));
    RETURNS(OUT_OF_BOUNDS, seryugo_room_restore(&reading, ((uint64_t)1 << 32) + 1, &room));
    RETURNS(DONE, seryugo_room_restore(&reading, limit, &room));
    has_room = true;
    RETURNS(WRONG_HANDLE, seryugo_reading_take(&reading, "journal 1\n", 10));
    RETURNS(WRONG_HANDLE, seryugo_reading_end(&reading));
    RETURNS(WRONG_HANDLE, seryugo_room_restore(&reading, limit, &journal));
    close_one(&has_reading, reading);
}

static void try_a_restored_room(void)
{
    struct seryugo_entry entry;
    uint64_t found = 77;

    open_reading();
    restore(50);
    RETURNS(DONE, seryugo_entries(&room, &found));
    IS(11, found);
    RETURNS(DONE, seryugo_cut_at(&room, &found));
    IS(11, found);
    RETURNS(DONE, seryugo_limit(&room, &found));
    IS(50, found);
    RETURNS(NO_SUCH, seryugo_entry(&room, 10, &entry));
    RETURNS(GONE, seryugo_send(&room, 0, 0, 5));
    RETURNS(GONE, seryugo_recv(&room, 1, 0, true, &found));
    RETURNS(GONE, seryugo_leave(&room, 1));
    RETURNS(GONE, seryugo_send(&room, 2, 0, 5));
    RETURNS(NOTHING, seryugo_next_due(&room, &found));
    RETURNS(DONE, seryugo_sent(&room, 0, &found));
    IS(3, found);
    RETURNS(DONE, seryugo_got(&room, 0, &found));
    IS(1, found);
    RETURNS(DONE, seryugo_new_seat(&room, &found));
    IS(2, found);
}

/* What waited in the room that was closed is received from the one that was restored. */
static void try_what_waited(void)
{
    uint64_t found = 77;

    RETURNS(DONE, seryugo_recv(&room, 2, 0, false, &found));
    IS(7, found);
    RETURNS(DONE, seryugo_recv(&room, 2, 0, false, &found));
    IS(11, found);
    RETURNS(NOTHING, seryugo_recv_poll(&room, 2, 0, &found));
    RETURNS(STALLED, seryugo_recv(&room, 2, 0, false, &found));
    RETURNS(DONE, seryugo_recv(&room, 2, 2, false, &found));
    IS(9, found);
    RETURNS(NOTHING, seryugo_recv_poll(&room, 2, 3, &found));
    RETURNS(DONE, seryugo_take(&room, 2, 4, false, &found));
    IS(8, found);
    RETURNS(DONE, seryugo_new_mailbox(&room, 2, &found));
    IS(5, found);
}

/* New lanes and feeds have numbers after those of the journal, and the next piece is after the others. */
static void try_to_go_on(void)
{
    uint64_t found = 77;

    RETURNS(NO_SUCH, seryugo_lane_drain(&room, 0, &found));
    RETURNS(DONE, seryugo_lane_open(&room, 5, 2, &lane, &found));
    has_lane = true;
    IS(1, found);
    RETURNS(DONE, seryugo_lane_abandon(&room, 1));
    close_one(&has_lane, lane);
    RETURNS(NO_SUCH, seryugo_feed_pump(&room, 0, &found));
    RETURNS(DONE, seryugo_feed_open(&room, 1, 2, &feed, &found));
    has_feed = true;
    IS(1, found);
    RETURNS(DONE, seryugo_feed_end(&room, 1));
    close_one(&has_feed, feed);
    append(NULL);
    close_one(&has_room, room);
    open_reading();
    RETURNS(DONE, take_parts(kept, 3));
    COUNTS(19, 27);
    close_one(&has_reading, reading);
}

/* Messages of every byte, of none, and of more bytes than a line takes. */
static unsigned char every[256];
static unsigned char many[400 * 1024];

#define SEND(bytes, length) RETURNS(DONE, seryugo_bytes_send(&room, 0, 0, bytes, length))

static void keep_bytes(void)
{
    uint64_t found;

    for (size_t i = 0; i < sizeof every; i++) {
        every[i] = (unsigned char)i;
    }
    memset(many, 'x', sizeof many);
    kept = 0;
    RETURNS(DONE, seryugo_bytes_room_open(100, &room));
    has_room = true;
    RETURNS(DONE, seryugo_new_seat(&room, &found));
    RETURNS(DONE, seryugo_new_mailbox(&room, 0, &found));
    SEND("", 0);
    SEND("100% of it", 10);
    append(NULL);
    HAS_KEPT("journal 2\nseat 0 mailbox: made 0\nseat 0 send 0 =: done\nseat 0 send 0 =100%25%20of%20it: done\nend 3\n");
    SEND(every, sizeof every);
    SEND(many, sizeof many);
    append(NULL);
    close_one(&has_room, room);
}

static void receives(const void *bytes, size_t length, int line)
{
    returns(seryugo_bytes_recv(&room, 1, 0, false, &message), SERYUGO_DONE, line);
    has_message = true;
    is(message.length, length, line);
    if (memcmp(seryugo_bytes_at(&message), bytes, length) != 0) {
        fprintf(stderr, "line %d: another message\n", line);
        exit(1);
    }
    free_one(&has_message, message);
}

#define RECEIVES(bytes, length) receives(bytes, length, __LINE__)

static void try_bytes(void)
{
    uint64_t found = 77;

    keep_bytes();
    RETURNS(DONE, seryugo_bytes_reading_open(&reading));
    has_reading = true;
    restore(100);
    RETURNS(DONE, seryugo_new_seat(&room, &found));
    IS(1, found);
    RETURNS(WRONG_HANDLE, seryugo_recv_poll(&room, 1, 0, &found));
    RECEIVES("", 0);
    RECEIVES("100% of it", 10);
    RECEIVES(every, sizeof every);
    RECEIVES(many, sizeof many);
    RETURNS(NOTHING, seryugo_bytes_recv_poll(&room, 1, 0, &message));
    close_one(&has_room, room);
}

/* No reading would take the line of this message, so it isn't written. */
static void try_too_long_a_line(void)
{
    static unsigned char longer[1400 * 1024];

    memset(longer, 0xFF, sizeof longer);
    kept = 0;
    RETURNS(DONE, seryugo_bytes_room_open(100, &room));
    has_room = true;
    RETURNS(DONE, seryugo_new_seat(&room, &(uint64_t){ 0 }));
    RETURNS(DONE, seryugo_new_mailbox(&room, 0, &(uint64_t){ 0 }));
    SEND(longer, sizeof longer);
    RETURNS(TOO_LONG, seryugo_entries_text(&room, 0, file, sizeof file, &(uint64_t){ 0 }, &(uint64_t){ 0 }));
    IS(0, memcmp("seat 0 mailbox: made 0\n", file, 23));
    RETURNS(DONE, seryugo_take_journal(&room, &journal, &(uint64_t){ 0 }));
    has_journal = true;
    RETURNS(WRONG_HANDLE, seryugo_entries_text(&journal, 0, file, sizeof file, &(uint64_t){ 0 }, &(uint64_t){ 0 }));
    RETURNS(NO_SUCH, seryugo_entries_text(&room, 1, file, sizeof file, &(uint64_t){ 0 }, &(uint64_t){ 0 }));
    RETURNS(TOO_LONG, seryugo_journal_text(&journal, 0, &text));
    close_one(&has_journal, journal);
    close_one(&has_room, room);
}

int main(void)
{
    open_numbers();
    try_text();
    try_a_second_piece();
    try_parts();
    try_torn_texts();
    try_wrong_texts();
    try_faults();
    try_wrong_calls();
    try_a_restored_room();
    try_what_waited();
    try_to_go_on();
    try_bytes();
    try_too_long_a_line();
    free_all();
    puts("each journal is kept and restored");
    return 0;
}
