/* A journal that is cut by itself: it is dropped, or a sink takes its entries, or the sink refuses them for some time. A short journal
 * takes the place of what the sink has. A message that no text could have is refused. If there is no memory for a call, the
 * program frees all that it has, and ends with status 5. */
#include "checks.h"

#include "seryugo_switchboard.h"

#include <string.h>

/* What is to be freed: at most one of each kind at a time. */
static struct seryugo room, lane, reading, compacted;
static struct seryugo_bytes text;
static bool has_room, has_lane, has_reading, has_text, has_short;

/* What a sink has. */
static struct sink {
    /* The pieces one after the other. */
    char file[64 * 1024];
    size_t length;
    uint64_t next;
    bool refuses;
    bool has_no_memory;
} sink;

static struct seryugo_keeper keeper;
static struct seryugo_switchboard board;
static bool has_board;

static void close_board(void)
{
    if (has_board) {
        has_board = false;
        RETURNS(DONE, seryugo_switchboard_close(&board));
    }
}

static void free_all(void)
{
    close_board();
    free_one(&has_text, text);
    close_one(&has_reading, reading);
    close_one(&has_short, compacted);
    close_one(&has_lane, lane);
    close_one(&keeper.is_kept, keeper.journal);
    close_one(&has_room, room);
}

static bool append(void *context, struct seryugo *journal, uint64_t from, uint64_t count)
{
    struct sink *to = context;

    /* Each entry comes once, and in order. */
    IS(to->next, from);
    if (to->refuses) {
        return false;
    }
    if (seryugo_journal_text(journal, from, &text) != SERYUGO_DONE) {
        to->has_no_memory = true;
        return false;
    }
    memcpy(to->file + to->length, seryugo_bytes_at(&text), text.length);
    to->length += text.length;
    to->next += count;
    seryugo_bytes_free(text);
    return true;
}

/* A call was made until it found room. */
static void is_done(uint32_t code, int line)
{
    if (sink.has_no_memory) {
        code = SERYUGO_NO_MEMORY;
    }
    returns(code, SERYUGO_DONE, line);
}

static uint32_t send(uint64_t message)
{
    uint32_t code;

    do {
        code = seryugo_send(&room, 0, 0, message);
    } while (seryugo_cut_for_retry(&keeper, &room, &code));
    return code;
}

static uint32_t receive(uint64_t *message)
{
    uint32_t code;

    do {
        code = seryugo_recv(&room, 0, 0, false, message);
    } while (seryugo_makes_room(&keeper, &room, &code));
    return code;
}

/* A room whose journal takes five entries, with a mailbox and an open lane. */
static void open_small(void)
{
    uint64_t found;

    memset(&sink, 0, sizeof sink);
    RETURNS(DONE, seryugo_room_open(5, &room));
    has_room = true;
    RETURNS(DONE, seryugo_new_seat(&room, &found));
    RETURNS(DONE, seryugo_new_mailbox(&room, 0, &found));
    RETURNS(DONE, seryugo_lane_open(&room, 0, 4, &lane, &found));
    has_lane = true;
}

static void close_small(void)
{
    close_one(&has_lane, lane);
    close_one(&has_room, room);
}

static void send_and_receive(uint64_t first, uint64_t last)
{
    for (uint64_t number = first; number <= last; number++) {
        uint64_t found = 77;

        is_done(send(number), __LINE__);
        is_done(receive(&found), __LINE__);
        IS(number, found);
    }
}

static void try_dropping(void)
{
    uint64_t count;

    keeper = (struct seryugo_keeper){ 0 };
    open_small();
    send_and_receive(1, 100);
    RETURNS(DONE, seryugo_cut_at(&room, &count));
    IS(200, count);
    close_small();
}

/* The text of all pieces is a lawful journal of this many entries. */
static void is_lawful(uint64_t entries)
{
    uint64_t found;

    RETURNS(DONE, seryugo_reading_open(&reading));
    has_reading = true;
    RETURNS(DONE, seryugo_reading_take(&reading, sink.file, sink.length));
    RETURNS(DONE, seryugo_reading_end(&reading));
    RETURNS(DONE, seryugo_reading_entries(&reading, &found));
    IS(entries, found);
    close_one(&has_reading, reading);
}

static void try_a_sink(void)
{
    keeper = (struct seryugo_keeper){ .sink = append, .context = &sink };
    open_small();
    send_and_receive(1, 100);
    IS(200, sink.next);
    is_done(seryugo_keep(&keeper, &room), __LINE__);
    IS(201, sink.next);
    is_done(seryugo_keep(&keeper, &room), __LINE__);
    is_lawful(201);
    close_small();
}

/* While the sink refuses, a call fails once the journal is full, and nothing is lost. */
static void try_a_sink_that_refuses(void)
{
    uint64_t found = 77;

    keeper = (struct seryugo_keeper){ .sink = append, .context = &sink };
    open_small();
    send_and_receive(1, 2);
    sink.refuses = true;
    RETURNS(JOURNAL_FULL, send(3));
    IS(5, keeper.count);
    /* The cut has made room for five. */
    for (uint64_t number = 3; number <= 7; number++) {
        is_done(send(number), __LINE__);
    }
    RETURNS(JOURNAL_FULL, send(8));
    RETURNS(JOURNAL_FULL, seryugo_keep(&keeper, &room));
    IS(0, sink.next);
    sink.refuses = false;
    is_done(send(8), __LINE__);
    IS(10, sink.next);
    is_done(seryugo_keep(&keeper, &room), __LINE__);
    is_lawful(11);
    is_done(receive(&found), __LINE__);
    IS(3, found);
    close_small();
}

/* A short journal takes the place of what the sink has, and of what it has refused. */
static void put_short(void)
{
    uint64_t count;

    RETURNS(DONE, seryugo_compact(&room, &compacted, &count));
    has_short = true;
    sink.length = sink.next = 0;
    (void)append(&sink, &compacted, 0, count);
    is_done(SERYUGO_DONE, __LINE__);
    RETURNS(DONE, seryugo_shorten(&keeper, &room, count));
    IS(false, keeper.is_kept);
    close_one(&has_short, compacted);
}

static void try_a_short_journal(void)
{
    keeper = (struct seryugo_keeper){ .sink = append, .context = &sink };
    open_small();
    send_and_receive(1, 20);
    put_short();
    IS(1, sink.next);
    send_and_receive(21, 40);
    sink.refuses = true;
    RETURNS(JOURNAL_FULL, send(41));
    IS(true, keeper.is_kept);
    is_done(send(41), __LINE__);
    sink.refuses = false;
    put_short();
    IS(2, sink.next);
    is_done(send(42), __LINE__);
    is_done(seryugo_keep(&keeper, &room), __LINE__);
    is_lawful(3);
    close_small();
}

/* If nobody said what becomes of the journal, it isn't dropped. */
static void try_to_keep_for_nobody(void)
{
    struct seryugo_seat seat;
    uint64_t mailbox, count;

    RETURNS(DONE, seryugo_switchboard_open(5, &board));
    has_board = true;
    RETURNS(DONE, seryugo_seat_open(&board, &seat));
    RETURNS(DONE, seryugo_seat_new_mailbox(&seat, &mailbox));
    RETURNS(WRONG_HANDLE, seryugo_switchboard_keep(&board));
    RETURNS(DONE, seryugo_cut_at(&board.room, &count));
    IS(0, count);
    RETURNS(DONE, seryugo_switchboard_when_full(&board, NULL, NULL));
    RETURNS(DONE, seryugo_switchboard_keep(&board));
    RETURNS(DONE, seryugo_cut_at(&board.room, &count));
    IS(1, count);
    seryugo_seat_leave(&seat);
    close_board();
}

/* Takes all entries, and writes none. */
static bool take_all(void *context, struct seryugo *journal, uint64_t from, uint64_t count)
{
    (void)journal;
    (void)from;
    *(uint64_t *)context += count;
    return true;
}

/* What no text could have is refused as it is sent, if there is a sink. Of a swap both messages count. */
static void try_long_messages(seryugo_sink *wanted, uint32_t code)
{
    static const uint8_t bytes[SERYUGO_FILE_MESSAGE_MOST + 1];
    struct seryugo_seat seat;
    struct seryugo_bytes held;
    uint64_t mailbox, variable, taken = 0;

    RETURNS(DONE, seryugo_bytes_switchboard_open(2, &board));
    has_board = true;
    RETURNS(DONE, seryugo_switchboard_when_full(&board, wanted, &taken));
    RETURNS(DONE, seryugo_seat_open(&board, &seat));
    RETURNS(DONE, seryugo_seat_new_mailbox(&seat, &mailbox));
    returns(seryugo_seat_bytes_send(&seat, mailbox, bytes, sizeof bytes), code, __LINE__);
    returns(seryugo_seat_bytes_mvar_init(&seat, bytes, sizeof bytes, &variable), code, __LINE__);
    RETURNS(DONE, seryugo_seat_bytes_send(&seat, mailbox, bytes, sizeof bytes - 1));
    RETURNS(DONE, seryugo_seat_bytes_mvar_init(&seat, bytes, 1000000, &variable));
    returns(seryugo_seat_bytes_swap(&seat, variable, bytes, 398001, NULL, &held), code, __LINE__);
    if (code == SERYUGO_DONE) {
        seryugo_bytes_free(held);
        RETURNS(DONE, seryugo_seat_bytes_swap(&seat, variable, bytes, 1000000, NULL, &held));
        seryugo_bytes_free(held);
    }
    RETURNS(DONE, seryugo_seat_bytes_swap(&seat, variable, bytes, 398000, NULL, &held));
    IS(1000000, held.length);
    seryugo_bytes_free(held);
    RETURNS(DONE, seryugo_switchboard_keep(&board));
    IS(wanted == NULL ? 0 : 4, taken);
    seryugo_seat_leave(&seat);
    close_board();
}

int main(void)
{
    try_to_keep_for_nobody();
    try_long_messages(take_all, SERYUGO_TOO_LONG);
    try_long_messages(NULL, SERYUGO_DONE);
    try_dropping();
    try_a_sink();
    try_a_sink_that_refuses();
    try_a_short_journal();
    free_all();
    puts("each full journal is cut");
    return 0;
}
