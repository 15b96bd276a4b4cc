/* Switchboards for threads in C, by seryugo_switchboard.h: calls that wait, end at a deadline, stall, find a full journal, and wake each
 * other. */
#include "require.h"
#include <seryugo_switchboard.h>

#include <sched.h>
#include <stdio.h>

#define SENDERS 4
#define EACH 5000
#define SEATS (SENDERS + 1)

/* A thread's part: its seat, where it sends or receives, and what it found. */
struct part {
    struct seryugo_seat seat;
    uint64_t object;
    uint64_t first;
    uint32_t code;
    uint64_t received;
    uint64_t sum;
    uint64_t timed_out;
};

static void *sends(void *given)
{
    struct part *part = given;

    for (uint64_t n = 0; n < EACH && part->code == SERYUGO_DONE; n++) {
        part->code = seryugo_seat_send(&part->seat, part->object, part->first + n);
    }
    seryugo_seat_leave(&part->seat);
    return NULL;
}

/* Receives until no other seat can send. */
static void *receives(void *given)
{
    struct part *part = given;
    uint64_t message = 0;

    while ((part->code = seryugo_seat_recv(&part->seat, part->object, NULL, &message)) == SERYUGO_DONE) {
        part->received++;
        part->sum += message;
    }
    seryugo_seat_leave(&part->seat);
    return NULL;
}

/* Does so, and waits half a millisecond at most each time. */
static void *receives_in_time(void *given)
{
    struct part *part = given;
    uint64_t message = 0;

    while (part->code != SERYUGO_STALLED) {
        struct timespec deadline = seryugo_in_milliseconds(0);

        deadline.tv_nsec += deadline.tv_nsec < 999500000 ? 500000 : 0;
        part->code = seryugo_seat_recv(&part->seat, part->object, &deadline, &message);
        if (part->code == SERYUGO_DONE) {
            part->received++;
            part->sum += message;
        } else if (part->code == SERYUGO_TIMED_OUT) {
            part->timed_out++;
        } else if (part->code != SERYUGO_STALLED) {
            break;
        }
    }
    seryugo_seat_leave(&part->seat);
    return NULL;
}

/* Four threads send to these receivers, and all messages are received, each once. */
static void all_are_received(struct seryugo_switchboard *board, int receivers, void *(*receive)(void *))
{
    struct part parts[2 * SENDERS] = {0};
    pthread_t threads[2 * SENDERS];
    uint64_t mailbox = 0;
    uint64_t received = 0;
    uint64_t sum = 0;
    uint64_t total = (uint64_t)SENDERS * EACH;

    for (int i = 0; i < SENDERS + receivers; i++) {
        require(seryugo_seat_open(board, &parts[i].seat) == SERYUGO_DONE, "a seat is opened");
    }
    require(seryugo_seat_new_mailbox(&parts[0].seat, &mailbox) == SERYUGO_DONE, "a mailbox is made");
    for (int i = 0; i < SENDERS + receivers; i++) {
        parts[i].object = mailbox;
        parts[i].first = (uint64_t)i * EACH;
        require(pthread_create(&threads[i], NULL, i < SENDERS ? sends : receive, &parts[i]) == 0, "a thread is started");
    }
    for (int i = 0; i < SENDERS + receivers; i++) {
        pthread_join(threads[i], NULL);
        require(parts[i].code == (i < SENDERS ? SERYUGO_DONE : SERYUGO_STALLED), "each sends all, or receives to the end");
        received += parts[i].received;
        sum += parts[i].sum;
    }
    require(received == total && sum == total * (total - 1) / 2, "all messages were received, each once");
}

static void many_threads(void)
{
    struct seryugo_switchboard board;

    require(seryugo_switchboard_open((uint64_t)1 << 32, &board) == SERYUGO_DONE, "a switchboard is opened");
    all_are_received(&board, 1, receives);
    all_are_received(&board, SENDERS, receives);
    all_are_received(&board, SENDERS, receives_in_time);
    seryugo_switchboard_close(&board);
    puts("many threads: each message is received once");
}

/* A deadline passes while another seat is open, and the seat goes on. Without another seat the call stalls at once. */
static void deadlines(void)
{
    struct seryugo_switchboard board;
    struct seryugo_seat ann;
    struct seryugo_seat guest;
    struct timespec soon;
    uint64_t mailbox = 0;
    uint64_t message = 0;

    require(seryugo_switchboard_open(100, &board) == SERYUGO_DONE, "a switchboard is opened");
    require(seryugo_seat_open(&board, &ann) == SERYUGO_DONE && seryugo_seat_open(&board, &guest) == SERYUGO_DONE, "seats are opened");
    require(seryugo_seat_new_mailbox(&ann, &mailbox) == SERYUGO_DONE, "a mailbox is made");
    soon = seryugo_in_milliseconds(20);
    require(seryugo_seat_recv(&ann, mailbox, &soon, &message) == SERYUGO_TIMED_OUT, "a deadline passes");
    require(seryugo_seat_recv(&ann, mailbox, &soon, &message) == SERYUGO_TIMED_OUT, "a deadline has passed");
    require(seryugo_seat_send(&guest, mailbox, 5) == SERYUGO_DONE, "a message is sent");
    require(seryugo_seat_recv(&ann, mailbox, &soon, &message) == SERYUGO_DONE && message == 5, "what is there comes after a deadline");
    require(seryugo_seat_recv_poll(&ann, mailbox, &message) == SERYUGO_NOTHING, "nothing is left");
    seryugo_seat_leave(&guest);
    soon = seryugo_in_milliseconds(PATIENCE_IN_MILLISECONDS);
    require(seryugo_seat_recv(&ann, mailbox, &soon, &message) == SERYUGO_STALLED, "alone it stalls at once");
    require(seryugo_seat_recv(&ann, mailbox, NULL, &message) == SERYUGO_STALLED, "so it does without a deadline");
    seryugo_seat_leave(&ann);
    seryugo_switchboard_close(&board);
    puts("deadlines pass, and seats go on");
}

/* What a sink took. */
struct taken {
    uint64_t count;
    uint64_t next;
    bool is_open;
};

static bool take(void *context, struct seryugo *journal, uint64_t from, uint64_t count)
{
    struct taken *taken = context;

    (void)journal;
    if (!taken->is_open || from != taken->next) {
        return false;
    }
    taken->count += count;
    taken->next = from + count;
    return true;
}

/* A full journal goes to a sink, is dropped, or makes calls fail. */
static void full_journals(void)
{
    struct seryugo_switchboard board;
    struct taken taken = {0, 0, true};
    struct seryugo_seat seat;
    uint64_t mailbox = 0;
    uint64_t entries = 0;

    require(seryugo_switchboard_open(16, &board) == SERYUGO_DONE, "a switchboard is opened");
    seryugo_switchboard_when_full(&board, take, &taken);
    all_are_received(&board, SENDERS, receives_in_time);
    require(seryugo_switchboard_keep(&board) == SERYUGO_DONE, "the last entries are handed over");
    seryugo_switchboard_lock(&board);
    require(seryugo_entries(&board.room, &entries) == SERYUGO_DONE && entries == taken.count, "the sink has all entries");
    seryugo_switchboard_unlock(&board);
    require(seryugo_seat_open(&board, &seat) == SERYUGO_DONE, "a seat is opened");
    require(seryugo_seat_new_mailbox(&seat, &mailbox) == SERYUGO_DONE, "a mailbox is made");
    taken.is_open = false;
    for (int i = 0; i < 15; i++) {
        require(seryugo_seat_send(&seat, mailbox, 0) == SERYUGO_DONE, "there is room for 16 entries");
    }
    require(seryugo_seat_send(&seat, mailbox, 0) == SERYUGO_JOURNAL_FULL, "a sink that refuses refuses the call");
    taken.is_open = true;
    require(seryugo_seat_send(&seat, mailbox, 0) == SERYUGO_DONE, "once the sink takes entries, calls go on");
    require(seryugo_switchboard_keep(&board) == SERYUGO_DONE && taken.next == entries + 17, "no entry was lost");
    seryugo_seat_leave(&seat);
    seryugo_switchboard_close(&board);

    require(seryugo_switchboard_open(2, &board) == SERYUGO_DONE, "a switchboard is opened");
    require(seryugo_seat_open(&board, &seat) == SERYUGO_DONE, "a seat is opened");
    require(seryugo_seat_new_mailbox(&seat, &mailbox) == SERYUGO_DONE, "a mailbox is made");
    require(seryugo_seat_send(&seat, mailbox, 0) == SERYUGO_DONE, "a message is sent");
    require(seryugo_seat_send(&seat, mailbox, 0) == SERYUGO_JOURNAL_FULL, "a full journal makes calls fail");
    seryugo_switchboard_when_full(&board, NULL, NULL);
    for (int i = 0; i < 100; i++) {
        require(seryugo_seat_send(&seat, mailbox, 0) == SERYUGO_DONE, "entries are dropped");
    }
    seryugo_seat_leave(&seat);
    seryugo_switchboard_close(&board);
    puts("full journals are handed over or dropped");
}

/* Each call on channels, ports and variables of numbers. */
static void each_call(void)
{
    struct seryugo_switchboard board;
    struct seryugo_seat seat;
    uint64_t channel = 0, port = 0, copy = 0, cell = 0, once = 0, full = 0, message = 0;

    require(seryugo_switchboard_open(100, &board) == SERYUGO_DONE, "a switchboard is opened");
    require(seryugo_seat_open(&board, &seat) == SERYUGO_DONE, "a seat is opened");
    require(seryugo_seat_new_channel(&seat, &channel) == SERYUGO_DONE, "a channel is made");
    require(seryugo_seat_new_port(&seat, channel, &port) == SERYUGO_DONE, "a port is made");
    require(seryugo_seat_multicast(&seat, channel, 7) == SERYUGO_DONE, "a message is multicast");
    require(seryugo_seat_copy_port(&seat, port, &copy) == SERYUGO_DONE, "a port is copied");
    require(seryugo_seat_recv(&seat, port, NULL, &message) == SERYUGO_DONE && message == 7, "the port receives");
    require(seryugo_seat_recv_poll(&seat, copy, &message) == SERYUGO_DONE && message == 7, "its copy receives too");
    require(seryugo_seat_close_port(&seat, port) == SERYUGO_DONE, "the port is closed");
    require(seryugo_seat_recv(&seat, port, NULL, &message) == SERYUGO_CLOSED, "it receives no more");
    require(seryugo_seat_new_ivar(&seat, &once) == SERYUGO_DONE && seryugo_seat_new_mvar(&seat, &cell) == SERYUGO_DONE, "variables are made");
    require(seryugo_seat_get_poll(&seat, once, &message) == SERYUGO_NOTHING, "an i-variable is empty");
    require(seryugo_seat_put(&seat, once, 1) == SERYUGO_DONE && seryugo_seat_put(&seat, once, 2) == SERYUGO_PUT, "it is filled once");
    require(seryugo_seat_get(&seat, once, NULL, &message) == SERYUGO_DONE && message == 1, "it is read");
    require(seryugo_seat_take_poll(&seat, cell, &message) == SERYUGO_NOTHING, "an m-variable is empty");
    require(seryugo_seat_mvar_init(&seat, 3, &full) == SERYUGO_DONE, "a full m-variable is made");
    require(seryugo_seat_swap(&seat, full, 4, NULL, &message) == SERYUGO_DONE && message == 3, "it is swapped");
    require(seryugo_seat_take(&seat, full, NULL, &message) == SERYUGO_DONE && message == 4, "it is taken");
    require(seryugo_seat_send(&seat, 1000, 0) == SERYUGO_NO_SUCH, "an object that isn't there is refused");
    seryugo_seat_leave(&seat);
    seryugo_switchboard_close(&board);
    puts("each call on numbers");
}

static bool has_text(struct seryugo_bytes message, const char *text)
{
    bool same = message.length == strlen(text) && memcmp(seryugo_bytes_at(&message), text, message.length) == 0;

    seryugo_bytes_free(message);
    return same;
}

/* Each call that has a message of bytes. */
static void each_call_of_bytes(void)
{
    static const char long_text[] = "a message of more than seventy-eight bytes, which lies in a block that the journal has as well";
    struct seryugo_switchboard board;
    struct seryugo_seat seat;
    struct seryugo_bytes message;
    uint64_t mailbox = 0, channel = 0, port = 0, cell = 0;

    require(seryugo_bytes_switchboard_open(100, &board) == SERYUGO_DONE, "a switchboard is opened");
    require(seryugo_seat_open(&board, &seat) == SERYUGO_DONE, "a seat is opened");
    require(seryugo_seat_new_mailbox(&seat, &mailbox) == SERYUGO_DONE, "a mailbox is made");
    require(seryugo_seat_bytes_send(&seat, mailbox, long_text, strlen(long_text)) == SERYUGO_DONE, "bytes are sent");
    require(seryugo_seat_bytes_recv(&seat, mailbox, NULL, &message) == SERYUGO_DONE && has_text(message, long_text), "and received");
    require(seryugo_seat_bytes_recv_poll(&seat, mailbox, &message) == SERYUGO_NOTHING, "nothing is left");
    require(seryugo_seat_new_channel(&seat, &channel) == SERYUGO_DONE, "a channel is made");
    require(seryugo_seat_new_port(&seat, channel, &port) == SERYUGO_DONE, "a port is made");
    require(seryugo_seat_bytes_multicast(&seat, channel, "x", 1) == SERYUGO_DONE, "bytes are multicast");
    require(seryugo_seat_bytes_recv(&seat, port, NULL, &message) == SERYUGO_DONE && has_text(message, "x"), "and received");
    require(seryugo_seat_bytes_mvar_init(&seat, "one", 3, &cell) == SERYUGO_DONE, "a full m-variable is made");
    require(seryugo_seat_bytes_get(&seat, cell, NULL, &message) == SERYUGO_DONE && has_text(message, "one"), "it is read");
    require(seryugo_seat_bytes_get_poll(&seat, cell, &message) == SERYUGO_DONE && has_text(message, "one"), "it is polled");
    require(seryugo_seat_bytes_swap(&seat, cell, "two", 3, NULL, &message) == SERYUGO_DONE && has_text(message, "one"), "it is swapped");
    require(seryugo_seat_bytes_take(&seat, cell, NULL, &message) == SERYUGO_DONE && has_text(message, "two"), "it is taken");
    require(seryugo_seat_bytes_put(&seat, cell, "", 0) == SERYUGO_DONE, "it is filled");
    require(seryugo_seat_bytes_take_poll(&seat, cell, &message) == SERYUGO_DONE && has_text(message, ""), "and taken by a poll");
    require(seryugo_seat_bytes_send(&seat, mailbox, NULL, 1) == SERYUGO_OUT_OF_BOUNDS, "a null pointer with a length is refused");
    seryugo_seat_leave(&seat);
    seryugo_switchboard_close(&board);
    puts("each call on bytes");
}

/* Two threads: one waits at a mailbox, and is woken by what the other sends on its lane. */
static void lanes(void)
{
    struct seryugo_switchboard board;
    struct part part = {0};
    struct seryugo lane;
    pthread_t thread;
    uint64_t number = 0;
    uint64_t moved = 0;

    require(seryugo_switchboard_open(1000, &board) == SERYUGO_DONE, "a switchboard is opened");
    require(seryugo_seat_open(&board, &part.seat) == SERYUGO_DONE, "a seat is opened");
    require(seryugo_seat_new_mailbox(&part.seat, &part.object) == SERYUGO_DONE, "a mailbox is made");
    seryugo_switchboard_lock(&board);
    require(seryugo_lane_open(&board.room, part.object, 8, &lane, &number) == SERYUGO_DONE, "a lane is opened");
    seryugo_switchboard_unlock(&board);
    require(pthread_create(&thread, NULL, receives, &part) == 0, "a thread is started");
    for (uint64_t n = 1; n <= 8; n++) {
        require(seryugo_lane_send(&lane, n) == SERYUGO_DONE, "a message is sent on the lane");
    }
    require(seryugo_lane_finish(&lane) == SERYUGO_DONE, "the lane ends");
    seryugo_switchboard_lock(&board);
    require(seryugo_lane_drain(&board.room, number, &moved) == SERYUGO_DONE && moved == 8, "the lane is drained");
    require(seryugo_lane_close(&board.room, &lane) == SERYUGO_DONE, "the lane is closed");
    seryugo_switchboard_unlock(&board);
    pthread_join(thread, NULL);
    require(part.code == SERYUGO_STALLED && part.received == 8 && part.sum == 36, "all was received, and then nobody can send");
    seryugo_close(lane);
    seryugo_switchboard_close(&board);
    puts("lanes wake who waits");
}

/* Waits until a part's thread waits: its seat may make no other call then. */
static void await_parked(struct seryugo_switchboard *board, struct part *part)
{
    uint32_t code = SERYUGO_DONE;
    uint64_t message = 0;

    while (code != SERYUGO_GONE) {
        sched_yield();
        seryugo_switchboard_lock(board);
        code = seryugo_recv_poll(&board->room, part->seat.number, part->object, &message);
        seryugo_switchboard_unlock(board);
    }
}

static void leaves(void *seat)
{
    seryugo_seat_leave((struct seryugo_seat *)seat);
}

/* Receives once, by a deadline if `first` isn't 0. Its seat leaves also if the thread is cancelled. */
static void *receives_or_leaves(void *given)
{
    struct part *part = given;
    struct timespec deadline = seryugo_in_milliseconds(PATIENCE_IN_MILLISECONDS);
    uint64_t message = 0;

    pthread_cleanup_push(leaves, &part->seat);
    part->code = seryugo_seat_recv(&part->seat, part->object, part->first != 0 ? &deadline : NULL, &message);
    part->received = message;
    pthread_cleanup_pop(1);
    return NULL;
}

/* A thread that waits is cancelled as a message comes for it. The next one receives that, and no lock is left. */
static void cancelled(uint64_t first)
{
    struct seryugo_switchboard board;
    struct part parts[2] = {{.first = first}, {.first = first}};
    struct seryugo_seat ann;
    pthread_t threads[2];
    uint64_t mailbox = 0;
    void *result = NULL;

    require(seryugo_switchboard_open((uint64_t)1 << 32, &board) == SERYUGO_DONE, "a switchboard is opened");
    require(seryugo_seat_open(&board, &ann) == SERYUGO_DONE && seryugo_seat_new_mailbox(&ann, &mailbox) == SERYUGO_DONE, "a seat is there");
    for (int i = 0; i < 2; i++) {
        require(seryugo_seat_open(&board, &parts[i].seat) == SERYUGO_DONE, "a seat is opened");
        parts[i].object = mailbox;
        require(pthread_create(&threads[i], NULL, receives_or_leaves, &parts[i]) == 0, "a thread is started");
        await_parked(&board, &parts[i]);
    }
    seryugo_switchboard_lock(&board);
    require(seryugo_send(&board.room, ann.number, mailbox, 5) == SERYUGO_DONE, "a message is sent");
    require(pthread_cancel(threads[0]) == 0, "a thread is cancelled");
    seryugo_switchboard_unlock(&board);
    pthread_join(threads[0], &result);
    require(result == PTHREAD_CANCELED, "it ends where it waits");
    pthread_join(threads[1], NULL);
    require(parts[1].code == SERYUGO_DONE && parts[1].received == 5, "the next one receives the message");
    require(seryugo_seat_recv(&ann, mailbox, NULL, &mailbox) == SERYUGO_STALLED, "both have left");
    seryugo_seat_leave(&ann);
    seryugo_switchboard_close(&board);
}

/* A sink in which a thread could be cancelled. */
static bool take_and_test(void *context, struct seryugo *journal, uint64_t from, uint64_t count)
{
    pthread_testcancel();
    return take(context, journal, from, count);
}

/* Sends with a full journal while it is to be cancelled, and hands the entries over. */
static void *sends_and_keeps(void *given)
{
    struct part *part = given;

    pthread_cancel(pthread_self());
    part->code = seryugo_seat_send(&part->seat, part->object, 1);
    if (part->code == SERYUGO_DONE) {
        part->code = seryugo_switchboard_keep(part->seat.board);
    }
    part->received = 1;
    pthread_testcancel();
    return NULL;
}

static void cancelled_in_a_sink(void)
{
    struct seryugo_switchboard board;
    struct taken taken = {0, 0, true};
    struct part part = {0};
    pthread_t thread;
    void *result = NULL;

    require(seryugo_switchboard_open(1, &board) == SERYUGO_DONE, "a switchboard is opened");
    seryugo_switchboard_when_full(&board, take_and_test, &taken);
    require(seryugo_seat_open(&board, &part.seat) == SERYUGO_DONE, "a seat is opened");
    require(seryugo_seat_new_mailbox(&part.seat, &part.object) == SERYUGO_DONE, "a mailbox is made");
    require(pthread_create(&thread, NULL, sends_and_keeps, &part) == 0, "a thread is started");
    pthread_join(thread, &result);
    require(result == PTHREAD_CANCELED && part.received == 1, "it ends after its calls");
    require(part.code == SERYUGO_DONE && taken.count == 2, "the sink has both entries");
    seryugo_seat_leave(&part.seat);
    seryugo_switchboard_close(&board);
    puts("threads are cancelled, and leave no lock");
}

/* A switchboard on a room that goes on from a journal: its first seat has the next number. */
static void goes_on(void)
{
    struct seryugo_switchboard board;
    struct seryugo_seat seat;
    struct seryugo reading;
    struct seryugo room;
    uint64_t message = 0;
    const char text[] = "journal 1\nseat 6 mailbox: made 0\nseat 6 send 0 9: done\nend 2\n";

    require(seryugo_reading_open(&reading) == SERYUGO_DONE, "a reading is opened");
    require(seryugo_reading_take(&reading, text, sizeof text - 1) == SERYUGO_DONE, "a journal is read");
    require(seryugo_room_restore(&reading, 100, &room) == SERYUGO_DONE, "a room goes on");
    seryugo_close(reading);
    require(seryugo_switchboard_of(room, &board) == SERYUGO_DONE, "a switchboard is made of it");
    require(seryugo_seat_open(&board, &seat) == SERYUGO_DONE && seat.number == 7, "its seats are numbered after those of the journal");
    require(seryugo_seat_recv(&seat, 0, NULL, &message) == SERYUGO_DONE && message == 9, "what waited is received");
    seryugo_seat_leave(&seat);
    seryugo_switchboard_close(&board);
    puts("a switchboard goes on from a journal");
}

static void words(void)
{
    require(strcmp(seryugo_code_text(SERYUGO_DONE), "done") == 0, "each code has words");
    require(strcmp(seryugo_code_text(SERYUGO_TIMED_OUT), "timed out") == 0, "a deadline has words");
    require(strcmp(seryugo_code_text(SERYUGO_FORKED), "unknown code") != 0, "the last code too");
    require(strcmp(seryugo_code_text(SERYUGO_FORKED + 1), "unknown code") == 0, "another number has none");
}

int main(void)
{
    each_call();
    each_call_of_bytes();
    deadlines();
    lanes();
    cancelled(0);
    cancelled(1);
    cancelled_in_a_sink();
    goes_on();
    words();
    many_threads();
    full_journals();
    puts("each call waits, ends in time and wakes others");
    return 0;
}
