/* Threads on one room: four that send and one that receives, first from seats, then on lanes; and two that both wait, whose
 * calls return that they are stalled. The lock and the condition variables are the program's, since the library never waits. */
#include "require.h"
#include "seryugo.h"

#include <pthread.h>
#include <stdio.h>

#define SENDERS 4
#define EACH 20000
#define CAPACITY 64
#define SEATS (SENDERS + 1)

/* A room under its lock, and by the number of each seat what wakes its thread. */
struct board {
    struct seryugo room;
    pthread_mutex_t lock;
    pthread_cond_t due[SEATS];
    uint64_t mailbox;
};

/* A thread's own part: its seat, or its lane; and what it does there. */
struct part {
    struct board *board;
    uint64_t number;
    uint64_t sender;
    struct seryugo lane;
    uint32_t told;
    uint64_t expected[SENDERS];
};

static void open_board(struct board *board)
{
    require(seryugo_room_open((uint64_t)1 << 32, &board->room) == SERYUGO_DONE, "a room is opened");
    pthread_mutex_init(&board->lock, NULL);
    for (int i = 0; i < SEATS; i++) {
        pthread_cond_init(&board->due[i], NULL);
    }
}

static void close_board(struct board *board)
{
    seryugo_close(board->room);
    pthread_mutex_destroy(&board->lock);
    for (int i = 0; i < SEATS; i++) {
        pthread_cond_destroy(&board->due[i]);
    }
}

static uint64_t new_seat(struct board *board)
{
    uint64_t seat = 0;

    require(seryugo_new_seat(&board->room, &seat) == SERYUGO_DONE, "a seat is made");
    return seat;
}

/* Lets the lock go after a call, and then wakes the thread of the next seat that is due. That thread wakes the one after. */
static void let_go(struct board *board)
{
    uint64_t seat;
    uint32_t told = seryugo_next_due(&board->room, &seat);

    pthread_mutex_unlock(&board->lock);
    if (told == SERYUGO_DONE) {
        pthread_cond_signal(&board->due[seat]);
    }
}

/* Sleeps until the seat is due, and has the lock then. The room keeps in mind that the seat is due, so no wake is lost. */
static void sleep_until_due(struct board *board, uint64_t seat)
{
    pthread_mutex_lock(&board->lock);
    while (seryugo_is_due(&board->room, seat) == SERYUGO_NOTHING) {
        pthread_cond_wait(&board->due[seat], &board->lock);
    }
}

/* Receives, and waits while there is nothing: the call is made again when the seat is due. */
static uint32_t receive(struct board *board, uint64_t seat, uint64_t source, uint64_t *message)
{
    uint32_t told;

    pthread_mutex_lock(&board->lock);
    told = seryugo_recv(&board->room, seat, source, false, message);
    while (told == SERYUGO_PARKED) {
        let_go(board);
        sleep_until_due(board, seat);
        told = seryugo_recv(&board->room, seat, source, true, message);
    }
    let_go(board);
    return told;
}

static uint32_t send_message(struct board *board, uint64_t seat, uint64_t message)
{
    uint32_t told;

    pthread_mutex_lock(&board->lock);
    told = seryugo_send(&board->room, seat, board->mailbox, message);
    let_go(board);
    return told;
}

static void leave(struct board *board, uint64_t seat)
{
    pthread_mutex_lock(&board->lock);
    seryugo_leave(&board->room, seat);
    let_go(board);
}

static void *send_from_a_seat(void *given)
{
    struct part *part = given;

    for (uint64_t n = 0; n < EACH; n++) {
        require(send_message(part->board, part->number, part->sender * EACH + n) == SERYUGO_DONE, "a message is sent");
    }
    leave(part->board, part->number);
    return NULL;
}

/* Moves what was sent on a lane, under the lock. */
static void drain(struct board *board, uint64_t lane)
{
    uint64_t count;

    pthread_mutex_lock(&board->lock);
    require(seryugo_lane_drain(&board->room, lane, &count) == SERYUGO_DONE, "a lane is drained");
    let_go(board);
}

/* Only where the lane is full does its thread take the lock. */
static void *send_on_a_lane(void *given)
{
    struct part *part = given;

    for (uint64_t n = 0; n < EACH; n++) {
        while (seryugo_lane_send(&part->lane, part->sender * EACH + n) == SERYUGO_FULL) {
            drain(part->board, part->number);
        }
    }
    require(seryugo_lane_finish(&part->lane) == SERYUGO_DONE, "a lane ends");
    pthread_mutex_lock(&part->board->lock);
    require(seryugo_lane_close(&part->board->room, &part->lane) == SERYUGO_DONE, "a lane is closed");
    let_go(part->board);
    seryugo_close(part->lane);
    return NULL;
}

/* Each sender's messages come in its order, each once. */
static void *receive_all(void *given)
{
    struct part *part = given;
    uint64_t message = 0;

    for (uint64_t n = 0; n < SENDERS * EACH; n++) {
        require(receive(part->board, part->number, part->board->mailbox, &message) == SERYUGO_DONE, "a message comes");
        require(message % EACH == part->expected[message / EACH]++, "each sender's messages come in order");
    }
    leave(part->board, part->number);
    return NULL;
}

static void run(struct board *board, struct part *parts, void *(*send)(void *))
{
    pthread_t threads[SEATS];
    uint64_t count = 0;

    for (int i = 0; i < SENDERS; i++) {
        require(pthread_create(&threads[i], NULL, send, &parts[i]) == 0, "a thread is started");
    }
    require(pthread_create(&threads[SENDERS], NULL, receive_all, &parts[SENDERS]) == 0, "a thread is started");
    for (int i = 0; i <= SENDERS; i++) {
        pthread_join(threads[i], NULL);
    }
    require(seryugo_got(&board->room, board->mailbox, &count) == SERYUGO_DONE && count == SENDERS * EACH, "all were received");
    require(seryugo_owed(&board->room, board->mailbox, &count) == SERYUGO_DONE && count == 0, "none is left");
}

static void by_seats(void)
{
    struct board board;
    struct part parts[SEATS] = {{0}};

    open_board(&board);
    for (int i = 0; i <= SENDERS; i++) {
        parts[i].board = &board;
        parts[i].sender = i;
        parts[i].number = new_seat(&board);
    }
    require(seryugo_new_mailbox(&board.room, parts[SENDERS].number, &board.mailbox) == SERYUGO_DONE, "a mailbox is made");
    run(&board, parts, send_from_a_seat);
    close_board(&board);
    puts("four senders from seats: each in order");
}

static void by_lanes(void)
{
    struct board board;
    struct part parts[SEATS] = {{0}};

    open_board(&board);
    parts[SENDERS].board = &board;
    parts[SENDERS].number = new_seat(&board);
    require(seryugo_new_mailbox(&board.room, parts[SENDERS].number, &board.mailbox) == SERYUGO_DONE, "a mailbox is made");
    for (int i = 0; i < SENDERS; i++) {
        parts[i].board = &board;
        parts[i].sender = i;
        require(seryugo_lane_open(&board.room, board.mailbox, CAPACITY, &parts[i].lane, &parts[i].number) == SERYUGO_DONE, "a lane is opened");
    }
    run(&board, parts, send_on_a_lane);
    close_board(&board);
    puts("four senders on lanes: each in order");
}

static void *wait_for_ever(void *given)
{
    struct part *part = given;
    uint64_t message;

    part->told = receive(part->board, part->number, part->board->mailbox, &message);
    leave(part->board, part->number);
    return NULL;
}

static void both_wait(void)
{
    struct board board;
    struct part parts[2] = {{0}};
    pthread_t threads[2];

    open_board(&board);
    for (int i = 0; i < 2; i++) {
        parts[i].board = &board;
        parts[i].number = new_seat(&board);
    }
    require(seryugo_new_mailbox(&board.room, parts[0].number, &board.mailbox) == SERYUGO_DONE, "a mailbox is made");
    for (int i = 0; i < 2; i++) {
        require(pthread_create(&threads[i], NULL, wait_for_ever, &parts[i]) == 0, "a thread is started");
    }
    for (int i = 0; i < 2; i++) {
        pthread_join(threads[i], NULL);
        require(parts[i].told == SERYUGO_STALLED, "each call returns that it is stalled");
    }
    close_board(&board);
    puts("two that both wait: stalled");
}

int main(void)
{
    by_seats();
    by_lanes();
    both_wait();
    return 0;
}
