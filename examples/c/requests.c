/* Four threads that send requests of 0 to 100,000 bytes, and one that answers each. Every answer is compared byte for byte. Then
 * the journal is checked, entry by entry. `requests N` sends N requests from each thread, 100 if none is named.
 *
 * A call that fails for want of memory is made again, since it changed nothing. So the program ends well even if one request for
 * memory is refused. */
#include "require.h"
#include "seryugo.h"

#include <pthread.h>
#include <stdio.h>
#include <stdlib.h>
#include <string.h>

#define CLIENTS 4
#define SEATS (CLIENTS + 1)
#define LONGEST 100000

static const size_t lengths[] = { 0, 1, 13, 14, 15, 31, 32, 63, 64, 127, 128, 255, 256, 1000, 4096, LONGEST };

#define LENGTHS (sizeof lengths / sizeof *lengths)

/* A room under its lock, with a condition for each seat, and two mailboxes for each client. */
struct office {
    struct seryugo room;
    pthread_mutex_t lock;
    pthread_cond_t due[SEATS];
    uint64_t requests[CLIENTS];
    uint64_t answers[CLIENTS];
    unsigned each;
};

/* A thread's part: its seat, which has the client's number, and room for a message. */
struct part {
    struct office *office;
    uint64_t seat;
    uint8_t bytes[LONGEST];
};

static struct part parts[SEATS];

/* A call that asks for memory, until there is some. */
#define WITH_MEMORY(told, call)            \
    do {                                   \
        (told) = (call);                   \
    } while ((told) == SERYUGO_NO_MEMORY)

#define IS_DONE(call, what)                \
    do {                                   \
        uint32_t code;                     \
        WITH_MEMORY(code, call);           \
        require(code == SERYUGO_DONE, what); \
    } while (0)

/* Lets the lock go after a call, and then wakes the thread of the next seat that is due. That thread wakes the one after. */
static void let_go(struct office *office)
{
    uint64_t seat;
    uint32_t told = seryugo_next_due(&office->room, &seat);

    pthread_mutex_unlock(&office->lock);
    if (told == SERYUGO_DONE) {
        pthread_cond_signal(&office->due[seat]);
    }
}

/* Sleeps until the seat is due, and has the lock then. */
static void sleep_until_due(struct office *office, uint64_t seat)
{
    pthread_mutex_lock(&office->lock);
    while (seryugo_is_due(&office->room, seat) == SERYUGO_NOTHING) {
        pthread_cond_wait(&office->due[seat], &office->lock);
    }
}

/* Receives, and waits while there is nothing. A call that finds no memory is made again as it was; if the seat is free by then,
 * it is made anew. */
static struct seryugo_bytes receive(struct office *office, uint64_t seat, uint64_t mailbox)
{
    struct seryugo_bytes message;
    bool is_again = false;
    uint32_t told;

    pthread_mutex_lock(&office->lock);
    for (;;) {
        told = seryugo_bytes_recv(&office->room, seat, mailbox, is_again, &message);
        if (told == SERYUGO_PARKED) {
            let_go(office);
            sleep_until_due(office, seat);
            is_again = true;
        } else if (told == SERYUGO_GONE && is_again) {
            is_again = false;
        } else if (told != SERYUGO_NO_MEMORY) {
            break;
        }
    }
    let_go(office);
    require(told == SERYUGO_DONE, "a message is received");
    return message;
}

static void send_bytes(struct office *office, uint64_t seat, uint64_t mailbox, const uint8_t *at, size_t length)
{
    pthread_mutex_lock(&office->lock);
    IS_DONE(seryugo_bytes_send(&office->room, seat, mailbox, at, length), "a message is sent");
    let_go(office);
}

static void leave(struct part *part)
{
    pthread_mutex_lock(&part->office->lock);
    require(seryugo_leave(&part->office->room, part->seat) == SERYUGO_DONE, "a seat leaves");
    let_go(part->office);
}

/* The n-th request of a client: its length, and each of its bytes. */
static size_t length_of(uint64_t client, unsigned n)
{
    return lengths[(n + client) % LENGTHS];
}

static uint8_t byte_of(uint64_t client, unsigned n, size_t i)
{
    return (uint8_t)(client * 61 + n * 17 + i * 7 + (i >> 8));
}

/* What a byte is answered by. */
static uint8_t answer_to(uint8_t byte)
{
    return (uint8_t)~byte;
}

static void *ask(void *given)
{
    struct part *part = given;
    uint64_t client = part->seat;

    for (unsigned n = 0; n < part->office->each; n++) {
        size_t length = length_of(client, n);
        struct seryugo_bytes answer;
        const uint8_t *answered;

        for (size_t i = 0; i < length; i++) {
            part->bytes[i] = byte_of(client, n, i);
        }
        send_bytes(part->office, part->seat, part->office->requests[client], part->bytes, length);
        answer = receive(part->office, part->seat, part->office->answers[client]);
        require(answer.length == length, "an answer is as long as its request");
        answered = seryugo_bytes_at(&answer);
        for (size_t i = 0; i < length; i++) {
            require(answered[i] == answer_to(byte_of(client, n, i)), "each byte is answered");
        }
        seryugo_bytes_free(answer);
    }
    leave(part);
    return NULL;
}

static void answer_one(struct part *part, uint64_t client)
{
    struct seryugo_bytes request = receive(part->office, part->seat, part->office->requests[client]);
    const uint8_t *requested = seryugo_bytes_at(&request);

    for (size_t i = 0; i < request.length; i++) {
        part->bytes[i] = answer_to(requested[i]);
    }
    send_bytes(part->office, part->seat, part->office->answers[client], part->bytes, request.length);
    seryugo_bytes_free(request);
}

static void *answer_all(void *given)
{
    struct part *part = given;

    for (unsigned n = 0; n < part->office->each; n++) {
        for (uint64_t client = 0; client < CLIENTS; client++) {
            answer_one(part, client);
        }
    }
    leave(part);
    return NULL;
}

static void open_office(struct office *office, unsigned each)
{
    IS_DONE(seryugo_bytes_room_open((uint64_t)1 << 32, &office->room), "a room is opened");
    pthread_mutex_init(&office->lock, NULL);
    office->each = each;
    for (int i = 0; i < SEATS; i++) {
        pthread_cond_init(&office->due[i], NULL);
        parts[i].office = office;
        IS_DONE(seryugo_new_seat(&office->room, &parts[i].seat), "a seat is made");
    }
    for (int i = 0; i < CLIENTS; i++) {
        IS_DONE(seryugo_new_mailbox(&office->room, 0, &office->requests[i]), "a mailbox is made");
        IS_DONE(seryugo_new_mailbox(&office->room, 0, &office->answers[i]), "a mailbox is made");
    }
}

static void run(void)
{
    pthread_t threads[SEATS];

    for (int i = 0; i < SEATS; i++) {
        require(pthread_create(&threads[i], NULL, i < CLIENTS ? ask : answer_all, &parts[i]) == 0, "a thread is started");
    }
    for (int i = 0; i < SEATS; i++) {
        pthread_join(threads[i], NULL);
    }
}

/* Checks the taken journal's entries one by one. */
static void check(struct seryugo *journal, uint64_t count)
{
    struct seryugo checker;
    uint64_t found = 0;

    IS_DONE(seryugo_bytes_checker_open(&checker), "a checker is opened");
    for (uint64_t place = 0; place < count; place++) {
        struct seryugo_bytes_entry entry;

        IS_DONE(seryugo_bytes_taken_entry(journal, place, &entry), "an entry is handed over");
        IS_DONE(seryugo_bytes_checker_feed(&checker, &entry), "an entry is lawful");
        seryugo_bytes_entry_free(entry);
    }
    IS_DONE(seryugo_checker_verdict(&checker, &found), "the journal is lawful");
    require(found == count, "each entry was checked");
    seryugo_close(checker);
}

static void close_office(struct office *office)
{
    struct seryugo journal;
    uint64_t count = 0;

    IS_DONE(seryugo_take_journal(&office->room, &journal, &count), "the journal is taken");
    require(count == 2 * CLIENTS + 4 * (uint64_t)CLIENTS * office->each, "each call has its entry");
    seryugo_close(office->room);
    pthread_mutex_destroy(&office->lock);
    for (int i = 0; i < SEATS; i++) {
        pthread_cond_destroy(&office->due[i]);
    }
    check(&journal, count);
    seryugo_close(journal);
}

int main(int argc, char **argv)
{
    static struct office office;
    unsigned each = argc > 1 ? (unsigned)strtoul(argv[1], NULL, 10) : 100;

    open_office(&office, each);
    run();
    close_office(&office);
    printf("%u requests answered, and the journal is lawful\n", CLIENTS * each);
    return 0;
}
