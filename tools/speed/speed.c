/* What a message costs from C, on one thread and without a lock: `speed [MESSAGES [ONLY [ROUNDS]]]`. A seat sends it and receives it,
 * again and again. Only what has the word ONLY in its name is measured, as `in C, a number: by hand`, and all with an empty word.
 * Beside it a ring and a journal by hand, whose entries have as many bytes as those of a room of numbers. Both cut the journal after
 * each 10,000 messages. A short journal is made of as many empty mailboxes as MESSAGES, and of half as many with a message in each. A
 * line has the workload, the way, and the median of the rounds in nanoseconds a message, two spaces apart at least. All come in turn
 * in each round. */
#include "../../tests/c/checks.h"

#include <string.h>
#include <time.h>

#define CUT 10000
#define LIMIT (2 * CUT + 1)
#define MOST_ROUNDS 100
#define MOST_BYTES 1000

static struct seryugo room;
static bool has_room;
static uint64_t seat, mailbox;

/* By hand: a ring of messages, and a journal. It isn't static, since the compiler would leave out a journal that nobody reads. */
struct entry {
    uint64_t who, call, object, message, reply, got, spare;
};

struct entry journal[LIMIT];
static uint64_t entries;
static uint64_t ring[1024];
static uint64_t ring_first, ring_end;

static void free_all(void)
{
    close_one(&has_room, room);
}

static double now(void)
{
    struct timespec time;

    clock_gettime(CLOCK_MONOTONIC, &time);
    return (double)time.tv_sec * 1e9 + (double)time.tv_nsec;
}

static void open_room(uint32_t (*open)(uint64_t limit, struct seryugo *room), uint64_t limit)
{
    RETURNS(DONE, open(limit, &room));
    has_room = true;
    RETURNS(DONE, seryugo_new_seat(&room, &seat));
    RETURNS(DONE, seryugo_new_mailbox(&room, seat, &mailbox));
    RETURNS(DONE, seryugo_cut(&room));
}

static double numbers(uint64_t messages, size_t length)
{
    const double start = now();

    (void)length;
    open_room(seryugo_room_open, LIMIT);
    for (uint64_t n = 1; n <= messages; n++) {
        uint64_t received = 0;

        RETURNS(DONE, seryugo_send(&room, seat, mailbox, n));
        RETURNS(DONE, seryugo_recv(&room, seat, mailbox, false, &received));
        IS(n, received);
        if (n % CUT == 0) {
            RETURNS(DONE, seryugo_cut(&room));
        }
    }
    free_all();
    return now() - start;
}

static double bytes(uint64_t messages, size_t length)
{
    static uint8_t supply[MOST_BYTES];
    const double start = now();

    memset(supply, 'x', sizeof supply);
    open_room(seryugo_bytes_room_open, LIMIT);
    for (uint64_t n = 1; n <= messages; n++) {
        struct seryugo_bytes received;

        RETURNS(DONE, seryugo_bytes_send(&room, seat, mailbox, supply, length));
        RETURNS(DONE, seryugo_bytes_recv(&room, seat, mailbox, false, &received));
        IS(length, received.length);
        IS('x', seryugo_bytes_at(&received)[length - 1]);
        seryugo_bytes_free(received);
        if (n % CUT == 0) {
            RETURNS(DONE, seryugo_cut(&room));
        }
    }
    free_all();
    return now() - start;
}

/* Makes a short journal of this many objects and kept messages: each mailbox has `kept` messages. */
static double compacts(uint64_t messages, size_t kept)
{
    struct seryugo taken;
    uint64_t count;
    double start, time;

    open_room(seryugo_room_open, messages + LIMIT);
    for (uint64_t n = 1; n + kept < messages; n += 1 + kept) {
        RETURNS(DONE, seryugo_new_mailbox(&room, seat, &mailbox));
        for (size_t left = kept; left > 0; left--) {
            RETURNS(DONE, seryugo_send(&room, seat, mailbox, n));
        }
    }
    start = now();
    RETURNS(DONE, seryugo_compact(&room, &taken, &count));
    time = now() - start;
    seryugo_close(taken);
    free_all();
    return time;
}

static uint32_t note(struct entry entry)
{
    if (entries == LIMIT) {
        return SERYUGO_JOURNAL_FULL;
    }
    journal[entries++] = entry;
    return SERYUGO_DONE;
}

/* These two are called, as those of a library are. */
__attribute__((noinline)) static uint32_t send_by_hand(uint64_t message)
{
    uint32_t told = ring_end - ring_first < 1024 ? note((struct entry){.call = 1, .message = message}) : SERYUGO_FULL;

    if (told == SERYUGO_DONE) {
        ring[ring_end++ % 1024] = message;
    }
    return told;
}

__attribute__((noinline)) static uint32_t recv_by_hand(uint64_t *message)
{
    uint32_t told;

    if (ring_end == ring_first) {
        return SERYUGO_NOTHING;
    }
    told = note((struct entry){.call = 2, .reply = 1, .got = ring[ring_first % 1024]});
    if (told == SERYUGO_DONE) {
        *message = ring[ring_first++ % 1024];
    }
    return told;
}

static double by_hand(uint64_t messages, size_t length)
{
    const double start = now();

    (void)length;
    entries = 0;
    for (uint64_t n = 1; n <= messages; n++) {
        uint64_t received = 0;

        RETURNS(DONE, send_by_hand(n));
        RETURNS(DONE, recv_by_hand(&received));
        IS(n, received);
        if (n % CUT == 0) {
            entries = 0;
        }
    }
    return now() - start;
}

static const struct {
    const char *workload, *way;
    double (*pass)(uint64_t messages, size_t size);
    size_t size;
} ways[] = {
    {"in C, a number", "a seat", numbers, 0},
    {"in C, a number", "by hand", by_hand, 0},
    {"in C, 8 bytes", "a seat", bytes, 8},
    {"in C, 64 bytes", "a seat", bytes, 64},
    {"in C, 1,000 bytes", "a seat", bytes, 1000},
    {"in C, a short journal", "of empty mailboxes", compacts, 0},
    {"in C, a short journal", "of mailboxes with a message", compacts, 1},
};

#define WAYS (sizeof ways / sizeof *ways)

static int compare(const void *left, const void *right)
{
    const double a = *(const double *)left, b = *(const double *)right;

    return (a > b) - (a < b);
}

static bool is_asked(size_t way, const char *only)
{
    char name[100];

    snprintf(name, sizeof name, "%s: %s", ways[way].workload, ways[way].way);
    return strstr(name, only) != NULL;
}

int main(int argc, char **argv)
{
    static double times[WAYS][MOST_ROUNDS];
    const uint64_t messages = argc > 1 ? strtoull(argv[1], NULL, 10) : 200000;
    const char *only = argc > 2 ? argv[2] : "";
    const size_t rounds = argc > 3 ? strtoull(argv[3], NULL, 10) : 11;

    if (messages == 0 || rounds == 0 || rounds > MOST_ROUNDS) {
        fprintf(stderr, "usage: speed [MESSAGES [ONLY [ROUNDS]]], ROUNDS up to %d\n", MOST_ROUNDS);
        return 2;
    }
    for (size_t round = 0; round < rounds; round++) {
        for (size_t way = 0; way < WAYS; way++) {
            if (is_asked(way, only)) {
                times[way][round] = ways[way].pass(messages, ways[way].size) / (double)messages;
            }
        }
    }
    for (size_t way = 0; way < WAYS; way++) {
        if (!is_asked(way, only)) {
            continue;
        }
        qsort(times[way], rounds, sizeof(double), compare);
        printf("%-28s  %-26s  %9.1f\n", ways[way].workload, ways[way].way, times[way][rounds / 2]);
    }
    return 0;
}
