/* How long callers wait while a long file becomes short: `state FILE`. One thread sends and receives 64 bytes, while 1,000, 100,000 or
 * 1,000,000 such messages wait. It prints the milliseconds of the longest call of an exchange, and how long it takes to have the
 * room's state, which one of the calls does: each the median of five. It syncs often, or calls would wait for the disk too. */
#include <seryugo_switchboard.h>
#include <stdio.h>
#include <stdlib.h>
#include <string.h>
#include <time.h>
#include <unistd.h>

#define ROUNDS 5

static struct seryugo_switchboard board;
static struct seryugo_seat seat;
static char message[64];

static void need(bool is_so)
{
    if (!is_so) {
        fputs("state: a call fails\n", stderr);
        exit(1);
    }
}

static double now(void)
{
    struct timespec time;

    clock_gettime(CLOCK_MONOTONIC, &time);
    return (double)time.tv_sec * 1e3 + (double)time.tv_nsec / 1e6;
}

static int compare(const void *left, const void *right)
{
    double difference = *(const double *)left - *(const double *)right;

    return (difference > 0) - (difference < 0);
}

static double median(double *times)
{
    qsort(times, ROUNDS, sizeof *times, compare);
    return times[ROUNDS / 2];
}

static double take_state(void)
{
    struct seryugo journal;
    uint64_t count;
    double start, end;

    seryugo_switchboard_lock(&board);
    start = now();
    need(seryugo_compact(&board.room, &journal, &count) == SERYUGO_DONE);
    end = now();
    (void)seryugo_switchboard_unlock(&board);
    seryugo_close(journal);
    return end - start;
}

static double call_once(bool sends)
{
    struct seryugo_bytes received;
    double start = now();

    if (sends) {
        need(seryugo_seat_bytes_send(&seat, 1, message, sizeof message) == SERYUGO_DONE);
        return now() - start;
    }
    need(seryugo_seat_bytes_recv(&seat, 1, NULL, &received) == SERYUGO_DONE);
    start = now() - start;
    seryugo_bytes_free(received);
    return start;
}

/* The longest call up to the end of an exchange. */
static double call_on(uint64_t done)
{
    struct seryugo_file_exchanges ended = {.done = 0};
    double longest = 0, taken;

    for (uint64_t at = 0; ended.done <= done; at++) {
        taken = call_once(at % 2 == 0);
        longest = taken > longest ? taken : longest;
        if (at % 256 == 255) {
            need(seryugo_switchboard_sync(&board) == SERYUGO_DONE);
            seryugo_file_exchanges(board.file, &ended);
        }
    }
    return longest;
}

static void measure(const char *path, uint64_t messages)
{
    static const struct seryugo_file_options options = {.sync_milliseconds = 1000, .short_from = 1};
    double calls[ROUNDS], states[ROUNDS];

    need(seryugo_switchboard_open_file(path, SERYUGO_BYTES, &options, NULL, &board) == SERYUGO_DONE);
    need(seryugo_seat_open(&board, &seat) == SERYUGO_DONE && seryugo_seat_mailbox_again(&seat, 0) == SERYUGO_DONE
         && seryugo_seat_mailbox_again(&seat, 1) == SERYUGO_DONE);
    for (uint64_t at = 0; at < messages; at++) {
        need(seryugo_seat_bytes_send(&seat, 0, message, sizeof message) == SERYUGO_DONE);
    }
    for (uint64_t round = 0; round < ROUNDS; round++) {
        struct seryugo_file_exchanges ended;

        seryugo_file_exchanges(board.file, &ended);
        calls[round] = call_on(ended.done);
        states[round] = take_state();
    }
    printf("%llu: longest call %.3f, state %.3f\n", (unsigned long long)messages, median(calls), median(states));
    seryugo_seat_leave(&seat);
    need(seryugo_switchboard_close(&board) == SERYUGO_DONE);
    unlink(path);
}

int main(int many, char **words)
{
    if (many != 2) {
        return 64;
    }
    memset(message, 'm', sizeof message);
    measure(words[1], 1000);
    measure(words[1], 100000);
    measure(words[1], 1000000);
    return 0;
}
