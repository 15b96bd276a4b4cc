/* Four threads on a switchboard whose journal is in a file. Each prints what returned, as soon as it returned: `sent V` or
 * `got V`. A script kills the program, and looks for all of that in the file: kills FILE RUN COUNT [bytes] [writes] [sealed]
 * [SEGMENT]. Values of a run begin with RUN, and each thread sends COUNT of them. It says how many entries it begins with. */
#include "seryugo_switchboard.h"

#include <errno.h>
#include <stdio.h>
#include <string.h>
#include <unistd.h>

#define THREADS 4

static struct seryugo_switchboard board;
static struct seryugo_seat seats[THREADS];
static uint64_t run, count;
static bool is_bytes;
static uint32_t worst;

/* One write(2), so that lines of threads don't mix. */
static void print(const char *word, uint64_t value)
{
    char line[64];
    int length = snprintf(line, sizeof line, "%s %llu\n", word, (unsigned long long)value);

    if (write(STDOUT_FILENO, line, (size_t)length) != length) {
        _exit(6);
    }
}

/* A message of bytes is the number and then bytes of all kinds, some of which are escaped. */
static uint32_t send_value(struct seryugo_seat *seat, uint64_t mailbox, uint64_t value)
{
    char bytes[64];
    size_t length;

    if (!is_bytes) {
        return seryugo_seat_send(seat, mailbox, value);
    }
    length = (size_t)snprintf(bytes, sizeof bytes, "%llu", (unsigned long long)value);
    for (; length < sizeof bytes - value % 50; length++) {
        bytes[length] = length % 7 == 0 ? (char)(value + length) : '.';
    }
    return seryugo_seat_bytes_send(seat, mailbox, bytes, length);
}

static uint32_t poll_value(struct seryugo_seat *seat, uint64_t mailbox, uint64_t *value)
{
    struct seryugo_bytes message;
    uint32_t code;

    if (!is_bytes) {
        return seryugo_seat_recv_poll(seat, mailbox, value);
    }
    code = seryugo_seat_bytes_recv_poll(seat, mailbox, &message);
    if (code == SERYUGO_DONE) {
        *value = strtoull((const char *)seryugo_bytes_at(&message), NULL, 10);
        seryugo_bytes_free(message);
    }
    return code;
}

static void *work(void *given)
{
    struct seryugo_seat *seat = (struct seryugo_seat *)given;
    uint64_t me = (uint64_t)(seat - seats), value = 0;
    uint32_t code = SERYUGO_DONE;

    for (uint64_t at = 0; at < count && (code == SERYUGO_DONE || code == SERYUGO_NOTHING); at++) {
        uint64_t sent = (run << 32) + (me << 28) + at;

        code = send_value(seat, me, sent);
        if (code == SERYUGO_DONE) {
            print("sent", sent);
            code = poll_value(seat, (me + at) % THREADS, &value);
        }
        if (code == SERYUGO_DONE) {
            print("got", value);
        }
    }
    if (code != SERYUGO_DONE && code != SERYUGO_NOTHING) {
        worst = code;
    }
    seryugo_seat_leave(seat);
    return NULL;
}

static int fails(const char *what, uint32_t code, const char *words)
{
    fprintf(stderr, "%s: %s: %s\n", what, seryugo_code_text(code), words == NULL ? "" : words);
    return (int)code;
}

/* Reads the words behind the first three. */
static void take_words(char **words, struct seryugo_file_options *options)
{
    for (; *words != NULL; words++) {
        is_bytes = is_bytes || strcmp(*words, "bytes") == 0;
        options->flags |= strcmp(*words, "writes") == 0 ? (uint32_t)SERYUGO_FILE_BY_WRITES : 0;
        options->flags |= strcmp(*words, "sealed") == 0 ? (uint32_t)SERYUGO_FILE_SEALED : 0;
        options->segment = **words >= '0' && **words <= '9' ? strtoull(*words, NULL, 10) : options->segment;
    }
}

static uint32_t work_all(void)
{
    pthread_t threads[THREADS];
    uint32_t code = SERYUGO_DONE;
    size_t at;

    for (at = 0; at < THREADS && code == SERYUGO_DONE; at++) {
        code = seryugo_seat_open(&board, &seats[at]);
    }
    for (at = 0; at < THREADS && code == SERYUGO_DONE; at++) {
        code = seryugo_seat_mailbox_again(&seats[0], at);
    }
    for (at = 0; at < THREADS && code == SERYUGO_DONE; at++) {
        pthread_create(&threads[at], NULL, work, &seats[at]);
    }
    for (at = 0; at < THREADS && code == SERYUGO_DONE; at++) {
        pthread_join(threads[at], NULL);
    }
    return code;
}

int main(int many, char **words)
{
    struct seryugo_file_options options = {.sync_milliseconds = 20};
    struct seryugo_file_found found;
    const char *told;
    uint32_t code;
    int cause = 0;

    if (many < 4) {
        return 64;
    }
    run = strtoull(words[2], NULL, 10);
    count = strtoull(words[3], NULL, 10);
    take_words(words + 4, &options);
    code = seryugo_switchboard_open_file(words[1], is_bytes ? SERYUGO_BYTES : SERYUGO_NUMBERS, &options, &found, &board);
    if (code != SERYUGO_DONE) {
        return fails("open", code, found.words);
    }
    fprintf(stderr, "opened entries %llu cut %llu\n", (unsigned long long)found.entries, (unsigned long long)found.cut_off);
    code = work_all();
    code = code == SERYUGO_DONE ? worst : code;
    if (code != SERYUGO_DONE) {
        told = seryugo_file_error(board.file, &cause);
        (void)fails("work", code, told);
    }
    worst = seryugo_switchboard_close(&board);
    if (code == SERYUGO_DONE && worst != SERYUGO_DONE) {
        (void)fails("close", worst, strerror(errno));
    }
    return (int)(code == SERYUGO_DONE ? worst : code);
}
