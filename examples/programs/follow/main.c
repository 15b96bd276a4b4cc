/* A service whose journal is kept in Redis, so that a second machine goes on where the first one was killed. docs/FOLLOW.md has the
 * whole picture. */
#include "client.h"
#include "errors.h"
#include "follower.h"
#include "leader.h"

#include <stdio.h>
#include <stdlib.h>
#include <string.h>
#include <unistd.h>

static const char usage[] = "usage: follow serve [--lease MILLISECONDS] [--compact-from ENTRIES] REDIS STREAM ADDRESS\n"
                            "       follow dump REDIS STREAM\n"
                            "       follow client [--every MILLISECONDS] NUMBER ADDRESS..\n"
                            "       follow ask ADDRESS LINE..\n"
                            "REDIS and ADDRESS are HOST:PORT, or PORT alone for 127.0.0.1.\n";

/* Milliseconds. */
#define LEASE_TIME 2000
#define LEASE_LEAST 100
#define TIME_MOST 60000

/* A short journal isn't made of fewer entries. */
#define COMPACT_FROM 100000
#define COMPACT_MOST 1000000000

#define ADDRESSES_MOST 64

static _Noreturn void end_with_usage(void)
{
    fputs(usage, stderr);
    exit(STATUS_WORDS);
}

static uint64_t number_of(const char *word)
{
    uint64_t number;

    if (!span_number((struct span){ word, strlen(word) }, &number)) {
        fail(STATUS_WORDS, "%s is no number", word);
    }
    return number;
}

/* A name that no other process has. */
static void name_process(const struct address *address, char *name, size_t size)
{
    FILE *file = fopen("/dev/urandom", "rb");
    uint64_t any;

    if (file == NULL || fread(&any, sizeof any, 1, file) != 1) {
        fail(STATUS_NETWORK, "/dev/urandom can't be read");
    }
    fclose(file);
    snprintf(name, size, "%s/%ld/%016llx", address->name, (long)getpid(), (unsigned long long)any);
}

/* Follows, and then leads. */
static void serve(const struct lease *lease, int listener, const char *address, uint64_t least)
{
    struct follower follower;
    struct service service;
    uint64_t epoch;

    follower_open(&follower, lease->redis);
    if (!follower_wait(&follower, lease, &epoch)) {
        follower_close(&follower);
        close(listener);
        return;
    }
    service_open(&service, &follower.reading);
    follower_close(&follower);
    lead(lease, epoch, &service, listener, address, least);
    service_close(&service);
}

/* Takes an option and its number off the front of the words, if it is there. */
static int option(const char *name, int *count, char ***words, int otherwise, int most)
{
    uint64_t number;

    if (*count < 2 || strcmp((*words)[0], name) != 0) {
        return otherwise;
    }
    number = number_of((*words)[1]);
    if (number > (uint64_t)most) {
        fail(STATUS_WORDS, "%s is at most %d", name, most);
    }
    *words += 2;
    *count -= 2;
    return (int)number;
}

static void run_server(int count, char **words)
{
    struct lease lease = { NULL, NULL, option("--lease", &count, &words, LEASE_TIME, TIME_MOST) };
    int least = option("--compact-from", &count, &words, COMPACT_FROM, COMPACT_MOST);
    struct address redis_address, address;
    struct redis redis;
    char name[320];
    int listener;

    if (count != 3) {
        end_with_usage();
    }
    if (lease.milliseconds < LEASE_LEAST) {
        fail(STATUS_WORDS, "a lease has at least %d milliseconds", LEASE_LEAST);
    }
    redis_address = address_read(words[0]);
    address = address_read(words[2]);
    name_process(&address, name, sizeof name);
    listener = address_bind(&address);
    redis_open(&redis, &redis_address, words[1]);
    lease.redis = &redis;
    lease.name = name;
    serve(&lease, listener, address.name, (uint64_t)least);
    redis_close(&redis);
}

/* Appends a piece to what is dumped. A short journal stands for all pieces before it. */
static void dump_piece(void *context, const struct entry *entry)
{
    struct text *text = context;

    if (entry->kind == ENTRY_SHORT) {
        text_drop(text, text->length);
    }
    if (entry->kind != ENTRY_LEADER) {
        text_add(text, entry->value.at, entry->value.length);
    }
}

static void run_dump(int count, char **words)
{
    struct address address;
    struct redis redis;
    struct text text = { NULL, 0, 0 };

    if (count != 2) {
        end_with_usage();
    }
    address = address_read(words[0]);
    redis_open(&redis, &address, words[1]);
    while (stream_read(&redis, 0, dump_piece, &text) != 0) {
    }
    redis_close(&redis);
    if (text.length != 0 && fwrite(text.at, 1, text.length, stdout) != text.length) {
        fail(STATUS_NETWORK, "standard output can't be written");
    }
    text_free(&text);
}

static void run_client(int count, char **words)
{
    struct address addresses[ADDRESSES_MOST];
    int every = option("--every", &count, &words, 0, TIME_MOST);

    if (count < 2 || count > ADDRESSES_MOST) {
        end_with_usage();
    }
    for (int i = 1; i < count; i++) {
        addresses[i - 1] = address_read(words[i]);
    }
    client_run(number_of(words[0]), addresses, (size_t)count - 1, every);
}

static void run_ask(int count, char **words)
{
    struct address address;

    if (count < 2) {
        end_with_usage();
    }
    address = address_read(words[0]);
    client_ask(&address, words + 1, (size_t)count - 1);
}

int main(int argc, char **argv)
{
    const char *verb = argc > 1 ? argv[1] : "";

    watch_signals();
    /* Each line is there at once, also in a file. */
    setvbuf(stdout, NULL, _IOLBF, 0);
    if (strcmp(verb, "serve") == 0) {
        run_server(argc - 2, argv + 2);
    } else if (strcmp(verb, "dump") == 0) {
        run_dump(argc - 2, argv + 2);
    } else if (strcmp(verb, "client") == 0) {
        run_client(argc - 2, argv + 2);
    } else if (strcmp(verb, "ask") == 0) {
        run_ask(argc - 2, argv + 2);
    } else {
        end_with_usage();
    }
    if (fflush(stdout) != 0 || ferror(stdout)) {
        fail(STATUS_NETWORK, "standard output can't be written");
    }
    return STATUS_DONE;
}
