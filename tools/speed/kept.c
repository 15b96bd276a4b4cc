/* How many messages a second are kept: `kept WAY THREADS SECONDS PLACE`. Each thread sends a message of 64 bytes to a queue of its
 * own and receives it, each call answered before the next. PLACE is a file that isn't there, or the port of a Redis server.
 *
 * Ways: memory, file, sealed and disk (this library, without a file, with a journal in a file, with sums in that, and on the disk
 * before a call returns), file_synced (16 sends and a sync, and then 16 receives and a sync), fdatasync (bytes that are written to
 * a file and synced, for a send and for a receive, by each thread for itself), sqlite (a connection for each thread),
 * sqlite_batched (a thread that writes for all), both also with _full (on the disk before a transaction ends), redis,
 * redis_pipelined (16 sends, and then 16 receives, at a time), both also with _always (a server that syncs before it answers). */
#ifndef _GNU_SOURCE
#define _GNU_SOURCE
#endif
#include <fcntl.h>
#include <hiredis/hiredis.h>
#include <seryugo_switchboard.h>
#include <sqlite3.h>
#include <stdatomic.h>
#include <stdio.h>
#include <stdlib.h>
#include <string.h>
#include <unistd.h>

#define LENGTH 64
#define AT_ONCE 16

static char message[LENGTH];
static atomic_bool is_over;
static const char *place;

static void need(bool is_so, const char *what)
{
    if (!is_so) {
        fprintf(stderr, "kept: %s\n", what);
        exit(1);
    }
}

/* ---- this library ---- */

static struct seryugo_switchboard board;

static void open_board(bool has_file, uint32_t keep, uint32_t flags)
{
    struct seryugo_file_options options = {.sync_milliseconds = 1000, .flags = flags, .keep = keep};
    uint32_t code = has_file ? seryugo_switchboard_open_file(place, SERYUGO_BYTES, &options, NULL, &board)
                             : seryugo_bytes_switchboard_open(65536, &board);

    need(code == SERYUGO_DONE, "open the switchboard");
    need(has_file || seryugo_switchboard_when_full(&board, NULL, NULL) == SERYUGO_DONE, "drop the journal");
}

static void open_memory(void) { open_board(false, SERYUGO_KEEP_PROCESS, 0); }

static void open_file(void) { open_board(true, SERYUGO_KEEP_PROCESS, 0); }

static void open_sealed(void) { open_board(true, SERYUGO_KEEP_PROCESS, SERYUGO_FILE_SEALED); }

static void open_disk(void) { open_board(true, SERYUGO_KEEP_DISK, 0); }

static uint64_t pass_board_by(uint64_t at_once, bool is_synced)
{
    struct seryugo_seat seat;
    struct seryugo_bytes got;
    uint64_t mailbox, passed = 0;

    need(seryugo_seat_open(&board, &seat) == SERYUGO_DONE && seryugo_seat_new_mailbox(&seat, &mailbox) == SERYUGO_DONE, "a mailbox");
    for (; !is_over; passed += at_once) {
        for (uint64_t i = 0; i < at_once; i++) {
            need(seryugo_seat_bytes_send(&seat, mailbox, message, LENGTH) == SERYUGO_DONE, "send");
        }
        need(!is_synced || seryugo_switchboard_sync(&board) == SERYUGO_DONE, "sync");
        for (uint64_t i = 0; i < at_once; i++) {
            need(seryugo_seat_bytes_recv(&seat, mailbox, NULL, &got) == SERYUGO_DONE, "receive");
            seryugo_bytes_free(got);
        }
        need(!is_synced || seryugo_switchboard_sync(&board) == SERYUGO_DONE, "sync");
    }
    seryugo_seat_leave(&seat);
    return passed;
}

static uint64_t pass_board(uint64_t thread)
{
    (void)thread;
    return pass_board_by(1, false);
}

static uint64_t pass_synced(uint64_t thread)
{
    (void)thread;
    return pass_board_by(AT_ONCE, true);
}

/* ---- the system ---- */

#define PLACES ((uint64_t)64 << 10)

static int bare;

static void open_bare(void)
{
    bare = open(place, O_CREAT | O_RDWR, 0600);
    need(bare >= 0 && posix_fallocate(bare, 0, (off_t)(64 * PLACES * LENGTH)) == 0, "make the file");
}

static uint64_t pass_bare(uint64_t thread)
{
    uint64_t at = 0;

    for (; !is_over; at++) {
        need(pwrite(bare, message, LENGTH, (off_t)((thread * PLACES + at % PLACES) * LENGTH)) == LENGTH, "write");
        need(fdatasync(bare) == 0, "sync");
    }
    return at / 2;
}

/* ---- SQLite ---- */

/* Whether each transaction is on the disk before it ends. */
static bool is_full;

static sqlite3 *open_sqlite(void)
{
    sqlite3 *base = NULL;

    need(sqlite3_open(place, &base) == SQLITE_OK, "open the base");
    sqlite3_busy_timeout(base, 60000);
    need(sqlite3_exec(base, is_full ? "PRAGMA synchronous=FULL" : "PRAGMA synchronous=NORMAL", NULL, NULL, NULL) == SQLITE_OK, "choose");
    need(sqlite3_exec(base, "PRAGMA journal_mode=WAL;"
                            "CREATE TABLE IF NOT EXISTS letters (number INTEGER PRIMARY KEY, queue INTEGER, message BLOB);"
                            "CREATE INDEX IF NOT EXISTS queues ON letters (queue, number);", NULL, NULL, NULL) == SQLITE_OK, "prepare the base");
    return base;
}

static sqlite3_stmt *prepared(sqlite3 *base, const char *words)
{
    sqlite3_stmt *statement = NULL;

    need(sqlite3_prepare_v2(base, words, -1, &statement, NULL) == SQLITE_OK, words);
    return statement;
}

/* What a thread does to the base: a send, and a receive. */
struct queue {
    sqlite3 *base;
    sqlite3_stmt *send;
    sqlite3_stmt *receive;
};

static void make_base(void) { sqlite3_close(open_sqlite()); }

static void make_full_base(void)
{
    is_full = true;
    make_base();
}

static struct queue open_queue(void)
{
    struct queue queue = {open_sqlite(), NULL, NULL};

    queue.send = prepared(queue.base, "INSERT INTO letters (queue, message) VALUES (?1, ?2)");
    queue.receive = prepared(queue.base, "DELETE FROM letters WHERE number = (SELECT min(number) FROM letters WHERE queue = ?1)"
                                         " RETURNING message");
    return queue;
}

static void send_sqlite(struct queue *queue, uint64_t thread)
{
    sqlite3_bind_int64(queue->send, 1, (sqlite3_int64)thread);
    sqlite3_bind_blob(queue->send, 2, message, LENGTH, SQLITE_STATIC);
    need(sqlite3_step(queue->send) == SQLITE_DONE, "send");
    sqlite3_reset(queue->send);
}

static void receive_sqlite(struct queue *queue, uint64_t thread)
{
    sqlite3_bind_int64(queue->receive, 1, (sqlite3_int64)thread);
    need(sqlite3_step(queue->receive) == SQLITE_ROW && sqlite3_column_bytes(queue->receive, 0) == LENGTH, "receive");
    need(sqlite3_step(queue->receive) == SQLITE_DONE, "receive");
    sqlite3_reset(queue->receive);
}

static void close_queue(struct queue *queue)
{
    sqlite3_finalize(queue->send);
    sqlite3_finalize(queue->receive);
    sqlite3_close(queue->base);
}

static uint64_t pass_sqlite(uint64_t thread)
{
    struct queue queue = open_queue();
    uint64_t passed = 0;

    for (; !is_over; passed++) {
        send_sqlite(&queue, thread);
        receive_sqlite(&queue, thread);
    }
    close_queue(&queue);
    return passed;
}

/* One thread writes what the others ask for, all that waits in one transaction. A thread waits for its own. */
static pthread_mutex_t asked_lock = PTHREAD_MUTEX_INITIALIZER;
static pthread_cond_t is_asked = PTHREAD_COND_INITIALIZER, is_done = PTHREAD_COND_INITIALIZER;
static struct {
    uint64_t thread;
    bool is_send;
} asked[1024];
static uint64_t asked_count, done_count, taken_count;

static void ask(uint64_t thread, bool is_send)
{
    uint64_t mine;

    pthread_mutex_lock(&asked_lock);
    mine = asked_count++;
    asked[mine % 1024].thread = thread;
    asked[mine % 1024].is_send = is_send;
    pthread_cond_signal(&is_asked);
    while (done_count <= mine) {
        pthread_cond_wait(&is_done, &asked_lock);
    }
    pthread_mutex_unlock(&asked_lock);
}

static void *write_all(void *unused)
{
    struct queue queue = open_queue();

    (void)unused;
    pthread_mutex_lock(&asked_lock);
    for (;;) {
        uint64_t end;

        while (asked_count == taken_count) {
            pthread_cond_wait(&is_asked, &asked_lock);
        }
        end = asked_count;
        pthread_mutex_unlock(&asked_lock);
        sqlite3_exec(queue.base, "BEGIN IMMEDIATE", NULL, NULL, NULL);
        for (; taken_count < end; taken_count++) {
            (asked[taken_count % 1024].is_send ? send_sqlite : receive_sqlite)(&queue, asked[taken_count % 1024].thread);
        }
        need(sqlite3_exec(queue.base, "COMMIT", NULL, NULL, NULL) == SQLITE_OK, "commit");
        pthread_mutex_lock(&asked_lock);
        done_count = end;
        pthread_cond_broadcast(&is_done);
    }
    return NULL;
}

static void open_writer(void)
{
    pthread_t writer;

    need(pthread_create(&writer, NULL, write_all, NULL) == 0, "start the writer");
}

static void open_full_writer(void)
{
    is_full = true;
    open_writer();
}

static uint64_t pass_batched(uint64_t thread)
{
    uint64_t passed = 0;

    for (; !is_over; passed++) {
        ask(thread, true);
        ask(thread, false);
    }
    return passed;
}

/* ---- Redis Streams ---- */

static void open_none(void) {}

static void answered(redisContext *redis, const char *what)
{
    redisReply *reply = NULL;

    need(redisGetReply(redis, (void **)&reply) == REDIS_OK && reply->type != REDIS_REPLY_ERROR && reply->type != REDIS_REPLY_NIL, what);
    freeReplyObject(reply);
}

static uint64_t pass_redis_by(uint64_t thread, int at_once)
{
    redisContext *redis = redisConnect("127.0.0.1", atoi(place));
    uint64_t passed = 0;

    need(redis != NULL && redis->err == 0, "connect");
    freeReplyObject(redisCommand(redis, "XGROUP CREATE q%llu readers $ MKSTREAM", (unsigned long long)thread));
    for (; !is_over; passed += (uint64_t)at_once) {
        for (int i = 0; i < at_once; i++) {
            redisAppendCommand(redis, "XADD q%llu * m %b", (unsigned long long)thread, message, (size_t)LENGTH);
        }
        for (int i = 0; i < at_once; i++) {
            answered(redis, "send");
        }
        for (int i = 0; i < at_once; i++) {
            redisAppendCommand(redis, "XREADGROUP GROUP readers %llu COUNT 1 NOACK STREAMS q%llu >", (unsigned long long)thread,
                               (unsigned long long)thread);
        }
        for (int i = 0; i < at_once; i++) {
            answered(redis, "receive");
        }
    }
    redisFree(redis);
    return passed;
}

static uint64_t pass_redis(uint64_t thread) { return pass_redis_by(thread, 1); }

static uint64_t pass_pipelined(uint64_t thread) { return pass_redis_by(thread, AT_ONCE); }

/* ---- all ---- */

static const struct way {
    const char *name;
    void (*open)(void);
    uint64_t (*pass)(uint64_t thread);
} ways[] = {
    {"memory", open_memory, pass_board},       {"file", open_file, pass_board},
    {"sealed", open_sealed, pass_board},
    {"disk", open_disk, pass_board},           {"file_synced", open_file, pass_synced},
    {"fdatasync", open_bare, pass_bare},       {"sqlite", make_base, pass_sqlite},
    {"sqlite_full", make_full_base, pass_sqlite},
    {"sqlite_batched", open_writer, pass_batched},
    {"sqlite_batched_full", open_full_writer, pass_batched},
    {"redis", open_none, pass_redis},          {"redis_always", open_none, pass_redis},
    {"redis_pipelined", open_none, pass_pipelined},
    {"redis_pipelined_always", open_none, pass_pipelined},
};

static const struct way *way;

static void *pass(void *thread)
{
    uint64_t *passed = (uint64_t *)thread;

    *passed = way->pass(*passed);
    return NULL;
}

int main(int count, char **words)
{
    pthread_t threads[64];
    uint64_t passed[64], sum = 0;
    int many = count == 5 ? atoi(words[2]) : 0, seconds = count == 5 ? atoi(words[3]) : 0;

    for (size_t i = 0; count == 5 && i < sizeof ways / sizeof *ways; i++) {
        way = strcmp(words[1], ways[i].name) == 0 ? &ways[i] : way;
    }
    need(way != NULL && many >= 1 && many <= 64 && seconds >= 1, "usage: kept WAY THREADS SECONDS PLACE");
    place = words[4];
    memset(message, 'm', LENGTH);
    way->open();
    for (int i = 0; i < many; i++) {
        passed[i] = (uint64_t)i;
        need(pthread_create(&threads[i], NULL, pass, &passed[i]) == 0, "start a thread");
    }
    sleep((unsigned)seconds);
    is_over = true;
    for (int i = 0; i < many; i++) {
        pthread_join(threads[i], NULL);
        sum += passed[i];
    }
    printf("%llu\n", (unsigned long long)(sum / (uint64_t)seconds));
    return 0;
}
