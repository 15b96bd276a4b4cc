/* What waits for the disk, with a sync that the test holds up: disk_waits FOLDER. While it is held, no call, no reader and no
 * call at its deadline returns what isn't on the disk; a receiver is woken nevertheless. Nobody fails by a slow clock: a test
 * waits a little for what must not come. */
#include "disk.h"

#include "seryugo_switchboard.h"

static struct seryugo_switchboard board;
static struct seryugo_seat ann, ben;
static char path[4096];
static char *folder;

/* What a thread does while the disk is held, and whether it was free once that returned. */
struct held_thread {
    void (*call)(void);
    pthread_t thread;
    atomic_bool has_returned;
    bool was_free;
};

static void needs(bool condition, const char *what, int line)
{
    if (!condition) {
        fprintf(stderr, "line %d: not so: %s\n", line, what);
        exit(1);
    }
}

#define NEEDS(condition) needs(condition, #condition, __LINE__)

/* ---- a board whose disk is held ---- */

static uint32_t open_with(uint32_t keep)
{
    struct seryugo_file_options options = {.segment = 4096, .keep = keep};

    unlink(path);
    return seryugo_switchboard_open_file(path, SERYUGO_NUMBERS, &options, NULL, &board);
}

static void begin(const char *name, uint32_t keep)
{
    snprintf(path, sizeof path, "%s/%s.journal", folder, name);
    NEEDS(open_with(keep) == SERYUGO_DONE);
    NEEDS(seryugo_seat_open(&board, &ann) == SERYUGO_DONE && seryugo_seat_open(&board, &ben) == SERYUGO_DONE);
    NEEDS(seryugo_seat_mailbox_again(&ann, 0) == SERYUGO_DONE);
    NEEDS(seryugo_switchboard_sync(&board) == SERYUGO_DONE);
    disk_begin(path);
}

static void end(uint32_t code)
{
    disk_end();
    seryugo_seat_leave(&ann);
    seryugo_seat_leave(&ben);
    NEEDS(seryugo_switchboard_close(&board) == code);
}

static void *run(void *given)
{
    struct held_thread *held = (struct held_thread *)given;

    held->call();
    held->was_free = disk_is_free();
    atomic_store(&held->has_returned, true);
    return NULL;
}

static void begin_call(struct held_thread *held, void (*call)(void))
{
    held->call = call;
    atomic_init(&held->has_returned, false);
    NEEDS(pthread_create(&held->thread, NULL, run, held) == 0);
}

/* What returned too early says so. It has a while to do that. */
static void frees_after(struct held_thread *held, size_t count)
{
    usleep(30000);
    disk_hold(false);
    for (size_t at = 0; at < count; at++) {
        pthread_join(held[at].thread, NULL);
        NEEDS(held[at].was_free);
    }
}

/* ---- the calls ---- */

static void send_five(void) { NEEDS(seryugo_seat_send(&ann, 0, 5) == SERYUGO_DONE); }

static void receive_five(void)
{
    uint64_t message = 0;

    NEEDS(seryugo_seat_recv(&ben, 0, NULL, &message) == SERYUGO_DONE && message == 5);
}

static void count_one(void)
{
    uint64_t owed = 0;

    seryugo_switchboard_lock(&board);
    NEEDS(seryugo_owed(&board.room, 0, &owed) == SERYUGO_DONE);
    NEEDS(seryugo_switchboard_unlock(&board) == SERYUGO_DONE && owed == 1);
}

static void see_nothing(void)
{
    uint64_t message = 0;
    struct timespec now = seryugo_in_milliseconds(0);

    NEEDS(seryugo_seat_recv(&ben, 0, &now, &message) == SERYUGO_TIMED_OUT);
}

static void lose_five(void) { NEEDS(seryugo_seat_send(&ann, 0, 5) == SERYUGO_FILE_LOST); }

static void count_nothing(void)
{
    uint64_t owed = 0;

    seryugo_switchboard_lock(&board);
    NEEDS(seryugo_owed(&board.room, 0, &owed) == SERYUGO_DONE);
    NEEDS(seryugo_switchboard_unlock(&board) == SERYUGO_FILE_LOST);
}

/* ---- the tests ---- */

static void a_call_and_a_reader_wait(void)
{
    struct held_thread held[2];

    begin("reader", SERYUGO_KEEP_DISK);
    disk_hold(true);
    begin_call(&held[0], send_five);
    disk_await_held();
    begin_call(&held[1], count_one);
    frees_after(held, 2);
    end(SERYUGO_DONE);
}

/* How many messages of the mailbox were received, on the disk or not. */
static uint64_t received(void)
{
    uint64_t got = 0;

    pthread_mutex_lock(&board.lock);
    (void)seryugo_got(&board.room, 0, &got);
    pthread_mutex_unlock(&board.lock);
    return got;
}

static void a_receiver_is_woken_at_once(void)
{
    struct held_thread held[2];

    begin("woken", SERYUGO_KEEP_DISK);
    disk_hold(true);
    begin_call(&held[0], receive_five);
    begin_call(&held[1], send_five);
    while (received() == 0) {
        usleep(1000);
    }
    frees_after(held, 2);
    end(SERYUGO_DONE);
}

static void a_deadline_waits_for_the_disk(void)
{
    struct held_thread held[2];

    begin("deadline", SERYUGO_KEEP_DISK);
    disk_hold(true);
    /* An entry that the time-out may rest on: without it the message would have come. */
    begin_call(&held[0], send_five);
    disk_await_held();
    pthread_mutex_lock(&board.lock);
    NEEDS(seryugo_recv(&board.room, ben.number, 0, false, &(uint64_t){0}) == SERYUGO_DONE);
    NEEDS(seryugo_note(&board) == SERYUGO_DONE);
    pthread_mutex_unlock(&board.lock);
    begin_call(&held[1], see_nothing);
    frees_after(held, 2);
    end(SERYUGO_DONE);
}

static struct seryugo feed;
static uint64_t feed_number, channel;

static void pump_one(void)
{
    uint64_t count = 0;

    seryugo_switchboard_lock(&board);
    NEEDS(seryugo_multicast(&board.room, ann.number, channel, 5) == SERYUGO_DONE);
    NEEDS(seryugo_feed_pump(&board.room, feed_number, &count) == SERYUGO_DONE && count == 1);
    NEEDS(seryugo_switchboard_unlock(&board) == SERYUGO_DONE);
}

static void feed_one(void)
{
    uint64_t message = 0;

    while (seryugo_feed_recv(&feed, &message) != SERYUGO_DONE) {
        usleep(1000);
    }
    seryugo_switchboard_lock(&board);
    NEEDS(seryugo_switchboard_unlock(&board) == SERYUGO_DONE && message == 5);
}

static void a_feed_waits_for_the_disk(void)
{
    struct held_thread held[2];

    begin("feed", SERYUGO_KEEP_DISK);
    NEEDS(seryugo_seat_new_channel(&ann, &channel) == SERYUGO_DONE);
    seryugo_switchboard_lock(&board);
    NEEDS(seryugo_feed_open(&board.room, channel, 4, &feed, &feed_number) == SERYUGO_DONE);
    NEEDS(seryugo_switchboard_unlock(&board) == SERYUGO_DONE);
    disk_hold(true);
    begin_call(&held[0], pump_one);
    begin_call(&held[1], feed_one);
    frees_after(held, 2);
    seryugo_close(feed);
    end(SERYUGO_DONE);
}

static void a_failed_sync_fails_all(void)
{
    struct held_thread held[2];

    begin("failed", SERYUGO_KEEP_DISK);
    disk_fails_at = 1;
    disk_hold(true);
    begin_call(&held[0], lose_five);
    disk_await_held();
    begin_call(&held[1], count_nothing);
    frees_after(held, 2);
    NEEDS(seryugo_seat_send(&ann, 0, 6) == SERYUGO_FILE_LOST);
    end(SERYUGO_FILE_LOST);
}

/* It waits for no message, so that it isn't ended before its call returns. It leaves nothing locked. */
static void a_cancelled_thread_leaves_no_lock(void)
{
    struct held_thread held;
    void *result = NULL;

    begin("cancelled", SERYUGO_KEEP_DISK);
    disk_hold(true);
    begin_call(&held, send_five);
    disk_await_held();
    pthread_cancel(held.thread);
    disk_hold(false);
    pthread_join(held.thread, &result);
    count_one();
    receive_five();
    end(SERYUGO_DONE);
}

/* ---- those who are told ---- */

static atomic_int told;

static void tell(struct seryugo_file_waiter *waiter)
{
    waiter->position = disk_is_free() ? 1 : 0;
    atomic_fetch_add(&told, 1);
}

static void a_waiter_is_told(void)
{
    struct seryugo_file_waiter waiter = {0, tell, NULL}, late = {0, tell, NULL}, wrong = {UINT64_MAX, tell, NULL};
    struct held_thread held;

    begin("told", SERYUGO_KEEP_DISK);
    disk_hold(true);
    begin_call(&held, send_five);
    disk_await_held();
    waiter.position = late.position = seryugo_file_position(board.file);
    NEEDS(seryugo_file_when(board.file, &waiter) == SERYUGO_PARKED);
    frees_after(&held, 1);
    while (atomic_load(&told) == 0) {
        usleep(1000);
    }
    NEEDS(waiter.position == 1);
    NEEDS(seryugo_file_when(board.file, &late) == SERYUGO_DONE);
    NEEDS(seryugo_file_when(board.file, &wrong) == SERYUGO_OUT_OF_BOUNDS);
    NEEDS(seryugo_file_wait(board.file, UINT64_MAX) == SERYUGO_OUT_OF_BOUNDS);
    end(SERYUGO_DONE);
    NEEDS(atomic_load(&told) == 1);
}

/* One whose position no call waits for has a sync made. */
static void a_waiter_has_a_sync_made(void)
{
    struct seryugo_file_waiter waiter = {0, tell, NULL};

    atomic_store(&told, 0);
    begin("asked", SERYUGO_KEEP_DISK);
    pthread_mutex_lock(&board.lock);
    NEEDS(seryugo_send(&board.room, ann.number, 0, 5) == SERYUGO_DONE && seryugo_note(&board) == SERYUGO_DONE);
    waiter.position = seryugo_file_position(board.file);
    pthread_mutex_unlock(&board.lock);
    NEEDS(seryugo_file_when(board.file, &waiter) == SERYUGO_PARKED);
    while (atomic_load(&told) == 0) {
        usleep(1000);
    }
    end(SERYUGO_DONE);
}

/* At the other level no call waits, and only a sync does. */
static void a_process_waits_for_nothing(void)
{
    begin("process", SERYUGO_KEEP_PROCESS);
    disk_hold(true);
    send_five();
    count_one();
    receive_five();
    NEEDS(seryugo_file_position(board.file) == 0 && disk_syncs == 0);
    disk_hold(false);
    NEEDS(seryugo_switchboard_sync(&board) == SERYUGO_DONE && disk_syncs == 1);
    end(SERYUGO_DONE);
    NEEDS(open_with(2) == SERYUGO_OUT_OF_BOUNDS && access(path, F_OK) != 0);
}

int main(int many, char **words)
{
    if (many != 2) {
        return 64;
    }
    /* A wait that never ends is a fault. */
    alarm(300);
    folder = words[1];
    a_call_and_a_reader_wait();
    a_receiver_is_woken_at_once();
    a_deadline_waits_for_the_disk();
    a_feed_waits_for_the_disk();
    a_failed_sync_fails_all();
    a_cancelled_thread_leaves_no_lock();
    a_waiter_is_told();
    a_waiter_has_a_sync_made();
    a_process_waits_for_nothing();
    puts("what a call returns is on the disk");
    return 0;
}
