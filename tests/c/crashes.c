/* The power is lost at random moments, while four threads call on a switchboard that is kept on the disk: crashes FOLDER CRASHES
 * [SEED]. The disk is simulated (disk.h), and the text has sums in half of the rounds. Each crash leaves some bytes since the last
 * good sync, and not others. In what it leaves is each call that had returned, and nothing twice. Then each sync in turn fails:
 * each thread's call does too, and nothing that returned before is lost. */
#include "disk.h"

#include "seryugo_switchboard.h"

#define THREADS 4
#define EACH_ROUND 20
#define SECTOR 512
/* So many lines stay shorter than the simulated disk's file. */
#define CALLS_MOST 4000

static struct seryugo_switchboard board;
static struct seryugo_seat seats[THREADS];
static atomic_bool stops;
static char path[4096], image_path[4096];
static struct disk_image image;
static uint64_t seed = 1;
/* Of seryugo_file_flag. */
static uint32_t flags;

/* What returned, of each mailbox: how many messages were sent, received, and counted by a reader. */
enum { SENT, GOT, SEEN, KINDS };
static _Atomic uint64_t returned[KINDS][THREADS];
static uint32_t ended[THREADS];

static uint64_t random_below(uint64_t limit)
{
    seed = seed * 6364136223846793005u + 1442695040888963407u;
    return (seed >> 33) % limit;
}

static void needs(bool condition, const char *what, uint64_t found, uint64_t expected)
{
    if (!condition) {
        fprintf(stderr, "%s: %llu, not %llu\n", what, (unsigned long long)found, (unsigned long long)expected);
        exit(1);
    }
}

static void is(uint64_t found, uint64_t expected, const char *what) { needs(found == expected, what, found, expected); }

static void is_least(uint64_t found, uint64_t expected, const char *what) { needs(found >= expected, what, found, expected); }

/* ---- the threads ---- */

static uint32_t count_sent(size_t mailbox)
{
    uint64_t sent = 0;
    uint32_t code;

    seryugo_switchboard_lock(&board);
    (void)seryugo_sent(&board.room, mailbox, &sent);
    code = seryugo_switchboard_unlock(&board);
    if (code == SERYUGO_DONE) {
        atomic_store(&returned[SEEN][mailbox], sent);
    }
    return code;
}

static uint32_t receive(struct seryugo_seat *seat, size_t mailbox)
{
    uint64_t message = 0, got = atomic_load(&returned[GOT][mailbox]);
    uint32_t code = seryugo_seat_recv_poll(seat, mailbox, &message);

    if (code == SERYUGO_DONE) {
        is(message, got, "received");
        atomic_store(&returned[GOT][mailbox], got + 1);
    }
    return code == SERYUGO_NOTHING ? (uint32_t)SERYUGO_DONE : code;
}

/* Each thread sends to its own mailbox, and receives from the next one. */
static void *work(void *given)
{
    size_t me = (size_t)((struct seryugo_seat *)given - seats);
    uint32_t code = SERYUGO_DONE;

    for (uint64_t at = 0; at < CALLS_MOST && !atomic_load(&stops) && code == SERYUGO_DONE; at++) {
        code = seryugo_seat_send(&seats[me], me, at);
        if (code == SERYUGO_DONE) {
            atomic_store(&returned[SENT][me], at + 1);
            code = receive(&seats[me], (me + 1) % THREADS);
        }
        if (code == SERYUGO_DONE && at % 4 == me) {
            code = count_sent((me + 2) % THREADS);
        }
    }
    ended[me] = code;
    seryugo_seat_leave(&seats[me]);
    return NULL;
}

/* ---- a crash ---- */

/* Of the bytes of a sector that aren't on the disk, it leaves all, none, the first, or the last ones: the others are 0. */
static void tear(size_t start, size_t end)
{
    uint64_t kind = random_below(4), at = start + random_below(end - start + 1);

    for (size_t place = start; place < end; place++) {
        bool is_kept = kind == 0 || (kind == 1 && place < at) || (kind == 2 && place >= at);

        if (!is_kept) {
            image.bytes[place] = place < disk_has.length ? disk_has.bytes[place] : 0;
        }
    }
}

/* Makes what a loss of power leaves now. The file may have any length between the disk's and its own. */
static void lose_power(void)
{
    int descriptor = open(path, O_RDONLY | O_CLOEXEC);
    FILE *stream;

    pthread_mutex_lock(&disk_lock);
    disk_read(descriptor, &image);
    for (size_t start = 0; start < image.length; start += SECTOR) {
        tear(start, start + SECTOR < image.length ? start + SECTOR : image.length);
    }
    if (image.length > disk_has.length) {
        image.length = disk_has.length + random_below(image.length - disk_has.length + 1);
    }
    pthread_mutex_unlock(&disk_lock);
    close(descriptor);
    stream = fopen(image_path, "w");
    needs(stream != NULL && fwrite(image.bytes, 1, image.length, stream) == image.length && fclose(stream) == 0, "image", 0, 1);
}

/* ---- what is left ---- */

/* Reads the image's lines: each mailbox has the messages 0, 1, 2 .. in order, each sent once and received at most once. */
static void count_lines(uint64_t *sent, uint64_t *got)
{
    FILE *stream = fopen(image_path, "r");
    char line[128];

    while (fgets(line, sizeof line, stream) != NULL) {
        unsigned seat, mailbox;
        unsigned long long message;

        if (sscanf(line, "seat %u send %u %llu: done", &seat, &mailbox, &message) == 3) {
            is(message, sent[mailbox], "sent in the image");
            sent[mailbox]++;
        }
        if (sscanf(line, "seat %u poll %u: %llu", &seat, &mailbox, &message) == 3) {
            is(message, got[mailbox], "received in the image");
            got[mailbox]++;
        }
    }
    fclose(stream);
}

/* Opens the image, which cuts off what isn't whole, and compares. */
static void compare(uint64_t before[KINDS][THREADS])
{
    uint64_t sent[THREADS] = {0}, got[THREADS] = {0};
    struct seryugo_file_options options = {.flags = flags, .segment = 4096};
    struct seryugo_switchboard left;
    struct seryugo_file_found found;
    uint32_t code = seryugo_switchboard_open_file(image_path, SERYUGO_NUMBERS, &options, &found, &left);

    if (code != SERYUGO_DONE) {
        fprintf(stderr, "the image isn't opened: %s: %s\n", seryugo_code_text(code), found.words);
        exit(1);
    }
    is(seryugo_switchboard_close(&left), SERYUGO_DONE, "closing the image");
    count_lines(sent, got);
    for (size_t at = 0; at < THREADS; at++) {
        is_least(sent[at], before[SENT][at], "a message that was sent is lost");
        is_least(got[at], before[GOT][at], "a message that was received is there again");
        is_least(sent[at], before[SEEN][at], "a message that was counted is lost");
    }
}

static void crash(void)
{
    uint64_t before[KINDS][THREADS];

    /* What returns from here on may be lost. */
    for (size_t at = 0; at < KINDS * THREADS; at++) {
        before[at / THREADS][at % THREADS] = atomic_load(&returned[at / THREADS][at % THREADS]);
    }
    lose_power();
    /* The threads wait meanwhile, so that the file stays small. */
    disk_hold(true);
    compare(before);
    disk_hold(false);
    unlink(image_path);
}

/* ---- rounds ---- */

static void start(pthread_t *threads)
{
    struct seryugo_file_options options = {.flags = flags, .segment = 4096, .sync_milliseconds = 1, .keep = SERYUGO_KEEP_DISK};

    unlink(path);
    memset(returned, 0, sizeof returned);
    atomic_store(&stops, false);
    is(seryugo_switchboard_open_file(path, SERYUGO_NUMBERS, &options, NULL, &board), SERYUGO_DONE, "opening");
    for (size_t at = 0; at < THREADS; at++) {
        is(seryugo_seat_open(&board, &seats[at]), SERYUGO_DONE, "a seat");
    }
    for (size_t at = 0; at < THREADS; at++) {
        is(seryugo_seat_mailbox_again(&seats[0], at), SERYUGO_DONE, "a mailbox");
    }
    disk_begin(path);
    for (size_t at = 0; at < THREADS; at++) {
        pthread_create(&threads[at], NULL, work, &seats[at]);
    }
}

static void join_all(const pthread_t *threads)
{
    for (size_t at = 0; at < THREADS; at++) {
        pthread_join(threads[at], NULL);
    }
    disk_end();
}

/* Crashes at random moments. Returns how many calls had returned at the last one. */
static uint64_t crash_often(uint64_t crashes)
{
    pthread_t threads[THREADS];
    uint64_t calls = 0;

    disk_slowness = (unsigned)(1 + random_below(1000));
    flags = random_below(2) == 0 ? 0 : (uint32_t)SERYUGO_FILE_SEALED;
    start(threads);
    for (uint64_t at = 0; at < crashes; at++) {
        usleep((unsigned)random_below(3000));
        crash();
    }
    atomic_store(&stops, true);
    join_all(threads);
    for (size_t at = 0; at < THREADS; at++) {
        is(ended[at], SERYUGO_DONE, "a thread's last call");
        calls += returned[SENT][at] + returned[GOT][at];
    }
    is(seryugo_switchboard_close(&board), SERYUGO_DONE, "closing");
    return calls;
}

/* Has this sync fail, and then the power. No later sync counts: each thread's call fails, and so does each later one. */
static void fail_sync(uint64_t number)
{
    pthread_t threads[THREADS];
    int cause = 0;

    disk_slowness = 200;
    start(threads);
    pthread_mutex_lock(&disk_lock);
    disk_fails_at = disk_syncs + number;
    pthread_mutex_unlock(&disk_lock);
    for (size_t at = 0; at < THREADS; at++) {
        pthread_join(threads[at], NULL);
        is(ended[at], SERYUGO_FILE_LOST, "a thread's last call");
    }
    is(seryugo_switchboard_sync(&board), SERYUGO_FILE_LOST, "a sync after the failed one");
    needs(strstr(seryugo_file_error(board.file, &cause), "fdatasync") != NULL && cause == EIO, "the cause", (uint64_t)cause, EIO);
    crash();
    is(disk_syncs, disk_fails_at, "syncs");
    disk_end();
    is(seryugo_switchboard_close(&board), SERYUGO_FILE_LOST, "closing");
}

int main(int many, char **words)
{
    uint64_t crashes, calls = 0;

    if (many < 3) {
        return 64;
    }
    snprintf(path, sizeof path, "%s/crashes.journal", words[1]);
    snprintf(image_path, sizeof image_path, "%s/image.journal", words[1]);
    crashes = strtoull(words[2], NULL, 10);
    seed = many > 3 ? strtoull(words[3], NULL, 10) : (uint64_t)getpid();
    for (uint64_t at = 0; at < crashes; at += EACH_ROUND) {
        /* A wait that never ends is a fault. */
        alarm(600);
        calls += crash_often(crashes - at < EACH_ROUND ? crashes - at : EACH_ROUND);
    }
    needs(calls > crashes, "calls returned", calls, crashes);
    for (uint64_t number = 1; number <= 20; number++) {
        alarm(600);
        fail_sync(number);
    }
    unlink(path);
    printf("%llu losses of power, after %llu calls returned: none is lost or twice; 20 failed syncs: each waiting call fails\n",
           (unsigned long long)crashes, (unsigned long long)calls);
    return 0;
}
