/* What is said to be synced survives a loss of power, also in the midst of an exchange: `exchange_syncs FOLDER [SYNCS]`. The
 * program has a disk that it knows: of each file what it had as the last sync began that ended well, and where the name may
 * lead. Each value that was sent before a sync is on that disk after it, in whichever file the name leads to. */
#include "exchanged.h"

#include <dlfcn.h>

#define FILES 8
#define IMAGE ((size_t)16 << 20)
/* Values that each other thread sends for each sync, so that a file has less than an image on a busy machine, too. */
#define MORE 400

/* A file on the disk. */
struct image {
    ino_t inode;
    bool is_named;
    size_t length;
    char text[IMAGE];
};

static struct image disk[FILES];
static pthread_mutex_t disk_lock = PTHREAD_MUTEX_INITIALIZER;
static _Atomic uint64_t renames;

/* ---- the disk ---- */

static struct image *image_of(ino_t inode)
{
    size_t at = 0;

    while (at < FILES && disk[at].inode != inode) {
        at++;
    }
    if (at < FILES) {
        return &disk[at];
    }
    /* A file without the name is forgotten. */
    for (at = 0; at < FILES && disk[at].is_named; at++) {
    }
    HAS(at < FILES);
    disk[at].inode = inode;
    disk[at].length = 0;
    return &disk[at];
}

/* What the file has as the sync begins. Others store meanwhile, so the last bytes may be half a line. */
static size_t take_image(int descriptor, char *text)
{
    ssize_t length = pread(descriptor, text, IMAGE - 1, 0);

    HAS(length >= 0);
    text[length] = 0;
    return strlen(text);
}

static int sync_file(int descriptor, const char *call)
{
    int (*real)(int) = (int (*)(int))dlsym(RTLD_NEXT, call);
    struct stat state;
    int result;

    HAS(fstat(descriptor, &state) == 0);
    if (S_ISREG(state.st_mode)) {
        char *text = (char *)malloc(IMAGE);
        size_t length = take_image(descriptor, text);
        struct image *image;

        result = real(descriptor);
        pthread_mutex_lock(&disk_lock);
        image = image_of(state.st_ino);
        memcpy(image->text, text, length + 1);
        image->length = length;
        pthread_mutex_unlock(&disk_lock);
        free(text);
        return result;
    }
    result = real(descriptor);
    /* The folder: the name leads to the file that has it now. */
    HAS(stat("synced", &state) == 0);
    pthread_mutex_lock(&disk_lock);
    for (size_t at = 0; at < FILES; at++) {
        disk[at].is_named = disk[at].inode == state.st_ino;
    }
    pthread_mutex_unlock(&disk_lock);
    return result;
}

int fsync(int descriptor) { return sync_file(descriptor, "fsync"); }

int fdatasync(int descriptor) { return sync_file(descriptor, "fdatasync"); }

/* From here on the name may lead to either file. */
int renameat(int folder, const char *old, int other, const char *name)
{
    typedef int renamer(int, const char *, int, const char *);
    renamer *real = (renamer *)dlsym(RTLD_NEXT, "renameat");
    struct stat state;
    int result;

    HAS(fstatat(folder, old, &state, 0) == 0);
    pthread_mutex_lock(&disk_lock);
    image_of(state.st_ino)->is_named = true;
    result = real(folder, old, other, name);
    pthread_mutex_unlock(&disk_lock);
    renames++;
    /* A loss of power in the midst is likely to be seen. */
    usleep(2000);
    return result;
}

/* ---- values ---- */

/* The value was sent to mailbox 4, from which nobody receives, so its line stays. */
static void is_on_disk(uint64_t value)
{
    size_t named = 0;
    char line[64];

    snprintf(line, sizeof line, " send 4 %llu: done\n", (unsigned long long)value);
    pthread_mutex_lock(&disk_lock);
    for (size_t at = 0; at < FILES; at++) {
        if (disk[at].is_named) {
            named++;
            has(strstr(disk[at].text, line) != NULL, line, __LINE__);
        }
    }
    pthread_mutex_unlock(&disk_lock);
    HAS(named == 1 || named == 2);
}

static uint64_t syncs;

/* Sends, syncs and looks. The others' lines make the file long meanwhile. */
static void *sync_each(void *given)
{
    struct seryugo_seat *seat = (struct seryugo_seat *)given;
    uint64_t value = 0;

    for (; value < syncs || renames < 5; value++) {
        allowed += MORE;
        RETURNS(DONE, seryugo_seat_send(seat, 4, value));
        RETURNS(DONE, seryugo_switchboard_sync(&board));
        is_on_disk(value);
    }
    printf("%llu syncs, in which %llu short files got the name: what was synced is on the disk\n", (unsigned long long)value,
           (unsigned long long)renames);
    is_over = true;
    seryugo_seat_leave(seat);
    return NULL;
}

int main(int many, char **words)
{
    struct seryugo_seat seat;
    pthread_t thread;

    syncs = many > 2 ? strtoull(words[2], NULL, 10) : 100;
    if (many < 2 || chdir(words[1]) != 0) {
        return 64;
    }
    share_what_is_told();
    pace = 0;
    for (uint64_t way = 0; way < 4; way += 2) {
        choose(way);
        renames = 0;
        memset((void *)told, 0, sizeof *told);
        open_board("synced");
        RETURNS(DONE, seryugo_seat_open(&board, &seat));
        RETURNS(DONE, seryugo_seat_mailbox_again(&seat, 4));
        HAS(pthread_create(&thread, NULL, sync_each, &seat) == 0);
        work_well(UINT64_MAX);
        pthread_join(thread, NULL);
        RETURNS(DONE, seryugo_switchboard_close(&board));
        unlink("synced");
    }
    return 0;
}
