/* A journal's file that is exchanged for a short one: which is, what it has then, and what keeps it from that.
 * `shortened FOLDER` has the folder for itself. `shortened FILE MESSAGES SHORT_FROM` opens a file, and prints what it leaves. */
#include "filed.h"
#include <dlfcn.h>
#include <sys/file.h>

static const char ended[] = "journal 1\nseat 0 mailbox: made 0\nseat 3 send 0 5: done\nseat 1 send 0 6: done\n"
                            "seat 1 recv 0: 5\nend 4\n";
static const char short_one[] = "journal 1\nseat 3 mailbox: made 0\nseat 3 send 0 6: done\n";

/* ---- another program at the moment of the lock ---- */

static bool is_other_due;
static bool other_stays;
static pid_t other;

/* Another program exchanges the file, before this one has the lock: it ends then, or has the file. */
static void be_other(const int *begun)
{
    char byte = 0;
    bool is_done = open_numbers("waited") == SERYUGO_DONE && found.is_shortened;

    if (is_done && !other_stays) {
        is_done = seryugo_file_close(file) == SERYUGO_DONE;
    }
    is_done = write(begun[1], &byte, 1) == 1 && is_done;
    while (is_done && other_stays) {
        pause();
    }
    _exit(is_done ? 0 : 1);
}

/* The library's calls of flock(2) come by here. */
int flock(int descriptor, int operation)
{
    int (*real)(int, int) = (int (*)(int, int))dlsym(RTLD_NEXT, "flock");
    int begun[2];
    char byte = 0;

    if (is_other_due) {
        is_other_due = false;
        HAS(pipe(begun) == 0);
        other = fork();
        if (other == 0) {
            be_other(begun);
        }
        HAS(read(begun[0], &byte, 1) == 1);
        close(begun[0]);
        close(begun[1]);
    }
    return real(descriptor, operation);
}

/* ---- what is left ---- */

static void same_number(struct seryugo *one, struct seryugo *another, uint32_t reader, uint64_t object)
{
    uint64_t first = 7, second = 7;
    uint32_t code = seryugo_read(one, reader, object, &first);

    is(seryugo_read(another, reader, object, &second), code, __LINE__);
    is(second, first, __LINE__);
}

/* Two rooms have the same objects, with the same messages. */
static void leave_the_same(struct seryugo *one, struct seryugo *another, uint64_t objects)
{
    static const uint32_t readers[] = {SERYUGO_READ_KIND, SERYUGO_READ_CHANNEL, SERYUGO_READ_IS_OPEN, SERYUGO_READ_OWED};
    uint64_t seats[2], values[2];

    RETURNS(DONE, seryugo_new_seat(one, &seats[0]));
    RETURNS(DONE, seryugo_new_seat(another, &seats[1]));
    IS(seats[0], seats[1]);
    for (uint64_t at = 0; at < 4 * (objects + 1); at++) {
        same_number(one, another, readers[at % 4], at / 4);
    }
    for (uint64_t at = 0; at < 8 * objects; at++) {
        uint32_t code;

        values[0] = values[1] = 7;
        code = seryugo_recv_poll(one, seats[0], at / 8, &values[0]);
        is(seryugo_recv_poll(another, seats[1], at / 8, &values[1]), code, __LINE__);
        IS(values[0], values[1]);
        code = seryugo_held(one, at / 8, &values[0]);
        is(seryugo_held(another, at / 8, &values[1]), code, __LINE__);
        IS(values[0], values[1]);
    }
}

/* A room with an object of each kind, and a message in each. Returns how many objects it has. */
static uint64_t fill_room(struct seryugo *full)
{
    uint64_t seat, name = 0, value;

    RETURNS(DONE, seryugo_room_open(1000, full));
    RETURNS(DONE, seryugo_new_seat(full, &seat));
    RETURNS(DONE, seryugo_new_seat(full, &seat));
    RETURNS(DONE, seryugo_new_mailbox(full, seat, &name));
    RETURNS(DONE, seryugo_new_channel(full, seat, &name));
    for (int at = 0; at < 3; at++) {
        RETURNS(DONE, seryugo_new_port(full, seat, 1, &name));
        RETURNS(DONE, seryugo_multicast(full, seat, 1, 10 + (uint64_t)at));
        RETURNS(DONE, seryugo_send(full, seat, 0, (uint64_t)at));
    }
    RETURNS(DONE, seryugo_recv_poll(full, seat, 0, &value));
    RETURNS(DONE, seryugo_recv_poll(full, seat, 2, &value));
    RETURNS(DONE, seryugo_close_port(full, seat, 3));
    RETURNS(DONE, seryugo_new_ivar(full, seat, &name));
    RETURNS(DONE, seryugo_put(full, seat, name, 20));
    RETURNS(DONE, seryugo_new_ivar(full, seat, &name));
    RETURNS(DONE, seryugo_new_mvar(full, seat, &name));
    RETURNS(DONE, seryugo_put(full, seat, name, 21));
    return name + 1;
}

/* Writes the room's journal as a piece with its end into a file. */
static void put_piece(struct seryugo *full, bool is_sealed, const char *path)
{
    struct seryugo_sum sum = {.is_there = false};
    struct seryugo journal;
    struct seryugo_bytes text;
    uint64_t count;

    RETURNS(DONE, seryugo_take_journal(full, &journal, &count));
    RETURNS(DONE, is_sealed ? seryugo_sealed_text(&journal, 0, &sum, &text) : seryugo_journal_text(&journal, 0, &text));
    put(path, (const char *)seryugo_bytes_at(&text), text.length);
    seryugo_bytes_free(text);
    seryugo_close(journal);
}

static void keep_each_object(bool is_sealed)
{
    struct seryugo full;
    uint64_t objects = fill_room(&full), entries = 0, left = 0;

    RETURNS(DONE, seryugo_entries(&full, &entries));
    put_piece(&full, is_sealed, "each");
    RETURNS(DONE, open_numbers("each"));
    HAS(found.is_shortened && found.words[0] == 0);
    IS(entries, found.entries);
    RETURNS(DONE, seryugo_entries(&room, &left));
    HAS(left < entries);
    free_all();
    RETURNS(DONE, open_numbers("each"));
    HAS(!found.is_shortened);
    IS(left, found.entries);
    leave_the_same(&full, &room, objects);
    free_all();
    seryugo_close(full);
    unlink("each");
}

/* ---- which files are exchanged ---- */

/* A text is exchanged for another, which has one message more then. */
static void shortens(const char *text, const char *expected, uint64_t entries, int line)
{
    struct stat before, after;
    static char more[400];

    put("old", text, strlen(text));
    HAS(chmod("old", 0604) == 0 && stat("old", &before) == 0);
    returns(open_numbers("old"), SERYUGO_DONE, line);
    is(found.is_shortened, true, line);
    is(found.entries, entries, line);
    is((uint64_t)is_there("old.new"), 0, line);
    free_all();
    is(get("old"), strlen(expected), line);
    begins("old", expected, line);
    HAS(stat("old", &after) == 0 && after.st_mode == before.st_mode && after.st_ino != before.st_ino);
    go_on("old", line);
    snprintf(more, sizeof more, "%s%s", expected, entries == 0 ? "seat 0 mailbox: made 0\n" : "");
    begins("old", more, line);
    unlink("old");
}

#define SHORTENS(text, expected, entries) shortens(text, expected, entries, __LINE__)

static void shorten_what_is_old(void)
{
    SHORTENS(ended, short_one, 4);
    SHORTENS("journal 1\nend 0\n", "journal 1\n", 0);
    SHORTENS("journal 3\n", "journal 1\n", 0);
    SHORTENS("journal 3\nseat 0 mailbox: made 0\n", "journal 1\nseat 0 mailbox: made 0\n", 1);
    SHORTENS("journal 3\nseat 0 mailbox: made 0\nseat 1 send 0 5: done\n"
             "end 2 1b2989a040b7f442f39d194b93ae01cb1209205f96808f609e2e7f01432a2f2d\n"
             "journal 3 1b2989a040b7f442f39d194b93ae01cb1209205f96808f609e2e7f01432a2f2d\nfrom 2\nseat 0 recv 0: 5\n",
             "journal 1\nseat 1 mailbox: made 0\n", 3);
    SHORTENS("journal 1\nseat 0 mailbox: made 0\nend 1\njournal 1\nfrom 1\nseat 9 poll 0: none\nend 2\n",
             "journal 1\nseat 9 mailbox: made 0\n", 2);
    SHORTENS("journal 1\nseat 0 mailbox: made 0\nend 1\njournal 1\nfrom 1\nseat 9 poll 0: none\n",
             "journal 1\nseat 9 mailbox: made 0\n", 2);
    SHORTENS("journal 1\nend 0\njournal 1\nseat 0 mailbox: made 0\nend", "journal 1\nseat 0 mailbox: made 0\n", 1);
}

static void shorten_bytes(void)
{
    static const char text[] = "journal 4\nseat 0 mailbox: made 0\nseat 0 send 0 =%00%0A: done\n";

    put("old", text, sizeof text - 1);
    RETURNS(DONE, open_as("old", SERYUGO_BYTES, SERYUGO_FILE_BY_WRITES));
    HAS(found.is_shortened);
    free_all();
    BEGINS("old", "journal 2\nseat 0 mailbox: made 0\nseat 0 send 0 =%00%0A: done\n");
    unlink("old");
}

/* Opens the file, has a message go through it, and returns how many bytes it has then. */
static uint64_t lengthen(uint64_t rounds)
{
    uint64_t seat, name, value;

    RETURNS(DONE, open_numbers("long"));
    seat = new_seat();
    if (seryugo_kind(&room, 0, &name) != SERYUGO_DONE) {
        RETURNS(DONE, seryugo_new_mailbox(&room, seat, &name));
    }
    for (; rounds > 0; rounds--) {
        RETURNS(DONE, send_kept(seat, 7));
        RETURNS(DONE, seryugo_recv_poll(&room, seat, 0, &value));
    }
    RETURNS(DONE, seryugo_file_note(file, &room, NULL));
    free_all();
    return get("long");
}

/* A file that isn't old, by its bytes and those of its short one. */
static void shorten_what_is_long(void)
{
    static const char shortest[] = "journal 1\nseat 0 mailbox: made 0\n";
    uint64_t length = 0;
    int rounds = 0;

    for (found.is_shortened = false; !found.is_shortened; rounds++) {
        short_from = 0;
        length = lengthen(1);
        short_from = 1;
        RETURNS(DONE, open_numbers("long"));
        HAS(found.is_shortened == (length > 4 * (sizeof shortest - 1)));
        IS(length, found.kept);
        free_all();
    }
    HAS(rounds > 2 && get("long") == sizeof shortest - 1);
    short_from = 0;
    length = lengthen(20);
    for (uint64_t at = 0; at < 2; at++) {
        short_from = at * (length + 1);
        RETURNS(DONE, open_numbers("long"));
        HAS(!found.is_shortened);
        free_all();
    }
    short_from = length;
    RETURNS(DONE, open_numbers("long"));
    HAS(found.is_shortened);
    free_all();
    go_on("long", __LINE__);
    short_from = 0;
    unlink("long");
}

/* ---- links, and what lies beside ---- */

static void shorten_behind_a_link(void)
{
    struct stat link;

    mkdir("elsewhere", 0777);
    put("elsewhere/target", ended, sizeof ended - 1);
    HAS(symlink("elsewhere/target", "link") == 0);
    RETURNS(DONE, open_numbers("link"));
    HAS(found.is_shortened && lstat("link", &link) == 0 && S_ISLNK(link.st_mode));
    free_all();
    BEGINS("elsewhere/target", short_one);
    unlink("link");
    unlink("elsewhere/target");
    rmdir("elsewhere");
}

/* What a killed program left beside is taken. */
static void take_a_leftover(const char *bytes, size_t length, int line)
{
    put("old.new", bytes, length);
    shortens(ended, short_one, 4, line);
}

static void take_leftovers(void)
{
    char zeros[sizeof short_one - 1] = {0};

    for (size_t length = 0; length < sizeof short_one; length += 8) {
        take_a_leftover(short_one, length, __LINE__);
        memcpy(zeros, short_one, length);
        take_a_leftover(zeros, sizeof zeros, __LINE__);
    }
    take_a_leftover(short_one, sizeof short_one - 1, __LINE__);
}

/* The file isn't exchanged: it is gone on with by a new piece, and *found says why. */
static void goes_on(const char *words, int line)
{
    put("old", ended, sizeof ended - 1);
    returns(open_numbers("old"), SERYUGO_DONE, line);
    has(!found.is_shortened && strstr(found.words, words) != NULL, words, line);
    free_all();
    begins("old", ended, line);
    begins("old", "journal 1\n", line);
    has(strncmp(content + sizeof ended - 1, "journal 1\nfrom 4\n", 17) == 0, "a new piece", line);
    unlink("old");
}

static void leave_what_is_in_the_way(void)
{
    char longer[sizeof short_one + 1];

    memcpy(longer, short_one, sizeof short_one - 1);
    memcpy(longer + sizeof short_one - 1, "x", 2);
    put("old.new", longer, sizeof longer - 1);
    goes_on("in the way", __LINE__);
    BEGINS("old.new", longer);
    put("old.new", "journal 1\nseat 3 mailbox: made 0\nseat 3 send 0 7: done\n", sizeof short_one - 1);
    goes_on("in the way", __LINE__);
    BEGINS("old.new", "journal 1\nseat 3 mailbox: made 0\nseat 3 send 0 7: done\n");
    /* Another name of a file that others have. */
    put("others", "", 0);
    unlink("old.new");
    HAS(link("others", "old.new") == 0);
    goes_on("in the way", __LINE__);
    unlink("old.new");
    HAS(symlink("others", "old.new") == 0);
    goes_on("in the way", __LINE__);
    unlink("old.new");
    HAS(mkdir("old.new", 0777) == 0);
    goes_on("in the way", __LINE__);
    rmdir("old.new");
    HAS(is_there("others") && get("others") == 0);
    unlink("others");
    /* Another user could still write it. */
    if (getuid() == 0) {
        put("old.new", "", 0);
        HAS(chown("old.new", 65534, 65534) == 0);
        goes_on("in the way", __LINE__);
        HAS(is_there("old.new"));
        unlink("old.new");
    }
}

/* ---- what keeps a file from being exchanged ---- */

static void leave_a_file_with_two_names(void)
{
    put("first", ended, sizeof ended - 1);
    HAS(link("first", "second") == 0);
    RETURNS(DONE, open_numbers("second"));
    HAS(!found.is_shortened && strstr(found.words, "two names") != NULL && !is_there("second.new"));
    free_all();
    BEGINS("first", ended);
    HAS(get("first") == get("second"));
    unlink("first");
    unlink("second");
}

/* Another user, who may write the file: of another's file, and then in a folder that may only be read. */
static void be_another_user(void)
{
    bool is_so = getuid() != 0 || (setgid(65534) == 0 && setuid(65534) == 0);

    if (is_so && realpath("shared", content) == NULL) {
        puts("left out: another user can't reach the folder");
        fflush(stdout);
        _exit(0);
    }
    is_so = is_so && open_numbers("shared/old") == SERYUGO_DONE && !found.is_shortened;
    is_so = is_so && (getuid() != 65534 || strstr(found.words, "its owner") != NULL) && !is_there("shared/old.new");
    free_all();
    is_so = is_so && open_numbers("closed/old") == SERYUGO_DONE && !found.is_shortened && found.error == EACCES;
    free_all();
    _exit(is_so ? 0 : 1);
}

static void leave_what_cannot_be_kept(void)
{
    int status = 0;
    pid_t child;

    HAS(mkdir("shared", 0777) == 0 && mkdir("closed", 0777) == 0 && chmod("shared", 0777) == 0);
    put("shared/old", ended, sizeof ended - 1);
    put("closed/old", ended, sizeof ended - 1);
    HAS(chmod("shared/old", 0666) == 0 && chmod("closed/old", 0666) == 0 && chmod("closed", 0555) == 0);
    child = fork();
    if (child == 0) {
        be_another_user();
    }
    waitpid(child, &status, 0);
    IS(0, (uint64_t)status);
    BEGINS("shared/old", ended);
    BEGINS("closed/old", ended);
    chmod("closed", 0777);
    unlink("shared/old");
    unlink("closed/old");
    rmdir("shared");
    rmdir("closed");
}

/* The system's limit of a file's size: no byte is written. */
static void leave_what_may_not_grow(void)
{
    struct rlimit before, little;

    put("old", ended, sizeof ended - 1);
    getrlimit(RLIMIT_FSIZE, &before);
    little = before;
    little.rlim_cur = 20;
    setrlimit(RLIMIT_FSIZE, &little);
    RETURNS(FILE_FAILED, open_numbers("old"));
    setrlimit(RLIMIT_FSIZE, &before);
    IS(EFBIG, (uint64_t)found.error);
    IS(sizeof ended - 1, get("old"));
    BEGINS("old", ended);
    HAS(!is_there("old.new"));
    unlink("old");
}

/* Who waits for the lock sees that the file was exchanged. */
static void wait_for_another(void)
{
    int status = 0;

    for (int at = 0; at < 2; at++) {
        other_stays = at == 0;
        put("waited", ended, sizeof ended - 1);
        is_other_due = true;
        if (other_stays) {
            RETURNS(FILE_BUSY, open_numbers("waited"));
            kill(other, SIGKILL);
        } else {
            RETURNS(DONE, open_numbers("waited"));
            HAS(!found.is_shortened);
            IS(2, found.entries);
        }
        waitpid(other, &status, 0);
        HAS(other_stays || status == 0);
        free_all();
        BEGINS("waited", short_one);
        go_on("waited", __LINE__);
        unlink("waited");
    }
}

/* ---- one file, for a script ---- */

static int print_what_is_left(char **words)
{
    struct seryugo journal;
    struct seryugo_bytes text;
    uint64_t count;
    uint32_t code;

    short_from = strtoull(words[3], NULL, 10);
    code = open_as(words[1], strcmp(words[2], "bytes") == 0 ? SERYUGO_BYTES : SERYUGO_NUMBERS, 0);
    if (code != SERYUGO_DONE) {
        fprintf(stderr, "%s: %s\n", seryugo_code_text(code), found.words);
        return (int)code;
    }
    RETURNS(DONE, seryugo_compact(&room, &journal, &count));
    RETURNS(DONE, seryugo_journal_text(&journal, 0, &text));
    fwrite(seryugo_bytes_at(&text), 1, text.length, stdout);
    fprintf(stderr, "opened %s %s\n", found.is_shortened ? "short" : "long", found.words);
    seryugo_bytes_free(text);
    seryugo_close(journal);
    code = seryugo_file_close(file);
    file = NULL;
    free_all();
    return (int)code;
}

int main(int many, char **words)
{
    if (many == 4) {
        return print_what_is_left(words);
    }
    if (many < 2 || chdir(words[1]) != 0) {
        return 64;
    }
    keep_each_object(false);
    keep_each_object(true);
    shorten_what_is_old();
    shorten_bytes();
    shorten_what_is_long();
    shorten_behind_a_link();
    take_leftovers();
    leave_what_is_in_the_way();
    leave_a_file_with_two_names();
    leave_what_cannot_be_kept();
    leave_what_may_not_grow();
    wait_for_another();
    puts("a file that is old or long becomes short, and has the same");
    return 0;
}
