/* A journal's file that stays short while four threads use it. `exchanges FOLDER [KILLS]` has the folder for itself. A child
 * is killed so many times (else 30), a third of the times while it makes a short file. Each time the file opens and has what
 * returned. */
#include "exchanged.h"

#define CHILDREN 20

/* ---- it stays short ---- */

/* Exchanges in each way, with links, and with the file's mode. */
static void stay_short(uint64_t way)
{
    struct stat before, after, link;
    char header[11];
    int version;

    choose(way);
    version = 1 + (messages != SERYUGO_NUMBERS) + ((options.flags & SERYUGO_FILE_SEALED) != 0 ? 2 : 0);
    mkdir("elsewhere", 0777);
    /* It is of the version of new files, so opening leaves it. */
    snprintf(header, sizeof header, "journal %d\n", version);
    put("elsewhere/target", header, 10);
    HAS(chmod("elsewhere/target", 0604) == 0 && symlink("elsewhere/target", "link") == 0 && stat("link", &before) == 0);
    open_board("link");
    work_well(25);
    RETURNS(DONE, seryugo_switchboard_close(&board));
    HAS(lstat("link", &link) == 0 && S_ISLNK(link.st_mode) && stat("link", &after) == 0);
    HAS(after.st_mode == before.st_mode && after.st_uid == before.st_uid);
    HAS(!is_there("elsewhere/target.new"));
    look_at_it("link");
    unlink("link");
    unlink("elsewhere/target");
    rmdir("elsewhere");
}

/* ---- what keeps it long ---- */

/* The exchange fails with these words, and callers go on. */
static void stays_long(const char *words, int line)
{
    is(work_on_it(UINT64_MAX, 2), 2, line);
    has(strstr(found.words, words) != NULL, words, line);
    RETURNS(DONE, seryugo_switchboard_close(&board));
}

static void leave_what_is_in_the_way(void)
{
    choose(0);
    open_board("long");
    put("long.new", "precious", 8);
    stays_long("in the way", __LINE__);
    HAS(get("long.new") == 8);
    unlink("long.new");
    open_board("long");
    HAS(link("long", "second") == 0);
    stays_long("two names", __LINE__);
    unlink("second");
    HAS(!is_there("long.new"));
    look_at_it("long");
    /* Others have given the name to another file. */
    open_board("long");
    HAS(rename("long", "moved") == 0);
    put("long", "precious", 8);
    stays_long("others have exchanged the file", __LINE__);
    HAS(get("long") == 8 && !is_there("long.new"));
    look_at_it("moved");
    unlink("moved");
    unlink("long");
}

/* ---- forks ---- */

/* Children that live on don't have the lock of the old file or of the new one. */
static void *fork_children(void *given)
{
    pid_t *children = (pid_t *)given;

    for (int at = 0; at < CHILDREN; at++) {
        usleep((useconds_t)(random() % 5000));
        children[at] = fork();
        while (children[at] == 0) {
            pause();
        }
    }
    return NULL;
}

static void fork_meanwhile(void)
{
    pid_t children[CHILDREN];
    pthread_t thread;

    choose(0);
    open_board("forked");
    HAS(pthread_create(&thread, NULL, fork_children, children) == 0);
    work_well(25);
    pthread_join(thread, NULL);
    RETURNS(DONE, seryugo_switchboard_close(&board));
    look_at_it("forked");
    for (int at = 0; at < CHILDREN; at++) {
        HAS(kill(children[at], SIGKILL) == 0 && waitpid(children[at], NULL, 0) == children[at]);
    }
    unlink("forked");
}

/* ---- kills ---- */

static void be_killed(const char *path)
{
    open_board(path);
    work_well(UINT64_MAX);
    pause();
    _exit(1);
}

/* Waits until a short file is being made, or as long as a hang would take. */
static void await_beside(const char *beside)
{
    for (int at = 0; at < 200000 && !is_there(beside); at++) {
        usleep(50);
    }
}

/* Kills a child at a random moment. Returns whether it was making a short file. */
static bool kill_one(const char *path, const char *beside, uint64_t number)
{
    int status = 0;
    bool is_within;
    pid_t child = fork();

    if (child == 0) {
        be_killed(path);
    }
    usleep((useconds_t)(random() % 30000));
    if (number % 3 != 0) {
        await_beside(beside);
        usleep((useconds_t)(random() % 3000));
    }
    HAS(kill(child, SIGKILL) == 0 && waitpid(child, &status, 0) == child);
    HAS(WIFSIGNALED(status) && WTERMSIG(status) == SIGKILL);
    is_within = is_there(beside);
    look_at_it(path);
    return is_within;
}

static void kill_many(uint64_t many)
{
    uint64_t within = 0;

    for (uint64_t number = 0; number < many; number++) {
        if (number % 5 == 0) {
            unlink("killed");
            choose((uint64_t)random());
        }
        within += kill_one("killed", "killed.new", number);
    }
    /* A last one, which makes the file short and leaves nothing beside. */
    options.short_from = 1;
    open_board("killed");
    work_well(1);
    RETURNS(DONE, seryugo_switchboard_close(&board));
    has_one_file("killed");
    printf("%llu kills, %llu of them while a short file was made: nothing is lost or twice\n", (unsigned long long)many,
           (unsigned long long)within);
}

int main(int many, char **words)
{
    uint64_t kills = many > 2 ? strtoull(words[2], NULL, 10) : 30;

    if (many < 2 || chdir(words[1]) != 0) {
        return 64;
    }
    srandom((unsigned)getpid());
    share_what_is_told();
    for (uint64_t way = 0; way < 8; way++) {
        stay_short(way);
    }
    leave_what_is_in_the_way();
    fork_meanwhile();
    kill_many(kills);
    return 0;
}
