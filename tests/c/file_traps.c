/* What a journal in a file meets: a limit of its size, a cut by others, forks, lanes, and messages of each length. `file_traps FOLDER`
 * has the folder for itself. */
#include "filed.h"

#include <sys/syscall.h>

/* ---- traps ---- */

/* The file may not grow: the call is refused before it is made, and nothing ends the program. */
static void meet_the_limit_of_size(uint32_t flags)
{
    struct rlimit before, little;
    uint64_t seat, name, sent = 0;
    uint32_t code = SERYUGO_DONE;
    int cause = 0;

    RETURNS(DONE, open_as("limited", SERYUGO_NUMBERS, flags));
    seat = new_seat();
    RETURNS(DONE, seryugo_new_mailbox(&room, seat, &name));
    getrlimit(RLIMIT_FSIZE, &before);
    little = before;
    little.rlim_cur = 300000;
    setrlimit(RLIMIT_FSIZE, &little);
    for (; code == SERYUGO_DONE && sent < 100000; sent++) {
        code = send_kept(seat, sent);
    }
    IS(SERYUGO_FILE_FULL, code);
    HAS(seryugo_file_error(file, &cause) != NULL && cause == EFBIG);
    setrlimit(RLIMIT_FSIZE, &before);
    RETURNS(DONE, send_kept(seat, sent));
    HAS(seryugo_file_error(file, &cause) == NULL);
    RETURNS(DONE, seryugo_file_close(file));
    file = NULL;
    close_one(&has_room, room);
    RETURNS(DONE, open_numbers("limited"));
    IS(sent + 1, found.entries);
    free_all();
    unlink("limited");
}

/* A file that another program cuts is lost, or the program ends by SIGBUS: no call returns that isn't kept. */
static void meet_a_cut(uint32_t flags)
{
    int status = 0;
    pid_t child;

    unlink("cut");
    child = fork();
    if (child == 0) {
        uint64_t seat, name;
        uint32_t code;

        signal(SIGBUS, SIG_DFL);
        RETURNS(DONE, open_as("cut", SERYUGO_NUMBERS, flags));
        seat = new_seat();
        RETURNS(DONE, seryugo_new_mailbox(&room, seat, &name));
        RETURNS(DONE, send_kept(seat, 1));
        HAS(truncate("cut", 5) == 0);
        code = send_kept(seat, 2);
        code = code == SERYUGO_DONE ? seryugo_file_sync(file) : code;
        HAS(code == SERYUGO_FILE_LOST);
        RETURNS(FILE_LOST, send_kept(seat, 3));
        RETURNS(FILE_LOST, seryugo_file_close(file));
        _exit(0);
    }
    waitpid(child, &status, 0);
    HAS((WIFSIGNALED(status) && WTERMSIG(status) == SIGBUS) || (WIFEXITED(status) && WEXITSTATUS(status) == 0));
    unlink("cut");
}

/* The child's calls fail, and don't touch the parent's file, nor its lock. */
static void meet_a_fork(void)
{
    uint64_t seat, name;
    int status = 0;
    pid_t child;

    RETURNS(DONE, open_numbers("forked"));
    seat = new_seat();
    RETURNS(DONE, seryugo_new_mailbox(&room, seat, &name));
    RETURNS(DONE, send_kept(seat, 1));
    child = fork();
    if (child == 0) {
        int cause = 0;

        RETURNS(FORKED, send_kept(seat, 2));
        RETURNS(FORKED, seryugo_file_note(file, &room, NULL));
        RETURNS(FORKED, seryugo_file_sync(file));
        HAS(seryugo_file_error(file, &cause) != NULL);
        RETURNS(FORKED, seryugo_file_close(file));
        _exit(0);
    }
    waitpid(child, &status, 0);
    IS(0, (uint64_t)status);
    RETURNS(DONE, send_kept(seat, 3));
    RETURNS(DONE, seryugo_file_close(file));
    file = NULL;
    close_one(&has_room, room);
    BEGINS("forked", "journal 1\nseat 0 mailbox: made 0\nseat 0 send 0 1: done\nseat 0 send 0 3: done\n");
    unlink("forked");
}

/* A child whose parent has the switchboard's lock, which nobody in the child ever lets go of. */
static void meet_a_fork_under_the_lock(void)
{
    struct seryugo_switchboard board;
    struct seryugo_seat seat;
    int status = 0;
    pid_t child;

    RETURNS(DONE, seryugo_switchboard_open_file("forked", SERYUGO_NUMBERS, NULL, &found, &board));
    RETURNS(DONE, seryugo_seat_open(&board, &seat));
    RETURNS(DONE, seryugo_seat_mailbox_again(&seat, 0));
    seryugo_switchboard_lock(&board);
    child = fork();
    if (child == 0) {
        alarm(20);
        RETURNS(FORKED, seryugo_seat_send(&seat, 0, 5));
        RETURNS(FORKED, seryugo_switchboard_close(&board));
        _exit(0);
    }
    RETURNS(DONE, seryugo_switchboard_unlock(&board));
    waitpid(child, &status, 0);
    IS(0, (uint64_t)status);
    RETURNS(DONE, seryugo_seat_send(&seat, 0, 5));
    seryugo_seat_leave(&seat);
    RETURNS(DONE, seryugo_switchboard_close(&board));
    BEGINS("forked", "journal 1\nseat 0 mailbox: made 0\nseat 0 send 0 5: done\n");
    unlink("forked");
}

/* A child that lives longer than its parent doesn't keep the file from the next program. */
static void meet_a_child_that_lives_on(void)
{
    int there[2], begun[2];
    char byte = 0;
    pid_t child;

    RETURNS(DONE, open_numbers("forked"));
    HAS(pipe(there) == 0 && pipe(begun) == 0);
    child = fork();
    if (child == 0) {
        close(there[1]);
        _exit(write(begun[1], &byte, 1) == 1 && read(there[0], &byte, 1) == 0 ? 0 : 1);
    }
    /* As it begins, the child closes what it has of the file. */
    HAS(read(begun[0], &byte, 1) == 1);
    RETURNS(DONE, seryugo_file_close(file));
    file = NULL;
    close_one(&has_room, room);
    RETURNS(DONE, open_numbers("forked"));
    free_all();
    close(there[0]);
    close(there[1]);
    close(begun[0]);
    close(begun[1]);
    waitpid(child, NULL, 0);
    unlink("forked");
}

/* A program that another thread starts has a copy of the descriptor until it begins. It doesn't keep a closed file locked. */
static void meet_a_program_that_starts(void)
{
    pid_t child;

    RETURNS(DONE, open_numbers("forked"));
    /* As of posix_spawn(3), the library hears nothing of it. */
    child = (pid_t)syscall(SYS_fork);
    if (child == 0) {
        pause();
        _exit(0);
    }
    HAS(child > 0);
    free_all();
    RETURNS(DONE, open_numbers("forked"));
    free_all();
    kill(child, SIGKILL);
    waitpid(child, NULL, 0);
    unlink("forked");
}

/* The room's journal is the file's: who takes it loses the file, and not an entry that was acknowledged. */
static void meet_a_foreign_cut(void)
{
    uint64_t seat, name;

    RETURNS(DONE, open_numbers("taken"));
    seat = new_seat();
    RETURNS(DONE, seryugo_new_mailbox(&room, seat, &name));
    RETURNS(DONE, seryugo_cut(&room));
    RETURNS(FILE_LOST, seryugo_file_note(file, &room, NULL));
    RETURNS(FILE_LOST, seryugo_file_sync(file));
    free_all();
    unlink("taken");
}

/* ---- lanes, feeds and long messages, through a switchboard ---- */

static void keep_lanes(void)
{
    struct seryugo_switchboard board;
    struct seryugo_seat seat;
    struct seryugo lane;
    struct seryugo_file_options options = {.segment = 4096};
    uint64_t number, moved, all = 0;

    RETURNS(DONE, seryugo_switchboard_open_file("lanes", SERYUGO_NUMBERS, &options, &found, &board));
    RETURNS(WRONG_HANDLE, seryugo_switchboard_when_full(&board, NULL, NULL));
    RETURNS(WRONG_HANDLE, seryugo_switchboard_keep(&board));
    RETURNS(DONE, seryugo_seat_open(&board, &seat));
    RETURNS(DONE, seryugo_seat_mailbox_again(&seat, 0));
    RETURNS(NO_SUCH, seryugo_seat_mailbox_again(&seat, 2));
    seryugo_switchboard_lock(&board);
    RETURNS(DONE, seryugo_lane_open(&board.room, 0, 1024, &lane, &number));
    RETURNS(DONE, seryugo_switchboard_unlock(&board));
    for (int round = 0; round < 20; round++) {
        for (uint64_t n = 0; n < 1024; n++) {
            RETURNS(DONE, seryugo_lane_send(&lane, UINT64_MAX));
        }
        seryugo_switchboard_lock(&board);
        RETURNS(DONE, seryugo_lane_drain(&board.room, number, &moved));
        RETURNS(DONE, seryugo_switchboard_unlock(&board));
        all += moved;
    }
    RETURNS(DONE, seryugo_lane_finish(&lane));
    seryugo_switchboard_lock(&board);
    RETURNS(DONE, seryugo_lane_close(&board.room, &lane));
    RETURNS(DONE, seryugo_switchboard_unlock(&board));
    seryugo_close(lane);
    seryugo_seat_leave(&seat);
    RETURNS(DONE, seryugo_switchboard_close(&board));
    RETURNS(DONE, open_numbers("lanes"));
    IS(all + 1, found.entries);
    free_all();
    unlink("lanes");
}

/* Many calls under one lock may not fit. Their entries stay in the room, and are stored once there is room for them. */
static void keep_what_did_not_fit(void)
{
    struct seryugo lane;
    struct rlimit before, little;
    uint64_t seat, name, number, moved, all = 1;

    RETURNS(DONE, open_numbers("late"));
    seat = new_seat();
    RETURNS(DONE, seryugo_file_reserve(file, &room, 0));
    RETURNS(DONE, seryugo_new_mailbox(&room, seat, &name));
    RETURNS(DONE, seryugo_file_note(file, &room, NULL));
    RETURNS(DONE, seryugo_lane_open(&room, 0, 1000, &lane, &number));
    getrlimit(RLIMIT_FSIZE, &before);
    little = before;
    little.rlim_cur = 20000;
    setrlimit(RLIMIT_FSIZE, &little);
    for (; all < 900; all++) {
        RETURNS(DONE, seryugo_lane_send(&lane, UINT64_MAX));
    }
    RETURNS(DONE, seryugo_lane_drain(&room, number, &moved));
    while (seryugo_file_note(file, &room, NULL) == SERYUGO_DONE) {
        /* What the helper gave the file before it had a limit is used up. */
        for (uint64_t n = 0; n < 900; n++, all++) {
            RETURNS(DONE, seryugo_lane_send(&lane, n));
        }
        RETURNS(DONE, seryugo_lane_drain(&room, number, &moved));
    }
    RETURNS(FILE_FULL, seryugo_file_note(file, &room, NULL));
    RETURNS(FILE_FULL, seryugo_file_reserve(file, &room, 0));
    setrlimit(RLIMIT_FSIZE, &before);
    RETURNS(DONE, send_kept(seat, 7));
    seryugo_close(lane);
    RETURNS(DONE, seryugo_file_close(file));
    file = NULL;
    close_one(&has_room, room);
    RETURNS(DONE, open_numbers("late"));
    IS(all + 1, found.entries);
    free_all();
    unlink("late");
}

/* Entries that don't fit are lost with the switchboard, and errno says why. */
static void close_what_did_not_fit(void)
{
    struct seryugo_switchboard board;
    struct seryugo_seat seat;
    struct seryugo_file_options options = {.segment = 4096};
    struct seryugo lane;
    struct rlimit before, little;
    uint64_t number, moved;

    RETURNS(DONE, seryugo_switchboard_open_file("late", SERYUGO_NUMBERS, &options, &found, &board));
    RETURNS(DONE, seryugo_seat_open(&board, &seat));
    RETURNS(DONE, seryugo_seat_mailbox_again(&seat, 0));
    seryugo_seat_leave(&seat);
    RETURNS(DONE, seryugo_lane_open(&board.room, 0, 1000, &lane, &number));
    getrlimit(RLIMIT_FSIZE, &before);
    little = before;
    little.rlim_cur = 20000;
    setrlimit(RLIMIT_FSIZE, &little);
    do {
        for (uint64_t n = 0; n < 1000; n++) {
            RETURNS(DONE, seryugo_lane_send(&lane, UINT64_MAX));
        }
        RETURNS(DONE, seryugo_lane_drain(&board.room, number, &moved));
    } while (seryugo_note(&board) == SERYUGO_DONE);
    seryugo_close(lane);
    errno = 0;
    RETURNS(FILE_FULL, seryugo_switchboard_close(&board));
    IS(EFBIG, (uint64_t)errno);
    setrlimit(RLIMIT_FSIZE, &before);
    unlink("late");
}

/* Messages of all lengths and bytes are there again, the longest, and a swap of two. */
static void keep_long_messages(uint32_t flags)
{
    static uint8_t bytes[SERYUGO_FILE_MESSAGE_MOST + 1];
    static const size_t lengths[] = {0, 1, 7, 8, 9, 78, 79, 5000, 100000, SERYUGO_FILE_MESSAGE_MOST};
    struct seryugo_switchboard board;
    struct seryugo_seat seat;
    struct seryugo_file_options options = {.flags = flags, .segment = 4096};
    struct seryugo_bytes message;
    uint64_t variable;

    for (size_t at = 0; at < sizeof bytes; at++) {
        bytes[at] = (uint8_t)(at * 7 + at / 256);
    }
    RETURNS(DONE, seryugo_switchboard_open_file("long", SERYUGO_BYTES, &options, &found, &board));
    RETURNS(DONE, seryugo_seat_open(&board, &seat));
    RETURNS(DONE, seryugo_seat_mailbox_again(&seat, 0));
    for (size_t at = 0; at < sizeof lengths / sizeof *lengths; at++) {
        RETURNS(DONE, seryugo_seat_bytes_send(&seat, 0, bytes, lengths[at]));
    }
    RETURNS(TOO_LONG, seryugo_seat_bytes_send(&seat, 0, bytes, sizeof bytes));
    RETURNS(DONE, seryugo_seat_bytes_mvar_init(&seat, bytes, 1000000, &variable));
    RETURNS(TOO_LONG, seryugo_seat_bytes_swap(&seat, variable, bytes, 398001, NULL, &message));
    RETURNS(DONE, seryugo_seat_bytes_swap(&seat, variable, bytes, 398000, NULL, &message));
    IS(1000000, message.length);
    seryugo_bytes_free(message);
    seryugo_seat_leave(&seat);
    RETURNS(DONE, seryugo_switchboard_close(&board));
    RETURNS(DONE, seryugo_switchboard_open_file("long", SERYUGO_BYTES, &options, &found, &board));
    RETURNS(DONE, seryugo_seat_open(&board, &seat));
    for (size_t at = 0; at < sizeof lengths / sizeof *lengths; at++) {
        RETURNS(DONE, seryugo_seat_bytes_recv(&seat, 0, NULL, &message));
        IS(lengths[at], message.length);
        IS(0, (uint64_t)(memcmp(seryugo_bytes_at(&message), bytes, lengths[at]) != 0));
        seryugo_bytes_free(message);
    }
    seryugo_seat_leave(&seat);
    RETURNS(DONE, seryugo_switchboard_close(&board));
    unlink("long");
}

int main(int many, char **words)
{
    if (many < 2 || chdir(words[1]) != 0) {
        return 64;
    }
    meet_the_limit_of_size(0);
    meet_the_limit_of_size(SERYUGO_FILE_BY_WRITES);
    meet_a_cut(0);
    meet_a_cut(SERYUGO_FILE_BY_WRITES);
    meet_a_fork();
    meet_a_fork_under_the_lock();
    meet_a_child_that_lives_on();
    meet_a_program_that_starts();
    meet_a_foreign_cut();
    keep_lanes();
    keep_what_did_not_fit();
    close_what_did_not_fit();
    keep_long_messages(0);
    keep_long_messages(SERYUGO_FILE_BY_WRITES);
    puts("each call that returned is in the file");
    return 0;
}
