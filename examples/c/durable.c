/* Letters that survive the end of the program, even by kill -9: each run sends one, and receives the oldest. */
#include <seryugo_switchboard.h>
#include <stdio.h>

int main(int count, char **words)
{
    struct seryugo_switchboard board;
    struct seryugo_file_found found;
    struct seryugo_seat seat;
    uint64_t letter = 0;
    const char *path = count < 2 ? "letters.journal" : words[1];

    if (seryugo_switchboard_open_file(path, SERYUGO_NUMBERS, NULL, &found, &board) != SERYUGO_DONE) {
        fprintf(stderr, "%s\n", found.words);
        return 1;
    }
    seryugo_seat_open(&board, &seat);
    seryugo_seat_mailbox_again(&seat, 0);
    seryugo_seat_send(&seat, 0, found.entries);
    if (seryugo_seat_recv(&seat, 0, NULL, &letter) == SERYUGO_DONE) {
        printf("letter %llu\n", (unsigned long long)letter);
    }
    seryugo_seat_leave(&seat);
    return seryugo_switchboard_close(&board) == SERYUGO_DONE ? 0 : 1;
}
