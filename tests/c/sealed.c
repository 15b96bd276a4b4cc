/* A journal leaves the room as text with sums, piece by piece, and is read back: each call for that, with what it is to return. Each
 * byte is changed in turn, and each change is seen. If there is no memory for a call, the program frees all that it has, and ends with
 * status 5. */
#include "kept.h"

static struct seryugo_sum sum;

static void free_all(void) { free_kept(); }

/* The digits of a sum. */
static const char *digits(const struct seryugo_sum *of)
{
    static char word[65];

    for (size_t at = 0; at < 32; at++) {
        snprintf(word + 2 * at, 3, "%02x", (unsigned)of->bytes[at]);
    }
    return word;
}

/* Reads the file up to a place. Returns the code by which the reading ends, and writes its sum, if it has one. */
static uint32_t read_to(size_t end, struct seryugo_sum *found)
{
    uint32_t code, told;

    open_reading();
    code = seryugo_reading_take(&reading, file, end);
    if (code == SERYUGO_DONE) {
        code = seryugo_reading_end(&reading);
    }
    told = seryugo_reading_sum(&reading, found);
    if (code == SERYUGO_NO_MEMORY || told == SERYUGO_NO_MEMORY) {
        free_all();
        exit(5);
    }
    found->is_there = found->is_there && told == SERYUGO_DONE;
    close_one(&has_reading, reading);
    return code;
}

static void write_two_pieces(void)
{
    uint64_t found;
    size_t second;
    struct seryugo_sum first;
    char expected[128];

    RETURNS(DONE, seryugo_room_open(100, &room));
    has_room = true;
    RETURNS(DONE, seryugo_new_seat(&room, &found));
    RETURNS(WRONG_HANDLE, seryugo_sealed_text(&room, 0, &sum, &text));
    RETURNS(DONE, seryugo_new_mailbox(&room, 0, &found));
    RETURNS(DONE, seryugo_send(&room, 0, 0, 5));
    append(&sum);
    /* `sha256sum` has made the same sum of the first three lines. */
    has_there(0, "journal 3\nseat 0 mailbox: made 0\nseat 0 send 0 5: done\nend 2 ", __LINE__);
    snprintf(expected, sizeof expected, "%s\n", digits(&sum));
    has_there(kept - 65, expected, __LINE__);
    second = kept;
    first = sum;
    RETURNS(DONE, seryugo_recv(&room, 0, 0, false, &found));
    append(&sum);
    snprintf(expected, sizeof expected, "journal 3 %s\nfrom 2\nseat 0 recv 0: 5\nend 3 ", digits(&first));
    has_there(second, expected, __LINE__);
    close_one(&has_room, room);
}

static void read_whole_and_torn(void)
{
    struct seryugo_sum found = { 0 };
    size_t first_end = (size_t)(strstr(file, "journal 3 ") - file);

    found.is_there = true;
    IS(SERYUGO_DONE, read_to(kept, &found));
    IS(true, found.is_there);
    IS(0, memcmp(found.bytes, sum.bytes, 32) != 0);
    /* Only a header: there is no sum. */
    found.is_there = true;
    IS(SERYUGO_TEXT_OPEN, read_to(10, &found));
    IS(false, found.is_there);
    /* A piece that has no end: the sum by which it can be ended is the one that it has. */
    found.is_there = true;
    IS(SERYUGO_TORN, read_to(first_end - 20, &found));
    IS(true, found.is_there);
    IS(0, strncmp(digits(&found), file + first_end - 65, 64) != 0);
}

/* Whatever bytes a sum has that nobody filled, it has none or is refused. */
static void leave_a_sum_unfilled(void)
{
    struct seryugo_sum unfilled;

    memset(&unfilled, 0xA5, sizeof unfilled);
    open_reading();
    RETURNS(NOTHING, seryugo_reading_sum(&reading, &unfilled));
    close_one(&has_reading, reading);
    IS(0, unfilled.is_there);
    memset(&unfilled, 0xA5, sizeof unfilled);
    RETURNS(OUT_OF_BOUNDS, seryugo_sealed_text(&room, 0, &unfilled, &text));
}

static void change_each_byte(void)
{
    /* If each allocation fails in turn, the program runs some hundred times. */
    size_t step = getenv("REFUSE") != NULL ? 60 : 1;

    for (size_t place = 0; place < kept; place += step) {
        struct seryugo_sum found = { 0 };
        char was = file[place];

        file[place] = was == '1' ? '2' : '1';
        if (read_to(kept, &found) == SERYUGO_DONE) {
            fprintf(stderr, "a change of byte %zu isn't seen\n", place);
            exit(1);
        }
        file[place] = was;
    }
}

int main(void)
{
    write_two_pieces();
    read_whole_and_torn();
    leave_a_sum_unfilled();
    change_each_byte();
    free_all();
    puts("each change is seen");
    return 0;
}
