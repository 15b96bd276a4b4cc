/* A journal's file whose text has sums: seals FOLDER. A caller seals what the helper has summed. Opening fails if a byte has changed. It
 * goes on with a text that ends anywhere within a seal. */
#include "filed.h"

/* The text of the file, up to its first byte 0. */
static size_t text_of(const char *path)
{
    size_t length = get(path);

    content[length < sizeof content ? length : length - 1] = 0;
    return strlen(content);
}

/* How many lines of the text begin so. */
static size_t count_lines(const char *path, const char *word)
{
    size_t many = 0;

    text_of(path);
    for (const char *line = content; line != NULL && *line != 0; line = strchr(line, '\n')) {
        line += line != content;
        many += strncmp(line, word, strlen(word)) == 0;
    }
    return many;
}

/* What a reading says of the text, and how many entries it has. */
static uint32_t verdict(const char *path, uint64_t *entries)
{
    size_t length = text_of(path);
    struct seryugo reading;
    uint32_t code;

    RETURNS(DONE, seryugo_open_reading(content[8] % 2 == 1 ? SERYUGO_NUMBERS : SERYUGO_BYTES, &reading));
    code = seryugo_reading_take(&reading, content, length);
    code = code == SERYUGO_DONE ? seryugo_reading_end(&reading) : code;
    RETURNS(DONE, seryugo_reading_entries(&reading, entries));
    seryugo_close(reading);
    return code;
}

static void open_sealed(const char *path, uint32_t messages, uint32_t flags, uint64_t milliseconds)
{
    struct seryugo_file_options options = {
        .flags = flags | SERYUGO_FILE_SEALED, .segment = 4096, .short_from = short_from, .sync_milliseconds = milliseconds};

    RETURNS(DONE, seryugo_file_open(path, messages, 1000, &options, &room, &found, &file));
    has_room = true;
}

/* Closes it, and says that its text is a whole journal with as many entries. */
static void close_whole(const char *path, uint64_t expected, int line)
{
    uint64_t entries = 0;

    returns(seryugo_file_close(file), SERYUGO_DONE, line);
    file = NULL;
    close_one(&has_room, room);
    returns(verdict(path, &entries), SERYUGO_DONE, line);
    is(entries, expected, line);
}

/* Sends and receives, so that nothing waits. */
static uint64_t pass(uint64_t seat, uint64_t many)
{
    uint64_t message = 0;

    for (uint64_t at = 0; at < many; at++) {
        RETURNS(DONE, send_kept(seat, at));
        RETURNS(DONE, seryugo_file_reserve(file, &room, 0));
        RETURNS(DONE, seryugo_recv_poll(&room, seat, 0, &message));
        RETURNS(DONE, seryugo_file_note(file, &room, NULL));
        IS(at, message);
    }
    return 2 * many;
}

static uint64_t make_mailbox(uint64_t seat)
{
    uint64_t mailbox = 0;

    RETURNS(DONE, seryugo_file_reserve(file, &room, 0));
    RETURNS(DONE, seryugo_new_mailbox(&room, seat, &mailbox));
    RETURNS(DONE, seryugo_file_note(file, &room, NULL));
    return 1;
}

/* ---- seals ---- */

/* With time, or with many entries alone, a piece is sealed while the file is open. */
static void seal_in_use(uint32_t flags, uint64_t milliseconds)
{
    uint64_t seat, made;

    open_sealed("in_use", SERYUGO_NUMBERS, flags, milliseconds);
    seat = new_seat();
    made = make_mailbox(seat);
    /* The helper may need long to sum so many entries. */
    made += milliseconds == 0 ? pass(seat, 40000) : 0;
    while (count_lines("in_use", "end ") == 0) {
        HAS(get("in_use") < sizeof content);
        made += pass(seat, 1);
        usleep(2000);
    }
    HAS(milliseconds != 0 || made > 65536);
    IS(count_lines("in_use", "end ") + 1, count_lines("in_use", "journal 3"));
    close_whole("in_use", made, __LINE__);
    IS(count_lines("in_use", "end "), count_lines("in_use", "journal 3"));
    unlink("in_use");
}

/* It is opened, used and closed again and again. Each text is a whole journal. */
static void seal_each_time(void)
{
    uint64_t made = 0;

    for (int round = 0; round < 4; round++) {
        open_sealed("each", SERYUGO_NUMBERS, round % 2 == 0 ? 0 : SERYUGO_FILE_BY_WRITES, 0);
        IS(made, found.entries);
        HAS(!found.is_shortened && found.cut_off == 0);
        made += round == 0 ? make_mailbox(new_seat()) : pass(new_seat(), (uint64_t)round - 1);
        close_whole("each", made, __LINE__);
    }
    IS(4, count_lines("each", "end "));
    unlink("each");
}

/* The text of a file that has sealed pieces, an open one, and two entries in it. */
static size_t text_with_seals(const char *path)
{
    uint64_t seat;
    size_t length;

    unlink(path);
    open_sealed(path, SERYUGO_NUMBERS, 0, 0);
    seat = new_seat();
    (void)make_mailbox(seat);
    close_whole(path, 1, __LINE__);
    open_sealed(path, SERYUGO_NUMBERS, 0, 0);
    seat = new_seat();
    RETURNS(DONE, send_kept(seat, 5));
    RETURNS(DONE, send_kept(seat, 6));
    length = text_of(path);
    memmove(content + sizeof content / 2, content, length);
    free_all();
    return length;
}

/* ---- what is left of a seal ---- */

/* How many lines of entries are whole before this byte. */
static uint64_t count_entries(const char *text, size_t end)
{
    uint64_t many = 0;

    for (size_t at = 0, start = 0; at < end; at++) {
        if (text[at] == '\n') {
            many += strncmp(text + start, "seat ", 5) == 0;
            start = at + 1;
        }
    }
    return many;
}

/* The text ends at any byte. What is opened has the entries before, and is whole once it is closed. */
static void end_anywhere(void)
{
    size_t length = text_with_seals("first");
    const char *text = content + sizeof content / 2;

    HAS(length > 200);
    for (size_t end = 10; end <= length; end++) {
        put("part", text, end);
        open_sealed("part", SERYUGO_NUMBERS, 0, 0);
        IS(count_entries(text, end), found.entries);
        HAS(!found.is_shortened);
        close_whole("part", found.entries, __LINE__);
        unlink("part");
    }
    unlink("first");
}

/* Any changed byte before the last seal is found, and the file stays as it is. */
static void find_damage(void)
{
    size_t length = text_with_seals("damaged");
    char *text = content + sizeof content / 2;
    size_t sealed = (size_t)(strstr(text, "\njournal 3 ") + 1 - text);
    struct seryugo_file_options options = {.flags = SERYUGO_FILE_SEALED};

    for (size_t at = 10; at < sealed; at++) {
        if (text[at] == '\n') {
            continue;
        }
        text[at] ^= 1;
        put("damaged", text, length);
        HAS(seryugo_file_open("damaged", SERYUGO_NUMBERS, 1000, &options, &room, &found, &file) != SERYUGO_DONE);
        HAS(get("damaged") == length && memcmp(content, text, length) == 0);
        text[at] ^= 1;
    }
    unlink("damaged");
}

/* ---- other texts ---- */

/* A file without sums is exchanged for a short one that has them, and the other way round. Both keep what waits. */
static void exchange_for_the_other(void)
{
    uint64_t seat, message = 0;

    RETURNS(DONE, open_numbers("other"));
    seat = new_seat();
    (void)make_mailbox(seat);
    RETURNS(DONE, send_kept(seat, 5));
    free_all();
    open_sealed("other", SERYUGO_NUMBERS, 0, 0);
    HAS(found.is_shortened && count_lines("other", "journal 3") == 2);
    free_all();
    RETURNS(DONE, open_numbers("other"));
    HAS(found.is_shortened && count_lines("other", "journal 1") == 1);
    RETURNS(DONE, seryugo_recv_poll(&room, new_seat(), 0, &message));
    IS(5, message);
    free_all();
    unlink("other");
}

/* An exchange while the file is open begins a piece, which is sealed like any other. */
static void seal_after_exchanges(uint32_t flags)
{
    struct seryugo_file_exchanges exchanges = {0};
    uint64_t seat;

    short_from = 20000;
    open_sealed("short", SERYUGO_NUMBERS, flags, 1);
    seat = new_seat();
    (void)make_mailbox(seat);
    while (exchanges.done < 3 && exchanges.failed == 0) {
        (void)pass(seat, 100);
        usleep(100);
        seryugo_file_exchanges(file, &exchanges);
    }
    IS(0, exchanges.failed);
    short_from = 0;
    RETURNS(DONE, seryugo_file_close(file));
    file = NULL;
    close_one(&has_room, room);
    RETURNS(DONE, verdict("short", &seat));
    unlink("short");
}

int main(int many, char **words)
{
    if (many != 2 || chdir(words[1]) != 0) {
        return 64;
    }
    seal_in_use(0, 1);
    seal_in_use(SERYUGO_FILE_BY_WRITES, 1);
    seal_in_use(0, 0);
    seal_each_time();
    end_anywhere();
    find_damage();
    exchange_for_the_other();
    seal_after_exchanges(0);
    seal_after_exchanges(SERYUGO_FILE_BY_WRITES);
    return 0;
}
