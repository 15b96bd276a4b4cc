/* A journal in a file: each refusal by its name, which leaves the file as it was byte for byte; the recovery of a text that ends
 * at any byte; and zeros and garbage behind it. `file FOLDER` has the folder for itself. With one more word it leaves out each
 * place of a text, which takes minutes on a slow disk. */
#include "filed.h"

/* ---- refusals ---- */

static void refuse(const char *bytes, size_t length, uint32_t messages, uint32_t expected, int line)
{
    struct stat before, after;

    put("refused", bytes, length);
    stat("refused", &before);
    returns(open_as("refused", messages, 0), expected, line);
    stat("refused", &after);
    is(get("refused"), length, line);
    is(memcmp(content, bytes, length) != 0, 0, line);
    is((uint64_t)(before.st_mtim.tv_nsec != after.st_mtim.tv_nsec || before.st_ino != after.st_ino), 0, line);
    is((uint64_t)is_there("refused.new") + (uint64_t)is_there("refused.cut-1"), 0, line);
    HAS(found.words[0] != 0);
}

#define REFUSES(code, text) refuse(text, sizeof text - 1, SERYUGO_NUMBERS, SERYUGO_##code, __LINE__)

static void refuse_texts(void)
{
    static char zeros[100000];

    REFUSES(NO_JOURNAL, "{\"precious\": 1}");
    REFUSES(NO_JOURNAL, "{\"precious\": 1}\n");
    REFUSES(NO_JOURNAL, "\n");
    REFUSES(NO_JOURNAL, "journal\n");
    REFUSES(NO_JOURNAL, "journal x\n");
    REFUSES(NO_JOURNAL, "journalist of the year");
    REFUSES(NO_JOURNAL, "\177ELF\2\1\1\0\0\0\0\0\0\0\0\0");
    REFUSES(NO_JOURNAL, "\0\0\0\0\0\0\0\0\0\0\0");
    REFUSES(NO_JOURNAL, "\0journal 1\n");
    refuse(zeros, sizeof zeros, SERYUGO_NUMBERS, SERYUGO_NO_JOURNAL, __LINE__);
    REFUSES(OTHER_VERSION, "journal 5\n");
    REFUSES(OTHER_VERSION, "journal 0\n");
    REFUSES(OTHER_VERSION, "journal 77\nhello\n");
    REFUSES(OTHER_MESSAGES, "journal 2\n");
    REFUSES(OTHER_MESSAGES, "journal 4\n");
    REFUSES(NO_JOURNAL, "journal 2");
    refuse("journal 1\n", 10, SERYUGO_BYTES, SERYUGO_OTHER_MESSAGES, __LINE__);
    REFUSES(BEGINS_LATER, "journal 1\nfrom 4\nseat 0 mailbox: made 4\n");
    REFUSES(FAULT, "journal 1\nseat 0 mailbox: made 0\nseat 0 mail: done\n");
    HAS(strcmp(found.words, "unknown word") == 0);
    REFUSES(FAULT, "journal 1\nseat 0 mailbox: made 0\nend 2\n");
    HAS(strcmp(found.words, "wrong end") == 0);
    REFUSES(FAULT, "journal 3\nseat 0 mailbox: made 0\nend 1 0000000000000000000000000000000000000000000000000000000000000000\n");
    IS(2, found.lines);
    REFUSES(UNLAWFUL, "journal 1\nseat 0 mailbox: made 0\nseat 0 send 0 5: done\nseat 0 recv 0: 6\n");
    IS(2, found.entries);
    IS(SERYUGO_OUT_OF_BOUNDS, open_as("refused", 7, 0));
    unlink("refused");
}

/* What isn't a file that can be written. */
static void refuse_others(void)
{
    static const char text[] = "journal 1\n";

    RETURNS(NO_JOURNAL, open_numbers("."));
    mkdir("folder", 0777);
    RETURNS(NO_JOURNAL, open_numbers("folder"));
    RETURNS(NO_JOURNAL, open_numbers("folder/"));
    RETURNS(FILE_FAILED, open_numbers("nowhere/journal"));
    IS(ENOENT, (uint64_t)found.error);
    RETURNS(FILE_FAILED, open_numbers(""));
    HAS(mkfifo("pipe", 0666) == 0);
    RETURNS(NO_JOURNAL, open_numbers("pipe"));
    RETURNS(NO_JOURNAL, open_numbers("/dev/null"));
    HAS(symlink("nothing", "astray") == 0);
    RETURNS(FILE_FAILED, open_numbers("astray"));
    HAS(!is_there("nothing"));
    put("refused", text, 10);
    put("file.new", "precious", 8);
    RETURNS(FILE_FAILED, open_numbers("file"));
    HAS(!is_there("file"));
    BEGINS("file.new", "precious");
    unlink("file.new");
    unlink("pipe");
    unlink("astray");
}

/* A file and a folder that may only be read, for one who isn't root. */
static void refuse_what_is_read_only(void)
{
    pid_t child;
    int status = 0;

    put("read_only", "journal 1\n", 10);
    chmod("read_only", 0444);
    HAS(mkdir("locked", 0555) == 0);
    child = fork();
    if (child == 0) {
        if (getuid() == 0 && (setgid(65534) != 0 || setuid(65534) != 0)) {
            _exit(2);
        }
        _exit(open_numbers("read_only") == SERYUGO_FILE_FAILED && found.error == EACCES
                      && open_numbers("locked/new") == SERYUGO_FILE_FAILED && found.error == EACCES
                  ? 0
                  : 1);
    }
    waitpid(child, &status, 0);
    IS(0, (uint64_t)status);
    BEGINS("read_only", "journal 1\n");
    rmdir("locked");
    unlink("read_only");
}

static void refuse_what_is_in_use(void)
{
    struct seryugo other;
    struct seryugo_file *second = NULL;
    struct seryugo_file_found why;

    RETURNS(DONE, open_numbers("used"));
    HAS(found.is_new);
    RETURNS(FILE_BUSY, seryugo_file_open("used", SERYUGO_NUMBERS, 1000, NULL, &other, &why, &second));
    HAS(symlink("used", "link") == 0);
    RETURNS(FILE_BUSY, seryugo_file_open("link", SERYUGO_NUMBERS, 1000, NULL, &other, &why, &second));
    free_all();
    RETURNS(DONE, open_numbers("link"));
    HAS(!found.is_new);
    free_all();
    BEGINS("used", "journal 1\n");
    /* A program that was killed as it made the file left this. */
    unlink("used");
    put("used.new", "journ", 5);
    RETURNS(DONE, open_numbers("used"));
    HAS(found.is_new && !is_there("used.new"));
    free_all();
    unlink("used");
    unlink("link");
}

/* ---- recovery ---- */

static const char whole[] = "journal 1\nseat 0 mailbox: made 0\nseat 1 send 0 5: done\n"
                            "lane 0 send 0 7: done\nseat 0 recv 0: 5\nend 4\n"
                            "journal 1\nfrom 4\nseat 0 send 0 18446744073709551615: done\nseat 0 poll 0: 7\n";

/* How many entries the first bytes of the text have whole. */
static uint64_t entries_in(size_t length)
{
    uint64_t count = 0;

    for (size_t at = 0; at < length; at++) {
        const char *line = whole + at;

        if ((at == 0 || whole[at - 1] == '\n') && (*line == 's' || *line == 'l')) {
            count += (uint64_t)(memchr(line, '\n', length - at) != NULL);
        }
    }
    return count;
}

/* The text ends at each byte in turn, also with zeros, and with garbage behind these. */
static void recover_each_place(void)
{
    char bytes[sizeof whole + 5000];

    for (size_t length = 0; length < sizeof whole; length++) {
        for (int tail = 0; tail < 4; tail++) {
            size_t all = tail == 0 || tail == 3 ? length : length + 4999;

            /* Syncs take long, so most places are tried plain. */
            if (tail != 0 && tail != 3 && length % 5 != 1) {
                continue;
            }
            /* The last time the file can't be exchanged. */
            if (tail == 3) {
                put("torn.new", "precious", 8);
            }
            memset(bytes, 0, sizeof bytes);
            memcpy(bytes, whole, length);
            if (tail == 2) {
                memcpy(bytes + length + 3000, "garbage\n", 8);
            }
            put("torn", bytes, all);
            RETURNS(DONE, open_numbers("torn"));
            IS(entries_in(length), found.entries);
            has_a_clean_end("torn", __LINE__);
            HAS(found.saved[0] == 0 && (tail == 2 ? found.cut_off >= 3008 : found.cut_off < 60));
            free_all();
            if (length % 5 < 2) {
                go_on("torn", __LINE__);
            }
            unlink("torn.new");
        }
    }
    unlink("torn");
}

/* More than a line's length is saved beside, also if the file is exchanged. */
static void save_what_is_cut_off(bool is_exchanged)
{
    size_t length = sizeof whole - 1, far = 4194304 + 10;

    memset(content, 0, sizeof content);
    memcpy(content, whole, length);
    content[length + far] = 'x';
    put("torn", content, length + far + 5000);
    put("torn.cut-1", "precious", 8);
    if (!is_exchanged) {
        put("torn.new", "precious", 8);
    }
    RETURNS(DONE, open_numbers("torn"));
    IS(is_exchanged, found.is_shortened);
    IS(far + 1, found.cut_off);
    has_a_clean_end("torn", __LINE__);
    IS(0, (uint64_t)strcmp(found.saved, "torn.cut-2"));
    free_all();
    BEGINS("torn.cut-1", "precious");
    IS(far + 1, get("torn.cut-2"));
    HAS(content[far] == 'x' && content[0] == 0 && content[far - 1] == 0);
    HAS(is_exchanged ? get("torn") < length : get("torn") == length);
    unlink("torn");
    unlink("torn.new");
    unlink("torn.cut-1");
    unlink("torn.cut-2");
}

/* A journal whose last piece has its end, plain or sealed, and a sealed one that is open. They can't be exchanged. */
static void go_on_after_an_end(void)
{
    static const char plain[] = "journal 1\nseat 0 mailbox: made 0\nend 1\n";
    static const char empty[] = "journal 1\nend 0\n";
    static const char sealed[] = "journal 3\nseat 0 mailbox: made 0\nseat 1 send 0 5: done\n"
                                 "end 2 1b2989a040b7f442f39d194b93ae01cb1209205f96808f609e2e7f01432a2f2d\n";

    put("ended.new", "precious", 8);
    put("ended", plain, sizeof plain - 1);
    go_on("ended", __LINE__);
    BEGINS("ended", "journal 1\nseat 0 mailbox: made 0\nend 1\njournal 1\nfrom 1\nseat 1 send 0 77: done\n");
    put("ended", empty, sizeof empty - 1);
    go_on("ended", __LINE__);
    BEGINS("ended", "journal 1\nend 0\njournal 1\nseat 0 mailbox: made 0\n");
    put("ended", sealed, sizeof sealed - 1);
    go_on("ended", __LINE__);
    BEGINS("ended", "journal 3\nseat 0 mailbox: made 0\nseat 1 send 0 5: done\n"
                    "end 2 1b2989a040b7f442f39d194b93ae01cb1209205f96808f609e2e7f01432a2f2d\n"
                    "journal 3 1b2989a040b7f442f39d194b93ae01cb1209205f96808f609e2e7f01432a2f2d\n"
                    "from 2\nseat 2 send 0 77: done\n");
    go_on("ended", __LINE__);
    put("ended", sealed, 40);
    go_on("ended", __LINE__);
    BEGINS("ended", "journal 3\nseat 0 mailbox: made 0\n"
                    "end 1 5264af217be25d300930fa71f82dd9139f3ac327de77d427213a9ba7370174da\n"
                    "journal 3 5264af217be25d300930fa71f82dd9139f3ac327de77d427213a9ba7370174da\n"
                    "from 1\nseat 1 send 0 77: done\n");
    BEGINS("ended.new", "precious");
    unlink("ended.new");
    unlink("ended");
}

int main(int many, char **words)
{
    if (many < 2 || chdir(words[1]) != 0) {
        return 64;
    }
    refuse_texts();
    refuse_others();
    refuse_what_is_read_only();
    refuse_what_is_in_use();
    if (many == 2) {
        recover_each_place();
    }
    save_what_is_cut_off(false);
    save_what_is_cut_off(true);
    go_on_after_an_end();
    unlink("refused");
    rmdir("folder");
    puts("what is no journal stays, and what is one goes on");
    return 0;
}
