/* Replays the script on standard input, and writes its report to standard output: what `cml replay` does, by the library. */
#include "seryugo_script.h"

#include <stdio.h>
#include <stdlib.h>

/* The largest script there is. */
#define MOST ((size_t)1 << 20)

#define LIMIT 65536

/* The report of a script of this many bytes, which the caller frees; null where there is no memory for it. */
static uint8_t *replayed(const uint8_t *script, size_t length, struct seryugo_end *end)
{
    uint8_t *report;

    /* Once for the length, and once for the report. */
    seryugo_replay(script, length, LIMIT, NULL, 0, end);
    report = malloc(end->length + 1);
    if (report != NULL) {
        seryugo_replay(script, length, LIMIT, report, end->length, end);
    }
    return report;
}

int main(void)
{
    static uint8_t script[MOST + 1];
    size_t length = fread(script, 1, sizeof script, stdin);
    struct seryugo_end end;
    uint8_t *report = replayed(script, length, &end);

    if (report == NULL || fwrite(report, 1, end.length, stdout) != end.length || fflush(stdout) != 0) {
        return 5;
    }
    if (end.line > 0) {
        fprintf(stderr, "line %llu\n", (unsigned long long)end.line);
    }
    free(report);
    return (int)end.status;
}
