#include "errors.h"

#include <seryugo.h>

#include <stdarg.h>
#include <stdio.h>
#include <stdlib.h>
#include <string.h>

volatile sig_atomic_t is_stopping;

static void stop(int number)
{
    (void)number;
    is_stopping = 1;
}

void watch_signals(void)
{
    struct sigaction action;

    memset(&action, 0, sizeof action);
    action.sa_handler = stop;
    /* The second signal ends the process at once. */
    action.sa_flags = (int)SA_RESETHAND;
    if (sigaction(SIGTERM, &action, NULL) != 0 || sigaction(SIGINT, &action, NULL) != 0) {
        fail(STATUS_NETWORK, "signals can't be watched");
    }
    action.sa_handler = SIG_IGN;
    action.sa_flags = 0;
    if (sigaction(SIGPIPE, &action, NULL) != 0) {
        fail(STATUS_NETWORK, "signals can't be watched");
    }
}

void fail(enum status status, const char *format, ...)
{
    va_list words;

    fflush(stdout);
    fputs("follow: ", stderr);
    va_start(words, format);
    vfprintf(stderr, format, words);
    va_end(words);
    fputc('\n', stderr);
    exit(status);
}

void require_done(uint32_t code, const char *what)
{
    if (code == SERYUGO_NO_MEMORY) {
        fail(STATUS_MEMORY, "no memory for %s", what);
    }
    if (code != SERYUGO_DONE) {
        fail(STATUS_FAULT, "the library returned %u for %s", (unsigned)code, what);
    }
}
