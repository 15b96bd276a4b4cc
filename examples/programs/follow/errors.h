/* The named errors by which the program ends. */
#ifndef FOLLOW_ERRORS_H
#define FOLLOW_ERRORS_H

#include <signal.h>
#include <stdint.h>

/* The exit statuses. The first five are those of `cml`. */
enum status {
    STATUS_DONE = 0,
    /* The stream holds what no leader wrote, or has lost what it kept. */
    STATUS_FAULT = 2,
    /* The words of the command line aren't understood. */
    STATUS_WORDS = 3,
    /* Redis or an address can't be reached. */
    STATUS_NETWORK = 4,
    STATUS_MEMORY = 5,
    /* Another process leads. */
    STATUS_REPLACED = 6
};

/* Whether SIGTERM or SIGINT came. */
extern volatile sig_atomic_t is_stopping;

/* From now on SIGTERM and SIGINT set `is_stopping`, and a write to a closed socket returns an error. */
void watch_signals(void);

/* Writes `follow: ` and these words to standard error, and ends the process. */
_Noreturn void fail(enum status status, const char *format, ...) __attribute__((format(printf, 2, 3)));

/* Ends the process unless a call of the library returned SERYUGO_DONE. `what` names what was done. */
void require_done(uint32_t code, const char *what);

#endif
