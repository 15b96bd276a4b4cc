/* Where Redis, a server or a client listens: HOST:PORT, or PORT alone for 127.0.0.1. */
#ifndef FOLLOW_ADDRESS_H
#define FOLLOW_ADDRESS_H

#include <stdint.h>

struct address {
    char host[256];
    uint16_t port;
    /* HOST:PORT. */
    char name[272];
};

/* Reads an address. If the word is none, the process ends. */
struct address address_read(const char *word);

/* Opens a socket that is bound to the address and doesn't listen yet, so that each client is refused. If the address is taken, the
 * process ends. */
int address_bind(const struct address *address);

/* Connects to the address within this many milliseconds, which also limit each later read and write. Returns the socket, or -1. */
int address_connect(const struct address *address, int milliseconds);

/* Milliseconds of a clock that never goes back. */
int64_t now(void);

/* Sleeps this many milliseconds, or less if a signal comes. */
void sleep_for(int milliseconds);

#endif
