/* A client that finds the leader, and asks again until it is answered. */
#ifndef FOLLOW_CLIENT_H
#define FOLLOW_CLIENT_H

#include "address.h"

#include <stddef.h>

/* Sends the lines of standard input as this client's next requests, one at a time, and prints each answer. Two requests are at
 * least this many milliseconds apart. It tries the addresses in turn. If no process answers for a minute, the process ends. If it is
 * to stop, it stops after the answer to its last request. */
void client_run(uint64_t client, const struct address *addresses, size_t count, int milliseconds);

/* Sends the lines as they are to one process, and prints its answers. */
void client_ask(const struct address *address, char **lines, size_t count);

#endif
