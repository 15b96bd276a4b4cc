/* The leader's sockets: its clients' lines, and the answers to them. An answer is sent only once it is kept. */
#ifndef FOLLOW_CONNECTIONS_H
#define FOLLOW_CONNECTIONS_H

#include "text.h"

/* A line has at most this many bytes, with its line feed. */
#define LINE_MOST 4096

/* At most this many clients are connected. Others wait until one leaves. */
#define CONNECTIONS_MOST 512

struct connection {
    int socket;
    /* What came and wasn't taken yet. */
    char input[LINE_MOST];
    size_t used;
    /* What comes up to the next line feed is dropped. */
    bool is_skipping;
    /* Answers: those not sent yet, of which the first `kept` bytes may be sent. */
    struct text answers;
    size_t kept;
    /* Nothing more is read. The connection is closed once all answers are sent. */
    bool is_ended;
    /* It can't be written. */
    bool is_broken;
};

struct connections {
    int listener;
    struct connection *all[CONNECTIONS_MOST];
    size_t count;
    /* The connection whose line is next, so that each has its turn. */
    size_t next;
};

/* Begins to listen at a bound socket. If that fails, the process ends. `address` is its name for the error's words. */
void connections_open(struct connections *connections, int listener, const char *address);

/* Waits this many milliseconds for clients, or not at all if a line is there, and reads what they sent. */
void connections_wait(struct connections *connections, int milliseconds);

/* Takes the next line. Returns NULL if there is none, and else the connection, to whose answers the line's answer is appended. The
 * line is good until `connections_drop_line`. */
struct connection *connections_next_line(struct connections *connections, struct span *line);

void connections_drop_line(struct connection *connection, struct span line);

/* Allows all answers to be sent, and sends what the sockets take. */
void connections_release(struct connections *connections);

void connections_close(struct connections *connections);

#endif
