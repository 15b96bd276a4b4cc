/* A client's request: one line. */
#ifndef FOLLOW_REQUEST_H
#define FOLLOW_REQUEST_H

#include "text.h"

/* A queue's name has at most this many bytes. */
#define QUEUE_MOST 64

enum verb {
    /* CLIENT last: the number of the client's last request that was performed. */
    VERB_LAST,
    /* CLIENT NUMBER put QUEUE TEXT */
    VERB_PUT,
    /* CLIENT NUMBER get QUEUE */
    VERB_GET,
    /* CLIENT NUMBER count QUEUE */
    VERB_COUNT
};

struct request {
    uint64_t client;
    enum verb verb;
    /* The client numbers its requests from 1. 0 of VERB_LAST. */
    uint64_t number;
    /* The queue's name, and what is put: all after the space. */
    struct span queue;
    struct span text;
};

/* Reads a line without its line feed. Returns NULL, or what is wrong with it. */
const char *request_read(struct span line, struct request *request);

#endif
