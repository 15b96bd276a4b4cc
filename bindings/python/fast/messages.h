/* What a message of each type is as bytes. `_messages.py` has the same in Python. */
#ifndef SERYUGO_FAST_MESSAGES_H
#define SERYUGO_FAST_MESSAGES_H

#include "places.h"

/* A message that is sent: its bytes, and the object that holds them, if they aren't here or in the message. */
struct sent {
    const char *at;
    size_t length;
    PyObject *utf8;
    char number[sizeof(long long) + 1];
};

/* Returns whether the message has just the type of the object's messages, and is encoded. Its caller frees `sent->utf8`. */
bool is_encoded(const struct place *object, PyObject *message, struct sent *sent);

/* Returns the message that these bytes are, or null after an exception. */
PyObject *decoded(const struct place *object, const struct message *message);

#endif
