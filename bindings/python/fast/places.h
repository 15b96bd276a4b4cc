/* A room, and the seats and objects of it. */
#ifndef SERYUGO_FAST_PLACES_H
#define SERYUGO_FAST_PLACES_H

#define PY_SSIZE_T_CLEAN
#include <Python.h>

#include "library.h"

/* What a place names: a seat, or an object with messages of a type. */
enum kind { SEAT, OF_BYTES, OF_STR, OF_INT };

struct room {
    PyObject_HEAD
    void *at;
    next_due_function *next_due;
    withdraw_function *withdraw;
    release_function *release;
    /* Returns whether the room's lock is held. */
    PyObject *locked;
    /* The seats that are parked. While there is none, no seat is due. */
    PyObject *parked;
    /* While one of these has something, each call has more to do first. */
    PyObject *dropped;
    PyObject *unwritten;
    /* The most bytes of a message. Less than there may be: then a swap's messages are to be measured first, by its method. */
    unsigned long long longest;
};

struct place {
    PyObject_HEAD
    struct room *room;
    uint64_t number;
    enum kind kind;
    /* Turns bytes into a message. */
    PyObject *decode;
};

extern PyTypeObject room_type;
extern PyTypeObject place_type;

/* Prepares `place_of`. Returns false after an exception. */
bool can_find_places(void);

/* Returns the place of a seat or an object, which its caller frees. Returns null if it has none, maybe with an exception. */
struct place *place_of(PyObject *named);

/* Returns whether no thread is in the midst of steps on the room, and a call has nothing else to do first. */
bool is_at_rest(const struct room *room);

#endif
