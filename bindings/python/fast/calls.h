/*
 * The calls of a seat that the library answers at once, without ctypes: the module seryugo._fast. `_fast_calls.py` alone uses it.
 *
 * A `Call` takes the place of a method of a seat. It has the address of a function of the library, and the method, which makes
 * the same call by ctypes. It leaves to the method a call that was refused, one that would block, and arguments of other types.
 * Such a call has changed nothing.
 *
 * The interpreter's lock does here what the room's lock does elsewhere. A thread holds the room's lock while it takes several
 * steps on a room, and during a call of the library that lets the interpreter's lock go. So while the room's lock is free, no
 * thread is in the midst of a step. A call tests that first. From there to its last use of the room it runs no code in Python, so
 * no other thread runs. It never waits for the room's lock, so it blocks no thread that holds it.
 */
#ifndef SERYUGO_FAST_CALLS_H
#define SERYUGO_FAST_CALLS_H

#include "places.h"

/* What a call takes and returns. A call that puts takes what one that sends takes, and returns whether it was done. */
enum shape { SENDING, PUTTING, POLLING, ASKING, SWAPPING };

struct call {
    PyObject_HEAD
    vectorcallfunc vectorcall;
    enum shape shape;
    uintptr_t function;
    /* Makes the same call by ctypes. */
    PyObject *method;
    /* Returns the exception for a code and an object. */
    PyObject *error_of;
    /* The name, the text and the signature of the method. */
    PyObject *attributes;
};

/* Makes a call, as a vectorcallfunc does. */
PyObject *called(PyObject *self, PyObject *const *arguments, size_t flags, PyObject *names);

#endif
