#include "calls.h"
#include "messages.h"

#include <limits.h>

/* A call that is made: by whom, on what, and with which message. */
struct request {
    const struct call *call;
    struct place *seat;
    struct place *object;
    struct sent sent;
    struct message got;
};

static bool does_give(const struct call *call) { return call->shape == SENDING || call->shape == PUTTING; }

static bool has_message(const struct call *call) { return does_give(call) || call->shape == SWAPPING; }

static bool may_block(const struct call *call) { return call->shape == ASKING || call->shape == SWAPPING; }

/* Returns whether this is a time limit that the method takes. */
static bool is_limit(PyObject *limit)
{
    if (limit == Py_None) {
        return true;
    }
    return (PyFloat_CheckExact(limit) || PyLong_CheckExact(limit)) && PyFloat_AsDouble(limit) >= 0;
}

/* Returns whether the arguments are a seat, an object, a message if the call sends one, and maybe a time limit. */
static bool is_plain(const struct call *call, PyObject *const *arguments, Py_ssize_t count, PyObject *names)
{
    Py_ssize_t wanted = has_message(call) ? 3 : 2;

    if (!names && count == wanted) {
        return true;
    }
    if (!may_block(call) || (names && PyTuple_GET_SIZE(names) != 1)) {
        return false;
    }
    if (names && PyUnicode_CompareWithASCIIString(PyTuple_GET_ITEM(names, 0), "timeout") != 0) {
        return false;
    }
    return count == wanted + !names && is_limit(arguments[wanted]);
}

/* Returns whether the room takes messages of these lengths. What a swap's variable holds isn't known here. */
static bool is_short(const struct request *request)
{
    unsigned long long longest = request->seat->room->longest;

    return request->sent.length <= longest && (request->call->shape != SWAPPING || longest == ULLONG_MAX);
}

/* Returns whether the library can be called. Its caller clears the request, and an exception if there is one. */
static bool is_ready(struct request *request, PyObject *const *arguments)
{
    request->seat = place_of(arguments[0]);
    request->object = request->seat ? place_of(arguments[1]) : NULL;
    if (!request->object || request->seat->kind != SEAT || request->object->kind == SEAT) {
        return false;
    }
    if (request->seat->room != request->object->room) {
        return false;
    }
    if (has_message(request->call) && !is_encoded(request->object, arguments[2], &request->sent)) {
        return false;
    }
    return is_short(request) && is_at_rest(request->seat->room);
}

static void clear(struct request *request)
{
    Py_XDECREF(request->seat);
    Py_XDECREF(request->object);
    Py_XDECREF(request->sent.utf8);
}

/* Makes the call. If the seat was parked, its call is withdrawn: it has done nothing. */
static uint32_t made(struct request *request)
{
    uintptr_t function = request->call->function;
    struct room *room = request->seat->room;
    uint64_t seat = request->seat->number, object = request->object->number;
    const char *at = request->sent.at;
    size_t length = request->sent.length;
    uint32_t code;

    if (does_give(request->call)) {
        return ((giving_function *)function)(room->at, seat, object, at, length);
    }
    if (request->call->shape == POLLING) {
        return ((polling_function *)function)(room->at, seat, object, &request->got);
    }
    if (request->call->shape == ASKING) {
        code = ((asking_function *)function)(room->at, seat, object, false, &request->got);
    } else {
        code = ((swapping_function *)function)(room->at, seat, object, at, length, false, &request->got);
    }
    if (code == PARKED) {
        room->withdraw(room->at, seat);
    }
    return code;
}

/* After an exception, which a signal's handler may have raised, wakes all threads that wait, and leaves the exception. */
static void recover(PyObject *seat)
{
    PyObject *type, *value, *trace, *recovered;

    PyErr_Fetch(&type, &value, &trace);
    recovered = PyObject_CallMethod(seat, "_recover", NULL);
    if (!recovered) {
        PyErr_Clear();
    }
    Py_XDECREF(recovered);
    PyErr_Restore(type, value, trace);
}

/* Wakes the thread of the seat that is due, if there is one. Returns false after an exception. */
static bool woke(const struct room *room, PyObject *seat)
{
    uint64_t due;
    PyObject *rung;

    if (PySet_GET_SIZE(room->parked) == 0 || room->next_due(room->at, &due) != DONE) {
        return true;
    }
    rung = PyObject_CallMethod(seat, "_ring", "K", (unsigned long long)due);
    if (!rung) {
        recover(seat);
    }
    Py_XDECREF(rung);
    return rung != NULL;
}

/* Frees a message that the library has handed over, if it isn't in the struct. */
static void release(const struct request *request)
{
    if (request->got.length > IN_PLACE) {
        request->seat->room->release(request->got.owner);
    }
}

/* Returns what a call returns that was done. */
static PyObject *answer_of(const struct request *request)
{
    PyObject *message;

    if (does_give(request->call)) {
        return Py_NewRef(request->call->shape == PUTTING ? Py_True : Py_None);
    }
    message = decoded(request->object, &request->got);
    release(request);
    return message;
}

/* Raises the exception for a port that is closed. */
static PyObject *closed(const struct call *call, PyObject *port)
{
    PyObject *error = PyObject_CallFunction(call->error_of, "iO", CLOSED, port);

    if (error) {
        PyErr_SetObject((PyObject *)Py_TYPE(error), error);
    }
    Py_XDECREF(error);
    return NULL;
}

/* Makes a call that is ready. Returns whether it was answered: by an object, or by null and an exception. */
static bool is_answered(struct request *request, PyObject *const *arguments, PyObject **answer)
{
    uint32_t code = made(request);

    *answer = NULL;
    if (!woke(request->seat->room, arguments[0])) {
        release(request);
        return true;
    }
    switch (code) {
    case DONE:
        *answer = answer_of(request);
        return true;
    case NOTHING:
        *answer = Py_NewRef(Py_None);
        return true;
    case PUT:
        *answer = Py_NewRef(Py_False);
        return true;
    case CLOSED:
        *answer = closed(request->call, arguments[1]);
        return true;
    default:
        return false;
    }
}

PyObject *called(PyObject *self, PyObject *const *arguments, size_t flags, PyObject *names)
{
    const struct call *call = (const struct call *)self;
    struct request request = {.call = call};
    PyObject *answer = NULL;
    bool is_done = is_plain(call, arguments, PyVectorcall_NARGS(flags), names) && is_ready(&request, arguments) &&
                   is_answered(&request, arguments, &answer);

    clear(&request);
    if (is_done) {
        return answer;
    }
    PyErr_Clear();
    return PyObject_Vectorcall(call->method, arguments, flags, names);
}
