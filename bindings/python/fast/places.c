#include "places.h"

#include <limits.h>
#include <structmember.h>

/* The attribute of a seat or an object that has its place. */
static PyObject *place_name;

static PyObject *room_new(PyTypeObject *type, PyObject *arguments, PyObject *names)
{
    unsigned long long at, next_due, withdraw, release;
    PyObject *locked, *parked, *dropped, *unwritten;
    struct room *room;

    if (names || !PyArg_ParseTuple(arguments, "KKKKOO!OO!", &at, &next_due, &withdraw, &release, &locked, &PySet_Type, &parked,
                                   &dropped, &PyList_Type, &unwritten)) {
        return NULL;
    }
    room = (struct room *)type->tp_alloc(type, 0);
    if (!room) {
        return NULL;
    }
    room->at = (void *)(uintptr_t)at;
    room->next_due = (next_due_function *)(uintptr_t)next_due;
    room->withdraw = (withdraw_function *)(uintptr_t)withdraw;
    room->release = (release_function *)(uintptr_t)release;
    room->locked = Py_NewRef(locked);
    room->parked = Py_NewRef(parked);
    room->dropped = Py_NewRef(dropped);
    room->unwritten = Py_NewRef(unwritten);
    room->longest = ULLONG_MAX;
    return (PyObject *)room;
}

static void room_free(PyObject *self)
{
    struct room *room = (struct room *)self;

    Py_XDECREF(room->locked);
    Py_XDECREF(room->parked);
    Py_XDECREF(room->dropped);
    Py_XDECREF(room->unwritten);
    Py_TYPE(self)->tp_free(self);
}

static PyMemberDef room_members[] = {
    {"longest", T_ULONGLONG, offsetof(struct room, longest), 0, NULL},
    {NULL, 0, 0, 0, NULL},
};

PyTypeObject room_type = {
    PyVarObject_HEAD_INIT(NULL, 0)
    .tp_name = "seryugo._fast.Room",
    .tp_basicsize = sizeof(struct room),
    .tp_flags = Py_TPFLAGS_DEFAULT,
    .tp_new = room_new,
    .tp_dealloc = room_free,
    .tp_members = room_members,
};

static PyObject *place_new(PyTypeObject *type, PyObject *arguments, PyObject *names)
{
    PyObject *room, *decode;
    unsigned long long number;
    int kind;
    struct place *place;

    if (names || !PyArg_ParseTuple(arguments, "O!KiO", &room_type, &room, &number, &kind, &decode)) {
        return NULL;
    }
    place = (struct place *)type->tp_alloc(type, 0);
    if (!place) {
        return NULL;
    }
    place->room = (struct room *)Py_NewRef(room);
    place->number = number;
    place->kind = (enum kind)kind;
    place->decode = Py_NewRef(decode);
    return (PyObject *)place;
}

static void place_free(PyObject *self)
{
    struct place *place = (struct place *)self;

    Py_XDECREF(place->room);
    Py_XDECREF(place->decode);
    Py_TYPE(self)->tp_free(self);
}

PyTypeObject place_type = {
    PyVarObject_HEAD_INIT(NULL, 0)
    .tp_name = "seryugo._fast.Place",
    .tp_basicsize = sizeof(struct place),
    .tp_flags = Py_TPFLAGS_DEFAULT,
    .tp_new = place_new,
    .tp_dealloc = place_free,
};

bool can_find_places(void)
{
    place_name = PyUnicode_InternFromString("_place");
    return place_name != NULL;
}

struct place *place_of(PyObject *named)
{
    PyObject *place = PyObject_GetAttr(named, place_name);

    if (place && Py_TYPE(place) == &place_type) {
        return (struct place *)place;
    }
    Py_XDECREF(place);
    return NULL;
}

bool is_at_rest(const struct room *room)
{
    PyObject *is_locked;

    if (PyList_GET_SIZE(room->unwritten) || PyObject_Size(room->dropped)) {
        return false;
    }
    is_locked = PyObject_CallNoArgs(room->locked);
    Py_XDECREF(is_locked);
    return is_locked == Py_False;
}
