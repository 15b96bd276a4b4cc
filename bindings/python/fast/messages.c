#include "messages.h"

/* Returns in how many bytes a number goes, with its sign, as `_messages.py` has it. */
static size_t length_of(long long number)
{
    unsigned long long rest = number < 0 ? 0 - (unsigned long long)number : (unsigned long long)number;
    size_t length = 1;

    for (; rest >= 0x80; rest >>= 8) {
        length++;
    }
    return length;
}

static bool number_is_encoded(PyObject *message, struct sent *sent)
{
    int overflow;
    long long number = PyLong_AsLongLongAndOverflow(message, &overflow);

    sent->at = sent->number;
    sent->length = length_of(number);
    for (size_t i = 0; i < sent->length; i++) {
        sent->number[i] = i < sizeof number ? (char)((unsigned long long)number >> 8 * i) : number < 0 ? -1 : 0;
    }
    return !overflow;
}

static bool text_is_encoded(PyObject *message, struct sent *sent)
{
    if (PyUnicode_IS_COMPACT_ASCII(message)) {
        sent->at = (const char *)PyUnicode_1BYTE_DATA(message);
        sent->length = (size_t)PyUnicode_GET_LENGTH(message);
        return true;
    }
    /* A text that was asked for its UTF-8 would keep it. */
    sent->utf8 = PyUnicode_AsUTF8String(message);
    if (!sent->utf8) {
        return false;
    }
    sent->at = PyBytes_AS_STRING(sent->utf8);
    sent->length = (size_t)PyBytes_GET_SIZE(sent->utf8);
    return true;
}

bool is_encoded(const struct place *object, PyObject *message, struct sent *sent)
{
    if (object->kind == OF_INT) {
        return PyLong_CheckExact(message) && number_is_encoded(message, sent);
    }
    if (object->kind == OF_STR) {
        return PyUnicode_CheckExact(message) && text_is_encoded(message, sent);
    }
    if (!PyBytes_CheckExact(message)) {
        return false;
    }
    sent->at = PyBytes_AS_STRING(message);
    sent->length = (size_t)PyBytes_GET_SIZE(message);
    return true;
}

/* Returns a number of at most eight bytes. */
static PyObject *number_at(const char *at, size_t length)
{
    unsigned long long bits = length && at[length - 1] & 0x80 ? ~0ULL : 0;

    while (length-- > 0) {
        bits = bits << 8 | (unsigned char)at[length];
    }
    return PyLong_FromLongLong((long long)bits);
}

PyObject *decoded(const struct place *object, const struct message *message)
{
    const char *at = message->length > IN_PLACE ? message->block : message->in_place;

    if (object->kind == OF_STR) {
        PyObject *text = PyUnicode_DecodeUTF8(at, (Py_ssize_t)message->length, NULL);

        if (text || !PyErr_ExceptionMatches(PyExc_UnicodeDecodeError)) {
            return text;
        }
        /* The object's own function raises the error of this package. */
        PyErr_Clear();
        return PyObject_CallFunction(object->decode, "y#", at, (Py_ssize_t)message->length);
    }
    if (object->kind == OF_BYTES) {
        return PyBytes_FromStringAndSize(at, (Py_ssize_t)message->length);
    }
    if (message->length <= sizeof(long long)) {
        return number_at(at, message->length);
    }
    return PyObject_CallFunction(object->decode, "y#", at, (Py_ssize_t)message->length);
}
