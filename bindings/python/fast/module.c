/* The module seryugo._fast, and its type of calls. */
#include "calls.h"

#ifdef Py_GIL_DISABLED
#error "without the interpreter's lock two threads would call the library at once"
#endif

static PyObject *call_new(PyTypeObject *type, PyObject *arguments, PyObject *names)
{
    int shape;
    unsigned long long function;
    PyObject *method, *error_of;
    struct call *call;

    if (names || !PyArg_ParseTuple(arguments, "iKOO", &shape, &function, &method, &error_of)) {
        return NULL;
    }
    call = (struct call *)type->tp_alloc(type, 0);
    if (!call) {
        return NULL;
    }
    call->vectorcall = called;
    call->shape = (enum shape)shape;
    call->function = (uintptr_t)function;
    call->method = Py_NewRef(method);
    call->error_of = Py_NewRef(error_of);
    return (PyObject *)call;
}

static int call_traverse(PyObject *self, visitproc visit, void *arg)
{
    struct call *call = (struct call *)self;

    Py_VISIT(call->method);
    Py_VISIT(call->error_of);
    Py_VISIT(call->attributes);
    return 0;
}

static int call_clear(PyObject *self)
{
    struct call *call = (struct call *)self;

    Py_CLEAR(call->method);
    Py_CLEAR(call->error_of);
    Py_CLEAR(call->attributes);
    return 0;
}

static void call_free(PyObject *self)
{
    PyObject_GC_UnTrack(self);
    call_clear(self);
    Py_TYPE(self)->tp_free(self);
}

/* A call is a method, as a function in a class is. */
static PyObject *call_bound(PyObject *self, PyObject *seat, PyObject *type)
{
    (void)type;
    return seat ? PyMethod_New(self, seat) : Py_NewRef(self);
}

/* A call is pickled by its name, as a function is. */
static PyObject *call_reduced(PyObject *self, PyObject *none)
{
    (void)none;
    return PyObject_GetAttrString(self, "__qualname__");
}

static PyMethodDef call_methods[] = {
    {.ml_name = "__reduce__", .ml_meth = call_reduced, .ml_flags = METH_NOARGS},
    {.ml_name = NULL},
};

static PyGetSetDef call_attributes[] = {
    {.name = "__dict__", .get = PyObject_GenericGetDict, .set = PyObject_GenericSetDict},
    {.name = NULL},
};

static PyTypeObject call_type = {
    PyVarObject_HEAD_INIT(NULL, 0)
    .tp_name = "seryugo._fast.Call",
    .tp_basicsize = sizeof(struct call),
    .tp_flags = Py_TPFLAGS_DEFAULT | Py_TPFLAGS_HAVE_GC | Py_TPFLAGS_HAVE_VECTORCALL | Py_TPFLAGS_METHOD_DESCRIPTOR,
    .tp_vectorcall_offset = offsetof(struct call, vectorcall),
    .tp_dictoffset = offsetof(struct call, attributes),
    .tp_new = call_new,
    .tp_dealloc = call_free,
    .tp_traverse = call_traverse,
    .tp_clear = call_clear,
    .tp_call = PyVectorcall_Call,
    .tp_descr_get = call_bound,
    .tp_methods = call_methods,
    .tp_getset = call_attributes,
};

static PyModuleDef module_definition = {
    PyModuleDef_HEAD_INIT,
    .m_name = "seryugo._fast",
    .m_doc = "The calls that the library answers at once, without ctypes.",
    .m_size = -1,
};

static bool is_filled(PyObject *module)
{
    return PyModule_AddType(module, &room_type) == 0 && PyModule_AddType(module, &place_type) == 0 &&
           PyModule_AddType(module, &call_type) == 0 &&
           PyModule_AddIntMacro(module, SEAT) == 0 && PyModule_AddIntMacro(module, OF_BYTES) == 0 &&
           PyModule_AddIntMacro(module, OF_STR) == 0 && PyModule_AddIntMacro(module, OF_INT) == 0 &&
           PyModule_AddIntMacro(module, SENDING) == 0 && PyModule_AddIntMacro(module, PUTTING) == 0 &&
           PyModule_AddIntMacro(module, POLLING) == 0 && PyModule_AddIntMacro(module, ASKING) == 0 &&
           PyModule_AddIntMacro(module, SWAPPING) == 0 &&
           PyModule_AddIntConstant(module, "MESSAGE_SIZE", sizeof(struct message)) == 0 &&
           PyModule_AddStringConstant(module, "VERSION", SERYUGO_VERSION) == 0;
}

PyMODINIT_FUNC PyInit__fast(void)
{
    PyObject *module = PyModule_Create(&module_definition);

    if (module && can_find_places() && is_filled(module)) {
        return module;
    }
    Py_XDECREF(module);
    return NULL;
}
