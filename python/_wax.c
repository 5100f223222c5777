/* The calls that decide something about a path, as methods of types that `Glob`, `GlobSet` and `IgnoreList` of wax.py extend.
 * Without this extension, wax.py makes these calls by ctypes, and each takes several times as long.
 *
 * An object owns a handle of the C library, and knows the functions that use it. wax.py passes their addresses, so the library
 * is the one that wax.py loaded, and the extension is linked to none. No call releases the lock of the interpreter, since only
 * one at a time may use a handle. */
#define Py_LIMITED_API 0x030A0000
#define PY_SSIZE_T_CLEAN
#include <Python.h>
#include <stdint.h>

typedef int32_t decision(void *handle, const char *path, size_t length);

typedef struct {
    PyObject_HEAD
    void *handle; /* NULL until `_hold`; then it stays until the object is freed */
    decision *first, *second;
    void (*release)(void *handle);
} Held;

/* Raises ValueError, and returns 0, if the object has no handle. */
static int is_built(const Held *self)
{
    if (self->handle == NULL) PyErr_SetString(PyExc_ValueError, "the object isn't built: `__init__` wasn't called, or failed");
    return self->handle != NULL;
}

/* Calls `_refused` of the object, which raises the error of this number. */
static PyObject *refused(Held *self, int32_t number)
{
    PyObject *returned = PyObject_CallMethod((PyObject *)self, "_refused", "i", (int)number);
    if (returned != NULL) {
        Py_DECREF(returned);
        PyErr_SetString(PyExc_SystemError, "_refused raised no error");
    }
    return NULL;
}

/* Returns the only argument, which may have this name, or raises TypeError. */
static PyObject *only(PyObject *const *arguments, Py_ssize_t count, PyObject *names, const char *name)
{
    Py_ssize_t named = names == NULL ? 0 : PyTuple_Size(names);
    if (count + named == 1) {
        if (named == 0 || PyUnicode_CompareWithASCIIString(PyTuple_GetItem(names, 0), name) == 0) return arguments[0];
    }
    PyErr_Format(PyExc_TypeError, "the call takes exactly one argument, `%s`", name);
    return NULL;
}

/* Returns what a function decides about a path, or raises its error. */
static PyObject *decided(Held *self, decision *function, PyObject *path)
{
    const char *text;
    Py_ssize_t length;
    int32_t status;
    if (path == NULL || !is_built(self)) return NULL;
    if (!PyUnicode_Check(path)) return PyErr_Format(PyExc_TypeError, "a path is a str, and not %R", Py_TYPE(path));
    text = PyUnicode_AsUTF8AndSize(path, &length);
    if (text == NULL) {
        if (!PyErr_ExceptionMatches(PyExc_UnicodeEncodeError)) return NULL;
        PyErr_Clear();
        return refused(self, 20);
    }
    status = function(self->handle, text, (size_t)length);
    return status < 0 ? refused(self, -status) : PyBool_FromLong(status);
}

static PyObject *first(Held *self, PyObject *const *arguments, Py_ssize_t count, PyObject *names)
{
    return decided(self, self->first, only(arguments, count, names, "path"));
}

static PyObject *second(Held *self, PyObject *const *arguments, Py_ssize_t count, PyObject *names)
{
    return decided(self, self->second, only(arguments, count, names, "folder"));
}

/* Takes a handle, with the addresses of two functions that decide something about a path and of the one that frees it. */
static PyObject *hold(Held *self, PyObject *arguments)
{
    PyObject *given[4];
    void *found[4];
    int index;
    if (!PyArg_ParseTuple(arguments, "OOOO:_hold", &given[0], &given[1], &given[2], &given[3])) return NULL;
    for (index = 0; index < 4; index++) {
        found[index] = PyLong_AsVoidPtr(given[index]);
        if (found[index] == NULL && PyErr_Occurred()) return NULL;
    }
    if (self->handle != NULL) {
        ((void (*)(void *))found[3])(found[0]);
        PyErr_SetString(PyExc_ValueError, "the object is already built");
        return NULL;
    }
    self->handle = found[0];
    self->first = (decision *)found[1];
    self->second = (decision *)found[2];
    self->release = (void (*)(void *))found[3];
    Py_RETURN_NONE;
}

static PyObject *handle_of(Held *self, void *unused)
{
    (void)unused;
    return is_built(self) ? PyLong_FromVoidPtr(self->handle) : NULL;
}

static int traverse(PyObject *self, visitproc visit, void *arg)
{
    Py_VISIT(Py_TYPE(self));
    return 0;
}

static void dealloc(PyObject *object)
{
    Held *self = (Held *)object;
    PyTypeObject *type = Py_TYPE(object);
    PyObject_GC_UnTrack(object);
    if (self->handle != NULL) self->release(self->handle);
    ((freefunc)PyType_GetSlot(type, Py_tp_free))(object);
    Py_DECREF(type);
}

#define METHOD(function) (PyCFunction)(void (*)(void))(function), METH_FASTCALL | METH_KEYWORDS
#define HOLD {"_hold", (PyCFunction)(void (*)(void))hold, METH_VARARGS, NULL}

/* (the texts are those of the classes in wax.py that do without this extension) */
static PyMethodDef of_matcher[] = {
    {"is_match", METHOD(first),
     "is_match($self, /, path)\n--\n\n"
     "Returns whether the glob, or one of a set, matches the path.\n\n"
     "Raises `MemoryError` if an allocation fails."},
    {"goes_on", METHOD(second),
     "goes_on($self, /, folder)\n--\n\n"
     "Returns whether the glob, or one of a set, matches the path of something below the folder with this path.\n\n"
     "So a walk needs to open a folder only if this is true. The empty path is the folder where paths begin.\n\n"
     "Raises `MemoryError` if an allocation fails.\n\n"
     "    >>> glob = Glob(\"src/*/tests/*.rs\")\n"
     "    >>> glob.goes_on(\"src/net\"), glob.goes_on(\"doc\")\n"
     "    (True, False)"},
    HOLD,
    {NULL, NULL, 0, NULL},
};
static PyMethodDef of_ignore_matcher[] = {
    {"is_ignored", METHOD(first),
     "is_ignored($self, /, path)\n--\n\n"
     "Returns whether the list ignores the path, and keeps what it learns from it for the next ones.\n\n"
     "Raises `MemoryError` if an allocation fails."},
    {"excludes_below", METHOD(second),
     "excludes_below($self, /, folder)\n--\n\n"
     "Returns True if the list ignores everything below the folder with this path, so that a walk needn't open it,\n"
     "and False if something below it might not be ignored. The path has no `/` at its end.\n\n"
     "Raises `MemoryError` if an allocation fails.\n\n"
     "    >>> ignored = IgnoreList(\"target/**\\n\")\n"
     "    >>> ignored.excludes_below(\"target/debug\"), ignored.excludes_below(\"src\")\n"
     "    (True, False)"},
    HOLD,
    {NULL, NULL, 0, NULL},
};
static PyGetSetDef getters[] = {
    {"_handle", (getter)handle_of, NULL, NULL, NULL},
    {NULL, NULL, NULL, NULL, NULL},
};

/* Adds a type with these methods to the module. */
static int add(PyObject *module, const char *name, PyMethodDef *methods)
{
    PyType_Slot slots[] = {
        {Py_tp_methods, methods}, {Py_tp_getset, getters}, {Py_tp_traverse, traverse}, {Py_tp_dealloc, dealloc}, {0, NULL},
    };
    PyType_Spec spec = {name, sizeof(Held), 0, Py_TPFLAGS_DEFAULT | Py_TPFLAGS_BASETYPE | Py_TPFLAGS_HAVE_GC, slots};
    PyObject *type = PyType_FromModuleAndSpec(module, &spec, NULL);
    int status = type == NULL ? -1 : PyModule_AddType(module, (PyTypeObject *)type);
    Py_XDECREF(type);
    return status;
}

static int fill(PyObject *module)
{
    return add(module, "_wax.Matcher", of_matcher) < 0 ? -1 : add(module, "_wax.IgnoreMatcher", of_ignore_matcher);
}

static PyModuleDef_Slot parts[] = {{Py_mod_exec, fill}, {0, NULL}};
static PyModuleDef definition = {PyModuleDef_HEAD_INIT, "_wax", "Types that wax.py extends.", 0, NULL, parts, NULL, NULL, NULL};

PyMODINIT_FUNC PyInit__wax(void)
{
    return PyModuleDef_Init(&definition);
}
