/* A quicker way than ctypes to call icu_locale_normalize, of one text or of a list, and the calls that read a part of a
 * locale, for short texts. A wheel has it if Python.h and a C compiler were there. What it does not answer, it leaves to
 * __init__.py: long texts, refusals, and arguments of another type. */
#define PY_SSIZE_T_CLEAN
#define Py_LIMITED_API 0x03080000
#include <Python.h>

#include <stddef.h>
#include <stdint.h>
#include <string.h>

/* (The stable interface has it since 3.10, and each CPython before has it too.) */
PyAPI_FUNC(const char *) PyUnicode_AsUTF8AndSize(PyObject *text, Py_ssize_t *length);

enum { LONGEST = 252, MORE = 4 }; /* a normal form is at most four bytes longer than its text */
enum { DONE = 0, DUPLICATED_EXTENSION = 4, NOT_FOUND = 8 }; /* statuses of icu_locale.h: from 1 to 4 a text is refused */

typedef uint32_t (*call)(uint32_t mode, const uint8_t *text, size_t length, uint8_t *buffer, size_t room, size_t *needed);

typedef uint32_t (*reader)(const void *locale, uint8_t *buffer, size_t room, size_t *needed);

static call normalize_at;

static PyObject *nothing(void)
{
    PyErr_Clear();
    Py_RETURN_NONE;
}

/* normalize(text, mode): the normal form, or None. */
static PyObject *quick_normalize(PyObject *self, PyObject *given)
{
    const char *text;
    Py_ssize_t length;
    PyObject *number;
    uint8_t room[LONGEST + MORE];
    size_t needed = 0;
    (void)self;
    if (!PyArg_ParseTuple(given, "s#O", &text, &length, &number) || length > LONGEST || normalize_at == NULL)
        return nothing();
    /* (only of an int: any other object is asked for its number once, by __init__.py, which passes on what that raises) */
    const long mode = PyLong_Check(number) ? PyLong_AsLong(number) : -1;
    if (mode < 0 || mode > UINT32_MAX)
        return nothing();
    if (normalize_at((uint32_t)mode, (const uint8_t *)text, (size_t)length, room, (size_t)length + MORE, &needed) != 0)
        return nothing();
    return PyUnicode_DecodeASCII((const char *)room, (Py_ssize_t)needed, NULL);
}

/* What stands for a text among many: its normal form, which may be the text itself, or None if it is refused and that is
 * asked for; or NULL without an error if this is left to __init__.py. */
static PyObject *normal_of(PyObject *text, uint32_t mode, int is_coerced)
{
    uint8_t room[LONGEST + MORE];
    size_t needed = 0;
    Py_ssize_t length;
    const char *bytes = PyUnicode_CheckExact(text) ? PyUnicode_AsUTF8AndSize(text, &length) : NULL;
    if (bytes == NULL || length > LONGEST) {
        PyErr_Clear();
        return NULL;
    }
    const uint32_t status = normalize_at(mode, (const uint8_t *)bytes, (size_t)length, room, (size_t)length + MORE, &needed);
    if (status != DONE && !(is_coerced && status <= DUPLICATED_EXTENSION))
        return NULL;
    PyObject *same = status != DONE ? Py_None : text;
    if (status != DONE || (needed == (size_t)length && memcmp(room, bytes, needed) == 0)) {
        Py_INCREF(same);
        return same;
    }
    return PyUnicode_DecodeASCII((const char *)room, (Py_ssize_t)needed, NULL);
}

/* many(texts, mode, is_coerced, other): the normal form of each text of a list that nobody else has. What is not answered
 * here is asked of other(index). */
static PyObject *quick_many(PyObject *self, PyObject *given)
{
    PyObject *texts, *other, *normals;
    unsigned long mode;
    int is_coerced;
    (void)self;
    if (!PyArg_ParseTuple(given, "O!kpO", &PyList_Type, &texts, &mode, &is_coerced, &other))
        return NULL;
    const Py_ssize_t count = PyList_Size(texts);
    if ((normals = PyList_New(count)) == NULL)
        return NULL;
    for (Py_ssize_t at = 0; at < count; at++) {
        PyObject *normal = normal_of(PyList_GetItem(texts, at), (uint32_t)mode, is_coerced);
        if (normal == NULL && !PyErr_Occurred())
            normal = PyObject_CallFunction(other, "n", at);
        if (normal == NULL || (at % 65536 == 65535 && PyErr_CheckSignals() < 0)) {
            Py_XDECREF(normal);
            Py_DECREF(normals);
            return NULL;
        }
        PyList_SetItem(normals, at, normal);
    }
    return normals;
}

/* part(call, locale), by their addresses: the part, False if there is none, or None. */
static PyObject *quick_part(PyObject *self, PyObject *given)
{
    Py_ssize_t at, locale;
    uint8_t room[LONGEST + MORE];
    size_t needed = 0;
    (void)self;
    if (!PyArg_ParseTuple(given, "nn", &at, &locale))
        return nothing();
    switch (((reader)(uintptr_t)at)((const void *)(uintptr_t)locale, room, sizeof room, &needed)) {
    case DONE:
        return PyUnicode_DecodeASCII((const char *)room, (Py_ssize_t)needed, NULL);
    case NOT_FOUND:
        Py_RETURN_FALSE;
    default:
        Py_RETURN_NONE;
    }
}

/* use(address): where icu_locale_normalize of the library stands. */
static PyObject *quick_use(PyObject *self, PyObject *address)
{
    void *at = PyLong_AsVoidPtr(address);
    (void)self;
    if (at == NULL && PyErr_Occurred())
        return NULL;
    normalize_at = (call)(uintptr_t)at;
    Py_RETURN_NONE;
}

static PyMethodDef methods[] = {
    {"normalize", quick_normalize, METH_VARARGS, NULL},
    {"many", quick_many, METH_VARARGS, NULL},
    {"part", quick_part, METH_VARARGS, NULL},
    {"use", quick_use, METH_O, NULL},
    {NULL, NULL, 0, NULL},
};

static struct PyModuleDef module = {PyModuleDef_HEAD_INIT, "_quick", NULL, -1, methods, NULL, NULL, NULL, NULL};

PyMODINIT_FUNC PyInit__quick(void)
{
    return PyModule_Create(&module);
}
