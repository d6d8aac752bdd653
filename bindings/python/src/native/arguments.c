/* The arguments of calls, and the bytes of their answers. */
#include "native.h"

/* Makes an integer of any object that is one. Returns false with an exception where it is none, or does not fit. The
 * number is not in the text: Python refuses to print very long ones. */
static bool take_number(PyObject *from, uint64_t most, uint64_t *to)
{
    PyObject *number = PyNumber_Index(from);
    if (!number) return false;
    *to = PyLong_AsUnsignedLongLong(number);
    Py_DECREF(number);
    bool is_word = *to != UINT64_MAX || !PyErr_Occurred();
    if (is_word && *to <= most) return true;
    PyErr_Format(PyExc_OverflowError, "the number must be from 0 to %llu", (unsigned long long)most);
    return false;
}

int take_u16(PyObject *from, void *to)
{
    uint64_t number;
    if (!take_number(from, UINT16_MAX, &number)) return 0;
    *(uint16_t *)to = (uint16_t)number;
    return 1;
}

int take_u64(PyObject *from, void *to) { return take_number(from, UINT64_MAX, to); }

/* Any other number is refused: one of milliseconds would be a stamp too, long before that time. */
int take_stamp(PyObject *from, void *to)
{
    StampArgument *stamp = to;
    if (PyObject_TypeCheck(from, stamp->type)) return take_number(from, UINT64_MAX, &stamp->number);
    PyErr_Format(PyExc_TypeError, "a Stamp is required, not %R: Stamp(reading) or Stamp.at(time) makes one",
                 Py_TYPE(from));
    return 0;
}

int take_stamp_or_none(PyObject *from, void *to) { return from == Py_None || take_stamp(from, to); }

/* A bytes object of an object with bytes: the same one, or a copy. */
static PyObject *as_bytes_object(PyObject *from)
{
    if (PyBytes_Check(from)) {
        Py_INCREF(from);
        return from;
    }
    if (PyObject_CheckBuffer(from)) return PyBytes_FromObject(from);
    PyErr_Format(PyExc_TypeError, "a bytes-like object is required, not %R", Py_TYPE(from));
    return NULL;
}

/* Where a later argument is refused, it is called again with NULL, and drops the bytes. */
int take_bytes(PyObject *from, void *to)
{
    Bytes *bytes = to;
    if (!from) {
        drop_bytes(bytes);
        return 1;
    }
    bytes->owner = as_bytes_object(from);
    if (!bytes->owner) return 0;
    bytes->at = (const uint8_t *)PyBytes_AsString(bytes->owner);
    bytes->len = (size_t)PyBytes_Size(bytes->owner);
    return Py_CLEANUP_SUPPORTED;
}

void drop_bytes(Bytes *bytes)
{
    Py_CLEAR(bytes->owner);
    bytes->at = NULL;
    bytes->len = 0;
}

PyObject *number_object(uint64_t number) { return PyLong_FromUnsignedLongLong(number); }

uint64_t number_at(const uint8_t *at, size_t size)
{
    uint64_t number = 0;
    while (size > 0) number = number << 8 | at[--size];
    return number;
}

PyObject *answer_object(const uint8_t **at)
{
    if (*(*at)++ == 0) {
        Py_INCREF(Py_None);
        return Py_None;
    }
    size_t len = (size_t)number_at(*at, LENGTH);
    *at += LENGTH + len;
    return PyBytes_FromStringAndSize((const char *)*at - len, (Py_ssize_t)len);
}

PyObject *list_of(const uint8_t *at, size_t many, Reader read)
{
    PyObject *list = PyList_New(0);
    for (size_t i = 0; list && i < many; i++) {
        PyObject *entry = read(&at);
        if (!entry || PyList_Append(list, entry)) Py_CLEAR(list);
        Py_XDECREF(entry);
    }
    return list;
}

/* Work on fewer bytes is shorter than the 5 ms for which Python lets a thread run at a time. */
enum { MANY_BYTES = 1 << 20 };

PyThreadState *let_go_for(size_t len) { return len < MANY_BYTES ? NULL : PyEval_SaveThread(); }

void take_back(PyThreadState *thread)
{
    if (thread) PyEval_RestoreThread(thread);
}

/* Nobody else has the bytes object yet, so it may be filled without the interpreter. */
PyObject *output_object(hlc_output *output, size_t len)
{
    PyObject *bytes = PyBytes_FromStringAndSize(NULL, (Py_ssize_t)len);
    uint8_t *at = bytes ? (uint8_t *)PyBytes_AsString(bytes) : NULL;
    PyThreadState *thread = let_go_for(len);
    /* All bytes fit, so the answer is HLC_OK. */
    uint32_t code = at ? hlc_output_read(output, 0, at, len, &len) : HLC_OK;
    (void)code;
    hlc_output_drop(output);
    take_back(thread);
    return bytes;
}
