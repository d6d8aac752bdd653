/* Bytes that a file of Python takes: any object whose write takes them and returns how many. */
#include "native.h"
#include <errno.h>

PyObject *part_of(PyObject *bytes, Py_ssize_t from, Py_ssize_t to)
{
    PyObject *part = PyBytes_FromStringAndSize(PyBytes_AsString(bytes) + from, to - from);
    Py_DECREF(bytes);
    return part;
}

static Py_ssize_t would_block(void)
{
    PyObject *words = Py_BuildValue("(is)", EAGAIN, "write returned None: it took no bytes");
    if (words) PyErr_SetObject(PyExc_BlockingIOError, words);
    Py_XDECREF(words);
    return -1;
}

/* How many of these bytes a file took, from what its write returned, or -1 with an exception. */
static Py_ssize_t taken(PyObject *answer, Py_ssize_t len)
{
    if (answer == Py_None) return would_block();
    if (PyBool_Check(answer)) {
        PyErr_Format(PyExc_TypeError, "write returned %R, not how many bytes it took", answer);
        return -1;
    }
    Py_ssize_t many = PyNumber_AsSsize_t(answer, PyExc_OSError);
    if (many == -1 && PyErr_Occurred()) return -1;
    if (many > 0 && many <= len) return many;
    PyErr_Format(PyExc_OSError, "write returned %zd for %zd bytes", many, len);
    return -1;
}

/* Passes some bytes to the write of a file. Returns how many it took, or -1 with an exception. */
static Py_ssize_t write_some(PyObject *write, PyObject *bytes)
{
    PyObject *answer = PyObject_CallFunctionObjArgs(write, bytes, NULL);
    if (!answer) return -1;
    Py_ssize_t many = taken(answer, PyBytes_Size(bytes));
    Py_DECREF(answer);
    return many;
}

bool write_piece(PyObject *write, PyObject *piece)
{
    while (piece) {
        Py_ssize_t len = PyBytes_Size(piece), many = write_some(write, piece);
        if (many < 0 || many == len) {
            Py_DECREF(piece);
            return many == len;
        }
        piece = part_of(piece, many, len);
    }
    return false;
}
