/* Reads many keys of a snapshot in one call. */
#include "native.h"
#include <stdlib.h>
#include <string.h>

/* Room for the longest answer: a byte, a length of eight bytes, and a value of 65,535. */
enum { ROOM = 65544 };

/* The keys of a call, one after the other, and the answers of those that were read last. */
typedef struct {
    hlc_place *places;
    size_t many;
    uint8_t *keys;
    size_t keys_len;
    uint8_t answers[ROOM];
    size_t answers_len;
} Asked;

static void free_asked(Asked *asked)
{
    free(asked->places);
    free(asked->keys);
    free(asked);
}

/* Appends a key. Returns false with an exception. */
static bool append(Asked *asked, const Bytes *key)
{
    uint8_t *keys = realloc(asked->keys, asked->keys_len + key->len + 1);
    if (!keys) {
        PyErr_NoMemory();
        return false;
    }
    memcpy(keys + asked->keys_len, key->at, key->len);
    asked->keys = keys;
    asked->places[asked->many++] = (hlc_place){ asked->keys_len, key->len };
    asked->keys_len += key->len;
    return true;
}

static bool append_all(Asked *asked, PyObject *tuple)
{
    for (Py_ssize_t i = 0; i < PyTuple_Size(tuple); i++) {
        Bytes key;
        if (!take_bytes(PyTuple_GetItem(tuple, i), &key)) return false;
        bool is_appended = append(asked, &key);
        drop_bytes(&key);
        if (!is_appended) return false;
    }
    return true;
}

static Asked *asked_of(PyObject *tuple)
{
    Asked *asked = calloc(1, sizeof *asked);
    if (!asked) return (Asked *)PyErr_NoMemory();
    asked->places = calloc((size_t)PyTuple_Size(tuple) + 1, sizeof *asked->places);
    if (!asked->places) PyErr_NoMemory();
    if (asked->places && append_all(asked, tuple)) return asked;
    free_asked(asked);
    return NULL;
}

/* Reads the keys from one on, as many as fit. many: how many. */
static uint32_t read_from(Snapshot *snapshot, Asked *asked, size_t from, size_t *many)
{
    PyThreadState *thread = lock_to_ask(snapshot->store, LONG);
    hlc_store mine = snapshot->store->handle;
    uint32_t code = hlc_snapshot_read_all(&mine, snapshot->id, asked->places + from, asked->many - from, asked->keys,
                                          asked->keys_len, asked->answers, ROOM, &asked->answers_len, many);
    unlock(snapshot->store, thread);
    return code;
}

/* Appends the values of the answers to the list. */
static bool append_values(const Asked *asked, PyObject *list, size_t many)
{
    const uint8_t *at = asked->answers;
    for (size_t i = 0; i < many; i++) {
        PyObject *value = answer_object(&at);
        bool is_appended = value && PyList_Append(list, value) == 0;
        Py_XDECREF(value);
        if (!is_appended) return false;
    }
    return true;
}

/* The list never has an empty place: gc.get_objects shows it to other threads, which run between the calls. */
static PyObject *values_of(Snapshot *snapshot, Asked *asked)
{
    PyObject *list = PyList_New(0);
    uint32_t code = HLC_MORE;
    size_t many;
    for (size_t from = 0; list && code == HLC_MORE; from += many) {
        code = read_from(snapshot, asked, from, &many);
        bool is_answered = code == HLC_OK || code == HLC_MORE;
        if (!is_answered) refuse(code, 0);
        if (!is_answered || !append_values(asked, list, many)) Py_CLEAR(list);
    }
    return list;
}

PyObject *snapshot_read_all(PyObject *self, PyObject *keys)
{
    PyObject *tuple = PySequence_Tuple(keys), *list = NULL;
    if (!tuple) return NULL;
    Asked *asked = asked_of(tuple);
    Py_DECREF(tuple);
    if (!asked) return NULL;
    list = values_of((Snapshot *)self, asked);
    free_asked(asked);
    return list;
}
