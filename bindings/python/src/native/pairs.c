/* The iterators over a snapshot, and over what changes to another one. Each has a buffer of its own, which it fills
 * with as many entries as fit. An entry is a key, a pair, or a key and its answer in the other snapshot. */
#include "native.h"
#include <stdlib.h>
#include <string.h>

/* Room for the longest entry: two lengths of eight bytes, a key of 255, the byte of an answer and a value of 65,535. */
enum { ROOM = 65807 };

typedef struct {
    PyObject_HEAD
    Snapshot *snapshot;
    Bytes start;
    Bytes end;
    Listed listed;
    bool is_busy;  /* whether a call of next runs */
    bool has_more; /* whether entries are left after those of the buffer */
    uint8_t *buffer;
    size_t len;
    size_t at;   /* the next entry's place in the buffer */
    size_t last; /* the place of the entry before it */
} Pairs;

PyObject *pairs_of(Snapshot *snapshot, Bytes start, Bytes end, Listed listed)
{
    Pairs *pairs = allocate(classes_of((PyObject *)snapshot)->pairs);
    if (!pairs) {
        drop_bytes(&start);
        drop_bytes(&end);
        return NULL;
    }
    Py_INCREF((PyObject *)snapshot);
    pairs->snapshot = snapshot;
    pairs->start = start;
    pairs->end = end;
    Py_XINCREF((PyObject *)listed.after);
    pairs->listed = listed;
    pairs->has_more = true;
    pairs->buffer = malloc(ROOM);
    if (pairs->buffer) return (PyObject *)pairs;
    Py_DECREF((PyObject *)pairs);
    return PyErr_NoMemory();
}

static void pairs_dealloc(PyObject *self)
{
    Pairs *pairs = (Pairs *)self;
    free(pairs->buffer);
    drop_bytes(&pairs->start);
    drop_bytes(&pairs->end);
    Py_DECREF((PyObject *)pairs->snapshot);
    Py_XDECREF((PyObject *)pairs->listed.after);
    release_object(self);
}

static uint32_t make_call(Pairs *pairs, hlc_store *store, size_t *many)
{
    const Bytes *start = &pairs->start, *end = &pairs->end;
    const Listed *listed = &pairs->listed;
    uint64_t id = pairs->snapshot->id;
    if (listed->after)
        return hlc_snapshot_changes(store, id, listed->after->id, start->at, start->len, end->at, end->len,
                                    pairs->buffer, ROOM, &pairs->len, many);
    return (listed->is_reverse ? hlc_snapshot_scan_back : listed->entries == KEYS ? hlc_snapshot_scan_keys :
            hlc_snapshot_scan)(store, id, start->at, start->len, end->at, end->len, pairs->buffer, ROOM, &pairs->len,
                               many);
}

static uint32_t scan(Pairs *pairs)
{
    Store *store = pairs->snapshot->store;
    size_t many;
    PyThreadState *thread = lock_to_ask(store, LONG);
    hlc_store mine = store->handle;
    uint32_t code = make_call(pairs, &mine, &many);
    unlock(store, thread);
    return code;
}

/* Lets the next scan go on after the last entry of the buffer: it starts at its key with a byte 0 after it, or it ends
 * before its key. */
static bool go_on_after_last(Pairs *pairs)
{
    const uint8_t *key = pairs->buffer + pairs->last;
    size_t len = (size_t)number_at(key, LENGTH), more = pairs->listed.is_reverse ? 0 : 1;
    Bytes *bound = pairs->listed.is_reverse ? &pairs->end : &pairs->start;
    PyObject *next = PyBytes_FromStringAndSize(NULL, (Py_ssize_t)(len + more));
    if (!next) return false;
    char *at = PyBytes_AsString(next);
    memcpy(at, key + LENGTH, len);
    memset(at + len, 0, more);
    drop_bytes(bound);
    *bound = (Bytes){ next, (const uint8_t *)at, len + more };
    return true;
}

/* Fills the buffer with the next entries. Returns false with an exception where that is refused. */
static bool fill(Pairs *pairs)
{
    if (pairs->len > 0 && !go_on_after_last(pairs)) return false;
    uint32_t code = scan(pairs);
    pairs->at = 0;
    pairs->has_more = code != HLC_OK;
    if (code == HLC_OK || code == HLC_MORE) return true;
    refuse(code, 0);
    return false;
}

/* A key or a value of the buffer, as a bytes object. at: its place, and then that of the next one. */
static PyObject *part_at(const Pairs *pairs, size_t *at)
{
    const uint8_t *part = pairs->buffer + *at;
    size_t len = (size_t)number_at(part, LENGTH);
    *at += LENGTH + len;
    return PyBytes_FromStringAndSize((const char *)part + LENGTH, (Py_ssize_t)len);
}

static PyObject *pair_at(const Pairs *pairs, size_t *at)
{
    PyObject *key = part_at(pairs, at), *value = part_at(pairs, at), *pair = NULL;
    if (key && value) pair = PyTuple_Pack(2, key, value);
    Py_XDECREF(value);
    Py_XDECREF(key);
    return pair;
}

static PyObject *change_at(const Pairs *pairs, size_t *at)
{
    PyObject *key = part_at(pairs, at), *change = NULL;
    const uint8_t *answer = pairs->buffer + *at;
    PyObject *value = answer_object(&answer);
    *at = (size_t)(answer - pairs->buffer);
    if (key && value) change = PyTuple_Pack(2, key, value);
    Py_XDECREF(value);
    Py_XDECREF(key);
    return change;
}

/* A scan from the end has values too. */
static PyObject *key_at(const Pairs *pairs, size_t *at)
{
    PyObject *key = part_at(pairs, at);
    if (pairs->listed.is_reverse) *at += LENGTH + (size_t)number_at(pairs->buffer + *at, LENGTH);
    return key;
}

static PyObject *value_at(const Pairs *pairs, size_t *at)
{
    *at += LENGTH + (size_t)number_at(pairs->buffer + *at, LENGTH);
    return part_at(pairs, at);
}

static PyObject *entry_at(const Pairs *pairs, size_t *at)
{
    if (pairs->listed.after) return change_at(pairs, at);
    switch (pairs->listed.entries) {
    case KEYS: return key_at(pairs, at);
    case VALUES: return value_at(pairs, at);
    default: return pair_at(pairs, at);
    }
}

static PyObject *take_next(Pairs *pairs)
{
    if (pairs->at == pairs->len && !(pairs->has_more && fill(pairs) && pairs->len > 0)) return NULL;
    size_t at = pairs->at;
    PyObject *next = entry_at(pairs, &at);
    if (!next) return NULL;
    pairs->last = pairs->at;
    pairs->at = at;
    return next;
}

/* Other code of Python may run in the middle of a call: other threads while the buffer is filled, and finalizers where
 * an object is made or dropped. It must not change the buffer, or the places in it. */
static PyObject *pairs_next(PyObject *self)
{
    Pairs *pairs = (Pairs *)self;
    if (pairs->is_busy) {
        PyErr_SetString(PyExc_ValueError, "another call uses this iterator");
        return NULL;
    }
    pairs->is_busy = true;
    PyObject *next = take_next(pairs);
    pairs->is_busy = false;
    return next;
}

static PyType_Slot pairs_slots[] = {
    { Py_tp_doc, "An iterator over a snapshot, for one call at a time." },
    { Py_tp_dealloc, pairs_dealloc },
    { Py_tp_iter, PyObject_SelfIter },
    { Py_tp_iternext, pairs_next },
    { 0, NULL },
};

PyType_Spec pairs_spec = {
    "hlcstore._native.Pairs", sizeof(Pairs), 0, FINAL_CLASS | Py_TPFLAGS_DISALLOW_INSTANTIATION, pairs_slots,
};
