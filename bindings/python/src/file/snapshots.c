/* The snapshots of a file, by their numbers, and what they read. */
#include "file.h"
#include <stdlib.h>

static uint32_t close_snapshot(PyObject *self, uint64_t id)
{
    uint64_t stamp;
    uint32_t code;
    if (is_in_child((File *)self)) return HLC_OK;
    WITH_FILE(self, code, hlc_file_close_snapshot(file, id, &stamp));
    return code;
}

/* Sets an attribute to an object, whose reference it takes. Returns false with an exception. */
static bool set_attribute(PyObject *to, const char *name, PyObject *object)
{
    bool is_set = object && PyObject_SetAttrString(to, name, object) == 0;
    Py_XDECREF(object);
    return is_set;
}

/* Gives a snapshot that was opened to its object, which closes it at the end. Where it cannot, it closes it. */
static PyObject *give(PyObject *self, PyObject *snapshot, uint64_t id, uint64_t stamp)
{
    if (set_attribute(snapshot, "_stamp", stamp_of(self, stamp)) && set_attribute(snapshot, "_id", number_object(id)))
        Py_RETURN_NONE;
    close_snapshot(self, id);
    return NULL;
}

/* Opens a snapshot for an object that is there before: an exception after this call, as of a signal, loses none. */
PyObject *file_open_snapshot(PyObject *self, PyObject *args)
{
    PyObject *snapshot, *from;
    StampArgument at = { .type = ((File *)self)->stamp };
    uint64_t id = 0;
    uint32_t code;
    if (!PyArg_ParseTuple(args, "OO:_open_snapshot", &snapshot, &from) || !take_stamp_or_none(from, &at)) return NULL;
    if (from == Py_None) WITH_FILE(self, code, hlc_file_open_snapshot_at_floor(file, &id, &at.number));
    else WITH_FILE(self, code, hlc_file_open_snapshot(file, at.number, &id));
    return code == HLC_OK ? give(self, snapshot, id, at.number) : refuse(code, id);
}

/* A snapshot that is closed already, by itself or with the file, stays closed. */
PyObject *file_close_snapshot(PyObject *self, PyObject *from)
{
    uint64_t id;
    if (!take_u64(from, &id)) return NULL;
    uint32_t code = close_snapshot(self, id);
    if (code != HLC_OK && code != HLC_NO_SNAPSHOT && code != HLC_CLOSED) return refuse(code, 0);
    Py_RETURN_NONE;
}

static uint32_t read_key(PyObject *self, uint64_t id, const Bytes *key, uint8_t *out, size_t room, size_t *len)
{
    uint32_t code;
    WITH_FILE(self, code, hlc_file_read(file, id, key->at, key->len, out, room, len));
    return code;
}

/* A value that does not fit on the stack. What a snapshot answers never changes, so the second call has the same. */
static PyObject *read_long(PyObject *self, uint64_t id, const Bytes *key, size_t len)
{
    PyObject *value = PyBytes_FromStringAndSize(NULL, (Py_ssize_t)len);
    if (!value) return NULL;
    uint32_t code = read_key(self, id, key, (uint8_t *)PyBytes_AsString(value), len, &len);
    if (code == HLC_OK) return value;
    Py_DECREF(value);
    return refuse(code, 0);
}

/* Returns a key's value, or None. */
PyObject *file_read(PyObject *self, PyObject *args)
{
    uint8_t out[1024];
    uint64_t id;
    size_t len = 0;
    Bytes key = { 0 };
    PyObject *value = NULL;
    if (!PyArg_ParseTuple(args, "O&O&:_read", take_u64, &id, take_bytes, &key)) return NULL;
    uint32_t code = read_key(self, id, &key, out, sizeof out, &len);
    if (code == HLC_OK)
        value = len <= sizeof out ? PyBytes_FromStringAndSize((const char *)out, (Py_ssize_t)len)
                                  : read_long(self, id, &key, len);
    drop_bytes(&key);
    if (code == HLC_NO_VALUE) Py_RETURN_NONE;
    return code == HLC_OK ? value : refuse(code, 0);
}

PyObject *file_count(PyObject *self, PyObject *args)
{
    uint64_t id, many = 0;
    Bytes start = { 0 }, end = { 0 };
    uint32_t code;
    if (!PyArg_ParseTuple(args, "O&O&O&:_count", take_u64, &id, take_bytes, &start, take_bytes, &end)) return NULL;
    WITH_FILE(self, code, hlc_file_count(file, id, start.at, start.len, end.at, end.len, &many));
    drop_bytes(&start);
    drop_bytes(&end);
    return number_or_refusal(code, many);
}

static PyObject *take_pair(const uint8_t **at)
{
    const char *parts[2];
    Py_ssize_t lengths[2];
    for (int i = 0; i < 2; i++) {
        lengths[i] = (Py_ssize_t)number_at(*at, LENGTH);
        parts[i] = (const char *)*at + LENGTH;
        *at += LENGTH + (size_t)lengths[i];
    }
    return Py_BuildValue("(y#y#)", parts[0], lengths[0], parts[1], lengths[1]);
}

static PyObject *take_change(const uint8_t **at)
{
    Py_ssize_t len = (Py_ssize_t)number_at(*at, LENGTH);
    const char *key = (const char *)*at + LENGTH;
    *at += LENGTH + (size_t)len;
    PyObject *value = answer_object(at);
    return value ? Py_BuildValue("(y#N)", key, len, value) : NULL;
}

/* The entries of a page, and whether there are more; or the exception of a refusal. */
static PyObject *page_object(uint32_t code, const uint8_t *at, size_t many, Reader read)
{
    if (code != HLC_OK && code != HLC_MORE) return refuse(code, 0);
    PyObject *entries = list_of(at, many, read);
    return entries ? Py_BuildValue("(NO)", entries, code == HLC_MORE ? Py_True : Py_False) : NULL;
}

/* Returns the pairs of a range that fit into this many bytes, and whether there are more. */
PyObject *file_scan(PyObject *self, PyObject *args)
{
    uint64_t id;
    Bytes start = { 0 }, end = { 0 };
    int is_reverse;
    size_t room, len = 0, many = 0;
    uint32_t code;
    if (!PyArg_ParseTuple(args, "O&O&O&pn:_scan", take_u64, &id, take_bytes, &start, take_bytes, &end, &is_reverse,
                          &room))
        return NULL;
    uint8_t *out = malloc(room);
    if (out)
        WITH_FILE(self, code, (is_reverse ? hlc_file_scan_back : hlc_file_scan)(
            file, id, start.at, start.len, end.at, end.len, out, room, &len, &many));
    else code = HLC_NO_MEMORY;
    drop_bytes(&start);
    drop_bytes(&end);
    PyObject *page = page_object(code, out, many, take_pair);
    free(out);
    return page;
}

/* The same of the changes from one snapshot to another. */
PyObject *file_changes(PyObject *self, PyObject *args)
{
    uint64_t before, after;
    Bytes start = { 0 }, end = { 0 };
    size_t room, len = 0, many = 0;
    uint32_t code;
    hlc_store mine, *store = &mine;
    if (!PyArg_ParseTuple(args, "O&O&O&O&n:_changes", take_u64, &before, take_u64, &after, take_bytes, &start,
                          take_bytes, &end, &room))
        return NULL;
    uint8_t *out = malloc(room);
    if (out)
        WITH_STORE(self, code, hlc_snapshot_changes(store, before, after, start.at, start.len, end.at, end.len, out,
                                                    room, &len, &many));
    else code = HLC_NO_MEMORY;
    drop_bytes(&start);
    drop_bytes(&end);
    PyObject *page = page_object(code, out, many, take_change);
    free(out);
    return page;
}

PyObject *file_digest(PyObject *self, PyObject *args)
{
    uint64_t id;
    Bytes start = { 0 }, end = { 0 };
    uint8_t out[32];
    size_t len = 0;
    uint32_t code;
    hlc_store mine, *store = &mine;
    if (!PyArg_ParseTuple(args, "O&O&O&:_digest", take_u64, &id, take_bytes, &start, take_bytes, &end)) return NULL;
    WITH_STORE(self, code, hlc_snapshot_digest(store, id, start.at, start.len, end.at, end.len, out, sizeof out, &len));
    drop_bytes(&start);
    drop_bytes(&end);
    return code == HLC_OK ? PyBytes_FromStringAndSize((const char *)out, (Py_ssize_t)len) : refuse(code, 0);
}
