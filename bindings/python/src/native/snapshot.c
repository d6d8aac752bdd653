/* An open snapshot. What it answers never changes, so an answer that takes two calls needs no lock over both. */
#include "native.h"
#include <stdlib.h>

/* ---- Opening and closing ---- */

static Snapshot *snapshot_object(PyObject *store)
{
    Snapshot *snapshot = allocate(classes_of(store)->snapshot);
    if (!snapshot) return NULL;
    Py_INCREF(store);
    snapshot->store = (Store *)store;
    return snapshot;
}

/* The object is made before, so that no snapshot is opened and then lost. */
PyObject *store_snapshot(PyObject *self, PyObject *args, PyObject *words)
{
    static char *names[] = { "stamp", NULL };
    Store *store = (Store *)self;
    PyObject *from = Py_None;
    StampArgument at = { .type = classes_of(self)->stamp };
    uint64_t id;
    if (!PyArg_ParseTupleAndKeywords(args, words, "|O:snapshot", names, &from)) return NULL;
    if (!take_stamp_or_none(from, &at)) return NULL;
    Snapshot *snapshot = snapshot_object(self);
    if (!snapshot) return NULL;
    PyThreadState *thread = lock_to_change(store, SHORT);
    uint32_t code = from == Py_None ? hlc_snapshot_open_at_floor(&store->handle, &id, &at.number)
                                    : hlc_snapshot_open(&store->handle, at.number, &id);
    unlock(store, thread);
    snapshot->is_owner = code == HLC_OK;
    snapshot->id = id;
    snapshot->stamp = at.number;
    if (code == HLC_OK) return (PyObject *)snapshot;
    Py_DECREF((PyObject *)snapshot);
    return refuse(code, id);
}

static uint32_t close_id(Store *store, uint64_t id, uint64_t *stamp)
{
    PyThreadState *thread = lock_to_change(store, SHORT);
    uint32_t code = hlc_snapshot_close(&store->handle, id, stamp);
    unlock(store, thread);
    return code;
}

PyObject *store_close_snapshot(PyObject *self, PyObject *from)
{
    uint64_t id, stamp;
    if (!take_u64(from, &id)) return NULL;
    uint32_t code = close_id((Store *)self, id, &stamp);
    return code == HLC_OK ? stamp_object(classes_of(self)->stamp, stamp) : refuse(code, 0);
}

void close_snapshot_id(Store *store, uint64_t id)
{
    uint64_t stamp;
    close_id(store, id, &stamp);
}

/* A snapshot that is closed already stays closed. */
static PyObject *snapshot_close(PyObject *self, PyObject *none)
{
    Snapshot *snapshot = (Snapshot *)self;
    (void)none;
    snapshot->is_owner = false;
    close_snapshot_id(snapshot->store, snapshot->id);
    Py_RETURN_NONE;
}

static void snapshot_dealloc(PyObject *self)
{
    Snapshot *snapshot = (Snapshot *)self;
    if (snapshot->is_owner && !close_later(snapshot->store, snapshot->id))
        close_snapshot_id(snapshot->store, snapshot->id);
    Py_DECREF((PyObject *)snapshot->store);
    release_object(self);
}

static PyObject *snapshot_enter(PyObject *self, PyObject *none)
{
    (void)none;
    Py_INCREF(self);
    return self;
}

typedef struct {
    uint64_t id;
    uint64_t stamp;
} Opened;

static uint32_t list_opened(Store *store, Opened *opened, Py_ssize_t *many)
{
    PyThreadState *thread = lock_to_ask(store, SHORT);
    hlc_store mine = store->handle;
    uint32_t code = HLC_OK;
    for (*many = 0; code == HLC_OK && *many < MOST_OPEN; *many += code == HLC_OK)
        code = hlc_snapshot_at_place(&mine, (uint64_t)*many, &opened[*many].id, &opened[*many].stamp);
    unlock(store, thread);
    return code == HLC_AFTER_LAST ? HLC_OK : code;
}

/* An object of a snapshot that is open, and stays so where the object is dropped. */
static PyObject *opened_object(PyObject *store, const Opened *opened)
{
    Snapshot *snapshot = snapshot_object(store);
    if (!snapshot) return NULL;
    snapshot->id = opened->id;
    snapshot->stamp = opened->stamp;
    return (PyObject *)snapshot;
}

PyObject *store_snapshot_by_id(PyObject *self, PyObject *from)
{
    Opened opened[MOST_OPEN];
    Py_ssize_t many;
    uint64_t id;
    if (!take_u64(from, &id)) return NULL;
    uint32_t code = list_opened((Store *)self, opened, &many);
    if (code != HLC_OK) return refuse(code, 0);
    for (Py_ssize_t i = 0; i < many; i++)
        if (opened[i].id == id) return opened_object(self, &opened[i]);
    return refuse(HLC_NO_SNAPSHOT, 0);
}

PyObject *store_snapshots(PyObject *self, PyObject *none)
{
    Opened opened[MOST_OPEN];
    Py_ssize_t many;
    (void)none;
    uint32_t code = list_opened((Store *)self, opened, &many);
    if (code != HLC_OK) return refuse(code, 0);
    PyObject *list = PyList_New(many);
    for (Py_ssize_t i = 0; list && i < many; i++) {
        PyObject *snapshot = opened_object(self, &opened[i]);
        if (!snapshot || PyList_SetItem(list, i, snapshot)) Py_CLEAR(list);
    }
    return list;
}

/* ---- One key ---- */

static uint32_t read_key(Snapshot *snapshot, const Bytes *key, uint8_t *out, size_t out_len, size_t *len)
{
    PyThreadState *thread = lock_to_ask(snapshot->store, SHORT);
    hlc_store mine = snapshot->store->handle;
    uint32_t code = hlc_snapshot_read(&mine, snapshot->id, key->at, key->len, out, out_len, len);
    unlock(snapshot->store, thread);
    return code;
}

/* A value that does not fit on the stack. */
static PyObject *read_long(Snapshot *snapshot, const Bytes *key, size_t len, uint32_t *code)
{
    PyObject *value = PyBytes_FromStringAndSize(NULL, (Py_ssize_t)len);
    if (!value) return NULL;
    *code = read_key(snapshot, key, (uint8_t *)PyBytes_AsString(value), len, &len);
    if (*code != HLC_OK) Py_CLEAR(value);
    return value;
}

/* Returns the value; or NULL, and the code of why there is none; or NULL with an exception. */
static PyObject *read_value(Snapshot *snapshot, PyObject *from, uint32_t *code)
{
    uint8_t out[1024];
    size_t len;
    Bytes key;
    PyObject *value = NULL;
    *code = HLC_OK;
    if (!take_bytes(from, &key)) return NULL;
    *code = read_key(snapshot, &key, out, sizeof out, &len);
    if (*code == HLC_OK)
        value = len <= sizeof out ? PyBytes_FromStringAndSize((const char *)out, (Py_ssize_t)len)
                                  : read_long(snapshot, &key, len, code);
    drop_bytes(&key);
    return value;
}

static PyObject *snapshot_at(PyObject *self, PyObject *key)
{
    uint32_t code;
    PyObject *value = read_value((Snapshot *)self, key, &code);
    return code == HLC_OK ? value : refuse(code, 0);
}

static PyObject *snapshot_get(PyObject *self, PyObject *const *args, Py_ssize_t many)
{
    uint32_t code;
    if (many < 1 || many > 2)
        return PyErr_Format(PyExc_TypeError, "get takes a key and a default, not %zd arguments", many);
    PyObject *value = read_value((Snapshot *)self, args[0], &code);
    if (code == HLC_OK) return value;
    if (code != HLC_NO_VALUE) return refuse(code, 0);
    PyObject *otherwise = many == 2 ? args[1] : Py_None;
    Py_INCREF(otherwise);
    return otherwise;
}

static int snapshot_contains(PyObject *self, PyObject *from)
{
    size_t len;
    Bytes key;
    if (!take_bytes(from, &key)) return -1;
    uint32_t code = read_key((Snapshot *)self, &key, NULL, 0, &len);
    drop_bytes(&key);
    if (code == HLC_OK || code == HLC_NO_VALUE) return code == HLC_OK;
    refuse(code, 0);
    return -1;
}

/* ---- Ranges ---- */

/* The keys from start on and below end, or all keys from start on where end is empty. */
typedef struct {
    Bytes start;
    Bytes end;
} Range;

static bool take_range(PyObject *args, PyObject *words, Range *range)
{
    static char *names[] = { "start", "end", NULL };
    *range = (Range){ 0 };
    return PyArg_ParseTupleAndKeywords(args, words, "|O&O&", names, take_bytes, &range->start, take_bytes,
                                       &range->end);
}

static void drop_range(Range *range)
{
    drop_bytes(&range->start);
    drop_bytes(&range->end);
}

static uint32_t count(Snapshot *snapshot, const Range *range, uint64_t *many)
{
    PyThreadState *thread = lock_to_ask(snapshot->store, LONG);
    hlc_store mine = snapshot->store->handle;
    uint32_t code = hlc_snapshot_count(&mine, snapshot->id, range->start.at, range->start.len, range->end.at,
                                       range->end.len, many);
    unlock(snapshot->store, thread);
    return code;
}

static PyObject *snapshot_count(PyObject *self, PyObject *args, PyObject *words)
{
    Range range;
    uint64_t many;
    if (!take_range(args, words, &range)) return NULL;
    uint32_t code = count((Snapshot *)self, &range, &many);
    drop_range(&range);
    return code == HLC_OK ? number_object(many) : refuse(code, 0);
}

static Py_ssize_t snapshot_len(PyObject *self)
{
    Range all = { 0 };
    uint64_t many;
    uint32_t code = count((Snapshot *)self, &all, &many);
    if (code == HLC_OK && many <= PY_SSIZE_T_MAX) return (Py_ssize_t)many;
    if (code == HLC_OK) PyErr_SetString(PyExc_OverflowError, "the snapshot has too many keys");
    else refuse(code, 0);
    return -1;
}

static PyObject *snapshot_digest(PyObject *self, PyObject *args, PyObject *words)
{
    Snapshot *snapshot = (Snapshot *)self;
    Range range;
    uint8_t out[32];
    size_t len;
    if (!take_range(args, words, &range)) return NULL;
    PyThreadState *thread = lock_to_ask(snapshot->store, LONG);
    hlc_store mine = snapshot->store->handle;
    uint32_t code = hlc_snapshot_digest(&mine, snapshot->id, range.start.at, range.start.len, range.end.at,
                                        range.end.len, out, sizeof out, &len);
    unlock(snapshot->store, thread);
    drop_range(&range);
    return code == HLC_OK ? PyBytes_FromStringAndSize((const char *)out, (Py_ssize_t)len) : refuse(code, 0);
}

/* An iterator over a range, which may begin at its end. */
static PyObject *listing(PyObject *self, PyObject *args, PyObject *words, Entries entries)
{
    static char *names[] = { "start", "end", "reverse", NULL };
    Range range = { 0 };
    int is_reverse = false;
    if (!PyArg_ParseTupleAndKeywords(args, words, "|O&O&$p", names, take_bytes, &range.start, take_bytes, &range.end,
                                     &is_reverse))
        return NULL;
    Listed listed = { .entries = entries, .is_reverse = is_reverse };
    return pairs_of((Snapshot *)self, range.start, range.end, listed);
}

static PyObject *snapshot_items(PyObject *self, PyObject *args, PyObject *words)
{
    return listing(self, args, words, PAIRS);
}

static PyObject *snapshot_values(PyObject *self, PyObject *args, PyObject *words)
{
    return listing(self, args, words, VALUES);
}

static PyObject *snapshot_keys(PyObject *self, PyObject *args, PyObject *words)
{
    return listing(self, args, words, KEYS);
}

static PyObject *snapshot_iter(PyObject *self)
{
    Range all = { 0 };
    return pairs_of((Snapshot *)self, all.start, all.end, (Listed){ 0 });
}

static PyObject *snapshot_reversed(PyObject *self, PyObject *none)
{
    Range all = { 0 };
    (void)none;
    return pairs_of((Snapshot *)self, all.start, all.end, (Listed){ .is_reverse = true });
}

/* Room for a short pair, and for any: two lengths of eight bytes, a key of 255 and a value of 65,535. */
enum { SHORT_ROOM = 256, PAIR_ROOM = 65806 };

/* The last pair below a key, in a buffer with so much room. */
static uint32_t scan_last(Snapshot *snapshot, const Bytes *below, uint8_t *out, size_t room, size_t *many)
{
    size_t len;
    PyThreadState *thread = lock_to_ask(snapshot->store, SHORT);
    hlc_store mine = snapshot->store->handle;
    uint32_t code = hlc_snapshot_scan_back(&mine, snapshot->id, NULL, 0, below->at, below->len, out, room, &len, many);
    unlock(snapshot->store, thread);
    return code;
}

static PyObject *pair_object(const uint8_t *at)
{
    size_t key_len = (size_t)number_at(at, LENGTH);
    const uint8_t *value = at + LENGTH + key_len;
    return Py_BuildValue("(y#y#)", at + LENGTH, (Py_ssize_t)key_len, value + LENGTH,
                         (Py_ssize_t)number_at(value, LENGTH));
}

static PyObject *none_or_pair(const uint8_t *at, size_t many)
{
    if (many > 0) return pair_object(at);
    Py_RETURN_NONE;
}

static PyObject *last_below(Snapshot *snapshot, const Bytes *below)
{
    uint8_t first[SHORT_ROOM], *large = NULL, *out = first;
    size_t many;
    uint32_t code = scan_last(snapshot, below, out, sizeof first, &many);
    if (code == HLC_MORE && many == 0) {
        out = large = malloc(PAIR_ROOM);
        if (!large) return PyErr_NoMemory();
        code = scan_last(snapshot, below, out, PAIR_ROOM, &many);
    }
    PyObject *pair = code == HLC_OK || code == HLC_MORE ? none_or_pair(out, many) : refuse(code, 0);
    free(large);
    return pair;
}

static PyObject *snapshot_last_below(PyObject *self, PyObject *args, PyObject *words)
{
    static char *names[] = { "key", NULL };
    Bytes below = { 0 };
    if (!PyArg_ParseTupleAndKeywords(args, words, "|O&:last_below", names, take_bytes, &below)) return NULL;
    PyObject *last = last_below((Snapshot *)self, &below);
    drop_bytes(&below);
    return last;
}

/* ---- Two snapshots ---- */

/* A snapshot of another store is not open in this one. */
static PyObject *snapshot_changes(PyObject *self, PyObject *args, PyObject *words)
{
    static char *names[] = { "after", "start", "end", NULL };
    Snapshot *before = (Snapshot *)self;
    PyObject *after;
    Range range = { 0 };
    if (!PyArg_ParseTupleAndKeywords(args, words, "O!|O&O&:changes", names, classes_of(self)->snapshot, &after,
                                     take_bytes, &range.start, take_bytes, &range.end))
        return NULL;
    if (((Snapshot *)after)->store == before->store)
        return pairs_of(before, range.start, range.end, (Listed){ .after = (Snapshot *)after });
    drop_range(&range);
    return refuse(HLC_NO_SNAPSHOT, 0);
}

/* ---- The class ---- */

static PyObject *snapshot_repr(PyObject *self)
{
    Snapshot *snapshot = (Snapshot *)self;
    return PyUnicode_FromFormat("<Snapshot %llu at %llu.%llu>", (unsigned long long)snapshot->id,
                                (unsigned long long)(snapshot->stamp >> 16),
                                (unsigned long long)(snapshot->stamp & 0xffff));
}

static PyMethodDef snapshot_methods[] = {
    { "close", snapshot_close, METH_NOARGS, "close($self, /)\n--\n\nClose the snapshot." },
    { "__enter__", snapshot_enter, METH_NOARGS, "__enter__($self, /)\n--\n\nReturn the snapshot." },
    { "__exit__", snapshot_close, METH_VARARGS, "__exit__($self, /, *exception)\n--\n\nClose the snapshot." },
    { "get", (PyCFunction)(void (*)(void))snapshot_get, METH_FASTCALL,
      "get($self, key, default=None, /)\n--\n\nReturn the value of a key, or the default if it has none." },
    { "read_all", snapshot_read_all, METH_O,
      "read_all($self, keys, /)\n--\n\n"
      "Return the values of keys, None for a key without one. Costs less than as many calls of get." },
    METHOD("keys", snapshot_keys,
           "keys($self, /, start=b'', end=b'', *, reverse=False)\n--\n\n"
           "Iterate over the keys from start on and below end, in byte order. No end means all from start on.\n\n"
           "In reverse the last key comes first."),
    METHOD("items", snapshot_items,
           "items($self, /, start=b'', end=b'', *, reverse=False)\n--\n\nIterate over such keys and their values."),
    METHOD("values", snapshot_values,
           "values($self, /, start=b'', end=b'', *, reverse=False)\n--\n\n"
           "Iterate over the values of such keys, in the order of these."),
    { "__reversed__", snapshot_reversed, METH_NOARGS,
      "__reversed__($self, /)\n--\n\nIterate over the keys, the last one first." },
    METHOD("last_below", snapshot_last_below,
           "last_below($self, /, key=b'')\n--\n\n"
           "Return the last key below this one and its value, or None. No key means the last of all."),
    METHOD("changes", snapshot_changes,
           "changes($self, /, after, start=b'', end=b'')\n--\n\n"
           "Iterate over the keys from start on and below end whose answers in another snapshot of the store differ,\n"
           "in byte order, each with its value there, or None. Either snapshot may be the older one.\n\n"
           "These changes lead from what this snapshot lists to what the other one does, and no fewer do."),
    METHOD("count", snapshot_count, "count($self, /, start=b'', end=b'')\n--\n\nReturn how many such keys there are."),
    METHOD("digest", snapshot_digest,
           "digest($self, /, start=b'', end=b'')\n--\n\n"
           "Return the SHA-256 of such keys and their values. Replicas compare it."),
    { 0 },
};

static PyMemberDef snapshot_members[] = {
    { "id", T_ULONGLONG, offsetof(Snapshot, id), READONLY, "Its number, which no other snapshot of the store gets." },
    { 0 },
};

static PyObject *snapshot_stamp(PyObject *self, void *none)
{
    (void)none;
    return stamp_object(classes_of(self)->stamp, ((Snapshot *)self)->stamp);
}

static PyGetSetDef snapshot_fields[] = {
    { "stamp", snapshot_stamp, NULL, "The stamp at which it was opened.", NULL },
    { 0 },
};

static PyType_Slot snapshot_slots[] = {
    { Py_tp_doc,
      "An open snapshot, which answers like a mapping from keys to values.\n\n"
      "Items that are accepted later don't change its answers." },
    { Py_tp_dealloc, snapshot_dealloc },
    { Py_tp_methods, snapshot_methods },
    { Py_tp_members, snapshot_members },
    { Py_tp_getset, snapshot_fields },
    { Py_tp_repr, snapshot_repr },
    { Py_tp_iter, snapshot_iter },
    { Py_mp_subscript, snapshot_at },
    { Py_mp_length, snapshot_len },
    { Py_sq_contains, snapshot_contains },
    { 0, NULL },
};

PyType_Spec snapshot_spec = {
    "hlcstore.Snapshot", sizeof(Snapshot), 0, FINAL_CLASS | Py_TPFLAGS_DISALLOW_INSTANTIATION, snapshot_slots,
};
