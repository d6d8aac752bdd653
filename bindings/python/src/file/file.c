/* The module hlcstore._file: the calls of hlcstore_file.h, for the classes of hlcstore/file.py. */
#include "file.h"
#include <stdlib.h>

uint32_t ended(hlc_file *file, uint32_t code)
{
    hlc_file_read_end(file);
    return code;
}

/* ---- Arguments and answers ---- */

/* A reading, or None for the system's clock. The header's number for that clock is no reading: it becomes the one below
 * it, which is refused as too large. */
static int take_reading(PyObject *from, void *to)
{
    uint64_t *reading = to;
    *reading = HLC_FILE_NOW;
    if (from == Py_None) return 1;
    if (!take_u64(from, reading)) return 0;
    if (*reading == HLC_FILE_NOW) (*reading)--;
    return 1;
}

PyObject *number_or_refusal(uint32_t code, uint64_t number)
{
    return code == HLC_OK ? number_object(number) : refuse(code, number);
}

PyObject *stamp_of(PyObject *self, uint64_t stamp) { return stamp_object(((File *)self)->stamp, stamp); }

/* A stamp, or the exception of a refusal. */
static PyObject *stamp_or_refusal(PyObject *self, uint32_t code, uint64_t stamp)
{
    return code == HLC_OK ? stamp_of(self, stamp) : refuse(code, stamp);
}

/* ---- Opening and closing ---- */

/* Gives the exception that was raised SQLite's code. */
static void add_sqlite_code(int32_t sqlite)
{
    PyObject *type, *error, *trace;
    PyErr_Fetch(&type, &error, &trace);
    PyErr_NormalizeException(&type, &error, &trace);
    PyObject *code = PyLong_FromLong(sqlite);
    if (!code || PyObject_SetAttrString(error, "sqlite", code)) PyErr_Clear();
    Py_XDECREF(code);
    PyErr_Restore(type, error, trace);
}

/* Returns false with an exception. Nobody else has the object yet. */
static bool open_path(File *self, const char *path, const hlc_file_options *options)
{
    hlc_file_state state = { 0 };
    PyThreadState *thread = PyEval_SaveThread();
    uint32_t code = hlc_file_open(path, options, &self->file, &state);
    PyEval_RestoreThread(thread);
    if (code == HLC_OK) return true;
    refuse(code, state.word);
    add_sqlite_code(state.sqlite);
    return false;
}

static bool take_options(PyObject *args, PyObject *words, PyObject **path, hlc_file_options *options)
{
    static char *names[] = { "path",    "must_exist",         "keep_before_damage", "nodes",
                             "promise", "group_microseconds", "checkpoint_bytes",   NULL };
    int must_exist = false, keep_before_damage = false;
    uint16_t nodes = 0, promise = HLC_FILE_DEFAULT;
    uint64_t group_microseconds = 0;
    if (!PyArg_ParseTupleAndKeywords(args, words, "O&|$ppO&O&O&O&:File", names, PyUnicode_FSConverter, path,
                                     &must_exist, &keep_before_damage, take_u16, &nodes, take_u16, &promise, take_u64,
                                     &group_microseconds, take_u64, &options->checkpoint_bytes))
        return false;
    if (must_exist) options->flags |= HLC_FILE_MUST_EXIST;
    if (keep_before_damage) options->flags |= HLC_FILE_KEEP_BEFORE_DAMAGE;
    options->nodes = nodes;
    options->promise = promise;
    options->group_microseconds = group_microseconds < UINT32_MAX ? (uint32_t)group_microseconds : UINT32_MAX;
    return true;
}

/* Makes what a new file has of its own. Returns false with an exception. */
static bool prepare(File *self)
{
    self->process = getpid();
    self->has_lock = make_lock(&self->lock) == 0;
    if (!self->has_lock) PyErr_NoMemory();
    else self->stamp = stamp_class();
    return self->stamp != NULL;
}

static PyObject *file_new(PyTypeObject *type, PyObject *args, PyObject *words)
{
    PyObject *path = NULL;
    hlc_file_options options = { 0 };
    if (!take_options(args, words, &path, &options)) return NULL;
    File *self = allocate(type);
    if (self && (!prepare(self) || !open_path(self, PyBytes_AsString(path), &options))) {
        Py_DECREF((PyObject *)self);
        self = NULL;
    }
    Py_DECREF(path);
    return (PyObject *)self;
}

bool is_in_child(const File *self) { return self->process != getpid(); }

/* Waits for the calls that are under way, and lets later ones wait, since who finds the file closed may open it again.
 * A file that is closed already stays closed. */
static uint32_t close_it(File *self)
{
    if (is_in_child(self)) return HLC_OK;
    PyThreadState *thread = PyEval_SaveThread();
    pthread_rwlock_wrlock(&self->lock);
    uint32_t code = hlc_file_close(self->file);
    self->file = NULL;
    pthread_rwlock_unlock(&self->lock);
    PyEval_RestoreThread(thread);
    return code;
}

static PyObject *file_close(PyObject *self, PyObject *none)
{
    (void)none;
    uint32_t code = close_it((File *)self);
    if (code != HLC_OK) return refuse(code, 0);
    Py_RETURN_NONE;
}

static void file_dealloc(PyObject *self)
{
    File *file = (File *)self;
    if (file->has_lock) {
        close_it(file);
        pthread_rwlock_destroy(&file->lock);
    }
    Py_XDECREF((PyObject *)file->stamp);
    release_object(self);
}

/* ---- Batches ---- */

/* Adds a pair of a key and its value, or None for a deletion. Returns false with an exception. */
static bool add_pair(hlc_file_batch *batch, PyObject *pair)
{
    Bytes key = { 0 }, value = { 0 };
    PyObject *from;
    if (!PyArg_ParseTuple(pair, "O&O;a batch has pairs of a key and its value", take_bytes, &key, &from)) return false;
    bool deletes = from == Py_None, is_taken = deletes || take_bytes(from, &value);
    uint32_t code = HLC_OK;
    if (is_taken)
        code = deletes ? hlc_file_batch_delete(batch, key.at, key.len)
                       : hlc_file_batch_put(batch, key.at, key.len, value.at, value.len);
    drop_bytes(&key);
    drop_bytes(&value);
    if (code != HLC_OK) refuse(code, 0);
    return is_taken && code == HLC_OK;
}

static bool add_pairs(hlc_file_batch *batch, PyObject *pairs)
{
    PyObject *iterator = PyObject_GetIter(pairs), *pair;
    bool is_added = iterator != NULL;
    while (is_added && (pair = PyIter_Next(iterator))) {
        is_added = PyTuple_Check(pair) ? add_pair(batch, pair) : !PyErr_Format(PyExc_TypeError, "%R is no tuple", pair);
        Py_DECREF(pair);
    }
    Py_XDECREF(iterator);
    return is_added && !PyErr_Occurred();
}

/* Makes a call that writes pairs as a batch. */
typedef uint32_t batch_call(hlc_file *, uint16_t, uint64_t, hlc_file_batch *, uint32_t, uint64_t *);

static PyObject *write_pairs(PyObject *self, PyObject *args, PyObject *words, const char *format, batch_call *call)
{
    static char *names[] = { "pairs", "node", "reading", "promise", NULL };
    PyObject *pairs, *stamp = NULL;
    uint16_t node = 0, promise = HLC_FILE_DEFAULT;
    uint64_t reading = HLC_FILE_NOW, word = 0;
    hlc_file_batch *batch;
    if (!PyArg_ParseTupleAndKeywords(args, words, format, names, &pairs, take_u16, &node, take_reading, &reading,
                                     take_u16, &promise))
        return NULL;
    uint32_t code = hlc_file_batch_new(&batch);
    if (code != HLC_OK) return refuse(code, 0);
    if (add_pairs(batch, pairs)) {
        WITH_FILE(self, code, call(file, node, reading, batch, promise, &word));
        stamp = stamp_or_refusal(self, code, word);
    }
    hlc_file_batch_drop(batch);
    return stamp;
}

static PyObject *file_append(PyObject *self, PyObject *args, PyObject *words)
{
    return write_pairs(self, args, words, "O|$O&O&O&:append", hlc_file_append);
}

static PyObject *file_write_batch(PyObject *self, PyObject *args, PyObject *words)
{
    return write_pairs(self, args, words, "O|$O&O&O&:write_batch", hlc_file_write_batch);
}

static PyObject *file_append_records(PyObject *self, PyObject *args, PyObject *words)
{
    static char *names[] = { "log", "promise", NULL };
    Bytes log = { 0 };
    uint16_t promise = HLC_FILE_DEFAULT;
    uint64_t word = 0;
    size_t many = 0;
    uint32_t code;
    if (!PyArg_ParseTupleAndKeywords(args, words, "O&|$O&:append_records", names, take_bytes, &log, take_u16, &promise))
        return NULL;
    WITH_FILE(self, code, hlc_file_append_records(file, log.at, log.len, promise, &many, &word));
    drop_bytes(&log);
    return code == HLC_OK ? PyLong_FromSize_t(many) : refuse_after(code, word, many, 0, 0);
}

/* ---- One event ---- */

static PyObject *file_write(PyObject *self, PyObject *args, PyObject *words)
{
    static char *names[] = { "key", "value", "node", "reading", NULL };
    Bytes key = { 0 }, value = { 0 };
    uint16_t node = 0;
    uint64_t reading = HLC_FILE_NOW, word = 0;
    uint32_t code;
    if (!PyArg_ParseTupleAndKeywords(args, words, "O&O&|$O&O&:write", names, take_bytes, &key, take_bytes, &value,
                                     take_u16, &node, take_reading, &reading))
        return NULL;
    WITH_FILE(self, code, hlc_file_write(file, node, reading, key.at, key.len, value.at, value.len, &word));
    drop_bytes(&key);
    drop_bytes(&value);
    return stamp_or_refusal(self, code, word);
}

static PyObject *file_delete(PyObject *self, PyObject *args, PyObject *words)
{
    static char *names[] = { "key", "node", "reading", NULL };
    Bytes key = { 0 };
    uint16_t node = 0;
    uint64_t reading = HLC_FILE_NOW, word = 0;
    uint32_t code;
    if (!PyArg_ParseTupleAndKeywords(args, words, "O&|$O&O&:delete", names, take_bytes, &key, take_u16, &node,
                                     take_reading, &reading))
        return NULL;
    WITH_FILE(self, code, hlc_file_delete(file, node, reading, key.at, key.len, &word));
    drop_bytes(&key);
    return stamp_or_refusal(self, code, word);
}

typedef uint32_t (*Event)(hlc_file *, uint16_t, uint64_t, uint64_t *);

/* An event of a node that has nothing but its stamp. */
static PyObject *make_event(PyObject *self, Event event, PyObject *args, PyObject *words)
{
    static char *names[] = { "node", "reading", NULL };
    uint16_t node = 0;
    uint64_t reading = HLC_FILE_NOW, word = 0;
    uint32_t code;
    if (!PyArg_ParseTupleAndKeywords(args, words, "|$O&O&", names, take_u16, &node, take_reading, &reading))
        return NULL;
    WITH_FILE(self, code, event(file, node, reading, &word));
    return stamp_or_refusal(self, code, word);
}

#define EVENT(name, call) \
    static PyObject *name(PyObject *self, PyObject *args, PyObject *words) \
    { \
        return make_event(self, call, args, words); \
    }
EVENT(file_report, hlc_file_report)
EVENT(file_retire, hlc_file_retire)
EVENT(file_send, hlc_file_send)

static PyObject *file_receive(PyObject *self, PyObject *args, PyObject *words)
{
    static char *names[] = { "seen", "node", "reading", NULL };
    StampArgument seen = { .type = ((File *)self)->stamp };
    uint16_t node = 0;
    uint64_t reading = HLC_FILE_NOW, word = 0;
    uint32_t code;
    if (!PyArg_ParseTupleAndKeywords(args, words, "O&|$O&O&:receive", names, take_stamp, &seen, take_u16, &node,
                                     take_reading, &reading))
        return NULL;
    WITH_FILE(self, code, hlc_file_receive(file, node, seen.number, reading, &word));
    return stamp_or_refusal(self, code, word);
}

static PyObject *file_join(PyObject *self, PyObject *none)
{
    uint16_t node = 0;
    uint64_t start = 0;
    uint32_t code;
    (void)none;
    WITH_FILE(self, code, hlc_file_join(file, &node, &start));
    return code == HLC_OK ? Py_BuildValue("(HN)", node, stamp_of(self, start)) : refuse(code, start);
}

/* ---- What the file has ---- */

/* A call that asks for a number, and whether that is a stamp. */
typedef struct {
    uint32_t (*call)(hlc_file *, uint64_t *);
    bool is_stamp;
} Question;

static const Question FLOOR = { hlc_file_floor, true }, HORIZON = { hlc_file_horizon, true };
static const Question CHECKPOINT = { hlc_file_checkpoint, false };

static PyObject *ask(PyObject *self, void *asked)
{
    const Question *question = asked;
    uint64_t number = 0;
    uint32_t code;
    WITH_FILE(self, code, question->call(file, &number));
    return question->is_stamp ? stamp_or_refusal(self, code, number) : number_or_refusal(code, number);
}

static PyObject *file_checkpoint(PyObject *self, PyObject *none)
{
    (void)none;
    return ask(self, (void *)&CHECKPOINT);
}

/* Writes the bytes of an output in pieces, and returns how many they are, or NULL with an exception. */
static PyObject *write_output(hlc_output *output, size_t len, PyObject *write)
{
    for (size_t at = 0, read; at < len; at += read) {
        size_t room = len - at < PIECE ? len - at : PIECE;
        PyObject *piece = PyBytes_FromStringAndSize(NULL, (Py_ssize_t)room);
        if (!piece) return NULL;
        uint32_t code = hlc_output_read(output, at, (uint8_t *)PyBytes_AsString(piece), room, &read);
        (void)code;
        if (!write_piece(write, piece)) return NULL;
    }
    return PyLong_FromSize_t(len);
}

static PyObject *file_checkpoint_to(PyObject *self, PyObject *args, PyObject *words)
{
    static char *names[] = { "file", "tag", NULL };
    PyObject *to;
    hlc_output output = HLC_NO_OUTPUT;
    uint64_t tag = 0;
    size_t len = 0;
    uint32_t code;
    if (!PyArg_ParseTupleAndKeywords(args, words, "O|O&:checkpoint_to", names, &to, take_u64, &tag)) return NULL;
    PyObject *write = attribute_of(to, "write");
    if (!write) return NULL;
    WITH_FILE(self, code, hlc_file_copy(file, tag, &output, &len));
    PyObject *written = code == HLC_OK ? write_output(&output, len, write) : refuse(code, 0);
    hlc_output_drop(&output);
    Py_DECREF(write);
    return written;
}

static PyObject *status(PyObject *self, void *none)
{
    hlc_file_state is = { .size = sizeof is };
    uint32_t code;
    (void)none;
    WITH_FILE(self, code, hlc_file_status(file, &is));
    uint64_t numbers[] = { is.failure,   (uint64_t)is.sqlite, is.word,  is.writes,           is.damaged,
                           is.applied,   is.aside,            is.place, is.checkpoint_place, is.log_bytes,
                           is.clock,     is.waiting,          is.background };
    Py_ssize_t many = sizeof numbers / sizeof numbers[0];
    return code == HLC_OK ? result_of("Status", numbers, many, is.created ? Py_True : Py_False) : refuse(code, 0);
}

/* A call of hlcstore.h that asks for a number. */
typedef struct {
    uint32_t (*call)(hlc_store *, uint64_t *);
} StoreQuestion;

static const StoreQuestion ROWS = { hlc_store_rows }, NODES = { hlc_store_nodes }, FLOOR_NODE =
    { hlc_store_floor_node };

static PyObject *ask_store(PyObject *self, void *question)
{
    uint64_t number = 0;
    uint32_t code;
    hlc_store mine, *store = &mine;
    WITH_STORE(self, code, ((const StoreQuestion *)question)->call(store, &number));
    return number_or_refusal(code, number);
}

static PyObject *file_floor_node(PyObject *self, PyObject *none)
{
    (void)none;
    return ask_store(self, (void *)&FLOOR_NODE);
}

static PyObject *sizes(PyObject *self, void *none)
{
    uint64_t numbers[4];
    uint32_t code;
    hlc_store mine, *store = &mine;
    (void)none;
    WITH_STORE(self, code, hlc_store_size(store, &numbers[0], &numbers[1], &numbers[2], &numbers[3]));
    return code == HLC_OK ? result_of("Sizes", numbers, 4, NULL) : refuse(code, 0);
}

static PyObject *file_link(PyObject *self, PyObject *from)
{
    uint16_t node;
    uint64_t numbers[2];
    bool retired = false;
    uint32_t code;
    hlc_store mine, *store = &mine;
    if (!take_u16(from, &node)) return NULL;
    WITH_STORE(self, code, hlc_store_link(store, node, &numbers[0], &numbers[1], &retired));
    return code == HLC_OK ? result_of("Link", numbers, 2, retired ? Py_True : Py_False) : refuse(code, 0);
}

/* The rows of a key in a buffer, which is made longer until they fit: other threads may add some between two calls. */
static uint32_t list_versions(PyObject *self, const Bytes *key, uint64_t above, uint64_t to, uint8_t **rows,
                              size_t *many)
{
    size_t room = 0, len = 1024;
    uint32_t code = HLC_OK;
    hlc_store mine, *store = &mine;
    while (code == HLC_OK && len > room) {
        free(*rows);
        room = len;
        *rows = malloc(room);
        if (!*rows) return HLC_NO_MEMORY;
        WITH_STORE(self, code, hlc_store_versions(store, key->at, key->len, above, to, *rows, room, &len, many));
    }
    return code;
}

static PyObject *file_versions(PyObject *self, PyObject *args, PyObject *words)
{
    static char *names[] = { "key", "above", "to", NULL };
    Bytes key = { 0 };
    StampArgument above = { .type = ((File *)self)->stamp }, to = { above.type, UINT64_MAX };
    uint8_t *rows = NULL;
    size_t many = 0;
    if (!PyArg_ParseTupleAndKeywords(args, words, "O&|O&O&:versions", names, take_bytes, &key, take_stamp_or_none,
                                     &above, take_stamp_or_none, &to))
        return NULL;
    uint32_t code = list_versions(self, &key, above.number, to.number, &rows, &many);
    PyObject *list = code == HLC_OK ? list_of(rows, many, version_at) : refuse(code, 0);
    free(rows);
    drop_bytes(&key);
    return list;
}

/* ---- Vacuums ---- */

typedef uint32_t (*Vacuum)(hlc_file *, uint64_t, uint64_t *, uint64_t *, uint64_t *, uint64_t *);

static PyObject *vacuum(PyObject *self, Vacuum call, uint64_t to)
{
    uint64_t made[4] = { 0 };
    uint32_t code;
    WITH_FILE(self, code, call(file, to, &made[0], &made[1], &made[2], &made[3]));
    return code == HLC_OK ? result_of("Vacuum", made, 4, NULL) : refuse(code, made[0]);
}

static PyObject *file_vacuum_to(PyObject *self, PyObject *from)
{
    StampArgument to = { .type = ((File *)self)->stamp };
    return take_stamp(from, &to) ? vacuum(self, hlc_file_vacuum_to, to.number) : NULL;
}

static PyObject *file_vacuum_older(PyObject *self, PyObject *from)
{
    uint64_t milliseconds;
    return take_u64(from, &milliseconds) ? vacuum(self, hlc_file_vacuum_older, milliseconds) : NULL;
}

/* ---- The class and the module ---- */

static PyMethodDef file_methods[] = {
    { "close", file_close, METH_NOARGS,
      "close($self, /)\n--\n\n"
      "Close the file, after the calls that are under way. Its snapshots and its later calls raise Closed, as soon as\n"
      "it is closed; a second call returns then, too.\n\n"
      "What was promised as SYNCED or GROUP is on disk already. An exception says that what was WRITTEN may not be;\n"
      "the file is closed all the same." },
    METHOD("append", file_append,
           "append($self, /, pairs, *, node=0, reading=None, promise=0)\n--\n\n"
           "Append pairs of a key and its value, or None for a deletion: after a crash all are in the file or none.\n\n"
           "Each has its own stamp. Return that of the last one, at which a snapshot has all of them."),
    METHOD("write_batch", file_write_batch,
           "write_batch($self, /, pairs, *, node=0, reading=None, promise=0)\n--\n\n"
           "Write pairs of a key and its value, or None for a deletion, as one item: all of them at one stamp.\n\n"
           "Return the stamp: a snapshot, at whatever stamp, shows all of them or none."),
    METHOD("append_records", file_append_records,
           "append_records($self, /, log, *, promise=0)\n--\n\n"
           "Append the records of other machines, one after another as bytes, all or none, and return how many.\n\n"
           "Records that came before are passed over, and counted. If one is refused, the exception's accepted is how\n"
           "many came before it."),
    METHOD("write", file_write,
           "write($self, /, key, value, *, node=0, reading=None)\n--\n\n"
           "Write a value to a key, and return the stamp. A reading is in milliseconds; None is the system's clock."),
    METHOD("delete", file_delete,
           "delete($self, /, key, *, node=0, reading=None)\n--\n\nDelete a key's value, and return the stamp."),
    METHOD("report", file_report,
           "report($self, /, *, node=0, reading=None)\n--\n\n"
           "Let a node that has nothing to write report, so that the floor rises. Return the stamp."),
    METHOD("retire", file_retire,
           "retire($self, /, *, node=0, reading=None)\n--\n\nAppend a node's last item, and return the stamp."),
    METHOD("send", file_send,
           "send($self, /, *, node=0, reading=None)\n--\n\nReturn the stamp of a message from a node."),
    METHOD("receive", file_receive,
           "receive($self, /, seen, *, node=0, reading=None)\n--\n\n"
           "Receive a message with this stamp, and return the stamp of that: later stamps are above both."),
    { "join", file_join, METH_NOARGS,
      "join($self, /)\n--\n\nLet a node join at the floor, and return its number and the stamp of its start." },
    { "checkpoint", file_checkpoint, METH_NOARGS,
      "checkpoint($self, /)\n--\n\n"
      "Save a checkpoint, and cut the log behind the older one. Return the place in the log up to which it goes." },
    METHOD("checkpoint_to", file_checkpoint_to,
           "checkpoint_to($self, /, file, tag=0)\n--\n\n"
           "Write the bytes of a checkpoint to a binary file in pieces, and return how many they are.\n\n"
           "hlcstore.Store.restore opens a store in memory from them. Changes wait while the state is copied, and go\n"
           "on while it is written, so write may make any call. In memory is all of it. The file is what\n"
           "hlcstore.Store.checkpoint_to takes; where writing fails, a part may be written."),
    { "link", file_link, METH_O, "link($self, node, /)\n--\n\nReturn what was appended as a node." },
    { "floor_node", file_floor_node, METH_NOARGS,
      "floor_node($self, /)\n--\n\nReturn the number of the first node that holds the floor back." },
    METHOD("versions", file_versions,
           "versions($self, /, key, above=None, to=None)\n--\n\n"
           "Return the stored rows of a key above one stamp and at or below another, the newest first, as\n"
           "hlcstore.Store.versions does."),
    { "_vacuum_to", file_vacuum_to, METH_O, NULL },
    { "_vacuum_older", file_vacuum_older, METH_O, NULL },
    { "_open_snapshot", file_open_snapshot, METH_VARARGS, NULL },
    { "_close_snapshot", file_close_snapshot, METH_O, NULL },
    { "_read", file_read, METH_VARARGS, NULL },
    { "_count", file_count, METH_VARARGS, NULL },
    { "_scan", file_scan, METH_VARARGS, NULL },
    { "_changes", file_changes, METH_VARARGS, NULL },
    { "_digest", file_digest, METH_VARARGS, NULL },
    { 0 },
};

static PyGetSetDef file_fields[] = {
    { "floor", ask, NULL, "The floor: snapshots open up to it. All that is appended later has a greater stamp.",
      (void *)&FLOOR },
    { "horizon", ask, NULL, "The stamp of the last vacuum, or 0. No snapshot opens below it.", (void *)&HORIZON },
    { "nodes", ask_store, NULL, "How many node numbers are assigned, those of retired nodes too.", (void *)&NODES },
    { "rows", ask_store, NULL, "How many rows are stored.", (void *)&ROWS },
    { "sizes", sizes, NULL, "How many rows and keys are stored, and how many bytes these have. In constant time.",
      NULL },
    { "status", status, NULL, "How the file is.", NULL },
    { 0 },
};

static PyType_Slot file_slots[] = {
    { Py_tp_doc,
      "File(path, *, must_exist=False, keep_before_damage=False, nodes=0, promise=0, group_microseconds=0, "
      "checkpoint_bytes=0)\n--\n\nAn open file." },
    { Py_tp_new, file_new },
    { Py_tp_dealloc, file_dealloc },
    { Py_tp_methods, file_methods },
    { Py_tp_getset, file_fields },
    { 0, NULL },
};

static PyType_Spec file_spec = { "hlcstore._file.File", sizeof(File), 0, Py_TPFLAGS_DEFAULT | Py_TPFLAGS_BASETYPE,
                                 file_slots };

static PyObject *error_name(PyObject *module, PyObject *code)
{
    (void)module;
    return words_of(code, hlc_file_error_name);
}

static PyObject *error_text(PyObject *module, PyObject *code)
{
    (void)module;
    return words_of(code, hlc_file_error_text);
}

static PyMethodDef functions[] = {
    { "error_name", error_name, METH_O,
      "error_name($module, code, /)\n--\n\n"
      "Return the name of an answer in hlcstore_file.h or hlcstore.h, or nothing for a number that is no answer." },
    { "error_text", error_text, METH_O,
      "error_text($module, code, /)\n--\n\nReturn what an answer says, or nothing for a number that is no answer." },
    { 0 },
};

static int fill_module(PyObject *module)
{
    PyTypeObject *file = (PyTypeObject *)PyType_FromModuleAndSpec(module, &file_spec, NULL);
    bool is_filled = file && PyModule_AddType(module, file) == 0;
    Py_XDECREF((PyObject *)file);
    return is_filled ? 0 : -1;
}

static PyModuleDef_Slot slots[] = {
    { Py_mod_exec, fill_module },
    { 0, NULL },
};

static struct PyModuleDef definition = {
    .m_base = PyModuleDef_HEAD_INIT,
    .m_name = "hlcstore._file",
    .m_doc = "A store in a file, from the C library.",
    .m_methods = functions,
    .m_slots = slots,
};

PyMODINIT_FUNC PyInit__file(void) { return PyModuleDef_Init(&definition); }
