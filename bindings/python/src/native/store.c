/* A store, its lock, and the calls that change it or ask what it has. */
#include "native.h"
#include <stdlib.h>

/* ---- The lock ---- */

PyThreadState *lock_to_ask(Store *store, Duration duration)
{
    if (duration == SHORT && pthread_rwlock_tryrdlock(&store->lock) == 0) return NULL;
    PyThreadState *thread = PyEval_SaveThread();
    pthread_rwlock_rdlock(&store->lock);
    return thread;
}

/* A short change needs no gate where nobody saves the store: it keeps the interpreter, without which none begins. */
PyThreadState *lock_to_change(Store *store, Duration duration)
{
    if (duration == SHORT && !store->savers && pthread_rwlock_trywrlock(&store->lock) == 0) return NULL;
    bool is_gated = !is_saver(store) && may_wait_at_gate();
    PyThreadState *thread = PyEval_SaveThread();
    if (is_gated) pthread_rwlock_wrlock(&store->gate);
    pthread_rwlock_wrlock(&store->lock);
    store->is_gated = is_gated;
    return thread;
}

void unlock(Store *store, PyThreadState *thread)
{
    bool is_gated = store->is_gated;
    if (is_gated) store->is_gated = false;
    pthread_rwlock_unlock(&store->lock);
    if (is_gated) pthread_rwlock_unlock(&store->gate);
    if (thread) PyEval_RestoreThread(thread);
}

/* ---- Opening and closing ---- */

static bool make_locks(Store *store)
{
    if (make_lock(&store->lock)) return false;
    if (make_lock(&store->gate) == 0) return true;
    pthread_rwlock_destroy(&store->lock);
    return false;
}

static Store *closed_store(PyTypeObject *type)
{
    Store *store = allocate(type);
    if (!store) return NULL;
    store->has_locks = make_locks(store);
    if (store->has_locks) return store;
    Py_DECREF((PyObject *)store);
    return (Store *)PyErr_NoMemory();
}

static PyObject *store_new(PyTypeObject *type, PyObject *args, PyObject *words)
{
    static char *names[] = { "nodes", NULL };
    uint16_t nodes;
    if (!PyArg_ParseTupleAndKeywords(args, words, "O&:Store", names, take_u16, &nodes)) return NULL;
    Store *store = closed_store(type);
    if (!store) return NULL;
    uint32_t code = hlc_store_open(&store->handle, nodes);
    if (code == HLC_OK) return (PyObject *)store;
    Py_DECREF((PyObject *)store);
    return refuse(code, 0);
}

/* Feeds a piece. Returns the answer, or -1 with an exception. fed: how many bytes were fed since this call let go of
 * the interpreter, since pieces of a list let no other thread run between them. */
static int feed_piece(hlc_restoring *restoring, PyObject *piece, size_t *fed)
{
    Bytes bytes;
    if (!take_bytes(piece, &bytes)) return -1;
    *fed += bytes.len;
    PyThreadState *thread = let_go_for(*fed);
    uint32_t code = hlc_restoring_feed(restoring, bytes.at, bytes.len);
    take_back(thread);
    if (thread) *fed = 0;
    drop_bytes(&bytes);
    return (int)code;
}

/* Feeds all pieces of an iterable. Returns the answer, or -1 with an exception. */
static int feed_pieces(hlc_restoring *restoring, PyObject *pieces)
{
    PyObject *iterator = PyObject_GetIter(pieces), *piece;
    size_t fed = 0;
    int code = HLC_OK;
    if (!iterator) return -1;
    while (code == HLC_OK && (piece = PyIter_Next(iterator))) {
        code = feed_piece(restoring, piece, &fed);
        Py_DECREF(piece);
    }
    Py_DECREF(iterator);
    return code == HLC_OK && PyErr_Occurred() ? -1 : code;
}

static PyObject *restore_pieces(PyObject *type, PyObject *pieces)
{
    Store *store = closed_store((PyTypeObject *)type);
    hlc_restoring restoring = HLC_NO_RESTORING;
    uint64_t word = 0;
    if (!store) return NULL;
    int code = (int)hlc_restoring_start(&restoring);
    if (code == HLC_OK) code = feed_pieces(&restoring, pieces);
    if (code == HLC_OK) {
        PyThreadState *thread = lock_to_change(store, LONG);
        code = (int)hlc_restoring_finish(&restoring, &store->handle, &word);
        unlock(store, thread);
        store->tag = word;
    }
    hlc_restoring_drop(&restoring);
    if (code == HLC_OK) return (PyObject *)store;
    Py_DECREF((PyObject *)store);
    return code < 0 ? NULL : refuse((uint32_t)code, word);
}

static PyObject *store_restore(PyObject *type, PyObject *from)
{
    Bytes saved;
    if (!PyObject_CheckBuffer(from)) return restore_pieces(type, from);
    if (!take_bytes(from, &saved)) return NULL;
    Store *store = closed_store((PyTypeObject *)type);
    uint64_t word = 0;
    uint32_t code = HLC_OK;
    if (store) {
        PyThreadState *thread = lock_to_change(store, LONG);
        code = hlc_store_restore(&store->handle, saved.at, saved.len, &word);
        unlock(store, thread);
        store->tag = word;
    }
    drop_bytes(&saved);
    if (code == HLC_OK) return (PyObject *)store;
    Py_DECREF((PyObject *)store);
    return refuse(code, word);
}

/* Nobody else has the store any more. A large one takes long to free. */
static void store_dealloc(PyObject *self)
{
    Store *store = (Store *)self;
    Py_BEGIN_ALLOW_THREADS
    hlc_store_close(&store->handle);
    Py_END_ALLOW_THREADS
    if (store->has_locks) {
        pthread_rwlock_destroy(&store->gate);
        pthread_rwlock_destroy(&store->lock);
    }
    release_object(self);
}

static PyObject *store_close(PyObject *self, PyObject *none)
{
    Store *store = (Store *)self;
    (void)none;
    PyThreadState *thread = lock_to_change(store, LONG);
    hlc_store_close(&store->handle);
    unlock(store, thread);
    Py_RETURN_NONE;
}

static PyObject *store_enter(PyObject *self, PyObject *none)
{
    (void)none;
    Py_INCREF(self);
    return self;
}

/* ---- Items ---- */

static uint32_t accept(hlc_store *store, const Content *item, uint64_t *word)
{
    const Bytes *key = &item->key, *value = &item->value;
    switch (item->kind) {
    case WRITE:
        return hlc_store_accept_write(store, item->node, item->number, item->stamp, key->at, key->len, value->at,
                                      value->len, word);
    case DELETE: return hlc_store_accept_delete(store, item->node, item->number, item->stamp, key->at, key->len, word);
    case BATCH:
        return hlc_store_accept_batch(store, item->node, item->number, item->stamp, item->count, item->writes.at,
                                      item->writes.len, word);
    case REPORT: return hlc_store_accept_report(store, item->node, item->number, item->stamp, word);
    default: return hlc_store_accept_retire(store, item->node, item->number, item->stamp, word);
    }
}

/* Why no store accepts a batch, whatever it has. */
static uint32_t check_writes(const Content *item)
{
    size_t len;
    return hlc_item_encode_batch(item->node, item->number, item->stamp, item->count, item->writes.at, item->writes.len,
                                 NULL, 0, &len);
}

/* hlc_store_check_report answers for a retirement too, and for all of a batch but its writes. */
static uint32_t check(hlc_store *store, const Content *item, uint64_t *word)
{
    const Bytes *key = &item->key, *value = &item->value;
    uint32_t code;
    switch (item->kind) {
    case WRITE:
        return hlc_store_check_write(store, item->node, item->number, item->stamp, key->at, key->len, value->at,
                                     value->len, word);
    case DELETE: return hlc_store_check_delete(store, item->node, item->number, item->stamp, key->at, key->len, word);
    default: code = hlc_store_check_report(store, item->node, item->number, item->stamp, word);
    }
    return code == HLC_OK && item->kind == BATCH ? check_writes(item) : code;
}

/* None, or the exception of a refusal. */
static PyObject *answer(uint32_t code, uint64_t word)
{
    if (code != HLC_OK) return refuse(code, word);
    Py_RETURN_NONE;
}

static PyObject *accept_content(Store *store, const Content *item)
{
    uint64_t word;
    PyThreadState *thread = lock_to_change(store, SHORT);
    uint32_t code = accept(&store->handle, item, &word);
    unlock(store, thread);
    return answer(code, word);
}

static PyObject *check_content(Store *store, const Content *item)
{
    uint64_t word;
    PyThreadState *thread = lock_to_ask(store, SHORT);
    hlc_store mine = store->handle;
    uint32_t code = check(&mine, item, &word);
    unlock(store, thread);
    return answer(code, word);
}

/* Makes one of these calls with the content that the arguments describe. */
static PyObject *with_content(PyObject *self, PyObject *(*call)(Store *, const Content *), Kind kind, PyObject *args,
                              PyObject *words)
{
    Content content;
    if (!take_content(classes_of(self), &content, kind, args, words)) return NULL;
    PyObject *result = call((Store *)self, &content);
    drop_content(&content);
    return result;
}

#define WITH_CONTENT(name, call, kind) \
    static PyObject *name(PyObject *self, PyObject *args, PyObject *words) \
    { \
        return with_content(self, call, kind, args, words); \
    }
WITH_CONTENT(store_accept_write, accept_content, WRITE)
WITH_CONTENT(store_accept_delete, accept_content, DELETE)
WITH_CONTENT(store_accept_batch, accept_content, BATCH)
WITH_CONTENT(store_accept_report, accept_content, REPORT)
WITH_CONTENT(store_accept_retire, accept_content, RETIRE)
WITH_CONTENT(store_check_write, check_content, WRITE)
WITH_CONTENT(store_check_delete, check_content, DELETE)
WITH_CONTENT(store_check_batch, check_content, BATCH)
WITH_CONTENT(store_check_report, check_content, REPORT)

/* The content of an item, or NULL with an exception where the object is none. */
static const Content *content_of(PyObject *self, PyObject *item)
{
    if (Py_TYPE(item) == classes_of(self)->item) return &((Item *)item)->content;
    PyErr_Format(PyExc_TypeError, "an hlcstore.Item is required, not %R", Py_TYPE(item));
    return NULL;
}

static PyObject *store_accept(PyObject *self, PyObject *item)
{
    const Content *content = content_of(self, item);
    return content ? accept_content((Store *)self, content) : NULL;
}

static PyObject *store_check_item(PyObject *self, PyObject *item)
{
    const Content *content = content_of(self, item);
    return content ? check_content((Store *)self, content) : NULL;
}

/* The contents of a tuple of items, to be freed, or NULL with an exception. */
static const Content **contents_of(PyObject *self, PyObject *items)
{
    size_t many = (size_t)PyTuple_Size(items);
    const Content **contents = malloc((many + 1) * sizeof *contents);
    if (!contents) return (const Content **)PyErr_NoMemory();
    for (size_t i = 0; i < many; i++) {
        contents[i] = content_of(self, PyTuple_GetItem(items, (Py_ssize_t)i));
        if (!contents[i]) {
            free(contents);
            return NULL;
        }
    }
    return contents;
}

/* Accepts contents in turn until one is refused. accepted: how many were accepted. */
static uint32_t accept_contents(Store *store, const Content **contents, size_t many, size_t *accepted, uint64_t *word)
{
    PyThreadState *thread = lock_to_change(store, LONG);
    /* So a closed store is refused too where there are no items. */
    uint32_t code = hlc_store_floor(&store->handle, word);
    for (*accepted = 0; code == HLC_OK && *accepted < many; *accepted += code == HLC_OK)
        code = accept(&store->handle, contents[*accepted], word);
    unlock(store, thread);
    return code;
}

static PyObject *store_accept_all(PyObject *self, PyObject *from)
{
    PyObject *items = PySequence_Tuple(from);
    if (!items) return NULL;
    const Content **contents = contents_of(self, items);
    PyObject *result = NULL;
    if (contents) {
        uint64_t word;
        size_t accepted;
        uint32_t code = accept_contents((Store *)self, contents, (size_t)PyTuple_Size(items), &accepted, &word);
        result = code == HLC_OK ? PyLong_FromSize_t(accepted) : refuse_after(code, word, accepted, 0, 0);
        free(contents);
    }
    Py_DECREF(items);
    return result;
}

static PyObject *store_accept_items(PyObject *self, PyObject *from)
{
    Store *store = (Store *)self;
    Bytes log;
    uint64_t word;
    size_t used, many;
    if (!take_bytes(from, &log)) return NULL;
    PyThreadState *thread = lock_to_change(store, LONG);
    uint32_t code = hlc_store_accept_items(&store->handle, log.at, log.len, &used, &many, &word);
    unlock(store, thread);
    drop_bytes(&log);
    return code == HLC_OK ? PyLong_FromSize_t(many) : refuse_after(code, word, many, used, 0);
}

static PyObject *store_apply_records(PyObject *self, PyObject *from)
{
    Store *store = (Store *)self;
    Bytes log;
    uint64_t word, threshold;
    size_t used, many;
    if (!take_bytes(from, &log)) return NULL;
    PyThreadState *thread = lock_to_change(store, LONG);
    uint32_t code = hlc_store_apply_records(&store->handle, log.at, log.len, &used, &many, &threshold, &word);
    unlock(store, thread);
    drop_bytes(&log);
    uint64_t numbers[] = { many, threshold };
    return code == HLC_OK ? result_of("Applied", numbers, 2, NULL) : refuse_after(code, word, many, used, threshold);
}

/* ---- Nodes ---- */

/* Lets a node join, at a start or at the floor. Its object is made before, so that no number is taken and then lost. */
static PyObject *join(PyObject *self, const uint64_t *start)
{
    Store *store = (Store *)self;
    Node *node = allocate(classes_of(self)->node);
    uint16_t id;
    uint64_t word = 0;
    if (!node) return NULL;
    PyThreadState *thread = lock_to_change(store, SHORT);
    uint32_t code = start ? hlc_store_join_at(&store->handle, *start, &id, &word) : hlc_store_join(&store->handle, &id,
                                                                                                   &word);
    unlock(store, thread);
    node->node = hlc_node_open(id, word);
    if (code == HLC_OK) return (PyObject *)node;
    Py_DECREF((PyObject *)node);
    return refuse(code, word);
}

static PyObject *store_join(PyObject *self, PyObject *none)
{
    (void)none;
    return join(self, NULL);
}

static PyObject *store_join_at(PyObject *self, PyObject *from)
{
    StampArgument start = { .type = classes_of(self)->stamp };
    return take_stamp(from, &start) ? join(self, &start.number) : NULL;
}

static PyObject *store_link(PyObject *self, PyObject *from)
{
    Store *store = (Store *)self;
    uint16_t node;
    uint64_t numbers[2];
    bool retired = false;
    if (!take_u16(from, &node)) return NULL;
    PyThreadState *thread = lock_to_ask(store, SHORT);
    hlc_store mine = store->handle;
    uint32_t code = hlc_store_link(&mine, node, &numbers[0], &numbers[1], &retired);
    unlock(store, thread);
    return code == HLC_OK ? result_of("Link", numbers, 2, retired ? Py_True : Py_False) : refuse(code, 0);
}

/* ---- What a store has ---- */

/* A call that asks for a number, and whether that is a stamp. */
typedef struct {
    uint32_t (*call)(hlc_store *, uint64_t *);
    bool is_stamp;
} Question;

static const Question FLOOR = { hlc_store_floor, true }, HORIZON = { hlc_store_horizon, true };
static const Question ROWS = { hlc_store_rows, false }, NODES = { hlc_store_nodes, false };
static const Question FLOOR_NODE = { hlc_store_floor_node, false };

static PyObject *ask(PyObject *self, void *asked)
{
    Store *store = (Store *)self;
    const Question *question = asked;
    uint64_t number;
    PyThreadState *thread = lock_to_ask(store, SHORT);
    hlc_store mine = store->handle;
    uint32_t code = question->call(&mine, &number);
    unlock(store, thread);
    if (code != HLC_OK) return refuse(code, 0);
    return question->is_stamp ? stamp_object(classes_of(self)->stamp, number) : number_object(number);
}

static PyObject *sizes(PyObject *self, void *none)
{
    Store *store = (Store *)self;
    uint64_t numbers[4];
    (void)none;
    PyThreadState *thread = lock_to_ask(store, SHORT);
    hlc_store mine = store->handle;
    uint32_t code = hlc_store_size(&mine, &numbers[0], &numbers[1], &numbers[2], &numbers[3]);
    unlock(store, thread);
    return code == HLC_OK ? result_of("Sizes", numbers, 4, NULL) : refuse(code, 0);
}

static PyObject *store_floor_node(PyObject *self, PyObject *none)
{
    (void)none;
    return ask(self, (void *)&FLOOR_NODE);
}

static PyObject *store_close_all(PyObject *self, PyObject *none)
{
    Store *store = (Store *)self;
    (void)none;
    PyThreadState *thread = lock_to_change(store, SHORT);
    uint32_t code = hlc_snapshot_close_all(&store->handle);
    unlock(store, thread);
    return answer(code, 0);
}

/* ---- Checkpoints ---- */

static PyObject *store_checkpoint(PyObject *self, PyObject *args, PyObject *words)
{
    static char *names[] = { "tag", NULL };
    Store *store = (Store *)self;
    hlc_output output = HLC_NO_OUTPUT;
    uint64_t tag = 0;
    size_t len;
    if (!PyArg_ParseTupleAndKeywords(args, words, "|O&:checkpoint", names, take_u64, &tag)) return NULL;
    PyThreadState *thread = lock_to_ask(store, LONG);
    hlc_store mine = store->handle;
    uint32_t code = hlc_checkpoint_make(&mine, tag, &output, &len);
    unlock(store, thread);
    return code == HLC_OK ? output_object(&output, len) : refuse(code, 0);
}

/* ---- The class ---- */

static PyObject *store_repr(PyObject *self)
{
    Store *store = (Store *)self;
    uint64_t floor, rows;
    PyThreadState *thread = lock_to_ask(store, SHORT);
    hlc_store mine = store->handle;
    uint32_t code = hlc_store_floor(&mine, &floor);
    if (code == HLC_OK) code = hlc_store_rows(&mine, &rows);
    unlock(store, thread);
    if (code != HLC_OK) return PyUnicode_FromString("<Store, closed>");
    return PyUnicode_FromFormat("<Store, floor=%llu.%llu, rows=%llu>", (unsigned long long)(floor >> 16),
                                (unsigned long long)(floor & 0xffff), (unsigned long long)rows);
}

static PyMethodDef store_methods[] = {
    { "restore", store_restore, METH_O | METH_CLASS,
      "restore($type, saved, /)\n--\n\n"
      "Return a store made of the bytes of a checkpoint, or of an iterable of pieces of them. The tag that was saved\n"
      "is its attribute tag.\n\n"
      "It continues as the saved store would have: the same next items, open snapshots and answers." },
    { "close", store_close, METH_NOARGS, "close($self, /)\n--\n\nClose the store and free its memory." },
    { "__enter__", store_enter, METH_NOARGS, "__enter__($self, /)\n--\n\nReturn the store." },
    { "__exit__", store_close, METH_VARARGS, "__exit__($self, /, *exception)\n--\n\nClose the store." },
    { "accept", store_accept, METH_O, "accept($self, item, /)\n--\n\nAccept an item." },
    METHOD("accept_write", store_accept_write,
           "accept_write($self, /, node, number, stamp, key, value)\n--\n\nAccept the write of a node."),
    METHOD("accept_delete", store_accept_delete,
           "accept_delete($self, /, node, number, stamp, key)\n--\n\nAccept the deletion of a node."),
    METHOD("accept_batch", store_accept_batch,
           "accept_batch($self, /, node, number, stamp, writes)\n--\n\n"
           "Accept the batch of a node, a Batch or pairs of a key and its value, or None: all writes or none."),
    METHOD("accept_report", store_accept_report,
           "accept_report($self, /, node, number, stamp)\n--\n\nAccept the report of a node."),
    METHOD("accept_retire", store_accept_retire,
           "accept_retire($self, /, node, number, stamp)\n--\n\nAccept the retirement of a node."),
    { "accept_all", store_accept_all, METH_O,
      "accept_all($self, items, /)\n--\n\n"
      "Accept items in turn, in one call, and return how many.\n\n"
      "If one is refused, those before it stay accepted, and the exception's accepted is how many they are." },
    { "accept_items", store_accept_items, METH_O,
      "accept_items($self, log, /)\n--\n\n"
      "Accept items that follow each other as bytes, and return how many.\n\n"
      "Items that were accepted before are passed over, and counted. If one is refused, the exception's accepted is\n"
      "how many were accepted before it, and its used is how many bytes these have." },
    { "apply_records", store_apply_records, METH_O,
      "apply_records($self, log, /)\n--\n\n"
      "Apply the records of a log that replicas share: items, joins and retention thresholds, one after another as\n"
      "bytes. Return how many they are, and the greatest threshold among them, or 0: no more snapshot is opened below\n"
      "it, so the caller may vacuum to it.\n\n"
      "Records that were applied before are passed over, and counted. If one is refused, the exception's accepted,\n"
      "used and threshold are of those before it." },
    { "check_item", store_check_item, METH_O,
      "check_item($self, item, /)\n--\n\nRaise what accept would raise, except NoMemory." },
    METHOD("check_write", store_check_write,
           "check_write($self, /, node, number, stamp, key, value)\n--\n\n"
           "Raise what accept_write would raise, except NoMemory."),
    METHOD("check_delete", store_check_delete,
           "check_delete($self, /, node, number, stamp, key)\n--\n\n"
           "Raise what accept_delete would raise, except NoMemory."),
    METHOD("check_batch", store_check_batch,
           "check_batch($self, /, node, number, stamp, writes)\n--\n\n"
           "Raise what accept_batch would raise, except NoMemory."),
    METHOD("check_report", store_check_report,
           "check_report($self, /, node, number, stamp)\n--\n\n"
           "Raise what accept_report and accept_retire would raise."),
    { "join", store_join, METH_NOARGS,
      "join($self, /)\n--\n\nLet a node join at the floor, and return it. Replicas use join_at." },
    { "join_at", store_join_at, METH_O,
      "join_at($self, start, /)\n--\n\nLet a node join whose clock starts at this stamp, and return it." },
    { "link", store_link, METH_O, "link($self, node, /)\n--\n\nReturn what was accepted from a node." },
    { "floor_node", store_floor_node, METH_NOARGS,
      "floor_node($self, /)\n--\n\nReturn the number of the first node that holds the floor back." },
    METHOD("versions", store_versions,
           "versions($self, /, key, above=None, to=None)\n--\n\n"
           "Return the stored rows of a key above one stamp and at or below another, the newest first.\n\n"
           "Above the horizon these are all accepted writes of the key; at and below it, those that vacuums kept. The\n"
           "cost is the square of the number of the key's rows."),
    METHOD("snapshot", store_snapshot,
           "snapshot($self, /, stamp=None)\n--\n\nOpen a snapshot at a stamp, or at the floor."),
    { "snapshot_by_id", store_snapshot_by_id, METH_O,
      "snapshot_by_id($self, id, /)\n--\n\n"
      "Return the open snapshot with this id, for example of a store that was restored.\n\n"
      "It stays open where the object is dropped. NoSnapshot is raised where none has the id." },
    { "snapshots", store_snapshots, METH_NOARGS,
      "snapshots($self, /)\n--\n\n"
      "Return the open snapshots, the oldest first.\n\nThey stay open where these objects are dropped." },
    { "close_snapshot", store_close_snapshot, METH_O,
      "close_snapshot($self, id, /)\n--\n\nClose the snapshot with this id, and return its stamp." },
    { "close_all", store_close_all, METH_NOARGS, "close_all($self, /)\n--\n\nClose all open snapshots." },
    { "vacuum", store_vacuum, METH_NOARGS,
      "vacuum($self, /)\n--\n\n"
      "Drop all rows up to the floor that neither it nor an open snapshot needs." },
    { "vacuum_to", store_vacuum_to, METH_O,
      "vacuum_to($self, stamp, /)\n--\n\n"
      "Drop all rows up to a stamp that neither it nor an open snapshot below it needs." },
    METHOD("vacuum_part", store_vacuum_part,
           "vacuum_part($self, /, stamp, after=b'', limit=1024)\n--\n\n"
           "Do a part of vacuum_to: of the first keys above `after`, at most `limit` keys.\n\n"
           "The next part goes on after the key that is returned as next, until that is None. All calls are allowed\n"
           "between parts. Each leaves the fewest rows of its keys at the snapshots that are open then."),
    { "check_vacuum", store_check_vacuum, METH_O,
      "check_vacuum($self, stamp, /)\n--\n\nRaise what vacuum_to would raise, except NoMemory." },
    { "certificate", store_certificate, METH_O,
      "certificate($self, stamp, /)\n--\n\n"
      "Return the certificate of the rows up to a stamp, after a vacuum to it or the last part of one.\n\n"
      "It shows that no rows with the same answers are fewer or cheaper. NotFewest is raised where a vacuum would\n"
      "drop a row. The store stays as it is." },
    METHOD("checkpoint", store_checkpoint,
           "checkpoint($self, /, tag=0)\n--\n\n"
           "Return the store's whole state as bytes, with a tag of the caller's.\n\n"
           "The tag may be the place in a log up to which the store applied it."),
    METHOD("checkpoint_to", store_checkpoint_to,
           "checkpoint_to($self, /, file, tag=0)\n--\n\n"
           "Write the bytes of checkpoint to a binary file in pieces, and return how many they are.\n\n"
           "In memory are a piece, and the rows of up to 32 keys as bytes. The file is any object whose write takes\n"
           "bytes and returns how many it took; it gets the rest again. None is a BlockingIOError, and 0 an OSError.\n"
           "Where writing fails, a part may be written. Other threads may read in open snapshots meanwhile, and their\n"
           "changes wait for the end; to open or close a snapshot is a change too. So write must not wait for them.\n"
           "Changed is raised where write itself changes the store."),
    METHOD("increment", store_increment,
           "increment($self, /, since, tag=0)\n--\n\n"
           "Return an increment as bytes: the whole state, but of the rows only those above a stamp.\n\n"
           "As the stamp choose the floor that the store had at an older checkpoint: of both apply_increment makes a\n"
           "newer one. BelowHorizon is raised where the stamp is below the horizon: then make a whole checkpoint."),
    { 0 },
};

static PyGetSetDef store_fields[] = {
    { "floor", ask, NULL, "The floor: every item that is accepted later has a greater stamp.", (void *)&FLOOR },
    { "horizon", ask, NULL, "The stamp of the last vacuum, or part of one, or 0. No snapshot opens below it.",
      (void *)&HORIZON },
    { "rows", ask, NULL, "How many rows are stored.", (void *)&ROWS },
    { "sizes", sizes, NULL, "How many rows and keys are stored, and how many bytes these have. In constant time.",
      NULL },
    { "nodes", ask, NULL, "How many node numbers are assigned, those of retired nodes too.", (void *)&NODES },
    { 0 },
};

static PyMemberDef store_members[] = {
    { "tag", T_ULONGLONG, offsetof(Store, tag), READONLY,
      "The tag of the checkpoint that the store was restored from, or 0." },
    { 0 },
};

static PyType_Slot store_slots[] = {
    { Py_tp_doc,
      "Store(nodes)\n--\n\n"
      "A multi-version store with `nodes` nodes, numbered from 0. Any thread may call it." },
    { Py_tp_new, store_new },
    { Py_tp_dealloc, store_dealloc },
    { Py_tp_repr, store_repr },
    { Py_tp_methods, store_methods },
    { Py_tp_getset, store_fields },
    { Py_tp_members, store_members },
    { 0, NULL },
};

PyType_Spec store_spec = { "hlcstore.Store", sizeof(Store), 0, FINAL_CLASS, store_slots };
