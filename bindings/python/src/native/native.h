/* What the files of the extension share.
 *
 * Threads. A store has a lock that many calls may take to ask, or one call to change it. A thread lets go of the
 * interpreter before it waits for a store's lock, and releases the store's lock before it waits for the interpreter.
 * So threads never wait for each other in a ring. Between lock and unlock no object of Python is made or dropped: that
 * could collect garbage, which closes snapshots. Nodes and items have no lock: their calls keep the interpreter. The
 * gate of a store, which a saving keeps while it makes calls of Python, is described in saving.c.
 *
 * Bytes. A call that may let go of the interpreter uses only buffers of its own: an argument that is not a bytes object
 * is copied, since its owner could change it meanwhile. */
#ifndef HLCSTORE_NATIVE_H
#define HLCSTORE_NATIVE_H
#define PY_SSIZE_T_CLEAN
#include <Python.h>
#include <pthread.h>
#include <stddef.h>
#include <structmember.h>
#include "hlcstore.h"

/* The classes of the module. */
typedef struct {
    PyTypeObject *item;
    PyTypeObject *batch;
    PyTypeObject *node;
    PyTypeObject *store;
    PyTypeObject *snapshot;
    PyTypeObject *pairs;
    PyTypeObject *stamp; /* that of hlcstore/_stamp.py */
} Classes;

/* A class without subclasses, whose attributes stay as they are. */
#define FINAL_CLASS (Py_TPFLAGS_DEFAULT | Py_TPFLAGS_IMMUTABLETYPE)

/* Methods whose arguments may have names. */
#define METHOD(name, call, doc) { name, (PyCFunction)(void (*)(void))call, METH_VARARGS | METH_KEYWORDS, doc }
#define CLASS_METHOD(name, call, doc) \
    { name, (PyCFunction)(void (*)(void))call, METH_VARARGS | METH_KEYWORDS | METH_CLASS, doc }

/* Returns the classes of the module that made this object. */
Classes *classes_of(PyObject *self);

/* ---- objects.c ---- */

/* A new object of a class, all of it 0, or NULL. */
void *allocate(PyTypeObject *type);

/* Frees an object, whose content is released. */
void release_object(PyObject *self);

/* An attribute of an object, or NULL with an exception. */
PyObject *attribute_of(PyObject *object, const char *name);

/* Makes a lock in which a waiting writer comes before later readers. Returns an error of the system, or 0. */
int make_lock(pthread_rwlock_t *lock);

/* ---- arguments.c ---- */

/* Some bytes, and the bytes object that owns them, or NULL where there are none. */
typedef struct {
    PyObject *owner;
    const uint8_t *at;
    size_t len;
} Bytes;

void drop_bytes(Bytes *bytes);

/* Converters for the format O& of PyArg_ParseTuple. */
int take_u16(PyObject *from, void *to);
int take_u64(PyObject *from, void *to);
int take_bytes(PyObject *from, void *to);

/* A stamp that a call takes. Its type, the class of stamps, is there before. */
typedef struct {
    PyTypeObject *type;
    uint64_t number;
} StampArgument;

/* Converters too. None leaves the number as it is. */
int take_stamp(PyObject *from, void *to);
int take_stamp_or_none(PyObject *from, void *to);

PyObject *number_object(uint64_t number);

/* How many bytes a length has before the bytes that it counts. */
enum { LENGTH = 8 };

/* A number of this many bytes, the low one first. */
uint64_t number_at(const uint8_t *at, size_t size);

/* The value of an answer, or None where there is none: a byte 0; or a byte 1, a length and that many bytes. at: the
 * answer's place, and then that of what follows. */
PyObject *answer_object(const uint8_t **at);

/* Makes an object of the entry at a place, which becomes that of the next one. Returns NULL with an exception. */
typedef PyObject *(*Reader)(const uint8_t **at);

/* A list of this many entries. */
PyObject *list_of(const uint8_t *at, size_t many, Reader read);

/* Lets go of the interpreter for work on this many bytes, if they are many. Returns what take_back needs: the thread,
 * or NULL. Where other threads of Python run, taking it back may last milliseconds. */
PyThreadState *let_go_for(size_t len);
void take_back(PyThreadState *thread);

/* Returns the bytes of an output, len of them, and drops it. It is called after unlock. */
PyObject *output_object(hlc_output *output, size_t len);

/* ---- refusals.c ---- */

/* Raises the exception of a refusal, and returns NULL. */
PyObject *refuse(uint32_t code, uint64_t word);

/* Raises the exception of a refusal of one of many items: this many were accepted before it, in this many bytes. */
PyObject *refuse_after(uint32_t code, uint64_t word, size_t accepted, size_t used, uint64_t threshold);

/* The class Stamp of hlcstore/_stamp.py, or NULL with an exception. */
PyTypeObject *stamp_class(void);

/* A stamp of this class. No function of Python is called: it may be made after a call has changed something. */
PyObject *stamp_object(PyTypeObject *stamp_type, uint64_t stamp);

/* Returns a named tuple of hlcstore/_results.py, of these numbers, and of an object after them unless it is NULL. */
PyObject *result_of(const char *name, const uint64_t *numbers, Py_ssize_t many, PyObject *last);

/* A stored row of a key, as hlc_store_versions writes it. It is a Reader. */
PyObject *version_at(const uint8_t **at);

/* What a call of the library says of an answer: its name, or its text. */
PyObject *words_of(PyObject *answer, void (*call)(uint32_t, uint8_t *, size_t, size_t *));

extern PyMethodDef refusal_functions[];
bool add_refusal_numbers(PyObject *module);

/* ---- writer.c ---- */

/* How many bytes a piece of a checkpoint has; the last one may have fewer. */
enum { PIECE = 1 << 18 };

/* A part of a bytes object, whose reference it takes. */
PyObject *part_of(PyObject *bytes, Py_ssize_t from, Py_ssize_t to);

/* Passes a piece, whose reference it takes, to the write of a file, to its end. Returns false with an exception where
 * that fails. */
bool write_piece(PyObject *write, PyObject *piece);

/* ---- item.c ---- */

typedef enum { WRITE, DELETE, REPORT, RETIRE, BATCH } Kind;

/* What an item says. A key, a value or writes that its kind does not have are empty. */
typedef struct {
    Kind kind;
    uint16_t node;
    uint64_t number;
    uint64_t stamp;
    Bytes key;
    Bytes value;
    size_t count; /* how many writes a batch has */
    Bytes writes; /* as hlc_node_write_batch takes them */
} Content;

typedef struct {
    PyObject_HEAD
    Content content;
} Item;

/* Fills the content from the arguments of a call: node, number, stamp, and the key and the value of its kind, or its
 * writes. */
bool take_content(Classes *classes, Content *content, Kind kind, PyObject *args, PyObject *words);
void drop_content(Content *content);

extern PyType_Spec item_spec;

/* ---- batch.c ---- */

typedef struct {
    PyObject_HEAD
    uint8_t *at; /* the bytes of the writes */
    size_t room;
    size_t len;
    size_t count;
    PyObject *node; /* that issues the item at the end of a block, or NULL */
    uint64_t reading;
    PyObject *item; /* that was issued at the end of the block, or NULL */
} Batch;

/* Fills in the writes of a batch, or of an iterable of pairs, as a copy. Returns false with an exception. */
bool take_writes(Classes *classes, PyObject *from, Content *content);

/* A tuple of this many writes: pairs of a key and its value, or None. */
PyObject *pairs_of_writes(const uint8_t *at, size_t count);

/* An empty batch for a block at whose end the node issues it. */
PyObject *batch_of_node(Classes *classes, PyObject *node, uint64_t reading);

extern PyType_Spec batch_spec;

/* ---- decode.c ---- */

/* A method of the class of items. */
PyObject *item_decode(PyObject *type, PyObject *args, PyObject *words);

/* ---- record.c ---- */

extern PyMethodDef record_functions[];

/* ---- node.c ---- */

typedef struct {
    PyObject_HEAD
    hlc_node node;
} Node;

/* Lets a node issue the item of a batch, or of an iterable of pairs. */
PyObject *issued_batch(PyObject *node, uint64_t reading, PyObject *writes);

extern PyType_Spec node_spec;

/* As many snapshots as a store may have open. */
enum { MOST_OPEN = 1024 };

/* A thread that saves a store in pieces, and the snapshots that were dropped meanwhile, which it closes at its end. */
typedef struct Saver {
    pthread_t thread;
    bool is_gated; /* whether it has the gate */
    struct Saver *next;
    size_t many_dropped;
    uint64_t dropped[MOST_OPEN];
} Saver;

/* ---- store.c ---- */

typedef struct {
    PyObject_HEAD
    hlc_store handle;
    pthread_rwlock_t lock;
    pthread_rwlock_t gate; /* a saving has its reading side, and a change that may wait the other, before the lock */
    bool has_locks;
    bool is_gated; /* whether the change that has the lock has the gate too */
    Saver *savers; /* under the lock of the interpreter */
    uint64_t tag;  /* the tag of the checkpoint of which it was restored */
} Store;

/* Whether a call may keep the interpreter while it runs. */
typedef enum { SHORT, LONG } Duration;

/* Locks a store. Returns what unlock needs: the thread that let go of the interpreter, or NULL. A change waits until no
 * other thread saves the store. */
PyThreadState *lock_to_ask(Store *store, Duration duration);
PyThreadState *lock_to_change(Store *store, Duration duration);
void unlock(Store *store, PyThreadState *thread);

extern PyType_Spec store_spec;

/* ---- saving.c ---- */

/* A method of a store. */
PyObject *store_checkpoint_to(PyObject *self, PyObject *args, PyObject *words);

/* Whether this thread saves a store. */
bool is_saver(const Store *store);

/* Whether a thread may wait at the gate of a store: not at the end of the interpreter, which ends threads within calls
 * of Python, so that the gate may be kept for good. */
bool may_wait_at_gate(void);

/* Leaves a snapshot to a thread that saves the store, which closes it at the end. Returns false where there is none. */
bool close_later(Store *store, uint64_t id);

/* ---- vacuum.c ---- */

/* Methods of a store. */
PyObject *store_vacuum(PyObject *self, PyObject *none);
PyObject *store_vacuum_to(PyObject *self, PyObject *stamp);
PyObject *store_vacuum_part(PyObject *self, PyObject *args, PyObject *words);
PyObject *store_check_vacuum(PyObject *self, PyObject *stamp);
PyObject *store_certificate(PyObject *self, PyObject *stamp);

/* The function check of the module. */
PyObject *check_certificate(PyObject *module, PyObject *text);

/* ---- increments.c ---- */

/* A method of a store. */
PyObject *store_increment(PyObject *self, PyObject *args, PyObject *words);

/* The function apply_increment of the module. */
PyObject *apply_increment(PyObject *module, PyObject *args, PyObject *words);

/* ---- parts.c ---- */

/* The functions split_checkpoint and merge_checkpoints of the module. */
PyObject *split_checkpoint(PyObject *module, PyObject *args, PyObject *words);
PyObject *merge_checkpoints(PyObject *module, PyObject *args, PyObject *words);

/* ---- versions.c ---- */

/* A method of a store. */
PyObject *store_versions(PyObject *self, PyObject *args, PyObject *words);

/* ---- snapshot.c ---- */

typedef struct {
    PyObject_HEAD
    Store *store;
    uint64_t id;
    uint64_t stamp;
    bool is_owner; /* whether the snapshot is closed where this object is dropped */
} Snapshot;

/* Methods of a store. */
PyObject *store_snapshot(PyObject *self, PyObject *args, PyObject *words);
PyObject *store_snapshot_by_id(PyObject *self, PyObject *id);
PyObject *store_snapshots(PyObject *self, PyObject *none);
PyObject *store_close_snapshot(PyObject *self, PyObject *id);

/* Closes a snapshot, if it is open. */
void close_snapshot_id(Store *store, uint64_t id);

extern PyType_Spec snapshot_spec;

/* ---- read_all.c ---- */

/* A method of a snapshot. */
PyObject *snapshot_read_all(PyObject *self, PyObject *keys);

/* ---- pairs.c ---- */

/* What an iterator gives: keys, values or both, in the byte order of the keys or from the last on; or the keys whose
 * answers differ in another snapshot, with the values there. */
typedef enum { KEYS, VALUES, PAIRS } Entries;
typedef struct {
    Entries entries;
    bool is_reverse;
    Snapshot *after; /* that other snapshot, or NULL */
} Listed;

/* Returns an iterator over the keys from one on and below another. It takes the bytes. */
PyObject *pairs_of(Snapshot *snapshot, Bytes start, Bytes end, Listed listed);

extern PyType_Spec pairs_spec;

#endif
