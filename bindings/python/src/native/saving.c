/* Checkpoints that are written in pieces.
 *
 * A thread that saves a store makes calls of Python between its pieces, so it keeps no lock that other calls of its own
 * may wait for. Instead it keeps the gate of the store, through which a change of another thread must pass. A change
 * that this thread makes itself, as the file may do, goes past the gate, and the next piece is refused. Snapshots that
 * are dropped meanwhile, in any thread, are closed at the end: so a collection of garbage neither waits, nor changes
 * the store. */
#include "native.h"
#include <stdlib.h>

/* ---- Threads that save a store ---- */

/* When the interpreter begins to end its threads, it does not count as initialized any more. */
bool may_wait_at_gate(void) { return Py_IsInitialized(); }

/* Returns NULL where there is no memory. The saver is not on the stack: while calls of Python run, a greenlet puts
 * other calls of the thread there, and a thread that the interpreter ends leaves its stack for good. */
static Saver *begin(Store *store)
{
    Saver *saver = malloc(sizeof *saver);
    if (!saver) return NULL;
    saver->thread = pthread_self();
    saver->is_gated = may_wait_at_gate();
    saver->many_dropped = 0;
    saver->next = store->savers;
    store->savers = saver;
    if (!saver->is_gated) return saver;
    Py_BEGIN_ALLOW_THREADS
    pthread_rwlock_rdlock(&store->gate);
    Py_END_ALLOW_THREADS
    return saver;
}

/* Where other threads go on to save the store, one of these closes the snapshots. */
static void end(Store *store, Saver *saver)
{
    Saver **place = &store->savers;
    while (*place != saver) place = &(*place)->next;
    *place = saver->next;
    if (saver->is_gated) pthread_rwlock_unlock(&store->gate);
    for (size_t i = 0; i < saver->many_dropped; i++)
        if (!close_later(store, saver->dropped[i])) close_snapshot_id(store, saver->dropped[i]);
    free(saver);
}

bool is_saver(const Store *store)
{
    const Saver *saver = store->savers;
    while (saver && !pthread_equal(saver->thread, pthread_self())) saver = saver->next;
    return saver != NULL;
}

bool close_later(Store *store, uint64_t id)
{
    Saver *saver = store->savers;
    if (!saver || saver->many_dropped == MOST_OPEN) return false;
    saver->dropped[saver->many_dropped++] = id;
    return true;
}

/* ---- Pieces ---- */

static uint32_t start(Store *store, hlc_saving *saving, uint64_t tag)
{
    uint64_t len;
    PyThreadState *thread = lock_to_ask(store, LONG);
    hlc_store mine = store->handle;
    uint32_t code = hlc_saving_start(saving, &mine, tag, &len);
    unlock(store, thread);
    return code;
}

/* Nobody else has the bytes object yet, so it may be filled without the interpreter. */
static uint32_t read_piece(Store *store, hlc_saving *saving, PyObject *piece, size_t *len)
{
    uint8_t *out = (uint8_t *)PyBytes_AsString(piece);
    PyThreadState *thread = lock_to_ask(store, LONG);
    hlc_store mine = store->handle;
    uint32_t code = hlc_saving_read(saving, &mine, out, PIECE, len);
    unlock(store, thread);
    return code;
}

/* The next piece, or NULL with an exception. code: HLC_MORE where bytes are left after it. */
static PyObject *next_piece(Store *store, hlc_saving *saving, uint32_t *code)
{
    PyObject *piece = PyBytes_FromStringAndSize(NULL, PIECE);
    size_t len;
    if (!piece) return NULL;
    *code = read_piece(store, saving, piece, &len);
    if (*code == HLC_OK || *code == HLC_MORE) return len == PIECE ? piece : part_of(piece, 0, (Py_ssize_t)len);
    Py_DECREF(piece);
    return refuse(*code, 0);
}

/* ---- The file ---- */

/* Writes all pieces, and returns how many bytes they have, or NULL with an exception. */
static PyObject *write_pieces(Store *store, hlc_saving *saving, PyObject *write)
{
    uint32_t code = HLC_MORE;
    uint64_t written = 0;
    while (code == HLC_MORE) {
        PyObject *piece = next_piece(store, saving, &code);
        if (!piece) return NULL;
        written += (uint64_t)PyBytes_Size(piece);
        if (!write_piece(write, piece)) return NULL;
    }
    return number_object(written);
}

static PyObject *save(Store *store, PyObject *write, uint64_t tag)
{
    hlc_saving saving = HLC_NO_SAVING;
    uint32_t code = start(store, &saving, tag);
    PyObject *written = code == HLC_OK ? write_pieces(store, &saving, write) : refuse(code, 0);
    hlc_saving_drop(&saving);
    return written;
}

/* A thread that saves the store already keeps the gate. */
static PyObject *save_gated(Store *store, PyObject *write, uint64_t tag)
{
    if (is_saver(store)) return save(store, write, tag);
    Saver *saver = begin(store);
    if (!saver) return PyErr_NoMemory();
    PyObject *written = save(store, write, tag);
    end(store, saver);
    return written;
}

PyObject *store_checkpoint_to(PyObject *self, PyObject *args, PyObject *words)
{
    static char *names[] = { "file", "tag", NULL };
    PyObject *file;
    uint64_t tag = 0;
    if (!PyArg_ParseTupleAndKeywords(args, words, "O|O&:checkpoint_to", names, &file, take_u64, &tag)) return NULL;
    PyObject *write = attribute_of(file, "write");
    if (!write) return NULL;
    PyObject *written = save_gated((Store *)self, write, tag);
    Py_DECREF(write);
    return written;
}
