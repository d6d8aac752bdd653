/* What the files of the extension for files share.
 *
 * Threads. Each call lets go of the interpreter, since it may wait for another call or for the disk. Meanwhile it has a
 * share of the file's lock, which closing takes alone: so a call finds the file open until it ends, or closed. */
#ifndef HLCSTORE_PYTHON_FILE_H
#define HLCSTORE_PYTHON_FILE_H
#include <unistd.h>
#include "hlcstore_file.h"
#include "native.h"

typedef struct {
    PyObject_HEAD
    pid_t process; /* that opened it */
    hlc_file *file; /* NULL where it is closed */
    pthread_rwlock_t lock;
    bool has_lock;
    PyTypeObject *stamp; /* the class of stamps, which is here since a subclass does not lead to the module */
} File;

/* Makes a call with `file`, and puts its answer into `code`. A closed file answers HLC_CLOSED. */
#define WITH_FILE(self, code, call) \
    do { \
        File *with = (File *)(self); \
        PyThreadState *thread = PyEval_SaveThread(); \
        pthread_rwlock_rdlock(&with->lock); \
        hlc_file *file = with->file; \
        code = file ? (call) : HLC_CLOSED; \
        pthread_rwlock_unlock(&with->lock); \
        PyEval_RestoreThread(thread); \
    } while (0)

/* Makes a reading call of hlcstore.h with `store`, a copy of the handle of the file's store, in the same way. */
#define WITH_STORE(self, code, call) WITH_FILE(self, code, (hlc_file_read_begin(file, store), ended(file, (call))))

/* ---- file.c ---- */

/* Ends the reading of a file, after a call that answered this. */
uint32_t ended(hlc_file *file, uint32_t code);

/* Whether this is the child of a fork, which drops its objects where it ends. The file is the parent's, and calls of
 * the parent's other threads may have its locks for good. */
bool is_in_child(const File *self);

/* A number, or the exception of a refusal. */
PyObject *number_or_refusal(uint32_t code, uint64_t number);

PyObject *stamp_of(PyObject *self, uint64_t stamp);

/* ---- snapshots.c ---- */

/* Methods of a file. */
PyObject *file_open_snapshot(PyObject *self, PyObject *args);
PyObject *file_close_snapshot(PyObject *self, PyObject *id);
PyObject *file_read(PyObject *self, PyObject *args);
PyObject *file_count(PyObject *self, PyObject *args);
PyObject *file_scan(PyObject *self, PyObject *args);
PyObject *file_changes(PyObject *self, PyObject *args);
PyObject *file_digest(PyObject *self, PyObject *args);

#endif
