/* Vacuums, and the certificates of what they left. */
#include "native.h"

/* The numbers of a vacuum: its stamp, or the word of a refusal; the rows kept, their cost, and the rows dropped. */
enum { STAMP, KEPT, COST, DROPPED, NUMBERS };

/* Without a stamp it is a vacuum up to the floor. */
static uint32_t run(hlc_store *store, const uint64_t *stamp, uint64_t *numbers)
{
    if (!stamp) return hlc_store_vacuum(store, &numbers[STAMP], &numbers[KEPT], &numbers[COST], &numbers[DROPPED]);
    return hlc_store_vacuum_to(store, *stamp, &numbers[STAMP], &numbers[KEPT], &numbers[COST], &numbers[DROPPED]);
}

static PyObject *vacuum(Store *store, const uint64_t *stamp)
{
    uint64_t numbers[NUMBERS];
    PyThreadState *thread = lock_to_change(store, LONG);
    uint32_t code = run(&store->handle, stamp, numbers);
    unlock(store, thread);
    return code == HLC_OK ? result_of("Vacuum", numbers, NUMBERS, NULL) : refuse(code, numbers[STAMP]);
}

PyObject *store_vacuum(PyObject *self, PyObject *none)
{
    (void)none;
    return vacuum((Store *)self, NULL);
}

PyObject *store_vacuum_to(PyObject *self, PyObject *from)
{
    StampArgument stamp = { .type = classes_of(self)->stamp };
    return take_stamp(from, &stamp) ? vacuum((Store *)self, &stamp.number) : NULL;
}

/* The longest key. */
#define KEY_ROOM 255

/* A part of a vacuum up to a stamp: of the first keys above one, at most this many keys. */
typedef struct {
    uint64_t stamp;
    Bytes after;
    uint64_t limit;
} Part;

static PyObject *vacuum_part(Store *store, const Part *part)
{
    uint64_t numbers[NUMBERS];
    uint8_t key[KEY_ROOM];
    size_t len;
    bool more = false;
    PyThreadState *thread = lock_to_change(store, LONG);
    uint32_t code = hlc_store_vacuum_part(&store->handle, part->stamp, part->after.at, part->after.len, part->limit,
                                          &numbers[STAMP], &numbers[KEPT], &numbers[COST], &numbers[DROPPED], key,
                                          sizeof key, &len, &more);
    unlock(store, thread);
    if (code != HLC_OK) return refuse(code, numbers[STAMP]);
    if (!more) return result_of("VacuumPart", numbers, NUMBERS, Py_None);
    /* Only a part of no keys ends at longer bytes: at those where it begins. */
    const uint8_t *end = len <= sizeof key ? key : part->after.at;
    PyObject *next = PyBytes_FromStringAndSize((const char *)end, (Py_ssize_t)len);
    PyObject *result = next ? result_of("VacuumPart", numbers, NUMBERS, next) : NULL;
    Py_XDECREF(next);
    return result;
}

PyObject *store_vacuum_part(PyObject *self, PyObject *args, PyObject *words)
{
    static char *names[] = { "stamp", "after", "limit", NULL };
    StampArgument stamp = { .type = classes_of(self)->stamp };
    Part part = { .limit = 1024 };
    PyObject *result;
    if (!PyArg_ParseTupleAndKeywords(args, words, "O&|O&O&:vacuum_part", names, take_stamp, &stamp, take_bytes,
                                     &part.after, take_u64, &part.limit))
        return NULL;
    part.stamp = stamp.number;
    result = vacuum_part((Store *)self, &part);
    drop_bytes(&part.after);
    return result;
}

PyObject *store_check_vacuum(PyObject *self, PyObject *from)
{
    Store *store = (Store *)self;
    StampArgument stamp = { .type = classes_of(self)->stamp };
    uint64_t word;
    if (!take_stamp(from, &stamp)) return NULL;
    PyThreadState *thread = lock_to_ask(store, SHORT);
    hlc_store mine = store->handle;
    uint32_t code = hlc_store_check_vacuum(&mine, stamp.number, &word);
    unlock(store, thread);
    if (code != HLC_OK) return refuse(code, word);
    Py_RETURN_NONE;
}

PyObject *store_certificate(PyObject *self, PyObject *from)
{
    Store *store = (Store *)self;
    hlc_output output = HLC_NO_OUTPUT;
    StampArgument stamp = { .type = classes_of(self)->stamp };
    uint64_t word, numbers[2];
    size_t len;
    if (!take_stamp(from, &stamp)) return NULL;
    PyThreadState *thread = lock_to_ask(store, LONG);
    hlc_store mine = store->handle;
    uint32_t code = hlc_certificate_make(&mine, stamp.number, &word, &numbers[0], &numbers[1], &output, &len);
    unlock(store, thread);
    if (code != HLC_OK) return refuse(code, word);
    PyObject *text = output_object(&output, len), *result = text ? result_of("Certified", numbers, 2, text) : NULL;
    Py_XDECREF(text);
    return result;
}

PyObject *check_certificate(PyObject *module, PyObject *from)
{
    Bytes text;
    uint64_t numbers[2], word;
    uint32_t code;
    (void)module;
    if (!take_bytes(from, &text)) return NULL;
    Py_BEGIN_ALLOW_THREADS
    code = hlc_certificate_check(text.at, text.len, &numbers[0], &numbers[1], &word);
    Py_END_ALLOW_THREADS
    drop_bytes(&text);
    return code == HLC_OK ? result_of("Checked", numbers, 2, NULL) : refuse(code, word);
}
