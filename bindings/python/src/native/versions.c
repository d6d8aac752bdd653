/* The stored rows of one key. */
#include "native.h"
#include <stdlib.h>

/* The rows above one stamp and at or below another, as bytes, for which there is so much room at first. */
typedef struct {
    Bytes key;
    uint64_t above;
    uint64_t to;
    uint8_t *rows;
    size_t room;
    size_t len;
    size_t many;
} Versions;

enum { FIRST_ROOM = 1024 };

static uint32_t list_versions(Store *store, Versions *versions)
{
    PyThreadState *thread = lock_to_ask(store, LONG);
    hlc_store mine = store->handle;
    uint32_t code = hlc_store_versions(&mine, versions->key.at, versions->key.len, versions->above, versions->to,
                                       versions->rows, versions->room, &versions->len, &versions->many);
    unlock(store, thread);
    return code;
}

/* Fetches the rows, again where they did not fit: other threads may add some in between. Returns false with an
 * exception. */
static bool fetch(Store *store, Versions *versions)
{
    versions->len = FIRST_ROOM;
    while (versions->len > versions->room) {
        free(versions->rows);
        versions->room = versions->len;
        versions->rows = malloc(versions->room);
        if (!versions->rows) {
            PyErr_NoMemory();
            return false;
        }
        uint32_t code = list_versions(store, versions);
        if (code != HLC_OK) {
            refuse(code, 0);
            return false;
        }
    }
    return true;
}

PyObject *store_versions(PyObject *self, PyObject *args, PyObject *words)
{
    static char *names[] = { "key", "above", "to", NULL };
    StampArgument above = { .type = classes_of(self)->stamp }, to = { above.type, UINT64_MAX };
    Versions versions = { 0 };
    if (!PyArg_ParseTupleAndKeywords(args, words, "O&|O&O&:versions", names, take_bytes, &versions.key,
                                     take_stamp_or_none, &above, take_stamp_or_none, &to))
        return NULL;
    versions.above = above.number;
    versions.to = to.number;
    PyObject *list = fetch((Store *)self, &versions) ? list_of(versions.rows, versions.many, version_at) : NULL;
    free(versions.rows);
    drop_bytes(&versions.key);
    return list;
}
