/* Increments of a store, and the newer checkpoints that older ones become by them. */
#include "native.h"

PyObject *store_increment(PyObject *self, PyObject *args, PyObject *words)
{
    static char *names[] = { "since", "tag", NULL };
    Store *store = (Store *)self;
    hlc_output output = HLC_NO_OUTPUT;
    StampArgument since = { .type = classes_of(self)->stamp };
    uint64_t horizon, tag = 0;
    size_t len;
    if (!PyArg_ParseTupleAndKeywords(args, words, "O&|O&:increment", names, take_stamp, &since, take_u64, &tag))
        return NULL;
    PyThreadState *thread = lock_to_ask(store, LONG);
    hlc_store mine = store->handle;
    uint32_t code = hlc_increment_make(&mine, since.number, tag, &output, &len, &horizon);
    unlock(store, thread);
    return code == HLC_OK ? output_object(&output, len) : refuse(code, horizon);
}

PyObject *apply_increment(PyObject *module, PyObject *args, PyObject *words)
{
    static char *names[] = { "older", "increment", NULL };
    hlc_output output = HLC_NO_OUTPUT;
    Bytes older = { 0 }, increment = { 0 };
    uint64_t word;
    uint32_t code;
    size_t len;
    (void)module;
    if (!PyArg_ParseTupleAndKeywords(args, words, "O&O&:apply_increment", names, take_bytes, &older, take_bytes,
                                     &increment))
        return NULL;
    Py_BEGIN_ALLOW_THREADS
    code = hlc_increment_apply(older.at, older.len, increment.at, increment.len, &output, &len, &word);
    Py_END_ALLOW_THREADS
    drop_bytes(&older);
    drop_bytes(&increment);
    return code == HLC_OK ? output_object(&output, len) : refuse(code, word);
}
