/* The two parts of a checkpoint at a key, and the checkpoint that two neighbouring parts become. */
#include "native.h"

PyObject *split_checkpoint(PyObject *module, PyObject *args, PyObject *words)
{
    static char *names[] = { "checkpoint", "key", NULL };
    hlc_output left = HLC_NO_OUTPUT, right = HLC_NO_OUTPUT;
    Bytes checkpoint = { 0 }, key = { 0 };
    size_t left_len, right_len;
    uint64_t word;
    uint32_t code;
    (void)module;
    if (!PyArg_ParseTupleAndKeywords(args, words, "O&O&:split_checkpoint", names, take_bytes, &checkpoint, take_bytes,
                                     &key))
        return NULL;
    Py_BEGIN_ALLOW_THREADS
    code = hlc_checkpoint_split(checkpoint.at, checkpoint.len, key.at, key.len, &left, &right, &left_len, &right_len,
                                &word);
    Py_END_ALLOW_THREADS
    drop_bytes(&checkpoint);
    drop_bytes(&key);
    if (code != HLC_OK) return refuse(code, word);
    PyObject *low = output_object(&left, left_len), *high = output_object(&right, right_len);
    PyObject *parts = low && high ? PyTuple_Pack(2, low, high) : NULL;
    Py_XDECREF(low);
    Py_XDECREF(high);
    return parts;
}

PyObject *merge_checkpoints(PyObject *module, PyObject *args, PyObject *words)
{
    static char *names[] = { "left", "right", NULL };
    hlc_output output = HLC_NO_OUTPUT;
    Bytes left = { 0 }, right = { 0 };
    uint64_t word;
    uint32_t code;
    size_t len;
    (void)module;
    if (!PyArg_ParseTupleAndKeywords(args, words, "O&O&:merge_checkpoints", names, take_bytes, &left, take_bytes,
                                     &right))
        return NULL;
    Py_BEGIN_ALLOW_THREADS
    code = hlc_checkpoint_merge(left.at, left.len, right.at, right.len, &output, &len, &word);
    Py_END_ALLOW_THREADS
    drop_bytes(&left);
    drop_bytes(&right);
    return code == HLC_OK ? output_object(&output, len) : refuse(code, word);
}
