/* The records of a log that are no items, as bytes. */
#include "native.h"

static PyTypeObject *stamp_of_module(PyObject *module) { return ((Classes *)PyModule_GetState(module))->stamp; }

static PyObject *record_object(uint32_t code, const uint8_t *out, size_t len)
{
    return code == HLC_OK ? PyBytes_FromStringAndSize((const char *)out, (Py_ssize_t)len) : refuse(code, 0);
}

static PyObject *join_record(PyObject *module, PyObject *args, PyObject *words)
{
    static char *names[] = { "node", "start", NULL };
    uint8_t out[16];
    size_t len;
    uint16_t node;
    StampArgument start = { .type = stamp_of_module(module) };
    if (!PyArg_ParseTupleAndKeywords(args, words, "O&O&:join_record", names, take_u16, &node, take_stamp, &start))
        return NULL;
    uint32_t code = hlc_record_encode_join(node, start.number, out, sizeof out, &len);
    return record_object(code, out, len);
}

static PyObject *threshold_record(PyObject *module, PyObject *from)
{
    uint8_t out[16];
    size_t len;
    StampArgument stamp = { .type = stamp_of_module(module) };
    if (!take_stamp(from, &stamp)) return NULL;
    uint32_t code = hlc_record_encode_threshold(stamp.number, out, sizeof out, &len);
    return record_object(code, out, len);
}

PyMethodDef record_functions[] = {
    METHOD("join_record", join_record,
           "join_record($module, /, node, start)\n--\n\n"
           "Return the record of a join, for a log that Store.apply_records reads: the node is assigned this number,\n"
           "and its clock starts at this stamp."),
    { "threshold_record", threshold_record, METH_O,
      "threshold_record($module, stamp, /)\n--\n\n"
      "Return the record of a retention threshold: no more snapshot is opened below this stamp." },
    { 0 },
};
