/* Refusals and results, whose classes are in Python. */
#include "native.h"

/* The numbers of the refusals, for hlcstore/_errors.py. It has no class for those that include/refusals.toml leaves out
 * of Python, since handles, buffers and outputs are this extension's own. bindings/refusals makes this list from it. */
static const struct {
    const char *name;
    uint32_t code;
} REFUSALS[] = {
#define REFUSAL(name) { #name, name }
    REFUSAL(HLC_NO_NODE),
    REFUSAL(HLC_READING_TOO_LARGE),
    REFUSAL(HLC_COUNTER_FULL),
    REFUSAL(HLC_NOT_NEXT),
    REFUSAL(HLC_STAMP_NOT_RISING),
    REFUSAL(HLC_ABOVE_FLOOR),
    REFUSAL(HLC_BELOW_HORIZON),
    REFUSAL(HLC_NO_SNAPSHOT),
    REFUSAL(HLC_TOO_MANY_SNAPSHOTS),
    REFUSAL(HLC_BAD_KEY),
    REFUSAL(HLC_VALUE_TOO_LONG),
    REFUSAL(HLC_NUMBERS_SPENT),
    REFUSAL(HLC_NO_MEMORY),
    REFUSAL(HLC_BAD_LINE),
    REFUSAL(HLC_NOT_SHOWN),
    REFUSAL(HLC_TOO_MANY_NODES),
    REFUSAL(HLC_RETIRED),
    REFUSAL(HLC_NO_WRITES),
    REFUSAL(HLC_TOO_MANY_WRITES),
    REFUSAL(HLC_KEY_TWICE),
    REFUSAL(HLC_CLOSED),
    REFUSAL(HLC_NO_VALUE),
    REFUSAL(HLC_NO_SUCH_NODE),
    REFUSAL(HLC_BAD_BYTES),
    REFUSAL(HLC_NO_CHECKPOINT),
    REFUSAL(HLC_NOT_FEWEST),
    REFUSAL(HLC_NO_INCREMENT),
    REFUSAL(HLC_NOT_LATER),
    REFUSAL(HLC_CHANGED),
    REFUSAL(HLC_NOT_PARTS),
    REFUSAL(HLC_BAD_NODE_COUNT),
    REFUSAL(HLC_ALL_RETIRED),
    REFUSAL(HLC_BELOW_FLOOR),
#undef REFUSAL
};

bool add_refusal_numbers(PyObject *module)
{
    for (size_t i = 0; i < sizeof REFUSALS / sizeof REFUSALS[0]; i++)
        if (PyModule_AddIntConstant(module, REFUSALS[i].name, REFUSALS[i].code)) return false;
    return true;
}

/* Calls a function of a module, and drops the reference to its arguments, which may be NULL with an exception. */
static PyObject *call_function(const char *module_name, const char *name, PyObject *arguments)
{
    PyObject *module = arguments ? PyImport_ImportModule(module_name) : NULL;
    PyObject *function = module ? attribute_of(module, name) : NULL;
    PyObject *result = function ? PyObject_CallObject(function, arguments) : NULL;
    Py_XDECREF(function);
    Py_XDECREF(module);
    Py_XDECREF(arguments);
    return result;
}

PyObject *refuse_after(uint32_t code, uint64_t word, size_t accepted, size_t used, uint64_t threshold)
{
    PyObject *arguments = Py_BuildValue("(IKnnK)", (unsigned int)code, (unsigned long long)word, (Py_ssize_t)accepted,
                                        (Py_ssize_t)used, (unsigned long long)threshold);
    PyObject *error = call_function("hlcstore._errors", "refusal", arguments);
    if (!error) return NULL;
    PyErr_SetObject((PyObject *)Py_TYPE(error), error);
    Py_DECREF(error);
    return NULL;
}

PyObject *refuse(uint32_t code, uint64_t word) { return refuse_after(code, word, 0, 0, 0); }

PyTypeObject *stamp_class(void)
{
    PyObject *module = PyImport_ImportModule("hlcstore._stamp");
    PyObject *stamp_type = module ? attribute_of(module, "Stamp") : NULL;
    Py_XDECREF(module);
    return (PyTypeObject *)stamp_type;
}

/* It is made as int makes it, not by a call: that may be refused where calls are too deep. */
PyObject *stamp_object(PyTypeObject *stamp_type, uint64_t stamp)
{
    newfunc new_number = (newfunc)PyType_GetSlot(&PyLong_Type, Py_tp_new);
    PyObject *arguments = Py_BuildValue("(K)", (unsigned long long)stamp);
    PyObject *made = arguments ? new_number(stamp_type, arguments, NULL) : NULL;
    Py_XDECREF(arguments);
    return made;
}

/* A tuple of the numbers, and of another object after them, if there is one. */
static PyObject *values_of(const uint64_t *numbers, Py_ssize_t many, PyObject *last)
{
    PyObject *values = PyTuple_New(many + (last != NULL));
    for (Py_ssize_t i = 0; values && i < many; i++) {
        PyObject *number = number_object(numbers[i]);
        if (!number || PyTuple_SetItem(values, i, number)) Py_CLEAR(values);
    }
    if (!values || !last) return values;
    Py_INCREF(last);
    if (PyTuple_SetItem(values, many, last)) Py_CLEAR(values);
    return values;
}

PyObject *result_of(const char *name, const uint64_t *numbers, Py_ssize_t many, PyObject *last)
{
    PyObject *values = values_of(numbers, many, last);
    return values ? call_function("hlcstore._results", "result", Py_BuildValue("(sN)", name, values)) : NULL;
}

/* The stamp and the node before a row's answer. */
enum { STAMP = 8, NODE = 2 };

PyObject *version_at(const uint8_t **at)
{
    uint64_t numbers[] = { number_at(*at, STAMP), number_at(*at + STAMP, NODE) };
    *at += STAMP + NODE;
    PyObject *value = answer_object(at), *version = value ? result_of("Version", numbers, 2, value) : NULL;
    Py_XDECREF(value);
    return version;
}

PyObject *words_of(PyObject *from, void (*call)(uint32_t, uint8_t *, size_t, size_t *))
{
    uint8_t out[256];
    size_t len;
    uint64_t answer;
    if (!take_u64(from, &answer)) return NULL;
    if (answer > UINT32_MAX) return PyUnicode_FromString("");
    call((uint32_t)answer, out, sizeof out, &len);
    return PyUnicode_FromStringAndSize((const char *)out, (Py_ssize_t)(len <= sizeof out ? len : 0));
}

static PyObject *error_name(PyObject *module, PyObject *code)
{
    (void)module;
    return words_of(code, hlc_error_name);
}

static PyObject *error_text(PyObject *module, PyObject *code)
{
    (void)module;
    return words_of(code, hlc_error_text);
}

PyMethodDef refusal_functions[] = {
    { "error_name", error_name, METH_O,
      "error_name($module, code, /)\n--\n\n"
      "Return the name of an answer in hlcstore.h, or nothing for a number that is no answer." },
    { "error_text", error_text, METH_O,
      "error_text($module, code, /)\n--\n\n"
      "Return what an answer says, or nothing for a number that is no answer." },
    { 0 },
};
