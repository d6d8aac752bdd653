/* The module hlcstore._native. */
#include "native.h"

Classes *classes_of(PyObject *self) { return PyType_GetModuleState(Py_TYPE(self)); }

static bool make_class(PyObject *module, PyType_Spec *spec, PyTypeObject **to)
{
    *to = (PyTypeObject *)PyType_FromModuleAndSpec(module, spec, NULL);
    return *to != NULL;
}

/* Makes a class, and adds it under its name. */
static bool add_class(PyObject *module, PyType_Spec *spec, PyTypeObject **to)
{
    return make_class(module, spec, to) && PyModule_AddType(module, *to) == 0;
}

static bool add_classes(PyObject *module)
{
    Classes *classes = PyModule_GetState(module);
    classes->stamp = stamp_class();
    return classes->stamp && add_class(module, &item_spec, &classes->item)
           && add_class(module, &batch_spec, &classes->batch) && add_class(module, &node_spec, &classes->node)
           && add_class(module, &store_spec, &classes->store)
           && add_class(module, &snapshot_spec, &classes->snapshot) && make_class(module, &pairs_spec, &classes->pairs);
}

static int fill_module(PyObject *module)
{
    if (hlc_version() != HLC_VERSION_NUMBER) {
        PyErr_SetString(PyExc_ImportError, "the library and its header have different versions");
        return -1;
    }
    bool is_filled = PyModule_AddStringConstant(module, "VERSION", HLC_VERSION) == 0 && add_refusal_numbers(module)
                     && PyModule_AddFunctions(module, refusal_functions) == 0
                     && PyModule_AddFunctions(module, record_functions) == 0 && add_classes(module);
    return is_filled ? 0 : -1;
}

static int visit_module(PyObject *module, visitproc visit, void *arg)
{
    Classes *classes = PyModule_GetState(module);
    Py_VISIT(classes->item);
    Py_VISIT(classes->batch);
    Py_VISIT(classes->node);
    Py_VISIT(classes->store);
    Py_VISIT(classes->snapshot);
    Py_VISIT(classes->pairs);
    Py_VISIT(classes->stamp);
    return 0;
}

static int clear_module(PyObject *module)
{
    Classes *classes = PyModule_GetState(module);
    Py_CLEAR(classes->item);
    Py_CLEAR(classes->batch);
    Py_CLEAR(classes->node);
    Py_CLEAR(classes->store);
    Py_CLEAR(classes->snapshot);
    Py_CLEAR(classes->pairs);
    Py_CLEAR(classes->stamp);
    return 0;
}

static PyObject *version(PyObject *module, PyObject *none)
{
    (void)module, (void)none;
    return PyLong_FromUnsignedLong(hlc_version());
}

static PyMethodDef functions[] = {
    METHOD("apply_increment", apply_increment,
           "apply_increment($module, /, older, increment)\n--\n\n"
           "Return the bytes of the newer checkpoint that an older one becomes by an increment of the same store.\n\n"
           "They have the increment's tag. A store that is restored from them answers as the newer one did, and its\n"
           "next vacuum drops the rows that vacuums dropped since the older checkpoint. They may be the older\n"
           "checkpoint of the next increment."),
    { "check", check_certificate, METH_O,
      "check($module, certificate, /)\n--\n\n"
      "Check the text of a certificate, whoever made it: no rows with the same answers are fewer or cheaper." },
    METHOD("merge_checkpoints", merge_checkpoints,
           "merge_checkpoints($module, /, left, right)\n--\n\n"
           "Return the bytes of the checkpoint that two neighbouring parts become, of which the left one has the\n"
           "lower keys. It has the tag of the left one.\n\n"
           "NotParts is raised where they do not fit: its word is the number of the first thing that differs."),
    METHOD("split_checkpoint", split_checkpoint,
           "split_checkpoint($module, /, checkpoint, key)\n--\n\n"
           "Return the bytes of the two parts of a checkpoint at a key: the first has the rows of lower keys, the\n"
           "second the others.\n\n"
           "Each has the links, the open snapshots, the horizon and the tag of the whole. A store that is restored\n"
           "from a part goes on from the same log: it takes each write of a key of the other part as a report with\n"
           "the same number and stamp."),
    { "version", version, METH_NOARGS,
      "version($module, /)\n--\n\n"
      "Return the library's version: 10,000 times its first number, 100 times the second, and the third." },
    { 0 },
};

static PyModuleDef_Slot slots[] = {
    { Py_mod_exec, fill_module },
    { 0, NULL },
};

static struct PyModuleDef definition = {
    .m_base = PyModuleDef_HEAD_INIT,
    .m_name = "hlcstore._native",
    .m_doc = "The store and its nodes, from the C library.",
    .m_size = sizeof(Classes),
    .m_methods = functions,
    .m_slots = slots,
    .m_traverse = visit_module,
    .m_clear = clear_module,
};

PyMODINIT_FUNC PyInit__native(void) { return PyModuleDef_Init(&definition); }
