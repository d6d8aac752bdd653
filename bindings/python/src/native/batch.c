/* The writes of one item, and the block of a with statement at whose end a node issues it. A batch has no lock: its
 * calls keep the interpreter. */
#include "native.h"
#include <string.h>

/* ---- Writes as bytes: of each a length and the key; and 0 of a deletion, or 1, a length and the value ---- */

/* How many bytes a write has beside its key and its value. */
enum { BESIDE_KEY = 2, BESIDE_VALUE = 2 };

/* Makes room for this many bytes more. Returns false with an exception. */
static bool make_room(Batch *batch, size_t more)
{
    if (batch->room - batch->len >= more) return true;
    size_t room = 2 * batch->room + more;
    uint8_t *at = PyMem_Realloc(batch->at, room);
    if (!at) {
        PyErr_NoMemory();
        return false;
    }
    batch->at = at;
    batch->room = room;
    return true;
}

static void append(Batch *batch, const Bytes *bytes)
{
    if (bytes->len > 0) memcpy(batch->at + batch->len, bytes->at, bytes->len);
    batch->len += bytes->len;
}

static void append_byte(Batch *batch, size_t byte) { batch->at[batch->len++] = (uint8_t)(byte & 255); }

/* Adds a write, or a deletion where there is no value. Returns false with an exception, and then adds nothing. */
static bool put(Batch *batch, const Bytes *key, const Bytes *value)
{
    uint32_t code = HLC_OK;
    if (batch->item) {
        PyErr_SetString(PyExc_ValueError, "the batch was issued");
        return false;
    }
    if (key->len == 0 || key->len > HLC_MAX_KEY) code = HLC_BAD_KEY;
    else if (value && value->len > HLC_MAX_VALUE) code = HLC_VALUE_TOO_LONG;
    else if (batch->count == HLC_MAX_BATCH) code = HLC_TOO_MANY_WRITES;
    if (code != HLC_OK) return refuse(code, 0);
    if (!make_room(batch, BESIDE_KEY + key->len + (value ? BESIDE_VALUE + value->len : 0))) return false;
    append_byte(batch, key->len);
    append(batch, key);
    append_byte(batch, value != NULL);
    if (value) {
        append_byte(batch, value->len >> 8);
        append_byte(batch, value->len);
        append(batch, value);
    }
    batch->count++;
    return true;
}

/* Adds what two objects say: a key, and its value or None. */
static bool put_objects(Batch *batch, PyObject *key_from, PyObject *value_from)
{
    Bytes key = { 0 }, value = { 0 };
    bool deletes = value_from == Py_None;
    bool is_put = take_bytes(key_from, &key) && (deletes || take_bytes(value_from, &value))
                  && put(batch, &key, deletes ? NULL : &value);
    drop_bytes(&key);
    drop_bytes(&value);
    return is_put;
}

/* Adds a pair of a key and its value, or None. */
static bool put_pair(Batch *batch, PyObject *pair)
{
    PyObject *key, *value;
    if (PyTuple_Check(pair)) {
        return PyArg_ParseTuple(pair, "OO;a write is a pair of a key and its value, or None", &key, &value)
               && put_objects(batch, key, value);
    }
    PyErr_Format(PyExc_TypeError, "a write is a pair of a key and its value, or None, not %R", Py_TYPE(pair));
    return false;
}

/* Adds all pairs of an iterable. */
static bool put_pairs(Batch *batch, PyObject *pairs)
{
    PyObject *iterator = PyObject_GetIter(pairs), *pair;
    bool is_put = iterator != NULL;
    while (is_put && (pair = PyIter_Next(iterator))) {
        is_put = put_pair(batch, pair);
        Py_DECREF(pair);
    }
    Py_XDECREF(iterator);
    return is_put && !PyErr_Occurred();
}

PyObject *pairs_of_writes(const uint8_t *at, size_t count)
{
    PyObject *pairs = PyTuple_New((Py_ssize_t)count);
    for (size_t i = 0; pairs && i < count; i++) {
        size_t key_len = *at++;
        const char *key = (const char *)at, *value = NULL;
        size_t value_len = 0;
        at += key_len;
        if (*at++) {
            value_len = (size_t)at[0] << 8 | at[1];
            value = (const char *)at + BESIDE_VALUE;
            at += BESIDE_VALUE + value_len;
        }
        PyObject *pair = value ? Py_BuildValue("(y#y#)", key, (Py_ssize_t)key_len, value, (Py_ssize_t)value_len)
                               : Py_BuildValue("(y#O)", key, (Py_ssize_t)key_len, Py_None);
        if (!pair || PyTuple_SetItem(pairs, (Py_ssize_t)i, pair)) Py_CLEAR(pairs);
    }
    return pairs;
}

/* Gives a content a copy of the writes of a batch. */
static bool copy_writes(const Batch *batch, Content *content)
{
    Bytes *writes = &content->writes;
    content->count = batch->count;
    writes->owner = PyBytes_FromStringAndSize((const char *)batch->at, (Py_ssize_t)batch->len);
    if (!writes->owner) return false;
    writes->at = (const uint8_t *)PyBytes_AsString(writes->owner);
    writes->len = batch->len;
    return true;
}

bool take_writes(Classes *classes, PyObject *from, Content *content)
{
    if (Py_TYPE(from) == classes->batch) return copy_writes((Batch *)from, content);
    Batch *batch = allocate(classes->batch);
    bool is_taken = batch && put_pairs(batch, from) && copy_writes(batch, content);
    Py_XDECREF((PyObject *)batch);
    return is_taken;
}

/* ---- The class ---- */

static PyObject *batch_new(PyTypeObject *type, PyObject *args, PyObject *words)
{
    static char *names[] = { "writes", NULL };
    PyObject *writes = NULL;
    if (!PyArg_ParseTupleAndKeywords(args, words, "|O:Batch", names, &writes)) return NULL;
    Batch *batch = allocate(type);
    if (!batch || !writes || put_pairs(batch, writes)) return (PyObject *)batch;
    Py_DECREF((PyObject *)batch);
    return NULL;
}

PyObject *batch_of_node(Classes *classes, PyObject *node, uint64_t reading)
{
    Batch *batch = allocate(classes->batch);
    if (!batch) return NULL;
    Py_INCREF(node);
    batch->node = node;
    batch->reading = reading;
    return (PyObject *)batch;
}

static void batch_dealloc(PyObject *self)
{
    Batch *batch = (Batch *)self;
    PyMem_Free(batch->at);
    Py_XDECREF(batch->node);
    Py_XDECREF(batch->item);
    release_object(self);
}

/* None where a call succeeded, or else NULL. */
static PyObject *none_if(bool succeeded)
{
    if (!succeeded) return NULL;
    Py_RETURN_NONE;
}

static PyObject *batch_write(PyObject *self, PyObject *args, PyObject *words)
{
    static char *names[] = { "key", "value", NULL };
    Bytes key = { 0 }, value = { 0 };
    if (!PyArg_ParseTupleAndKeywords(args, words, "O&O&:write", names, take_bytes, &key, take_bytes, &value))
        return NULL;
    bool is_put = put((Batch *)self, &key, &value);
    drop_bytes(&key);
    drop_bytes(&value);
    return none_if(is_put);
}

static PyObject *batch_delete(PyObject *self, PyObject *key)
{
    return none_if(put_objects((Batch *)self, key, Py_None));
}

/* batch[key] = value, or del batch[key], where the value is NULL. A value is some bytes: only a write of a pair may say
 * None. */
static int batch_set(PyObject *self, PyObject *key, PyObject *value)
{
    if (value == Py_None) {
        PyErr_SetString(PyExc_TypeError, "a bytes-like object is required, not None: del batch[key] deletes a key");
        return -1;
    }
    return put_objects((Batch *)self, key, value ? value : Py_None) ? 0 : -1;
}

static Py_ssize_t batch_len(PyObject *self) { return (Py_ssize_t)((Batch *)self)->count; }

static PyObject *batch_clear(PyObject *self, PyObject *none)
{
    Batch *batch = (Batch *)self;
    (void)none;
    batch->len = 0;
    batch->count = 0;
    Py_RETURN_NONE;
}

static PyObject *batch_enter(PyObject *self, PyObject *none)
{
    Batch *batch = (Batch *)self;
    (void)none;
    if (!batch->node) PyErr_SetString(PyExc_TypeError, "the batch is of no node: Node.batch returns one for a block");
    else if (batch->item) PyErr_SetString(PyExc_ValueError, "the batch was issued");
    if (!batch->node || batch->item) return NULL;
    Py_INCREF(self);
    return self;
}

/* Issues the item, unless the block raised an exception, of which the first argument is the class. */
static PyObject *batch_exit(PyObject *self, PyObject *args)
{
    Batch *batch = (Batch *)self;
    PyObject *raised = PyTuple_Size(args) > 0 ? PyTuple_GetItem(args, 0) : Py_None;
    if (raised == Py_None && batch->node && !batch->item) {
        batch->item = issued_batch(batch->node, batch->reading, self);
        if (!batch->item) return NULL;
    }
    Py_RETURN_NONE;
}

/* The writes of a copy: where objects are made, garbage is collected, and a finalizer may write to the batch. */
static PyObject *batch_writes(PyObject *self, void *none)
{
    Content copy = { 0 };
    PyObject *pairs = copy_writes((Batch *)self, &copy) ? pairs_of_writes(copy.writes.at, copy.count) : NULL;
    (void)none;
    drop_content(&copy);
    return pairs;
}

static PyObject *batch_repr(PyObject *self)
{
    PyObject *writes = batch_writes(self, NULL);
    PyObject *text = writes ? PyUnicode_FromFormat("Batch(%R)", writes) : NULL;
    Py_XDECREF(writes);
    return text;
}

static PyMethodDef batch_methods[] = {
    METHOD("write", batch_write,
           "write($self, /, key, value)\n--\n\n"
           "Add a write, as batch[key] = value does. That a key is there twice is refused where the item is issued."),
    { "delete", batch_delete, METH_O, "delete($self, key, /)\n--\n\nAdd a deletion, as del batch[key] does." },
    { "clear", batch_clear, METH_NOARGS, "clear($self, /)\n--\n\nRemove all writes." },
    { "__enter__", batch_enter, METH_NOARGS,
      "__enter__($self, /)\n--\n\nReturn the batch, if a node made it and did not issue it yet." },
    { "__exit__", batch_exit, METH_VARARGS,
      "__exit__($self, /, *exception)\n--\n\nLet the node issue the item, unless the block raised an exception." },
    { 0 },
};

static PyMemberDef batch_members[] = {
    { "item", T_OBJECT, offsetof(Batch, item), READONLY,
      "The item that Node.batch issued at the end of the block, or None." },
    { 0 },
};

static PyGetSetDef batch_fields[] = {
    { "writes", batch_writes, NULL, "Pairs of each key and its value, or None of a deletion, as they were added.",
      NULL },
    { 0 },
};

static PyType_Slot batch_slots[] = {
    { Py_tp_doc,
      "Batch(writes=())\n--\n\n"
      "The writes of one item, 1 to 256 of different keys: a snapshot shows all of them or none.\n\n"
      "It may begin with pairs of a key and its value, or None for a deletion. Node.write_batch issues the item, any\n"
      "number of times, and so does the block of Node.batch, once." },
    { Py_tp_new, batch_new },
    { Py_tp_dealloc, batch_dealloc },
    { Py_tp_methods, batch_methods },
    { Py_tp_members, batch_members },
    { Py_tp_getset, batch_fields },
    { Py_tp_repr, batch_repr },
    { Py_mp_ass_subscript, batch_set },
    { Py_mp_length, batch_len },
    { 0, NULL },
};

PyType_Spec batch_spec = { "hlcstore.Batch", sizeof(Batch), 0, FINAL_CLASS, batch_slots };
