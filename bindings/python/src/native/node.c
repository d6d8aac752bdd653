/* A node. Its calls are short and keep the interpreter, so threads make them one at a time. */
#include "native.h"

/* The class of stamps, of the module that made the class of nodes. */
static PyTypeObject *stamp_of_module(PyTypeObject *type) { return ((Classes *)PyType_GetModuleState(type))->stamp; }

static PyObject *node_new(PyTypeObject *type, PyObject *args, PyObject *words)
{
    static char *names[] = { "id", "start", NULL };
    uint16_t id;
    StampArgument start = { .type = stamp_of_module(type) };
    if (!PyArg_ParseTupleAndKeywords(args, words, "O&|O&:Node", names, take_u16, &id, take_stamp_or_none, &start))
        return NULL;
    Node *node = allocate(type);
    if (node) node->node = hlc_node_open(id, start.number);
    return (PyObject *)node;
}

static PyObject *node_restore(PyObject *type, PyObject *args, PyObject *words)
{
    static char *names[] = { "id", "last", "next", NULL };
    uint16_t id;
    StampArgument last = { .type = stamp_of_module((PyTypeObject *)type) };
    uint64_t next;
    if (!PyArg_ParseTupleAndKeywords(args, words, "O&O&O&:restore", names, take_u16, &id, take_stamp, &last, take_u64,
                                     &next))
        return NULL;
    Node *node = allocate((PyTypeObject *)type);
    if (!node) return NULL;
    uint32_t code = hlc_node_restore(id, last.number, next, &node->node);
    if (code == HLC_OK) return (PyObject *)node;
    Py_DECREF((PyObject *)node);
    return refuse(code, 0);
}

/* ---- Items ---- */

static uint32_t issue(hlc_node *node, uint64_t reading, Content *item)
{
    const Bytes *key = &item->key, *value = &item->value;
    switch (item->kind) {
    case WRITE:
        return hlc_node_write(node, reading, key->at, key->len, value->at, value->len, &item->number, &item->stamp);
    case DELETE: return hlc_node_delete(node, reading, key->at, key->len, &item->number, &item->stamp);
    case BATCH:
        return hlc_node_write_batch(node, reading, item->count, item->writes.at, item->writes.len, &item->number,
                                    &item->stamp);
    case REPORT: return hlc_node_report(node, reading, &item->number, &item->stamp);
    default: return hlc_node_retire(node, reading, &item->number, &item->stamp);
    }
}

/* Issues an item. The object is made before, so that no item is issued and then lost. It takes the content's bytes. */
static PyObject *issued(PyObject *self, uint64_t reading, Content content)
{
    hlc_node *node = &((Node *)self)->node;
    Item *item = allocate(classes_of(self)->item);
    if (!item) {
        drop_content(&content);
        return NULL;
    }
    item->content = content;
    item->content.node = node->id;
    uint32_t code = issue(node, reading, &item->content);
    if (code == HLC_OK) return (PyObject *)item;
    refuse(code, item->content.stamp);
    Py_DECREF((PyObject *)item);
    return NULL;
}

static PyObject *node_write(PyObject *self, PyObject *args, PyObject *words)
{
    static char *names[] = { "reading", "key", "value", NULL };
    uint64_t reading;
    Bytes key = { 0 }, value = { 0 };
    if (!PyArg_ParseTupleAndKeywords(args, words, "O&O&O&:write", names, take_u64, &reading, take_bytes, &key,
                                     take_bytes, &value))
        return NULL;
    return issued(self, reading, (Content){ .kind = WRITE, .key = key, .value = value });
}

static PyObject *node_delete(PyObject *self, PyObject *args, PyObject *words)
{
    static char *names[] = { "reading", "key", NULL };
    uint64_t reading;
    Bytes key = { 0 };
    if (!PyArg_ParseTupleAndKeywords(args, words, "O&O&:delete", names, take_u64, &reading, take_bytes, &key))
        return NULL;
    return issued(self, reading, (Content){ .kind = DELETE, .key = key });
}

PyObject *issued_batch(PyObject *self, uint64_t reading, PyObject *writes)
{
    Content content = { .kind = BATCH };
    return take_writes(classes_of(self), writes, &content) ? issued(self, reading, content) : NULL;
}

static PyObject *node_write_batch(PyObject *self, PyObject *args, PyObject *words)
{
    static char *names[] = { "reading", "batch", NULL };
    uint64_t reading;
    PyObject *batch;
    if (!PyArg_ParseTupleAndKeywords(args, words, "O&O:write_batch", names, take_u64, &reading, &batch)) return NULL;
    return issued_batch(self, reading, batch);
}

static PyObject *node_batch(PyObject *self, PyObject *from)
{
    uint64_t reading;
    return take_u64(from, &reading) ? batch_of_node(classes_of(self), self, reading) : NULL;
}

static PyObject *node_report(PyObject *self, PyObject *from)
{
    uint64_t reading;
    return take_u64(from, &reading) ? issued(self, reading, (Content){ .kind = REPORT }) : NULL;
}

static PyObject *node_retire(PyObject *self, PyObject *from)
{
    uint64_t reading;
    return take_u64(from, &reading) ? issued(self, reading, (Content){ .kind = RETIRE }) : NULL;
}

/* ---- The clock ---- */

static PyObject *node_send(PyObject *self, PyObject *from)
{
    uint64_t reading, word;
    if (!take_u64(from, &reading)) return NULL;
    uint32_t code = hlc_node_send(&((Node *)self)->node, reading, &word);
    return code == HLC_OK ? stamp_object(classes_of(self)->stamp, word) : refuse(code, word);
}

static PyObject *node_receive(PyObject *self, PyObject *args, PyObject *words)
{
    static char *names[] = { "seen", "reading", NULL };
    StampArgument seen = { .type = classes_of(self)->stamp };
    uint64_t reading, word;
    if (!PyArg_ParseTupleAndKeywords(args, words, "O&O&:receive", names, take_stamp, &seen, take_u64, &reading))
        return NULL;
    uint32_t code = hlc_node_receive(&((Node *)self)->node, seen.number, reading, &word);
    return code == HLC_OK ? stamp_object(classes_of(self)->stamp, word) : refuse(code, word);
}

static PyObject *node_raise_to(PyObject *self, PyObject *from)
{
    StampArgument stamp = { .type = classes_of(self)->stamp };
    if (!take_stamp(from, &stamp)) return NULL;
    hlc_node_raise(&((Node *)self)->node, stamp.number);
    Py_RETURN_NONE;
}

static PyObject *node_repr(PyObject *self)
{
    const hlc_node *node = &((Node *)self)->node;
    return PyUnicode_FromFormat("<Node %d, last=%llu.%llu, next=%llu>", node->id,
                                (unsigned long long)(node->last >> 16), (unsigned long long)(node->last & 0xffff),
                                (unsigned long long)node->next);
}

static PyObject *node_last(PyObject *self, void *none)
{
    (void)none;
    return stamp_object(classes_of(self)->stamp, ((Node *)self)->node.last);
}

static PyMethodDef node_methods[] = {
    CLASS_METHOD("restore", node_restore,
                 "restore($type, /, id, last, next)\n--\n\n"
                 "Return a node as it was before a restart: its number, last stamp and next item's number."),
    METHOD("write", node_write,
           "write($self, /, reading, key, value)\n--\n\nIssue a write at this reading of a physical clock."),
    METHOD("delete", node_delete, "delete($self, /, reading, key)\n--\n\nIssue a deletion."),
    METHOD("write_batch", node_write_batch,
           "write_batch($self, /, reading, batch)\n--\n\n"
           "Issue one item of the writes of a Batch, or of pairs of a key and its value, or None for a deletion.\n\n"
           "NoWrites is raised where there are none, and KeyTwice where two are of one key."),
    { "batch", node_batch, METH_O,
      "batch($self, reading, /)\n--\n\n"
      "Return an empty Batch for a with statement, at whose end its item is issued at this reading.\n\n"
      "The item is then its attribute item. Where the block raises an exception, nothing is issued." },
    { "report", node_report, METH_O, "report($self, reading, /)\n--\n\nIssue a report, which raises the floor." },
    { "retire", node_retire, METH_O,
      "retire($self, reading, /)\n--\n\nIssue the node's retirement. It issues nothing after it." },
    { "send", node_send, METH_O, "send($self, reading, /)\n--\n\nReturn the stamp of a message that is sent." },
    METHOD("receive", node_receive,
           "receive($self, /, seen, reading)\n--\n\n"
           "Receive a message with this stamp, or observe a snapshot at it. Return the event's stamp."),
    { "raise_to", node_raise_to, METH_O,
      "raise_to($self, stamp, /)\n--\n\nRaise the clock to a stamp, without an event." },
    { 0 },
};

static PyMemberDef node_members[] = {
    { "id", T_USHORT, offsetof(Node, node.id), READONLY, "Its number." },
    { "next", T_ULONGLONG, offsetof(Node, node.next), READONLY, "The number of its next item." },
    { "retired", T_BOOL, offsetof(Node, node.retired), READONLY, "Whether it retired." },
    { 0 },
};

static PyGetSetDef node_fields[] = {
    { "last", node_last, NULL, "The stamp of its last event.", NULL },
    { 0 },
};

static PyType_Slot node_slots[] = {
    { Py_tp_doc,
      "Node(id, start=None)\n--\n\n"
      "A node: a writer with a clock of its own. Its clock starts at a stamp: 0, or where Store.join let it start." },
    { Py_tp_new, node_new },
    { Py_tp_dealloc, release_object },
    { Py_tp_methods, node_methods },
    { Py_tp_members, node_members },
    { Py_tp_getset, node_fields },
    { Py_tp_repr, node_repr },
    { 0, NULL },
};

PyType_Spec node_spec = { "hlcstore.Node", sizeof(Node), 0, FINAL_CLASS, node_slots };
