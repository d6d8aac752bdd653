/* An item that a node issued. It never changes, so threads may share it. */
#include "native.h"
#include <string.h>

static const char *const KIND_NAMES[] = { "write", "delete", "report", "retire", "batch" };
static const char *const FORMATS[] = { "O&O&O&O&O&", "O&O&O&O&", "O&O&O&", "O&O&O&" };
static char *WRITE_NAMES[] = { "node", "number", "stamp", "key", "value", NULL };
static char *DELETE_NAMES[] = { "node", "number", "stamp", "key", NULL };
static char *REPORT_NAMES[] = { "node", "number", "stamp", NULL };
static char **const ARGUMENT_NAMES[] = { WRITE_NAMES, DELETE_NAMES, REPORT_NAMES, REPORT_NAMES };

static bool take_batch(Classes *classes, Content *content, PyObject *args, PyObject *words)
{
    static char *names[] = { "node", "number", "stamp", "writes", NULL };
    StampArgument stamp = { .type = classes->stamp };
    PyObject *writes;
    if (!PyArg_ParseTupleAndKeywords(args, words, "O&O&O&O", names, take_u16, &content->node, take_u64,
                                     &content->number, take_stamp, &stamp, &writes))
        return false;
    content->stamp = stamp.number;
    return take_writes(classes, writes, content);
}

bool take_content(Classes *classes, Content *content, Kind kind, PyObject *args, PyObject *words)
{
    memset(content, 0, sizeof *content);
    content->kind = kind;
    if (kind == BATCH) return take_batch(classes, content, args, words);
    StampArgument stamp = { .type = classes->stamp };
    /* A format that is shorter ignores the last arguments. */
    if (!PyArg_ParseTupleAndKeywords(args, words, FORMATS[kind], ARGUMENT_NAMES[kind], take_u16, &content->node,
                                     take_u64, &content->number, take_stamp, &stamp, take_bytes, &content->key,
                                     take_bytes, &content->value))
        return false;
    content->stamp = stamp.number;
    return true;
}

void drop_content(Content *content)
{
    drop_bytes(&content->key);
    drop_bytes(&content->value);
    drop_bytes(&content->writes);
}

static PyObject *make(PyObject *type, Kind kind, PyObject *args, PyObject *words)
{
    Content content;
    if (!take_content(PyType_GetModuleState((PyTypeObject *)type), &content, kind, args, words)) return NULL;
    Item *item = allocate((PyTypeObject *)type);
    if (item) item->content = content;
    else drop_content(&content);
    return (PyObject *)item;
}

#define MAKE(name, kind) \
    static PyObject *name(PyObject *type, PyObject *args, PyObject *words) \
    { \
        return make(type, kind, args, words); \
    }
MAKE(item_write, WRITE)
MAKE(item_delete, DELETE)
MAKE(item_report, REPORT)
MAKE(item_retire, RETIRE)
MAKE(item_batch, BATCH)

static void item_dealloc(PyObject *self)
{
    drop_content(&((Item *)self)->content);
    release_object(self);
}

static uint32_t encode(const Content *item, uint8_t *out, size_t out_len, size_t *len)
{
    const Bytes *key = &item->key, *value = &item->value;
    switch (item->kind) {
    case WRITE:
        return hlc_item_encode_write(item->node, item->number, item->stamp, key->at, key->len, value->at, value->len,
                                     out, out_len, len);
    case DELETE:
        return hlc_item_encode_delete(item->node, item->number, item->stamp, key->at, key->len, out, out_len, len);
    case BATCH:
        return hlc_item_encode_batch(item->node, item->number, item->stamp, item->count, item->writes.at,
                                     item->writes.len, out, out_len, len);
    case REPORT: return hlc_item_encode_report(item->node, item->number, item->stamp, out, out_len, len);
    default: return hlc_item_encode_retire(item->node, item->number, item->stamp, out, out_len, len);
    }
}

/* The bytes of an item that does not fit on the stack. */
static PyObject *encode_long(const Content *item, size_t len)
{
    PyObject *bytes = PyBytes_FromStringAndSize(NULL, (Py_ssize_t)len);
    if (!bytes) return NULL;
    uint32_t code = encode(item, (uint8_t *)PyBytes_AsString(bytes), len, &len);
    if (code == HLC_OK) return bytes;
    Py_DECREF(bytes);
    return refuse(code, 0);
}

static PyObject *item_bytes(PyObject *self, PyObject *none)
{
    uint8_t out[512];
    size_t len;
    const Content *item = &((Item *)self)->content;
    uint32_t code = encode(item, out, sizeof out, &len);
    (void)none;
    if (code != HLC_OK) return refuse(code, 0);
    if (len > sizeof out) return encode_long(item, len);
    return PyBytes_FromStringAndSize((const char *)out, (Py_ssize_t)len);
}

static bool has_same_bytes(const Bytes *left, const Bytes *right)
{
    return left->len == right->len && (left->len == 0 || memcmp(left->at, right->at, left->len) == 0);
}

static bool has_same_content(const Content *left, const Content *right)
{
    return left->kind == right->kind && left->node == right->node && left->number == right->number
           && left->stamp == right->stamp && has_same_bytes(&left->key, &right->key)
           && has_same_bytes(&left->value, &right->value) && has_same_bytes(&left->writes, &right->writes);
}

static PyObject *item_compare(PyObject *self, PyObject *other, int operation)
{
    if (Py_TYPE(other) != Py_TYPE(self) || (operation != Py_EQ && operation != Py_NE)) Py_RETURN_NOTIMPLEMENTED;
    bool is_same = has_same_content(&((Item *)self)->content, &((Item *)other)->content);
    return PyBool_FromLong(is_same == (operation == Py_EQ));
}

static Py_hash_t item_hash(PyObject *self)
{
    const Content *item = &((Item *)self)->content;
    Py_hash_t hash = (Py_hash_t)(item->stamp * 1000003 + item->number * 31 + item->node);
    return hash == -1 ? -2 : hash;
}

static const char *const REPR_FORMATS[] = {
    "Item.write(%d, %llu, %R, %R, %R)",
    "Item.delete(%d, %llu, %R, %R)",
    "Item.report(%d, %llu, %R)",
    "Item.retire(%d, %llu, %R)",
};

/* A format that is shorter ignores the last values. */
static const char *const REDUCE_FORMATS[] = { "N(HKNOO)", "N(HKNO)", "N(HKN)", "N(HKN)" };

/* The writes of an item, whatever kind it is. */
static PyObject *item_writes(PyObject *self, void *none)
{
    const Content *item = &((Item *)self)->content;
    (void)none;
    switch (item->kind) {
    case WRITE: return Py_BuildValue("((OO))", item->key.owner, item->value.owner);
    case DELETE: return Py_BuildValue("((OO))", item->key.owner, Py_None);
    case BATCH: return pairs_of_writes(item->writes.at, item->count);
    default: return PyTuple_New(0);
    }
}

static PyObject *item_stamp(PyObject *self, void *none)
{
    (void)none;
    return stamp_object(classes_of(self)->stamp, ((Item *)self)->content.stamp);
}

static PyObject *batch_item_repr(PyObject *self, PyObject *stamp)
{
    const Content *item = &((Item *)self)->content;
    PyObject *writes = item_writes(self, NULL);
    PyObject *text = writes ? PyUnicode_FromFormat("Item.batch(%d, %llu, %R, %R)", item->node,
                                                   (unsigned long long)item->number, stamp, writes)
                            : NULL;
    Py_XDECREF(writes);
    return text;
}

static PyObject *item_repr(PyObject *self)
{
    const Content *item = &((Item *)self)->content;
    PyObject *stamp = item_stamp(self, NULL), *text = NULL;
    if (stamp)
        text = item->kind == BATCH ? batch_item_repr(self, stamp)
                                   : PyUnicode_FromFormat(REPR_FORMATS[item->kind], item->node,
                                                          (unsigned long long)item->number, stamp, item->key.owner,
                                                          item->value.owner);
    Py_XDECREF(stamp);
    return text;
}

static PyObject *item_kind(PyObject *self, void *none)
{
    (void)none;
    return PyUnicode_FromString(KIND_NAMES[((Item *)self)->content.kind]);
}

/* The call of a maker, whose reference it takes, that makes the same batch. */
static PyObject *reduced_batch(PyObject *self, PyObject *maker)
{
    const Content *item = &((Item *)self)->content;
    PyObject *writes = item_writes(self, NULL);
    if (writes)
        return Py_BuildValue("N(HKNN)", maker, item->node, (unsigned long long)item->number, item_stamp(self, NULL),
                             writes);
    Py_DECREF(maker);
    return NULL;
}

/* The call that makes the same item, as a pickle has it. */
static PyObject *item_reduce(PyObject *self, PyObject *none)
{
    const Content *item = &((Item *)self)->content;
    PyObject *maker = attribute_of((PyObject *)Py_TYPE(self), KIND_NAMES[item->kind]);
    (void)none;
    if (maker && item->kind == BATCH) return reduced_batch(self, maker);
    return maker ? Py_BuildValue(REDUCE_FORMATS[item->kind], maker, item->node, (unsigned long long)item->number,
                                 item_stamp(self, NULL), item->key.owner, item->value.owner)
                 : NULL;
}

static PyMethodDef item_methods[] = {
    CLASS_METHOD("write", item_write,
                 "write($type, /, node, number, stamp, key, value)\n--\n\nReturn the item of a write."),
    CLASS_METHOD("delete", item_delete,
                 "delete($type, /, node, number, stamp, key)\n--\n\nReturn the item of a deletion."),
    CLASS_METHOD("report", item_report,
                 "report($type, /, node, number, stamp)\n--\n\nReturn the item of a report."),
    CLASS_METHOD("retire", item_retire,
                 "retire($type, /, node, number, stamp)\n--\n\nReturn the item of a retirement."),
    CLASS_METHOD("batch", item_batch,
                 "batch($type, /, node, number, stamp, writes)\n--\n\n"
                 "Return the item of a Batch, or of pairs of a key and its value, or None for a deletion."),
    CLASS_METHOD("decode", item_decode,
                 "decode($type, /, log, at=0)\n--\n\n"
                 "Return the item of a log that begins at a place in its bytes, and the place after it.\n\n"
                 "BadBytes is raised where there is none; its word is 1 if the bytes end within the item."),
    { "__reduce__", item_reduce, METH_NOARGS, "__reduce__($self, /)\n--\n\nReturn what makes the same item." },
    { "__bytes__", item_bytes, METH_NOARGS,
      "__bytes__($self, /)\n--\n\nReturn the item as bytes, for a log that Store.accept_items reads." },
    { 0 },
};

static PyMemberDef item_members[] = {
    { "node", T_USHORT, offsetof(Item, content.node), READONLY, "The number of the node that issued it." },
    { "number", T_ULONGLONG, offsetof(Item, content.number), READONLY, "Its number on the node's link, from 0 on." },
    { "key", T_OBJECT, offsetof(Item, content.key.owner), READONLY, "The key of a write or a deletion, or None." },
    { "value", T_OBJECT, offsetof(Item, content.value.owner), READONLY, "The value of a write, or None." },
    { 0 },
};

static PyGetSetDef item_fields[] = {
    { "stamp", item_stamp, NULL, "Its stamp.", NULL },
    { "kind", item_kind, NULL, "What it is: 'write', 'delete', 'batch', 'report' or 'retire'.", NULL },
    { "writes", item_writes, NULL,
      "Pairs of each key that it writes and the value, or None of a deletion: those of a batch; or one, or none.",
      NULL },
    { 0 },
};

static PyType_Slot item_slots[] = {
    { Py_tp_doc, "An item: what a node issued, and a store accepts. It never changes." },
    { Py_tp_dealloc, item_dealloc },
    { Py_tp_methods, item_methods },
    { Py_tp_members, item_members },
    { Py_tp_getset, item_fields },
    { Py_tp_repr, item_repr },
    { Py_tp_richcompare, item_compare },
    { Py_tp_hash, item_hash },
    { 0, NULL },
};

PyType_Spec item_spec = {
    "hlcstore.Item", sizeof(Item), 0, FINAL_CLASS | Py_TPFLAGS_DISALLOW_INSTANTIATION, item_slots,
};
