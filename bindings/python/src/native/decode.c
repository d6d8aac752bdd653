/* An item from its bytes, as docs/formats.md describes them. */
#include "native.h"

/* What is wrong with bytes: the numbers of docs/formats.md. */
typedef enum { FINE = 0, CUT = 1, OTHER_VERSION = 2, NO_KIND = 3, EMPTY_KEY = 4, NO_FLAG = 5 } Fault;

/* The bytes that are left. */
typedef struct {
    const uint8_t *at;
    size_t len;
} Rest;

static Fault skip(Rest *rest, size_t len)
{
    if (rest->len < len) return CUT;
    rest->at += len;
    rest->len -= len;
    return FINE;
}

/* Takes a number of this many bytes, the high one first. */
static Fault take(Rest *rest, size_t size, uint64_t *number)
{
    const uint8_t *at = rest->at;
    if (skip(rest, size)) return CUT;
    for (*number = 0; size > 0; size--) *number = *number << 8 | *at++;
    return FINE;
}

/* Takes some bytes, with a length of this many bytes before them. They get no owner yet. */
static Fault take_sized(Rest *rest, size_t size, Bytes *bytes)
{
    uint64_t len;
    if (take(rest, size, &len)) return CUT;
    bytes->at = rest->at;
    bytes->len = (size_t)len;
    return skip(rest, bytes->len);
}

static Fault take_key(Rest *rest, Bytes *key)
{
    if (rest->len > 0 && *rest->at == 0) return EMPTY_KEY;
    return take_sized(rest, 1, key);
}

/* Takes a key, and a value or the mark of a deletion. */
static Fault take_write(Rest *rest, Content *item)
{
    uint64_t flag;
    Fault fault = take_key(rest, &item->key);
    if (!fault) fault = take(rest, 1, &flag);
    if (fault) return fault;
    if (flag > 1) return NO_FLAG;
    item->kind = flag ? WRITE : DELETE;
    return flag ? take_sized(rest, 2, &item->value) : FINE;
}

/* Takes one less than the number of writes, and the writes. */
static Fault take_batch(Rest *rest, Content *item)
{
    uint64_t less;
    Content write;
    if (take(rest, 1, &less)) return CUT;
    item->kind = BATCH;
    item->count = (size_t)less + 1;
    item->writes.at = rest->at;
    for (size_t i = 0; i < item->count; i++) {
        Fault fault = take_write(rest, &write);
        if (fault) return fault;
    }
    item->writes.len = (size_t)(rest->at - item->writes.at);
    return FINE;
}

static Fault take_item(Rest *rest, Content *item)
{
    uint64_t version, node, kind;
    if (take(rest, 1, &version)) return CUT;
    if (version != 1) return OTHER_VERSION;
    if (take(rest, 2, &node) || take(rest, 8, &item->number) || take(rest, 8, &item->stamp) || take(rest, 1, &kind))
        return CUT;
    item->node = (uint16_t)node;
    if (kind == 0) return take_write(rest, item);
    if (kind == 3) return take_batch(rest, item);
    item->kind = kind == 1 ? REPORT : RETIRE;
    return kind <= 2 ? FINE : NO_KIND;
}

/* Gives bytes that were taken an owner. */
static bool own(Bytes *bytes)
{
    bytes->owner = PyBytes_FromStringAndSize((const char *)bytes->at, (Py_ssize_t)bytes->len);
    if (bytes->owner) bytes->at = (const uint8_t *)PyBytes_AsString(bytes->owner);
    return bytes->owner != NULL;
}

static PyObject *item_of(PyObject *type, Content content)
{
    bool has_key = content.kind == WRITE || content.kind == DELETE;
    if ((has_key && !own(&content.key)) || (content.kind == WRITE && !own(&content.value))
        || (content.kind == BATCH && !own(&content.writes))) {
        drop_content(&content);
        return NULL;
    }
    Item *item = allocate((PyTypeObject *)type);
    if (item) item->content = content;
    else drop_content(&content);
    return (PyObject *)item;
}

/* The item at a place in some bytes, and the place after it. */
static PyObject *decoded(PyObject *type, const uint8_t *log, size_t len, uint64_t at)
{
    Content content = { 0 };
    size_t from = at < len ? (size_t)at : len;
    Rest rest = { log + from, len - from };
    Fault fault = take_item(&rest, &content);
    PyObject *item = fault ? refuse(HLC_BAD_BYTES, fault) : item_of(type, content);
    return item ? Py_BuildValue("(Nn)", item, (Py_ssize_t)(len - rest.len)) : NULL;
}

/* Lets bytes be used where they are, or a copy of them where they do not lie beside each other. */
static bool view(PyObject *from, Py_buffer *bytes)
{
    if (PyObject_GetBuffer(from, bytes, PyBUF_SIMPLE) == 0) return true;
    if (!PyErr_ExceptionMatches(PyExc_BufferError)) return false;
    PyErr_Clear();
    PyObject *copy = PyBytes_FromObject(from);
    bool is_there = copy && PyObject_GetBuffer(copy, bytes, PyBUF_SIMPLE) == 0;
    Py_XDECREF(copy);
    return is_there;
}

/* The call keeps the interpreter, so the log needs no copy: what is read of it is copied at once. */
PyObject *item_decode(PyObject *type, PyObject *args, PyObject *words)
{
    static char *names[] = { "log", "at", NULL };
    PyObject *from;
    Py_buffer log;
    uint64_t at = 0;
    if (!PyArg_ParseTupleAndKeywords(args, words, "O|O&:decode", names, &from, take_u64, &at)) return NULL;
    if (!view(from, &log)) return NULL;
    PyObject *answer = decoded(type, log.buf, (size_t)log.len, at);
    PyBuffer_Release(&log);
    return answer;
}
