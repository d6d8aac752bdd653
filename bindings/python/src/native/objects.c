/* Objects of the extensions' classes, and their locks. */
#include "native.h"

void *allocate(PyTypeObject *type)
{
    allocfunc allocate_object = (allocfunc)PyType_GetSlot(type, Py_tp_alloc);
    return allocate_object(type, 0);
}

void release_object(PyObject *self)
{
    PyTypeObject *type = Py_TYPE(self);
    freefunc free_object = (freefunc)PyType_GetSlot(type, Py_tp_free);
    free_object(self);
    Py_DECREF((PyObject *)type);
}

/* A name of its own in each call would stay in the interpreter's cache of attributes, in one place after another. */
PyObject *attribute_of(PyObject *object, const char *name)
{
    PyObject *interned = PyUnicode_InternFromString(name);
    PyObject *attribute = interned ? PyObject_GetAttr(object, interned) : NULL;
    Py_XDECREF(interned);
    return attribute;
}

/* Where the library of C lets readers pass by a waiting writer, readers could keep it waiting for good. */
int make_lock(pthread_rwlock_t *lock)
{
    pthread_rwlockattr_t kind;
    int failure = pthread_rwlockattr_init(&kind);
    if (failure) return failure;
#ifdef __GLIBC__
    pthread_rwlockattr_setkind_np(&kind, PTHREAD_RWLOCK_PREFER_WRITER_NONRECURSIVE_NP);
#endif
    failure = pthread_rwlock_init(lock, &kind);
    pthread_rwlockattr_destroy(&kind);
    return failure;
}
