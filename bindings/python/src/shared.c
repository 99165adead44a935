#include <string.h>

#include "shared.h"

PyObject *misplaced, *invalid;

/* Names that come often, made once. */
static PyObject *names;
enum { MOST_NAMES = 1000, LONGEST_NAME = 64 };

PyObject *failed(rc_code code) {
    switch (code) {
    case RC_NO_MEMORY:
        return PyErr_NoMemory();
    case RC_MISPLACED:
        PyErr_SetString(misplaced, "this call may not come now");
        return NULL;
    default:
        PyErr_SetString(invalid, "an argument is wrong");
        return NULL;
    }
}

int to_number(PyObject *given, void *number) {
    PyObject *index = PyNumber_Index(given);
    if (!index) return 0;
    *(uint64_t *)number = PyLong_AsUnsignedLongLong(index);
    Py_DECREF(index);
    if (!PyErr_Occurred()) return 1;
    if (PyErr_ExceptionMatches(PyExc_OverflowError)) failed(RC_INVALID);
    return 0;
}

void release(PyObject *self) {
    PyTypeObject *type = Py_TYPE(self);
    ((freefunc)PyType_GetSlot(type, Py_tp_free))(self);
    Py_DECREF(type);
}

PyObject *bytes_of(rc_span span) { return PyBytes_FromStringAndSize((const char *)span.at, (Py_ssize_t)span.len); }

PyObject *name_of(rc_span span) {
    PyObject *name = bytes_of(span);
    if (!name) return NULL;
    PyObject *known = PyDict_GetItemWithError(names, name);
    if (known) {
        Py_INCREF(known);
        Py_DECREF(name);
        return known;
    }
    if (PyErr_Occurred() || (PyDict_Size(names) < MOST_NAMES && span.len <= LONGEST_NAME && PyDict_SetItem(names, name, name) < 0)) {
        Py_DECREF(name);
        return NULL;
    }
    return name;
}

static PyObject *pair_of(const rc_field *field) {
    PyObject *name = name_of(field->name), *value = bytes_of(field->value), *pair = NULL;
    if (name && value) pair = PyTuple_Pack(2, name, value);
    Py_XDECREF(name);
    Py_XDECREF(value);
    return pair;
}

PyObject *with_fields(PyObject *list, const rc_event *event) {
    for (size_t i = 0; list && i < event->count && i < RC_MAX_FIELDS; i++) {
        PyObject *pair = pair_of(&event->fields[i]);
        if (!pair || PyList_Append(list, pair) < 0) Py_CLEAR(list);
        Py_XDECREF(pair);
    }
    return list;
}

/* So many bytes, of which `next` tells the part at a place, and passes it. */
static PyObject *joined(rc_conn *conn, rc_event *event, size_t size, rc_code (*next)(rc_conn *, size_t, rc_event *, uint8_t *to, size_t *len)) {
    PyObject *all = size <= PY_SSIZE_T_MAX ? PyBytes_FromStringAndSize(NULL, (Py_ssize_t)size) : PyErr_NoMemory();
    for (size_t done = 0, len; all && done < size; done += len) {
        len = size - done;
        rc_code code = next(conn, done, event, (uint8_t *)PyBytes_AsString(all) + done, &len);
        if (code == RC_OK && len > 0) continue;
        Py_DECREF(all);
        return code != RC_OK ? failed(code) : (PyErr_SetString(PyExc_SystemError, "fewer bytes than the library told"), NULL);
    }
    return all;
}

static void copy_bytes(const rc_event *event, uint8_t *to, size_t *len) {
    if (event->bytes.len < *len) *len = event->bytes.len;
    memcpy(to, event->bytes.at, *len);
}

static rc_code next_held(rc_conn *conn, size_t start, rc_event *event, uint8_t *to, size_t *len) {
    rc_code code = rc_held(conn, start, event);
    if (code == RC_OK) copy_bytes(event, to, len);
    return code;
}

static rc_code next_waiting(rc_conn *conn, size_t start, rc_event *event, uint8_t *to, size_t *len) {
    (void)start;
    rc_code code = rc_front(conn, event);
    if (code != RC_OK) return code;
    copy_bytes(event, to, len);
    return rc_advance(conn, *len, event);
}

PyObject *all_held(rc_conn *conn, rc_event *event) {
    TRY(rc_state(conn, event));
    return joined(conn, event, event->state.held, next_held);
}

PyObject *all_waiting(rc_conn *conn, rc_event *event) {
    TRY(rc_state(conn, event));
    return joined(conn, event, event->state.buffered, next_waiting);
}

void let_go(packed *p) {
    if (p->at != p->room) PyMem_Free(p->at);
}

int is_pair(PyObject *pair) {
    return PyTuple_Check(pair) && PyTuple_Size(pair) == 2 && PyBytes_Check(PyTuple_GetItem(pair, 0)) && PyBytes_Check(PyTuple_GetItem(pair, 1));
}

static size_t pair_size(PyObject *pair) {
    return rc_packed((size_t)PyBytes_Size(PyTuple_GetItem(pair, 0)), (size_t)PyBytes_Size(PyTuple_GetItem(pair, 1)));
}

static uint8_t *put_pair(uint8_t *to, PyObject *pair) {
    PyObject *name = PyTuple_GetItem(pair, 0), *value = PyTuple_GetItem(pair, 1);
    return rc_pack(to, PyBytes_AsString(name), (size_t)PyBytes_Size(name), PyBytes_AsString(value), (size_t)PyBytes_Size(value));
}

static int pack_pairs(packed *p, PyObject *first, PyObject *pairs, int (*wanted)(PyObject *name)) {
    Py_ssize_t count = PyTuple_Size(pairs);
    p->len = first ? pair_size(first) : 0;
    for (Py_ssize_t i = 0; i < count; i++) {
        PyObject *pair = PyTuple_GetItem(pairs, i);
        if (!is_pair(pair)) return PyErr_SetString(PyExc_TypeError, "headers are pairs of bytes"), -1;
        size_t size = !wanted || wanted(PyTuple_GetItem(pair, 0)) ? pair_size(pair) : 0;
        if (size > PY_SSIZE_T_MAX - p->len) return PyErr_NoMemory(), -1;
        p->len += size;
    }
    p->at = p->len <= sizeof p->room ? p->room : PyMem_Malloc(p->len);
    if (!p->at) return PyErr_NoMemory(), -1;
    uint8_t *to = first ? put_pair(p->at, first) : p->at;
    for (Py_ssize_t i = 0; i < count; i++) {
        PyObject *pair = PyTuple_GetItem(pairs, i);
        if (!wanted || wanted(PyTuple_GetItem(pair, 0))) to = put_pair(to, pair);
    }
    return 0;
}

int pack(packed *p, PyObject *first, PyObject *headers, int (*wanted)(PyObject *name)) {
    PyObject *pairs = PySequence_Tuple(headers);
    if (!pairs) return -1;
    int done = pack_pairs(p, first, pairs, wanted);
    Py_DECREF(pairs);
    return done;
}

/* ---- the module */

static struct PyModuleDef module = {PyModuleDef_HEAD_INIT, "raspcream._conn", NULL, -1, NULL, NULL, NULL, NULL, NULL};

static int add_all(PyObject *m) {
    misplaced = PyErr_NewExceptionWithDoc("raspcream.Misplaced", "The call may not come now.", PyExc_RuntimeError, NULL);
    invalid = PyErr_NewExceptionWithDoc("raspcream.Invalid", "An argument is wrong.", PyExc_ValueError, NULL);
    names = PyDict_New();
    if (!misplaced || !invalid || !names) return -1;
    if (PyModule_AddObjectRef(m, "Misplaced", misplaced) < 0 || PyModule_AddObjectRef(m, "Invalid", invalid) < 0) return -1;
    return add_conn(m) < 0 || add_events(m) < 0 || add_connection(m) < 0 ? -1 : 0;
}

PyMODINIT_FUNC PyInit__conn(void) {
    if (rc_abi() != RC_ABI) return PyErr_SetString(PyExc_ImportError, "libraspcream of another version"), NULL;
    PyObject *m = PyModule_Create(&module);
    if (m && add_all(m) < 0) Py_CLEAR(m);
    return m;
}
