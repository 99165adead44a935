/* What the parts of the extension share. Each call holds the interpreter's lock. Bytes that come out are copied into objects at
 * once, and no Python code runs while spans are read: no span outlives the library's next call. */
#ifndef RASPCREAM_SHARED_H
#define RASPCREAM_SHARED_H

#define PY_SSIZE_T_CLEAN
#define Py_LIMITED_API 0x030B0000
#include <Python.h>
#include <raspcream.h>

extern PyObject *misplaced, *invalid;

/* Raises what a code other than RC_OK says. */
PyObject *failed(rc_code code);

#define TRY(CALL) \
    do { \
        rc_code code_ = (CALL); \
        if (code_ != RC_OK) return failed(code_); \
    } while (0)

/* An object whose __init__ never ran has no connection. One that has a connection keeps it to its end. */
#define OPEN(SELF) \
    do { \
        if (!(SELF)->conn) return PyErr_SetString(PyExc_ValueError, "no connection"), NULL; \
    } while (0)

/* Making an object may run the collector, and so Python code, which may call the connection that spans are being copied from.
 * So it rests from a call of the library to the last look at its spans. The first answers what the second is given. */
static inline int stop_collector(void) { return PyGC_Disable(); }
static inline void start_collector(int did_run) {
    if (did_run) PyGC_Enable();
}

/* For "O&" of PyArg_ParseTuple: an int from 0 to UINT64_MAX, into a uint64_t. */
int to_number(PyObject *given, void *number);

/* `number`, or the one behind `most` where it is larger: the library refuses that one. */
static inline unsigned at_most(uint64_t number, unsigned most) { return number > most ? most + 1 : (unsigned)number; }

/* A method with what it takes, besides the object, and what it does. */
#define METHOD(TYPE, NAME, FLAGS, TAKES, TEXT) {#NAME, (PyCFunction)(void (*)(void))TYPE##_##NAME, FLAGS, #NAME "($self" TAKES ", /)\n--\n\n" TEXT}

/* What a heap type's own deallocation ends with. */
void release(PyObject *self);

PyObject *bytes_of(rc_span span);

/* The same object each time, of the first names that come. */
PyObject *name_of(rc_span span);

/* Adds an event's lines to a list, as pairs of bytes: the list, or NULL, and then it is gone. */
PyObject *with_fields(PyObject *list, const rc_event *event);

/* All bytes that came and weren't passed. */
PyObject *all_held(rc_conn *conn, rc_event *event);

/* All bytes that wait to be written, which then count as written; none does where memory is wanting. */
PyObject *all_waiting(rc_conn *conn, rc_event *event);

/* Lines as the library takes them. */
typedef struct {
    uint8_t *at;
    size_t len;
    uint8_t room[2048];
} packed;

int is_pair(PyObject *pair);

/* Packs `first`, where there is one, and those pairs of a list or a tuple whose name is `wanted`; NULL is all. 0, or -1. */
int pack(packed *p, PyObject *first, PyObject *headers, int (*wanted)(PyObject *name));
void let_go(packed *p);

/* What the module has, from conn.c, events.c and connection.c. */
int add_conn(PyObject *module);
int add_events(PyObject *module);
int add_connection(PyObject *module);

#endif
