/* Conn: a handle of libraspcream as a type. */
#include "shared.h"

typedef struct {
    PyObject_HEAD
    rc_conn *conn;
    int is_client;
    int has_lost; /* whether an event couldn't be told, for want of memory */
    rc_event event;
} Conn;

#define READY(SELF) \
    do { \
        OPEN(SELF); \
        if ((SELF)->has_lost) return PyErr_SetString(PyExc_ValueError, "memory ran out, and what came next is lost"), NULL; \
    } while (0)

/* What an event is told as. Where there is no memory for that, the connection is over: no one may go on behind a gap. */
static PyObject *told(Conn *self, PyObject *as) {
    if (!as) self->has_lost = 1;
    return as;
}

/* ---- making one */

static int Conn_init(Conn *self, PyObject *args, PyObject *words) {
    static char *known[] = {"client", "keep_alive_ms", "request_ms", "disconnect_ms", "write_buffer", "hold_size", "half_closed", NULL};
    int client = 0, half_closed = 1;
    uint64_t keep_alive = 5000, request = 5000, disconnect = 0, write_buffer = 32768, hold_size = 131072;
    if (!PyArg_ParseTupleAndKeywords(args, words, "|$pO&O&O&O&O&p", known, &client, to_number, &keep_alive, to_number, &request, to_number,
                                     &disconnect, to_number, &write_buffer, to_number, &hold_size, &half_closed))
        return -1;
    if (self->conn) return PyErr_SetString(PyExc_TypeError, "a connection begins once"), -1;
    rc_config config = {keep_alive, request, disconnect, (size_t)write_buffer, (size_t)hold_size, half_closed != 0, client != 0};
    rc_code code = rc_new(&config, &self->conn);
    if (code != RC_OK) return failed(code), -1;
    self->is_client = client;
    return 0;
}

static void Conn_dealloc(Conn *self) {
    rc_free(self->conn);
    release((PyObject *)self);
}

/* ---- what came from the peer */

static PyObject *Conn_read(Conn *self, PyObject *data) {
    Py_buffer buffer;
    READY(self);
    if (PyObject_GetBuffer(data, &buffer, PyBUF_SIMPLE) < 0) return NULL;
    rc_code code = rc_read(self->conn, buffer.buf, (size_t)buffer.len, &self->event);
    uint64_t count = self->event.number;
    PyBuffer_Release(&buffer);
    TRY(code);
    return PyLong_FromUnsignedLongLong(count);
}

static PyObject *Conn_tick(Conn *self, PyObject *moment) {
    uint64_t ms;
    READY(self);
    if (!to_number(moment, &ms)) return NULL;
    TRY(rc_tick(self->conn, ms, &self->event));
    return Py_BuildValue("(II)", self->event.kind, self->event.reason);
}

/* ---- what is handed out */

static PyObject *tell_head(Conn *self) {
    rc_event *event = &self->event;
    PyObject *fields = with_fields(PyList_New(0), event), *first = NULL, *second = NULL, *head = NULL;
    if (fields) first = self->is_client ? PyLong_FromUnsignedLong(event->reason) : name_of(event->method);
    if (first) second = bytes_of(self->is_client ? event->method : event->target);
    if (second) head = Py_BuildValue("(IOOIIKO)", event->kind, first, second, event->minor, event->body, (unsigned long long)event->number, fields);
    Py_XDECREF(fields);
    Py_XDECREF(first);
    Py_XDECREF(second);
    return head;
}

static PyObject *Conn_next(Conn *self, PyObject *unused) {
    rc_event *event = &self->event;
    (void)unused;
    READY(self);
    TRY(rc_next(self->conn, event));
    if (event->kind == RC_PENDING) Py_RETURN_NONE;
    if (event->kind != RC_HEAD) return told(self, Py_BuildValue("(II)", event->kind, event->reason));
    int did_run = stop_collector();
    PyObject *head = tell_head(self);
    start_collector(did_run);
    return told(self, head);
}

static PyObject *tell_trailers(const rc_event *event) {
    int did_run = stop_collector();
    PyObject *lines = with_fields(PyList_New(0), event);
    start_collector(did_run);
    return lines;
}

static PyObject *Conn_pull(Conn *self, PyObject *unused) {
    rc_event *event = &self->event;
    (void)unused;
    READY(self);
    TRY(rc_pull(self->conn, event));
    if (event->kind == RC_PENDING) Py_RETURN_NONE;
    if (event->kind == RC_PIECE) return told(self, bytes_of(event->bytes));
    if (event->kind == RC_TRAILERS) return told(self, tell_trailers(event));
    return told(self, Py_BuildValue("(II)", event->kind, event->reason));
}

static PyObject *Conn_frame(Conn *self, PyObject *unused) {
    rc_event *event = &self->event;
    (void)unused;
    READY(self);
    TRY(rc_frame(self->conn, event));
    if (event->kind == RC_PENDING) Py_RETURN_NONE;
    if (event->kind != RC_FRAME) return told(self, Py_BuildValue("(II)", event->kind, event->reason));
    return told(self, Py_BuildValue("(IKN)", event->minor, (unsigned long long)event->number, bytes_of(event->bytes)));
}

static PyObject *Conn_held(Conn *self, PyObject *unused) {
    (void)unused;
    READY(self);
    return all_held(self->conn, &self->event);
}

/* ---- what is sent */

/* For "O&": the size of a body, -1 for a stream and -2 for none, into a uint64_t. */
static int to_size(PyObject *given, void *size) {
    PyObject *index = PyNumber_Index(given);
    if (!index) return 0;
    int over = 0;
    long long number = PyLong_AsLongLongAndOverflow(index, &over);
    Py_DECREF(index);
    if (over || number < -2) return failed(RC_INVALID), 0;
    *(uint64_t *)size = (uint64_t)number;
    return 1;
}

static PyObject *Conn_answer(Conn *self, PyObject *args) {
    uint64_t status, keep, size;
    PyObject *headers;
    packed p;
    READY(self);
    if (!PyArg_ParseTuple(args, "O&O&O&O", to_number, &status, to_number, &keep, to_size, &size, &headers)) return NULL;
    if (pack(&p, NULL, headers, NULL) < 0) return NULL;
    rc_code code = rc_answer(self->conn, at_most(status, 999), (rc_keep)at_most(keep, RC_UPGRADE), size, p.at, p.len, &self->event);
    let_go(&p);
    TRY(code);
    Py_RETURN_NONE;
}

static PyObject *Conn_ask(Conn *self, PyObject *args) {
    PyObject *method, *target, *headers;
    uint64_t minor, keep, size;
    packed p;
    READY(self);
    if (!PyArg_ParseTuple(args, "SSO&O&O&O", &method, &target, to_number, &minor, to_number, &keep, to_size, &size, &headers)) return NULL;
    PyObject *first = PyTuple_Pack(2, method, target);
    if (!first) return NULL;
    int done = pack(&p, first, headers, NULL);
    Py_DECREF(first);
    if (done < 0) return NULL;
    rc_code code = rc_ask(self->conn, at_most(minor, 1), (rc_keep)at_most(keep, RC_UPGRADE), size, p.at, p.len, &self->event);
    let_go(&p);
    TRY(code);
    Py_RETURN_NONE;
}

static PyObject *Conn_chunk(Conn *self, PyObject *data) {
    Py_buffer buffer;
    READY(self);
    if (PyObject_GetBuffer(data, &buffer, PyBUF_SIMPLE) < 0) return NULL;
    rc_code code = rc_chunk(self->conn, buffer.buf, (size_t)buffer.len, &self->event);
    PyBuffer_Release(&buffer);
    TRY(code);
    Py_RETURN_NONE;
}

static PyObject *Conn_take(Conn *self, PyObject *unused) {
    (void)unused;
    READY(self);
    return all_waiting(self->conn, &self->event);
}

#define SIMPLE(NAME, CALL) \
    static PyObject *Conn_##NAME(Conn *self, PyObject *unused) { \
        (void)unused; \
        READY(self); \
        TRY(CALL(self->conn, &self->event)); \
        Py_RETURN_NONE; \
    }
SIMPLE(eof, rc_eof)
SIMPLE(drop_body, rc_drop_body)
SIMPLE(send_continue, rc_continue)
SIMPLE(end, rc_end)
SIMPLE(fail, rc_fail)
SIMPLE(drain, rc_drain)

/* ---- WebSocket */

static PyObject *Conn_accept(Conn *self, PyObject *most) {
    uint64_t limit;
    READY(self);
    if (!to_number(most, &limit)) return NULL;
    TRY(rc_accept(self->conn, limit, &self->event));
    return PyLong_FromUnsignedLong(self->event.kind == RC_REFUSED ? self->event.reason : 0);
}

static PyObject *Conn_send(Conn *self, PyObject *args) {
    uint64_t opcode, close_code;
    Py_buffer buffer;
    READY(self);
    if (!PyArg_ParseTuple(args, "O&O&y*", to_number, &opcode, to_number, &close_code, &buffer)) return NULL;
    rc_code code = rc_send(self->conn, at_most(opcode, 255), at_most(close_code, 65535), buffer.buf, (size_t)buffer.len, &self->event);
    uint32_t rule = self->event.kind == RC_PROTOCOL ? self->event.reason : 0;
    PyBuffer_Release(&buffer);
    TRY(code);
    return PyLong_FromUnsignedLong(rule);
}

/* ---- questions */

static PyObject *Conn_state(Conn *self, PyObject *unused) {
    (void)unused;
    READY(self);
    TRY(rc_state(self->conn, &self->event));
    const rc_numbers *n = &self->event.state;
    long long deadline = n->deadline == UINT64_MAX ? -1 : (long long)n->deadline;
    return Py_BuildValue("(IIKKKKIL)", n->can, self->event.reason, (unsigned long long)n->buffered, (unsigned long long)n->write_room,
                         (unsigned long long)n->held, (unsigned long long)n->read_room, n->waiting, deadline);
}

static PyObject *Conn_ahead(Conn *self, PyObject *unused) {
    (void)unused;
    READY(self);
    TRY(rc_ahead(self->conn, &self->event));
    return PyLong_FromUnsignedLongLong(self->event.number);
}

static PyMethodDef methods[] = {
    METHOD(Conn, read, METH_O, ", data", "Bytes were read: how many there was room for."),
    METHOD(Conn, eof, METH_NOARGS, "", "The peer sends no more."),
    METHOD(Conn, tick, METH_O, ", moment", "The time, in milliseconds since 1970: (kind, reason)."),
    METHOD(Conn, next, METH_NOARGS, "", "None, (kind, reason), or a head: (2, method or status, target or reason, minor, body, length, fields)."),
    METHOD(Conn, pull, METH_NOARGS, "", "None, bytes, a list of trailers, or (kind, reason)."),
    METHOD(Conn, drop_body, METH_NOARGS, "", "The rest of the body isn't wanted."),
    METHOD(Conn, held, METH_NOARGS, "", "The bytes that came and were not passed."),
    METHOD(Conn, answer, METH_VARARGS, ", status, keep, size, headers", "Answers the open request. Size -1 is a stream, -2 no body."),
    METHOD(Conn, ask, METH_VARARGS, ", method, target, minor, keep, size, headers", "Asks a request. Size -1 is a stream, -2 no body."),
    METHOD(Conn, send_continue, METH_NOARGS, "", "Tells the client to go on with its body."),
    METHOD(Conn, chunk, METH_O, ", data", "A piece of the body that is sent."),
    METHOD(Conn, end, METH_NOARGS, "", "That body is whole."),
    METHOD(Conn, fail, METH_NOARGS, "", "That body failed."),
    METHOD(Conn, drain, METH_NOARGS, "", "No further request is answered."),
    METHOD(Conn, take, METH_NOARGS, "", "All that waits to be written, which then counts as written."),
    METHOD(Conn, accept, METH_O, ", limit", "Upgrades to WebSocket: 0, or the number of the check that fails."),
    METHOD(Conn, frame, METH_NOARGS, "", "None, (opcode, close code, payload), or (kind, reason)."),
    METHOD(Conn, send, METH_VARARGS, ", opcode, close_code, payload", "Sends a frame: 0, or the number of the rule that is broken."),
    METHOD(Conn, state, METH_NOARGS, "", "(can, closing, buffered, write_room, held, read_room, waiting, deadline or -1)."),
    METHOD(Conn, ahead, METH_NOARGS, "", "How many further heads have come, on a server's side, 16 at most. Each is read for it."),
    {NULL, NULL, 0, NULL},
};

static PyType_Slot slots[] = {
    {Py_tp_doc, "Conn(*, client=False, keep_alive_ms=5000, request_ms=5000, disconnect_ms=0, write_buffer=32768, hold_size=131072, "
                "half_closed=True)\n--\n\nOne side of an HTTP/1.1 connection."},
    {Py_tp_new, PyType_GenericNew},
    {Py_tp_init, Conn_init},
    {Py_tp_dealloc, Conn_dealloc},
    {Py_tp_methods, methods},
    {0, NULL},
};
static PyType_Spec spec = {"raspcream._conn.Conn", sizeof(Conn), 0, Py_TPFLAGS_DEFAULT | Py_TPFLAGS_BASETYPE, slots};

int add_conn(PyObject *module) {
    PyObject *type = PyType_FromSpec(&spec);
    int done = type ? PyModule_AddObjectRef(module, "Conn", type) : -1;
    Py_XDECREF(type);
    return done;
}
