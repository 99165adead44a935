/* Connection of raspcream.h11: its states, and the type. */
#include "connection.h"

#include <structmember.h>
#include <time.h>

/* ---- states */

void begin_cycle(Connection *self) {
    self->is_connect = self->is_head = self->expects = self->switches = false;
    self->in_body = self->has_body = self->has_length = false;
    self->is_sized = self->is_chunked = false;
    self->came = self->length = self->size = 0;
}

/* The state of a side behind an event; STATES where the event may not come. */
static state behind(role side, state from, event_kind kind) {
    switch (kind) {
    case REQUEST:
        return side == CLIENT && from == IDLE ? SEND_BODY : STATES;
    case INFORMATIONAL:
        return side == SERVER && from == SEND_RESPONSE ? SEND_RESPONSE : STATES;
    case RESPONSE:
        return side == SERVER && (from == IDLE || from == SEND_RESPONSE) ? SEND_BODY : STATES;
    case DATA:
        return from == SEND_BODY ? SEND_BODY : STATES;
    case END:
        return from == SEND_BODY ? DONE : STATES;
    default:
        return from == IDLE || from == DONE || from == MUST_CLOSE || from == CLOSED ? CLOSED : STATES;
    }
}

bool may_step(const Connection *self, role side, event_kind kind) { return behind(side, self->states[side], kind) != STATES; }

/* What follows for one side from the other's state, and from what was said of the connection. */
static void settle(Connection *self) {
    state *at = self->states;
    if (at[CLIENT] == DONE && self->switches) at[CLIENT] = MIGHT_SWITCH;
    else if (at[CLIENT] == MIGHT_SWITCH && !self->switches) at[CLIENT] = DONE;
    for (role side = CLIENT; side <= SERVER; side++) {
        state other = at[side == CLIENT ? SERVER : CLIENT];
        bool ends = !self->lasts || other == CLOSED || (side == SERVER && other == ERROR);
        if (ends && (at[side] == DONE || (at[side] == IDLE && other == CLOSED))) at[side] = MUST_CLOSE;
    }
}

int step(Connection *self, role side, event_kind kind, PyObject *error) {
    static const char *const names[EVENTS] = {"Request", "InformationalResponse", "Response", "Data", "EndOfMessage", "ConnectionClosed"};
    state from = self->states[side], to = behind(side, from, kind);
    if (to == STATES) return PyErr_Format(error, "can't handle event type %s when role=%R and state=%R", names[kind], roles[side], states[from]), -1;
    self->states[side] = to;
    if (kind == REQUEST) self->states[SERVER] = SEND_RESPONSE;
    settle(self);
    return 0;
}

void fail_side(Connection *self, role side) {
    self->states[side] = ERROR;
    settle(self);
}

int switch_protocol(Connection *self, PyObject *before) {
    if (before && PyBytes_Size(before) > 0 && rc_held(self->conn, 0, &self->event) == RC_OK && self->event.bytes.len == 0) {
        rest all = {0};
        if (rest_append(&all, PyBytes_AsString(before), (size_t)PyBytes_Size(before)) < 0) return -1;
        if (rest_append(&all, rest_at(&self->left), rest_len(&self->left)) < 0) return rest_clear(&all), -1;
        rest_clear(&self->left);
        self->left = all;
    }
    self->states[CLIENT] = self->states[SERVER] = SWITCHED;
    return 0;
}

int tell_time(Connection *self) {
    struct timespec clock;
    double moment = 0;
    if (self->now) {
        PyObject *now = PyObject_CallNoArgs(self->now);
        moment = now ? PyFloat_AsDouble(now) : -1;
        Py_XDECREF(now);
        if (PyErr_Occurred()) return -1;
        if (!(moment >= 0 && moment < 1e15)) return PyErr_SetString(PyExc_ValueError, "no moment is at this time"), -1;
    } else {
        clock_gettime(CLOCK_REALTIME, &clock);
        moment = (double)clock.tv_sec + (double)clock.tv_nsec / 1e9;
    }
    if ((int64_t)moment == self->second) return 0;
    self->second = (int64_t)moment;
    rc_code code = rc_tick(self->conn, (uint64_t)(moment * 1000), &self->event);
    return code == RC_OK || code == RC_MISPLACED ? 0 : (failed(code), -1);
}

/* ---- making one */

enum { LEAST_HELD = 131072, MOST_HELD = 1048576 };

static int find_role(Connection *self, PyObject *role_word) {
    if (role_word != roles[CLIENT] && role_word != roles[SERVER])
        return PyErr_Format(PyExc_ValueError, "expected CLIENT or SERVER, not %R", role_word), -1;
    self->ours = role_word == roles[SERVER] ? SERVER : CLIENT;
    self->theirs = self->ours == SERVER ? CLIENT : SERVER;
    return 0;
}

static int Connection_init(Connection *self, PyObject *args, PyObject *named) {
    static char *known[] = {"our_role",   "max_incomplete_event_size", "now",         "keep_alive_ms",
                            "request_ms", "disconnect_ms",             "write_buffer", "half_closed", NULL};
    PyObject *role_word, *now = Py_None;
    int half_closed = 1;
    uint64_t keep_alive = 5000, request = 5000, disconnect = 0, write_buffer = 32768;
    Py_ssize_t most = 131072;
    if (!PyArg_ParseTupleAndKeywords(args, named, "O|$nOO&O&O&O&p", known, &role_word, &most, &now, to_number, &keep_alive, to_number, &request,
                                     to_number, &disconnect, to_number, &write_buffer, &half_closed))
        return -1;
    if (self->conn) return PyErr_SetString(PyExc_TypeError, "a connection begins once"), -1;
    if (find_role(self, role_word) < 0) return -1;
    size_t hold_size = most < LEAST_HELD ? LEAST_HELD : most > MOST_HELD ? MOST_HELD : (size_t)most;
    rc_config config = {keep_alive, request, disconnect, (size_t)write_buffer, hold_size, half_closed != 0, !is_server(self)};
    rc_code code = rc_new(&config, &self->conn);
    if (code != RC_OK) return failed(code), -1;
    self->most = most < 0 ? 0 : (size_t)most;
    self->now = now == Py_None ? NULL : Py_NewRef(now);
    self->second = -1;
    self->lasts = true;
    begin_cycle(self);
    return tell_time(self);
}

static int Connection_traverse(Connection *self, visitproc visit, void *arg) {
    Py_VISIT(Py_TYPE((PyObject *)self));
    Py_VISIT(self->now);
    return 0;
}

static int Connection_clear(Connection *self) {
    Py_CLEAR(self->now);
    return 0;
}

static void Connection_dealloc(Connection *self) {
    PyObject_GC_UnTrack((PyObject *)self);
    Connection_clear(self);
    rest_clear(&self->left);
    Py_CLEAR(self->version);
    rc_free(self->conn);
    release((PyObject *)self);
}

/* ---- the other calls */

static PyObject *Connection_bytes_to_send(Connection *self, PyObject *unused) {
    (void)unused;
    OPEN(self);
    return all_waiting(self->conn, &self->event);
}

static PyObject *Connection_start_next_cycle(Connection *self, PyObject *unused) {
    (void)unused;
    if (self->states[CLIENT] != DONE || self->states[SERVER] != DONE) return broken(local_error, "not in a reusable state", 400);
    self->states[CLIENT] = self->states[SERVER] = IDLE;
    begin_cycle(self);
    Py_RETURN_NONE;
}

static PyObject *Connection_send_failed(Connection *self, PyObject *unused) {
    (void)unused;
    fail_side(self, self->ours);
    Py_RETURN_NONE;
}

static PyObject *our_role(Connection *self, void *unused) { return (void)unused, Py_NewRef(roles[self->ours]); }
static PyObject *their_role(Connection *self, void *unused) { return (void)unused, Py_NewRef(roles[self->theirs]); }
static PyObject *our_state(Connection *self, void *unused) { return (void)unused, Py_NewRef(states[self->states[self->ours]]); }
static PyObject *their_state(Connection *self, void *unused) { return (void)unused, Py_NewRef(states[self->states[self->theirs]]); }
static PyObject *client_waits(Connection *self, void *unused) { return (void)unused, PyBool_FromLong(self->expects); }
static PyObject *they_wait(Connection *self, void *unused) { return (void)unused, PyBool_FromLong(is_server(self) && self->expects); }

static PyObject *both_states(Connection *self, void *unused) {
    (void)unused;
    return Py_BuildValue("{OOOO}", roles[CLIENT], states[self->states[CLIENT]], roles[SERVER], states[self->states[SERVER]]);
}

static PyObject *trailing_data(Connection *self, void *unused) {
    (void)unused;
    OPEN(self);
    PyObject *all = all_held(self->conn, &self->event);
    if (all) PyBytes_ConcatAndDel(&all, rest_bytes(&self->left));
    return all ? Py_BuildValue("(NN)", all, PyBool_FromLong(self->has_ended)) : NULL;
}

static PyGetSetDef properties[] = {
    {"our_role", (getter)our_role, NULL, "CLIENT or SERVER.", NULL},
    {"their_role", (getter)their_role, NULL, "The peer's role.", NULL},
    {"our_state", (getter)our_state, NULL, "Our state.", NULL},
    {"their_state", (getter)their_state, NULL, "The peer's state.", NULL},
    {"states", (getter)both_states, NULL, "Both roles with their states.", NULL},
    {"client_is_waiting_for_100_continue", (getter)client_waits, NULL, "Whether the client waits for 100 Continue.", NULL},
    {"they_are_waiting_for_100_continue", (getter)they_wait, NULL, "Whether the peer does.", NULL},
    {"trailing_data", (getter)trailing_data, NULL, "The bytes that came and that no event has told, and whether the input has ended.", NULL},
    {NULL, NULL, NULL, NULL, NULL},
};
static PyMemberDef members[] = {
    {"their_http_version", T_OBJECT, offsetof(Connection, version), READONLY, "b\"1.0\" or b\"1.1\"; None before the peer's first head."},
    {NULL, 0, 0, 0, NULL},
};
static PyMethodDef methods[] = {
    METHOD(Connection, receive_data, METH_O, ", data", "Bytes came; none is the end of the input."),
    METHOD(Connection, next_event, METH_NOARGS, "", "The next event, NEED_DATA or PAUSED."),
    METHOD(Connection, send, METH_O, ", event", "The bytes of an event, or None for ConnectionClosed."),
    METHOD(Connection, send_with_data_passthrough, METH_O, ", event", "The same as a list, with the caller's own data in it."),
    METHOD(Connection, send_failed, METH_NOARGS, "", "What `send` gave couldn't be written."),
    METHOD(Connection, start_next_cycle, METH_NOARGS, "", "Both sides are done: another request may follow."),
    METHOD(Connection, bytes_to_send, METH_NOARGS, "", "After RemoteProtocolError the engine's own answer, where it has one and none was sent in its place."),
    {NULL, NULL, 0, NULL},
};

static PyType_Slot slots[] = {
    {Py_tp_doc, "Connection(our_role, *, max_incomplete_event_size=131072, now=None, keep_alive_ms=5000, request_ms=5000, "
                "disconnect_ms=0, write_buffer=32768, half_closed=True)\n--\n\n"
                "One side of one connection, for one thread at a time. `now` tells the time in seconds, as time.time does."},
    {Py_tp_new, PyType_GenericNew},
    {Py_tp_init, Connection_init},
    {Py_tp_traverse, Connection_traverse},
    {Py_tp_clear, Connection_clear},
    {Py_tp_dealloc, Connection_dealloc},
    {Py_tp_methods, methods},
    {Py_tp_members, members},
    {Py_tp_getset, properties},
    {0, NULL},
};
static PyType_Spec spec = {"raspcream.h11.Connection", sizeof(Connection), 0, Py_TPFLAGS_DEFAULT | Py_TPFLAGS_BASETYPE | Py_TPFLAGS_HAVE_GC, slots};

int add_connection(PyObject *module) {
    PyObject *type = PyType_FromSpec(&spec);
    int done = type ? PyModule_AddObjectRef(module, "Connection", type) : -1;
    Py_XDECREF(type);
    return done;
}
