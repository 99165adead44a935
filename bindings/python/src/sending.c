/* What is sent. The engine checks each message and writes its body; heads and trailers are written here, with the caller's lines. */
#define _GNU_SOURCE
#include <string.h>

#include "connection.h"

static PyObject *refuse(const char *message) { return broken(local_error, message, 400); }

/* What the engine says against an event. */
static PyObject *refused(rc_code code, PyObject *event) {
    if (code == RC_MISPLACED) return PyErr_Format(local_error, "can't send %s now", name_of_event(event));
    return code == RC_INVALID ? refuse("an argument is wrong") : failed(code);
}

/* ---- text */

typedef struct {
    char *at, room[1024];
    size_t len, size;
    bool has_failed;
} text;

static void begin(text *t) {
    t->at = t->room;
    t->len = 0;
    t->size = sizeof t->room;
    t->has_failed = false;
}

static bool make_room(text *t, size_t len) {
    if (len > PY_SSIZE_T_MAX / 2 - t->len) return false;
    size_t size = 2 * (t->len + len);
    char *at = PyMem_Realloc(t->at == t->room ? NULL : t->at, size);
    if (!at) return false;
    if (t->at == t->room) memcpy(at, t->room, t->len);
    t->at = at;
    t->size = size;
    return true;
}

static void put(text *t, const char *more, size_t len) {
    if (t->has_failed || (len > t->size - t->len && !make_room(t, len))) {
        t->has_failed = true;
        return;
    }
    memcpy(t->at + t->len, more, len);
    t->len += len;
}

static void put_string(text *t, const char *more) { put(t, more, strlen(more)); }
static void put_bytes(text *t, PyObject *more) { put(t, PyBytes_AsString(more), (size_t)PyBytes_Size(more)); }

/* The text with the empty line behind it, or NULL where `done` is -1. */
static PyObject *ended(text *t, int done) {
    PyObject *all = NULL;
    put_string(t, "\r\n");
    if (done == 0) all = t->has_failed ? PyErr_NoMemory() : PyBytes_FromStringAndSize(t->at, (Py_ssize_t)t->len);
    if (t->at != t->room) PyMem_Free(t->at);
    return all;
}

/* ---- lines */

/* A set of kinds of lines. */
#define KIND(KIND_) (1u << (KIND_))
enum { SIZING = KIND(LENGTH) | KIND(CODING), FRAMING = SIZING | KIND(CONNECTION) | KIND(DATE) };

static line_kind kind_of_name(PyObject *name) { return kind_of_line(PyBytes_AsString(name), (size_t)PyBytes_Size(name)); }

/* Lines that the engine takes: it writes the others itself. */
static int is_the_callers(PyObject *name) { return !(FRAMING & KIND(kind_of_name(name))); }

static int put_line(text *t, PyObject *name, PyObject *value) {
    if (!is_token(PyBytes_AsString(name), (size_t)PyBytes_Size(name)) || !is_value(PyBytes_AsString(value), (size_t)PyBytes_Size(value)))
        return refuse("a line isn't well formed"), -1;
    put_bytes(t, name);
    put(t, ": ", 2);
    put_bytes(t, value);
    put(t, "\r\n", 2);
    return 0;
}

/* Writes the lines of these kinds, as the caller wrote them. Headers are lists, so what was checked may have changed: a line is
 * checked where it is written. */
static int put_lines(text *t, PyObject *headers, unsigned kinds) {
    int done = 0;
    PyObject *lines = raw_of(headers);
    for (Py_ssize_t i = 0; lines && done == 0 && i < PyList_Size(lines); i++) {
        PyObject *pair = PyList_GetItem(lines, i);
        if (!is_pair(pair)) done = (PyErr_SetString(PyExc_TypeError, "headers are pairs of bytes"), -1);
        else if (kinds & KIND(kind_of_name(PyTuple_GetItem(pair, 0)))) done = put_line(t, PyTuple_GetItem(pair, 0), PyTuple_GetItem(pair, 1));
    }
    Py_XDECREF(lines);
    return lines ? done : -1;
}

/* What the lines of a head that is sent say. */
typedef struct {
    uint64_t size; /* of its body: the given one where no line says it */
    bool closes, upgrades, names_upgrade, expects;
} said;

static int read_line(said *s, PyObject *name, PyObject *value, bool *is_coded) {
    const char *at = PyBytes_AsString(value);
    size_t len = (size_t)PyBytes_Size(value);
    switch (kind_of_name(name)) {
    case CODING:
        *is_coded = true;
        break;
    case LENGTH:
        s->size = length_said(at, len);
        return s->size == RC_SIZE_STREAM ? (refuse("bad Content-Length"), -1) : 0;
    case CONNECTION:
        s->closes = s->closes || has_word(at, len, "close");
        s->upgrades = s->upgrades || has_word(at, len, "upgrade");
        break;
    case UPGRADE:
        s->names_upgrade = true;
        break;
    case EXPECT:
        s->expects = s->expects || has_word(at, len, "100-continue");
        break;
    default:
        break;
    }
    return 0;
}

static int read_headers(said *s, PyObject *headers) {
    bool is_coded = false;
    for (Py_ssize_t i = 0; i < PyList_Size(headers); i++) {
        PyObject *pair = PyList_GetItem(headers, i);
        if (!is_pair(pair)) return PyErr_SetString(PyExc_TypeError, "headers are pairs of bytes"), -1;
        if (read_line(s, PyTuple_GetItem(pair, 0), PyTuple_GetItem(pair, 1), &is_coded) < 0) return -1;
    }
    if (is_coded) s->size = RC_SIZE_STREAM;
    return 0;
}

/* ---- answers */

static bool is_1_1(PyObject *version) { return version && PyBytes_Size(version) == 3 && !memcmp(PyBytes_AsString(version), "1.1", 3); }

/* Whether a head may be sent now. */
static int check_head(const Connection *self, event_kind kind, role side, PyObject *event) {
    if (!is_1_1(value_of(event, kind == REQUEST ? REQUEST_VERSION_AT : ANSWER_VERSION_AT))) return refuse("only HTTP/1.1 is sent"), -1;
    if (side == self->ours && may_step(self, side, kind)) return 0;
    PyObject *now = states[self->states[self->ours]];
    return PyErr_Format(local_error, "can't send %s when our state is %R", name_of_event(event), now), -1;
}

static bool contains(rc_span in, const char *what) { return memmem(in.at, in.len, what, strlen(what)) != NULL; }

/* The head that the engine wrote. */
static rc_span head_in(PyObject *written) {
    const char *at = PyBytes_AsString(written);
    const char *end = memmem(at, (size_t)PyBytes_Size(written), "\r\n\r\n", 4);
    return (rc_span){(const uint8_t *)at, end ? (size_t)(end - at) : (size_t)PyBytes_Size(written)};
}

static rc_code hand_answer(Connection *self, unsigned status, rc_keep keep, uint64_t size, const packed *p) {
    return rc_answer(self->conn, status, keep, size, p->at, p->len, &self->event);
}

/* Has the engine answer: whether the body goes in chunks, or -1. It also decides whether the connection lasts: it ends one whose
 * request names an upgrade, even where that is declined. */
static int engine_answers(Connection *self, PyObject *event, unsigned status, const said *s) {
    packed p;
    if (pack(&p, NULL, headers_in(event), is_the_callers) < 0) return -1;
    bool lasts = self->lasts && !s->closes;
    rc_code code = hand_answer(self, status, lasts ? RC_KEEP_DEFAULT : RC_CLOSE, s->size, &p);
    let_go(&p);
    if (code != RC_OK) return refused(code, event), -1;
    PyObject *written = all_waiting(self->conn, &self->event);
    if (!written) return -1;
    rc_span head = head_in(written);
    self->lasts = lasts && !contains(head, "\r\nconnection: close") && !contains(head, "\r\nconnection: upgrade");
    bool is_chunked = contains(head, "\r\ntransfer-encoding: chunked");
    Py_DECREF(written);
    return is_chunked;
}

/* The caller's answer in place of the engine's own. */
static int replace_answer(Connection *self) {
    PyObject *written = all_waiting(self->conn, &self->event);
    self->lasts = false;
    Py_XDECREF(written);
    return written ? 0 : -1;
}

static void put_status(text *t, PyObject *event, unsigned status) {
    char line[32];
    PyOS_snprintf(line, sizeof line, "HTTP/1.1 %u ", status);
    put_string(t, line);
    put_bytes(t, value_of(event, REASON_AT));
    put_string(t, "\r\n");
}

/* The caller's lines; those that frame the body and end the connection are the engine's. A message that never has a body says
 * nothing of one (RFC 9110, section 8.6). */
static PyObject *answer_text(const Connection *self, PyObject *event, unsigned status, bool has_length, bool is_chunked) {
    text t;
    unsigned left_out = KIND(CODING) | (has_length ? 0 : KIND(LENGTH)) | (self->lasts ? 0 : KIND(CONNECTION));
    begin(&t);
    put_status(&t, event, status);
    int done = put_lines(&t, headers_in(event), ~left_out);
    if (is_chunked) put_string(&t, "Transfer-Encoding: chunked\r\n");
    if (!self->lasts) put_string(&t, "Connection: close\r\n");
    return ended(&t, done);
}

static int end_answer(Connection *self, bool is_tunnel, PyObject *behind) {
    self->expects = false;
    if (is_tunnel) return switch_protocol(self, behind);
    self->switches = false;
    return step(self, SERVER, RESPONSE, local_error);
}

/* The body that is sent behind a head. */
static void begin_body(Connection *self, uint64_t size, bool is_chunked) {
    bool is_none = size == RC_SIZE_NONE || self->is_head;
    self->is_chunked = is_chunked && !is_none;
    self->is_sized = is_none || size != RC_SIZE_STREAM;
    self->size = is_none ? 0 : size;
}

static PyObject *send_answer(Connection *self, PyObject *event) {
    unsigned status = (unsigned)PyLong_AsUnsignedLong(value_of(event, STATUS_AT));
    said s = {.size = RC_SIZE_STREAM};
    if (check_head(self, RESPONSE, SERVER, event) < 0 || read_headers(&s, headers_in(event)) < 0) return NULL;
    bool is_tunnel = self->is_connect && status < 300 && !self->is_refused;
    if (status == 204 || status == 304 || is_tunnel) s.size = RC_SIZE_NONE;
    bool is_stream = s.size == RC_SIZE_STREAM;
    PyObject *behind = self->switches ? all_held(self->conn, &self->event) : Py_NewRef(Py_None), *sent = NULL;
    int is_chunked = !behind ? -1 : self->is_refused ? replace_answer(self) : engine_answers(self, event, status, &s);
    if (is_chunked == 0) is_chunked = self->is_head && is_stream && is_1_1(self->version);
    if (is_chunked >= 0) {
        begin_body(self, s.size, is_chunked);
        sent = answer_text(self, event, status, !is_stream && status != 204 && !is_tunnel, is_chunked);
    }
    if (sent && end_answer(self, is_tunnel, behind) < 0) Py_CLEAR(sent);
    Py_XDECREF(behind);
    return sent;
}

/* 101: another protocol follows. */
static int engine_switches(Connection *self, PyObject *event) {
    packed p;
    if (pack(&p, NULL, headers_in(event), is_the_callers) < 0) return -1;
    PyObject *behind = all_held(self->conn, &self->event), *written = NULL;
    rc_code code = behind ? hand_answer(self, 101, RC_UPGRADE, RC_SIZE_NONE, &p) : RC_OK;
    let_go(&p);
    if (code != RC_OK) refused(code, event);
    else if (behind) written = all_waiting(self->conn, &self->event);
    int done = written ? switch_protocol(self, behind) : -1;
    Py_XDECREF(written);
    Py_XDECREF(behind);
    return done;
}

/* 100, where the client waits for it. */
static int engine_goes_on(Connection *self, PyObject *event) {
    self->expects = false;
    rc_code code = rc_continue(self->conn, &self->event);
    if (code == RC_MISPLACED) return 0;
    if (code != RC_OK) return refused(code, event), -1;
    PyObject *written = all_waiting(self->conn, &self->event);
    Py_XDECREF(written);
    return written ? 0 : -1;
}

static PyObject *send_informational(Connection *self, PyObject *event) {
    text t;
    unsigned status = (unsigned)PyLong_AsUnsignedLong(value_of(event, STATUS_AT));
    if (check_head(self, INFORMATIONAL, SERVER, event) < 0) return NULL;
    int done = status == 101 ? engine_switches(self, event) : status == 100 ? engine_goes_on(self, event) : 0;
    if (done < 0) return NULL;
    begin(&t);
    put_status(&t, event, status);
    return ended(&t, put_lines(&t, headers_in(event), ~SIZING));
}

/* ---- requests */

static int engine_asks(Connection *self, PyObject *event, const said *s) {
    packed p;
    rc_keep keep = s->closes ? RC_CLOSE : s->upgrades ? RC_UPGRADE : RC_KEEP_DEFAULT;
    PyObject *first = PyTuple_Pack(2, value_of(event, METHOD_AT), value_of(event, TARGET_AT));
    int done = first ? pack(&p, first, headers_in(event), is_the_callers) : -1;
    Py_XDECREF(first);
    if (done < 0) return -1;
    rc_code code = rc_ask(self->conn, 1, keep, s->size, p.at, p.len, &self->event);
    let_go(&p);
    if (code != RC_OK) return refused(code, event), -1;
    PyObject *written = all_waiting(self->conn, &self->event);
    Py_XDECREF(written);
    return written ? 0 : -1;
}

static bool is_method(PyObject *event, const char *name) { return !strcmp(PyBytes_AsString(value_of(event, METHOD_AT)), name); }

static PyObject *send_request(Connection *self, PyObject *event) {
    text t;
    said s = {.size = RC_SIZE_NONE};
    PyObject *headers = headers_in(event);
    if (check_head(self, REQUEST, CLIENT, event) < 0 || read_headers(&s, headers) < 0) return NULL;
    if (engine_asks(self, event, &s) < 0) return NULL;
    self->is_connect = is_method(event, "CONNECT");
    self->is_head = false;
    begin_body(self, s.size, s.size == RC_SIZE_STREAM);
    self->is_head = is_method(event, "HEAD");
    self->lasts = self->lasts && !s.closes;
    self->switches = self->is_connect || s.names_upgrade;
    self->expects = s.expects;
    if (step(self, CLIENT, REQUEST, local_error) < 0) return NULL;
    begin(&t);
    put_bytes(&t, value_of(event, METHOD_AT));
    put(&t, " ", 1);
    put_bytes(&t, value_of(event, TARGET_AT));
    put_string(&t, " HTTP/1.1\r\n");
    int done = put_lines(&t, headers, KIND(HOST));
    if (done == 0) done = put_lines(&t, headers, ~(KIND(HOST) | (self->is_chunked ? KIND(LENGTH) : 0)));
    return ended(&t, done);
}

/* ---- bodies */

/* What the caller writes itself: the engine counts as many bytes. */
static PyObject *pass(Connection *self, PyObject *event, PyObject *data, size_t count) {
    static const char zeros[32768];
    for (size_t left = count, part; left; left -= part) {
        part = left < sizeof zeros ? left : sizeof zeros;
        rc_code code = rc_chunk(self->conn, zeros, part, &self->event);
        if (code != RC_OK) return refused(code, event);
        PyObject *written = all_waiting(self->conn, &self->event);
        if (!written) return NULL;
        Py_DECREF(written);
    }
    if (!self->is_chunked) return Py_BuildValue("[O]", data);
    char line[32];
    PyOS_snprintf(line, sizeof line, "%zx\r\n", count);
    return Py_BuildValue("[yOy]", line, data, "\r\n");
}

/* So many bytes of a body are sent; raises where a body with a length has fewer left. */
static int count_body(Connection *self, size_t count) {
    if (step(self, self->ours, DATA, local_error) < 0) return -1;
    if (!is_server(self)) self->expects = false;
    if (!self->is_sized) return 0;
    if (count > self->size) return refuse("Too much data for declared Content-Length"), -1;
    self->size -= count;
    return 0;
}

static PyObject *engine_sends(Connection *self, PyObject *event, const Py_buffer *data) {
    size_t count = (size_t)data->len;
    if (count_body(self, count) < 0) return NULL;
    if (count == 0 || self->is_refused) return PyBytes_FromStringAndSize(data->buf, data->len);
    rc_code code = rc_chunk(self->conn, data->buf, count, &self->event);
    return code == RC_OK ? all_waiting(self->conn, &self->event) : refused(code, event);
}

static PyObject *send_data(Connection *self, PyObject *event) {
    PyObject *data = value_of(event, DATA_AT), *sent;
    Py_buffer buffer;
    /* Both may call the caller's code, so the state is looked at behind them. */
    if (PyObject_CheckBuffer(data)) {
        if (PyObject_GetBuffer(data, &buffer, PyBUF_SIMPLE) < 0) return NULL;
        sent = engine_sends(self, event, &buffer);
        PyBuffer_Release(&buffer);
        return sent;
    }
    Py_ssize_t count = PyObject_Size(data);
    if (count < 0 || count_body(self, (size_t)count) < 0) return NULL;
    if (count == 0) return PyList_New(0);
    return self->is_refused ? Py_BuildValue("[O]", data) : pass(self, event, data, (size_t)count);
}

static PyObject *send_end(Connection *self, PyObject *event) {
    text t;
    PyObject *headers = headers_in(event);
    if (step(self, self->ours, END, local_error) < 0) return NULL;
    if (!is_server(self)) self->expects = false;
    if (self->is_sized && self->size) return refuse("Too little data for declared Content-Length");
    bool has_trailers = PyList_Size(headers) > 0;
    if (has_trailers && !self->is_chunked) return refuse("only a body in chunks has trailers");
    rc_code code = self->is_refused ? RC_OK : rc_end(self->conn, &self->event);
    /* Of a message without a body the engine has nothing to end. */
    if (code != RC_OK && code != RC_MISPLACED) return refused(code, event);
    PyObject *sent = all_waiting(self->conn, &self->event);
    if (!sent || !has_trailers) return sent;
    Py_DECREF(sent);
    begin(&t);
    put_string(&t, "0\r\n");
    return ended(&t, put_lines(&t, headers, ~SIZING));
}

static PyObject *send_closed(Connection *self, PyObject *event) {
    state ours = self->states[self->ours];
    if (ours == SWITCHED || ours == MIGHT_SWITCH) return refused(RC_MISPLACED, event);
    if (step(self, self->ours, ENDED, local_error) < 0) return NULL;
    rc_code code = is_server(self) ? rc_drain(self->conn, &self->event) : RC_OK;
    return code == RC_OK || code == RC_MISPLACED ? Py_NewRef(Py_None) : failed(code);
}

/* ---- the calls */

/* What is to be written: bytes, a list of parts, or None for the end. */
static PyObject *parts_of(Connection *self, PyObject *event) {
    static PyObject *(*const send[EVENTS])(Connection *, PyObject *) = {
        [REQUEST] = send_request, [INFORMATIONAL] = send_informational, [RESPONSE] = send_answer,
        [DATA] = send_data, [END] = send_end, [ENDED] = send_closed,
    };
    OPEN(self);
    if (tell_time(self) < 0) return NULL;
    if (self->states[self->ours] == ERROR) return refuse("can't send data when our state is ERROR");
    event_kind kind = kind_of_event(event);
    PyObject *sent = kind < EVENTS ? send[kind](self, event) : PyErr_Format(local_error, "can't send %R", event);
    /* Whatever failed: part of the message may be gone. */
    if (!sent) fail_side(self, self->ours);
    return sent;
}

PyObject *Connection_send(Connection *self, PyObject *event) {
    PyObject *parts = parts_of(self, event);
    if (!parts || !PyList_Check(parts)) return parts;
    PyObject *none = PyBytes_FromString(""), *all = none ? PyObject_CallMethod(none, "join", "O", parts) : NULL;
    Py_XDECREF(none);
    Py_DECREF(parts);
    return all;
}

PyObject *Connection_send_with_data_passthrough(Connection *self, PyObject *event) {
    PyObject *parts = parts_of(self, event);
    return !parts || parts == Py_None || PyList_Check(parts) ? parts : Py_BuildValue("[N]", parts);
}
