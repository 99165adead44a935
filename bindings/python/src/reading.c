/* What comes: bytes, and the events that they are. */
#include <string.h>

#include "connection.h"

bool has_paused(const Connection *self) {
    state theirs = self->states[self->theirs];
    return theirs == MIGHT_SWITCH || theirs == SWITCHED;
}

/* ---- bytes */

/* Hands in what there is room for: how many bytes were taken, or -1. */
static Py_ssize_t take_in(Connection *self, const void *data, size_t len) {
    if (len == 0 || has_paused(self)) return 0;
    rc_code code = rc_read(self->conn, data, len, &self->event);
    if (code == RC_MISPLACED) return 0;
    return code == RC_OK ? (Py_ssize_t)self->event.number : (failed(code), -1);
}

/* Tells that the input has ended, once all was taken. Whether it did. */
static bool end_input(Connection *self) {
    if (!self->has_ended || rest_len(&self->left) || self->told_end || has_paused(self)) return false;
    self->told_end = true;
    return rc_eof(self->conn, &self->event) == RC_OK;
}

/* Hands in what was left. 1 where something was taken, 0, or -1. */
static int feed(Connection *self) {
    Py_ssize_t taken = take_in(self, rest_at(&self->left), rest_len(&self->left));
    if (taken < 0) return -1;
    rest_advance(&self->left, (size_t)taken);
    return end_input(self) || taken > 0;
}

static PyObject *receive(Connection *self, const Py_buffer *data) {
    bool waits = rest_len(&self->left) > 0;
    Py_ssize_t taken = waits ? 0 : take_in(self, data->buf, (size_t)data->len);
    bool has_failed = taken < 0;
    if (has_failed) taken = 0;
    /* Also where memory ran out: what came isn't lost. */
    if (rest_append(&self->left, (const char *)data->buf + taken, (size_t)(data->len - taken)) < 0) return NULL;
    return has_failed || (waits && feed(self) < 0) ? NULL : Py_NewRef(Py_None);
}

PyObject *Connection_receive_data(Connection *self, PyObject *data) {
    Py_buffer buffer;
    OPEN(self);
    int is_more = PyObject_IsTrue(data);
    if (is_more < 0) return NULL;
    if (!is_more) {
        self->has_ended = true;
        return feed(self) < 0 ? NULL : Py_NewRef(Py_None);
    }
    if (self->has_ended) return PyErr_SetString(PyExc_RuntimeError, "received close, then received more data?"), NULL;
    if (PyObject_GetBuffer(data, &buffer, PyBUF_SIMPLE) < 0) return NULL;
    PyObject *done = receive(self, &buffer);
    PyBuffer_Release(&buffer);
    return done;
}

/* Whether bytes came that no event has told. */
static bool has_more(Connection *self) {
    return rest_len(&self->left) || (rc_state(self->conn, &self->event) == RC_OK && self->event.state.held > 0);
}

/* ---- heads */

static PyObject *refuse(const char *message, int status) { return broken(remote_error, message, status); }

/* The peer's end. */
static PyObject *closed(Connection *self) {
    return step(self, self->theirs, ENDED, remote_error) < 0 ? NULL : event_of(ENDED, NULL, NULL, NULL, NULL);
}

/* Between messages, where nothing is left to be read. */
static PyObject *between(Connection *self) { return self->has_ended ? closed(self) : Py_NewRef(need_data); }

static bool is_word(rc_span span, const char *text) { return span.len == strlen(text) && !memcmp(span.at, text, span.len); }

/* What the lines of a head that came say. */
static void read_lines(const rc_event *head, bool *lasts, bool *upgrades) {
    *lasts = head->minor == 1;
    *upgrades = false;
    for (size_t i = 0; i < head->count && i < RC_MAX_FIELDS; i++) {
        rc_span name = head->fields[i].name, value = head->fields[i].value;
        line_kind kind = kind_of_line((const char *)name.at, name.len);
        if (kind == UPGRADE) *upgrades = true;
        if (kind == CONNECTION && has_word((const char *)value.at, value.len, "close")) *lasts = false;
    }
}

static void body_comes(Connection *self, uint32_t body, uint64_t length) {
    self->in_body = true;
    self->has_body = body != RC_BODY_NONE;
    self->has_length = body == RC_BODY_LENGTH;
    self->length = length;
    self->came = 0;
}

static void set_version(Connection *self, uint32_t minor) {
    PyObject *old = self->version;
    self->version = Py_NewRef(versions[minor != 0]);
    Py_XDECREF(old);
}

static PyObject *request_of(const rc_event *head) {
    int did_run = stop_collector();
    PyObject *headers = with_fields(no_headers(), head);
    PyObject *event = event_of(REQUEST, name_of(head->method), headers, bytes_of(head->target), Py_NewRef(versions[head->minor != 0]));
    start_collector(did_run);
    return event;
}

static PyObject *response_of(const rc_event *head) {
    int did_run = stop_collector();
    PyObject *headers = with_fields(no_headers(), head), *number = PyLong_FromUnsignedLong(head->reason);
    PyObject *version = Py_NewRef(versions[head->minor != 0]), *reason = bytes_of(head->method);
    PyObject *event = event_of(head->reason < 200 ? INFORMATIONAL : RESPONSE, number, headers, version, reason);
    start_collector(did_run);
    return event;
}

/* Until its event is made, no Python code may run: the head would be gone. */
static PyObject *request(Connection *self) {
    rc_event *head = &self->event;
    bool lasts, upgrades;
    read_lines(head, &lasts, &upgrades);
    set_version(self, head->minor);
    self->is_connect = is_word(head->method, "CONNECT");
    self->is_head = is_word(head->method, "HEAD");
    self->lasts = self->lasts && lasts;
    /* What follows may be another protocol's, unless the request is declined. */
    self->switches = head->body == RC_BODY_RAW || self->is_connect || upgrades;
    body_comes(self, head->body != RC_BODY_RAW ? head->body : RC_BODY_NONE, head->number);
    PyObject *event = request_of(head);
    self->expects = self->has_body && rc_state(self->conn, head) == RC_OK && (head->state.can & RC_CAN_CONTINUE);
    if (event && step(self, CLIENT, REQUEST, remote_error) < 0) Py_CLEAR(event);
    return event;
}

static PyObject *response(Connection *self) {
    rc_event *head = &self->event;
    uint32_t status = head->reason, body = head->body;
    uint64_t length = head->number;
    bool lasts, upgrades;
    int done = 0;
    read_lines(head, &lasts, &upgrades);
    set_version(self, head->minor);
    self->expects = false;
    PyObject *event = response_of(head);
    if (!event) return NULL;
    if (status == 101 || (self->is_connect && status >= 200 && status < 300)) {
        done = switch_protocol(self, NULL);
    } else if (status >= 200) {
        self->switches = false;
        self->lasts = self->lasts && lasts;
        body_comes(self, body, length);
        done = step(self, SERVER, RESPONSE, remote_error);
    }
    if (done < 0) Py_CLEAR(event);
    return event;
}

/* Whether what came begins with a byte with which no head begins. Before a request empty lines may stand. */
static bool begins_wrongly(Connection *self) {
    if (rc_held(self->conn, 0, &self->event) != RC_OK || self->event.bytes.len == 0) return false;
    uint8_t first = self->event.bytes.at[0];
    return first < '!' && !(is_server(self) && (first == '\r' || first == '\n'));
}

static PyObject *refuse_head(Connection *self, const char *message, int status) {
    self->is_refused = is_server(self);
    return refuse(message, status);
}

static PyObject *next_head(Connection *self) {
    static const char cut[] = "the peer closed the connection where a head was to come";
    bool is_inside = self->has_ended && (!is_server(self) || has_more(self));
    if (!is_server(self) && begins_wrongly(self)) return refuse_head(self, "the head is malformed", 400);
    rc_code code = rc_next(self->conn, &self->event);
    if (code == RC_MISPLACED) return Py_NewRef(paused);
    if (code != RC_OK) return failed(code);
    switch (self->event.kind) {
    case RC_HEAD:
        return is_server(self) ? request(self) : response(self);
    case RC_PENDING:
        if (begins_wrongly(self)) return refuse_head(self, "the head is malformed", 400);
        if (!self->has_ended || rest_len(&self->left)) return Py_NewRef(need_data);
        return is_inside ? refuse(cut, 400) : between(self);
    case RC_FAULT:
        return self->event.reason == 2 ? refuse_head(self, "the head is too large", 431) : refuse_head(self, "the head is malformed", 400);
    default:
        return is_inside ? refuse(cut, 400) : closed(self);
    }
}

/* ---- bodies */

static PyObject *broken_body(Connection *self) {
    static const char how[] = "the peer closed the connection inside a body";
    if (self->event.reason == 1) return refuse("the body is malformed", 400);
    if (!self->has_length) return PyErr_Format(remote_error, "%s (incomplete chunked read)", how);
    unsigned long long came = self->came, length = self->length;
    return PyErr_Format(remote_error, "%s (received %llu bytes, expected %llu)", how, came, length);
}

static PyObject *end_of_message(Connection *self, const rc_event *trailers) {
    int did_run = stop_collector();
    PyObject *headers = no_headers();
    if (headers && trailers) headers = with_fields(headers, trailers);
    PyObject *event = event_of(END, headers, NULL, NULL, NULL);
    start_collector(did_run);
    if (!event) return NULL;
    self->in_body = self->expects = false;
    if (step(self, self->theirs, END, remote_error) < 0) Py_CLEAR(event);
    return event;
}

static PyObject *next_piece(Connection *self) {
    rc_event *event = &self->event;
    rc_code code = self->has_body ? rc_pull(self->conn, event) : RC_MISPLACED;
    if (code == RC_MISPLACED) return end_of_message(self, NULL);
    if (code != RC_OK) return failed(code);
    switch (event->kind) {
    case RC_PENDING:
        return Py_NewRef(need_data);
    case RC_PIECE:
        self->expects = false;
        self->came += event->bytes.len;
        return event_of(DATA, bytes_of(event->bytes), Py_NewRef(Py_False), Py_NewRef(Py_False), NULL);
    case RC_BROKEN:
        return broken_body(self);
    default:
        return end_of_message(self, event->kind == RC_TRAILERS ? event : NULL);
    }
}

/* ---- the next event */

/* More is to come, unless too much waits for it already. */
static PyObject *pending(Connection *self) {
    size_t held = rc_state(self->conn, &self->event) == RC_OK ? self->event.state.held : 0;
    if (held + rest_len(&self->left) <= self->most) return Py_NewRef(need_data);
    static const char many[] = "too many bytes wait for the rest of an event";
    return self->in_body ? refuse(many, 431) : refuse_head(self, many, 431);
}

static PyObject *next_of(Connection *self) {
    state theirs = self->states[self->theirs];
    if (has_paused(self)) return Py_NewRef(paused);
    if (self->in_body) return next_piece(self);
    if (theirs == DONE) return has_more(self) ? Py_NewRef(paused) : between(self);
    if (theirs == MUST_CLOSE || theirs == CLOSED || (theirs == IDLE && !is_server(self)))
        return has_more(self) ? refuse("bytes came that nothing asked for", 400) : between(self);
    return next_head(self);
}

PyObject *Connection_next_event(Connection *self, PyObject *unused) {
    (void)unused;
    OPEN(self);
    if (self->states[self->theirs] == ERROR) return refuse("can't receive data when the peer's state is ERROR", 400);
    for (;;) {
        PyObject *event = next_of(self);
        if (!event) break;
        if (event != need_data) return event;
        Py_DECREF(event);
        int more = feed(self);
        if (more == 0) event = pending(self);
        if (more == 0 && event) return event;
        if (more <= 0) break;
    }
    /* Also where memory ran out: an event may be lost, and no one goes on behind a gap. */
    fail_side(self, self->theirs);
    return NULL;
}
