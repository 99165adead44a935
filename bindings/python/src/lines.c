/* The lines that a caller hands in: checked, with their names in lower case. */
#include <string.h>

#include "h11.h"

static PyObject *headers_type, *written_type, *raw_name;

static char lower(char c) { return c >= 'A' && c <= 'Z' ? (char)(c | 32) : c; }

/* `same` is in lower case. */
static bool is_same(const char *text, const char *same, size_t len) {
    for (size_t i = 0; i < len; i++)
        if (lower(text[i]) != same[i]) return false;
    return true;
}

line_kind kind_of_line(const char *name, size_t len) {
    switch (len) {
    case 4:
        return is_same(name, "host", len) ? HOST : is_same(name, "date", len) ? DATE : OTHER;
    case 6:
        return is_same(name, "expect", len) ? EXPECT : OTHER;
    case 7:
        return is_same(name, "upgrade", len) ? UPGRADE : OTHER;
    case 10:
        return is_same(name, "connection", len) ? CONNECTION : OTHER;
    case 14:
        return is_same(name, "content-length", len) ? LENGTH : OTHER;
    case 17:
        return is_same(name, "transfer-encoding", len) ? CODING : OTHER;
    default:
        return OTHER;
    }
}

/* The next part of a value up to a comma, without the spaces around it. */
static rc_span next_part(const char **at, const char *end) {
    const char *comma = memchr(*at, ',', (size_t)(end - *at)), *from = *at, *to = comma ? comma : end;
    *at = comma ? comma + 1 : NULL;
    while (from < to && (*from == ' ' || *from == '\t')) from++;
    while (from < to && (to[-1] == ' ' || to[-1] == '\t')) to--;
    return (rc_span){(const uint8_t *)from, (size_t)(to - from)};
}

bool has_word(const char *value, size_t len, const char *wanted) {
    for (const char *at = value, *end = value + len; at;) {
        rc_span part = next_part(&at, end);
        if (part.len == strlen(wanted) && is_same((const char *)part.at, wanted, part.len)) return true;
    }
    return false;
}

bool is_token(const char *text, size_t len) {
    for (size_t i = 0; i < len; i++) {
        char c = lower(text[i]);
        if (!(c >= 'a' && c <= 'z') && !(c >= '0' && c <= '9') && (c == 0 || !strchr("-_!#$%&'*+.^`|~", c))) return false;
    }
    return len > 0;
}

bool is_target(const char *text, size_t len) {
    for (size_t i = 0; i < len; i++)
        if (text[i] < '!' || text[i] > '~') return false;
    return len > 0;
}

bool is_value(const char *text, size_t len) {
    if (len == 0) return true;
    for (size_t i = 0; i < len; i++)
        if (text[i] == 0 || text[i] == '\n' || text[i] == '\r' || text[i] == '\f' || text[i] == '\v') return false;
    return !strchr(" \t", text[0]) && !strchr(" \t", text[len - 1]);
}

uint64_t length_said(const char *text, size_t len) {
    uint64_t size = 0;
    for (size_t i = 0; i < len; i++) {
        if (text[i] < '0' || text[i] > '9' || size > (RC_SIZE_NONE - 10) / 10) return RC_SIZE_STREAM;
        size = 10 * size + (uint64_t)(text[i] - '0');
    }
    return len ? size : RC_SIZE_STREAM;
}

/* ---- Headers */

PyObject *no_headers(void) { return PyType_GenericAlloc((PyTypeObject *)headers_type, 0); }

PyObject *raw_of(PyObject *headers) {
    PyObject *raw = Py_IS_TYPE(headers, (PyTypeObject *)written_type) ? PyObject_GetAttr(headers, raw_name) : Py_NewRef(headers);
    if (!raw || PyList_Check(raw)) return raw;
    Py_DECREF(raw);
    return PyErr_SetString(PyExc_TypeError, "headers are a list"), NULL;
}

PyObject *bytes_from(PyObject *text) {
    if (PyBytes_CheckExact(text)) return Py_NewRef(text);
    if (PyLong_Check(text)) return PyErr_SetString(PyExc_TypeError, "expected bytes, not a number"), NULL;
    return PyUnicode_Check(text) ? PyUnicode_AsASCIIString(text) : PyObject_CallFunctionObjArgs((PyObject *)&PyBytes_Type, text, NULL);
}

/* What is made of a caller's lines. */
typedef struct {
    PyObject *lines; /* a list: lines with names in lower case */
    PyObject *raw;   /* as they were written, from the first name with a capital on; NULL before */
    PyObject *length;
    bool is_coded;
} making;

/* Bytes in lower case: the same object where they are. */
static PyObject *lowered(PyObject *text) {
    const char *at = PyBytes_AsString(text);
    size_t len = (size_t)PyBytes_Size(text), i = 0;
    while (i < len && lower(at[i]) == at[i]) i++;
    if (i == len) return Py_NewRef(text);
    /* Without bytes, so that it is an object of its own: one of a single byte would be the interpreter's. */
    PyObject *low = PyBytes_FromStringAndSize(NULL, (Py_ssize_t)len);
    char *to = low ? PyBytes_AsString(low) : NULL;
    for (i = 0; to && i < len; i++) to[i] = lower(at[i]);
    return low;
}

/* The one number that a content-length names, be it several times: bytes. */
static PyObject *length_from(PyObject *value) {
    const char *at = PyBytes_AsString(value), *end = at + PyBytes_Size(value);
    rc_span first = next_part(&at, end);
    while (at) {
        rc_span part = next_part(&at, end);
        if (part.len != first.len || memcmp(part.at, first.at, part.len)) return broken(local_error, "conflicting Content-Length headers", 400);
    }
    for (size_t i = 0; i < first.len; i++)
        if (first.at[i] < '0' || first.at[i] > '9') first.len = 0;
    return first.len ? bytes_of(first) : broken(local_error, "bad Content-Length", 400);
}

static void replace(PyObject **at, PyObject *by) {
    Py_DECREF(*at);
    *at = by;
}

/* The value of a line that frames a body, with which the old one is replaced. 1 where the line is one too many, 0, or -1. */
static int frame(making *m, line_kind kind, PyObject **value) {
    if (kind == LENGTH) {
        PyObject *length = length_from(*value);
        if (!length) return -1;
        replace(value, length);
        if (!m->length) {
            m->length = Py_NewRef(length);
            return 0;
        }
        int same = PyObject_RichCompareBool(m->length, length, Py_EQ);
        return same == 0 ? (broken(local_error, "conflicting Content-Length headers", 400), -1) : same;
    }
    PyObject *low = lowered(*value);
    if (!low) return -1;
    replace(value, low);
    bool is_chunked = PyBytes_Size(low) == 7 && !memcmp(PyBytes_AsString(low), "chunked", 7);
    if (m->is_coded || !is_chunked) return broken(local_error, "Only one Transfer-Encoding: chunked is supported", 501), -1;
    m->is_coded = true;
    return 0;
}

/* Adds a line; `given` is the caller's own pair. */
static int add(making *m, PyObject *given, PyObject *raw, PyObject *name, PyObject *value) {
    bool is_given = PyTuple_CheckExact(given) && PyTuple_GetItem(given, 0) == name && PyTuple_GetItem(given, 1) == value;
    PyObject *pair = is_given ? Py_NewRef(given) : PyTuple_Pack(2, name, value), *written = pair;
    if (!pair) return -1;
    if (raw != name && !m->raw) m->raw = PyList_GetSlice(m->lines, 0, PyList_Size(m->lines));
    bool is_well = raw == name || (m->raw && (written = PyTuple_Pack(2, raw, value)));
    is_well = is_well && PyList_Append(m->lines, pair) == 0 && (!m->raw || PyList_Append(m->raw, written) == 0);
    if (written != pair) Py_XDECREF(written);
    Py_DECREF(pair);
    return is_well ? 0 : -1;
}

static int add_checked(making *m, PyObject *given, PyObject *raw, PyObject **value) {
    const char *name = PyBytes_AsString(raw);
    size_t len = (size_t)PyBytes_Size(raw);
    if (!is_token(name, len)) return PyErr_Format(local_error, "Illegal header name %R", raw), -1;
    if (!is_value(PyBytes_AsString(*value), (size_t)PyBytes_Size(*value))) return PyErr_Format(local_error, "Illegal header value %R", *value), -1;
    line_kind kind = kind_of_line(name, len);
    int over = kind == LENGTH || kind == CODING ? frame(m, kind, value) : 0;
    if (over) return over < 0 ? -1 : 0;
    PyObject *low = lowered(raw);
    int done = low ? add(m, given, raw, low, *value) : -1;
    Py_XDECREF(low);
    return done;
}

static int add_line(making *m, PyObject *given) {
    PyObject *pair = PySequence_Tuple(given);
    if (!pair) return -1;
    int done = -1;
    if (PyTuple_Size(pair) == 2) {
        PyObject *name = bytes_from(PyTuple_GetItem(pair, 0)), *value = name ? bytes_from(PyTuple_GetItem(pair, 1)) : NULL;
        if (value) done = add_checked(m, given, name, &value);
        Py_XDECREF(name);
        Py_XDECREF(value);
    } else {
        PyErr_SetString(PyExc_ValueError, "a header is a name and a value");
    }
    Py_DECREF(pair);
    return done;
}

/* The lines with what they were written as. */
static PyObject *with_raw(making *m) {
    PyObject *all = PyObject_CallFunctionObjArgs(written_type, m->lines, NULL);
    if (all && PyObject_SetAttr(all, raw_name, m->raw) < 0) Py_CLEAR(all);
    return all;
}

PyObject *headers_of(PyObject *given) {
    if (Py_IS_TYPE(given, (PyTypeObject *)headers_type) || Py_IS_TYPE(given, (PyTypeObject *)written_type)) return Py_NewRef(given);
    making m = {no_headers(), NULL, NULL, false};
    PyObject *each = m.lines ? PyObject_GetIter(given) : NULL, *line = NULL, *all = NULL;
    while (each && (line = PyIter_Next(each))) {
        int done = add_line(&m, line);
        Py_DECREF(line);
        if (done < 0) break;
    }
    if (each && !PyErr_Occurred()) all = m.raw ? with_raw(&m) : Py_NewRef(m.lines);
    Py_XDECREF(each);
    Py_XDECREF(m.raw);
    Py_XDECREF(m.lines);
    Py_XDECREF(m.length);
    return all;
}

int find_headers(void) {
    headers_type = word("Headers");
    written_type = word("WrittenHeaders");
    raw_name = PyUnicode_InternFromString("raw");
    return headers_type && written_type && raw_name ? 0 : -1;
}
