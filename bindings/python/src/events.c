/* The events of raspcream.h11. Each has up to four values; a type says what they are called. */
#include "h11.h"

#include <string.h>
#include <structmember.h>

enum { VALUES = 4 };

typedef struct {
    PyObject_HEAD
    PyObject *values[VALUES];
} Event;

PyObject *roles[2], *states[STATES], *need_data, *paused, *local_error, *remote_error, *versions[2];

static PyTypeObject *base_type, *types[EVENTS];
static PyObject *no_bytes, *no_lines;

static const char *const value_names[EVENTS][VALUES] = {
    [REQUEST] = {"method", "headers", "target", "http_version"},
    [INFORMATIONAL] = {"status_code", "headers", "http_version", "reason"},
    [RESPONSE] = {"status_code", "headers", "http_version", "reason"},
    [DATA] = {"data", "chunk_start", "chunk_end"},
    [END] = {"headers"},
};
static const char *const event_names[EVENTS] = {"Request", "InformationalResponse", "Response", "Data", "EndOfMessage", "ConnectionClosed"};

/* The same names as objects, for the keywords of a call. */
static PyObject *words[EVENTS][VALUES];

/* Of which type it is, or which one it extends. */
static event_kind base_of(PyObject *self) {
    event_kind kind = 0;
    while (kind < EVENTS && !PyObject_TypeCheck(self, types[kind])) kind++;
    return kind;
}

event_kind kind_of_event(PyObject *event) {
    event_kind kind = 0;
    while (kind < EVENTS && !Py_IS_TYPE(event, types[kind])) kind++;
    for (int i = 0; kind < EVENTS && i < VALUES && value_names[kind][i]; i++)
        if (!value_of(event, i)) return EVENTS;
    return kind;
}

PyObject *value_of(PyObject *event, int place) { return ((Event *)event)->values[place]; }

PyObject *headers_in(PyObject *event) { return value_of(event, kind_of_event(event) == END ? 0 : 1); }

const char *name_of_event(PyObject *event) { return event_names[kind_of_event(event)]; }

/* Puts values into an event, once, and takes them over. 0, or -1 where one is NULL. */
static int fill(PyObject *self, event_kind kind, PyObject *const *values) {
    int done = 0;
    for (int i = 0; i < VALUES && value_names[kind][i]; i++) {
        PyObject **at = &((Event *)self)->values[i];
        if (*at) done = (PyErr_SetString(PyExc_TypeError, "an event doesn't change"), -1);
        if (*at) Py_XDECREF(values[i]);
        else *at = values[i];
        if (!values[i]) done = -1;
    }
    return done;
}

PyObject *event_of(event_kind kind, PyObject *a, PyObject *b, PyObject *c, PyObject *d) {
    PyObject *values[VALUES] = {a, b, c, d}, *event = PyType_GenericAlloc(types[kind], 0);
    if (event && fill(event, kind, values) == 0) return event;
    if (event) Py_DECREF(event);
    for (int i = 0; !event && i < VALUES; i++) Py_XDECREF(values[i]);
    return NULL;
}

/* ---- making one in Python */

/* The arguments of a call, borrowed: NULL where one isn't given. */
static int arguments(event_kind kind, PyObject *args, PyObject *named, PyObject **values) {
    Py_ssize_t given = PyTuple_Size(args), found = 0;
    if (given > (kind == DATA ? 3 : 0)) return PyErr_Format(PyExc_TypeError, "%s takes its values by name", event_names[kind]), -1;
    for (int i = 0; i < VALUES && words[kind][i]; i++) {
        PyObject *value = named ? PyDict_GetItemWithError(named, words[kind][i]) : NULL;
        if (!value && PyErr_Occurred()) return -1;
        if (value && i < given) return PyErr_Format(PyExc_TypeError, "%s got %U twice", event_names[kind], words[kind][i]), -1;
        found += value != NULL;
        values[i] = i < given ? PyTuple_GetItem(args, i) : value;
    }
    if (!named || found == PyDict_Size(named)) return 0;
    return PyErr_Format(PyExc_TypeError, "%s has no value of one of these names: %R", event_names[kind], named), -1;
}

static int lacks(event_kind kind, PyObject *const *values, int place) {
    if (!values[place]) PyErr_Format(PyExc_TypeError, "%s lacks %s", event_names[kind], value_names[kind][place]);
    return !values[place];
}

static bool is_1_1(PyObject *version) { return PyBytes_Size(version) == 3 && !memcmp(PyBytes_AsString(version), "1.1", 3); }

/* Drops the values of an event that is refused: none that isn't well formed may stand in one. */
static int drop(PyObject *const *values) {
    for (int i = 0; i < VALUES; i++) Py_XDECREF(values[i]);
    return -1;
}

static int check_request(PyObject *const *values) {
    PyObject *method = values[METHOD_AT], *headers = values[1], *target = values[TARGET_AT];
    int hosts = 0;
    for (Py_ssize_t i = 0; i < PyList_Size(headers); i++) {
        PyObject *pair = PyList_GetItem(headers, i), *name = is_pair(pair) ? PyTuple_GetItem(pair, 0) : NULL;
        if (name) hosts += kind_of_line(PyBytes_AsString(name), (size_t)PyBytes_Size(name)) == HOST;
    }
    if (hosts > 1) return broken(local_error, "Found multiple Host: headers", 400), -1;
    if (hosts == 0 && is_1_1(values[REQUEST_VERSION_AT])) return broken(local_error, "Missing mandatory Host: header", 400), -1;
    if (!is_token(PyBytes_AsString(method), (size_t)PyBytes_Size(method))) return broken(local_error, "Illegal method characters", 400), -1;
    if (!is_target(PyBytes_AsString(target), (size_t)PyBytes_Size(target))) return broken(local_error, "Illegal target characters", 400), -1;
    return 0;
}

static int Request_init(PyObject *self, PyObject *args, PyObject *named) {
    PyObject *given[VALUES];
    if (arguments(REQUEST, args, named, given) < 0 || lacks(REQUEST, given, METHOD_AT) || lacks(REQUEST, given, TARGET_AT)) return -1;
    PyObject *values[VALUES] = {bytes_from(given[0]), NULL, NULL, NULL};
    if (values[0]) values[2] = bytes_from(given[2]);
    if (values[2]) values[3] = given[3] ? bytes_from(given[3]) : Py_NewRef(versions[1]);
    if (values[3]) values[1] = headers_of(given[1] ? given[1] : no_lines);
    return values[1] && check_request(values) < 0 ? drop(values) : fill(self, REQUEST, values);
}

static int check_answer(PyObject *const *values, event_kind kind) {
    static const long least[] = {[INFORMATIONAL] = 100, [RESPONSE] = 200}, most[] = {[INFORMATIONAL] = 199, [RESPONSE] = 999};
    PyObject *reason = values[REASON_AT], *status = values[STATUS_AT];
    int over = 0;
    long number = PyLong_AsLongAndOverflow(status, &over);
    if (over || number < least[kind] || number > most[kind])
        return PyErr_Format(local_error, "%s status_code should be from %ld to %ld, not %R", event_names[kind], least[kind], most[kind], status), -1;
    if (!is_value(PyBytes_AsString(reason), (size_t)PyBytes_Size(reason))) return broken(local_error, "Illegal reason characters", 400), -1;
    return 0;
}

static int init_answer(PyObject *self, event_kind kind, PyObject *args, PyObject *named) {
    PyObject *given[VALUES];
    if (arguments(kind, args, named, given) < 0 || lacks(kind, given, STATUS_AT)) return -1;
    if (!PyLong_Check(given[0])) return broken(local_error, "status code must be integer", 400), -1;
    bool is_plain = PyLong_CheckExact(given[0]);
    PyObject *number = is_plain ? Py_NewRef(given[0]) : PyObject_CallFunctionObjArgs((PyObject *)&PyLong_Type, given[0], NULL);
    PyObject *values[VALUES] = {number, NULL, NULL, NULL};
    if (values[0]) values[2] = given[2] ? bytes_from(given[2]) : Py_NewRef(versions[1]);
    if (values[2]) values[3] = given[3] ? bytes_from(given[3]) : Py_NewRef(no_bytes);
    if (values[3]) values[1] = headers_of(given[1] ? given[1] : no_lines);
    return values[1] && check_answer(values, kind) < 0 ? drop(values) : fill(self, kind, values);
}

static int InformationalResponse_init(PyObject *self, PyObject *args, PyObject *named) { return init_answer(self, INFORMATIONAL, args, named); }
static int Response_init(PyObject *self, PyObject *args, PyObject *named) { return init_answer(self, RESPONSE, args, named); }

static PyObject *truth_of(PyObject *given) {
    int truth = given ? PyObject_IsTrue(given) : 0;
    return truth < 0 ? NULL : PyBool_FromLong(truth);
}

static int Data_init(PyObject *self, PyObject *args, PyObject *named) {
    PyObject *given[VALUES];
    if (arguments(DATA, args, named, given) < 0 || lacks(DATA, given, DATA_AT)) return -1;
    /* Events don't nest, so the end of one never ends a long row of others. */
    if (PyObject_TypeCheck(given[DATA_AT], base_type)) return PyErr_SetString(PyExc_TypeError, "an event is no data"), -1;
    PyObject *values[VALUES] = {Py_NewRef(given[0]), truth_of(given[1]), NULL, NULL};
    if (values[1]) values[2] = truth_of(given[2]);
    return fill(self, DATA, values);
}

static int EndOfMessage_init(PyObject *self, PyObject *args, PyObject *named) {
    PyObject *given[VALUES];
    if (arguments(END, args, named, given) < 0) return -1;
    PyObject *values[VALUES] = {given[0] && given[0] != Py_None ? headers_of(given[0]) : no_headers(), NULL, NULL, NULL};
    return fill(self, END, values);
}

static int ConnectionClosed_init(PyObject *self, PyObject *args, PyObject *named) {
    PyObject *given[VALUES];
    (void)self;
    return arguments(ENDED, args, named, given);
}

/* ---- what all have */

static PyObject *Event_repr(PyObject *self) {
    event_kind kind = base_of(self);
    PyObject *name = PyObject_GetAttrString((PyObject *)Py_TYPE(self), "__name__"), *text = NULL;
    if (name) text = PyUnicode_FromFormat("%U(", name);
    for (int i = 0; text && kind < EVENTS && i < VALUES && value_names[kind][i]; i++) {
        PyObject *value = value_of(self, i) ? value_of(self, i) : Py_None;
        PyObject *more = PyUnicode_FromFormat("%U%s%s=%R", text, i ? ", " : "", value_names[kind][i], value);
        Py_DECREF(text);
        text = more;
    }
    PyObject *all = text ? PyUnicode_FromFormat("%U)", text) : NULL;
    Py_XDECREF(name);
    Py_XDECREF(text);
    return all;
}

static PyObject *Event_compare(PyObject *self, PyObject *other, int how) {
    if ((how != Py_EQ && how != Py_NE) || Py_TYPE(self) != Py_TYPE(other)) return Py_NewRef(Py_NotImplemented);
    int same = 1;
    for (int i = 0; same == 1 && i < VALUES; i++) {
        PyObject *a = value_of(self, i), *b = value_of(other, i);
        same = a && b ? PyObject_RichCompareBool(a, b, Py_EQ) : a == b;
    }
    return same < 0 ? NULL : PyBool_FromLong(same == (how == Py_EQ));
}

static int Event_traverse(PyObject *self, visitproc visit, void *arg) {
    Py_VISIT(Py_TYPE(self));
    for (int i = 0; i < VALUES; i++) Py_VISIT(((Event *)self)->values[i]);
    return 0;
}

static int Event_clear(PyObject *self) {
    for (int i = 0; i < VALUES; i++) Py_CLEAR(((Event *)self)->values[i]);
    return 0;
}

static void Event_dealloc(PyObject *self) {
    PyObject_GC_UnTrack(self);
    Event_clear(self);
    release(self);
}

/* ---- the types */

/* An immutable type is no other's: no object takes its place by `__class__`, with values that it doesn't have. */
enum { FLAGS = Py_TPFLAGS_DEFAULT | Py_TPFLAGS_BASETYPE | Py_TPFLAGS_HAVE_GC | Py_TPFLAGS_IMMUTABLETYPE };

static PyType_Slot base_slots[] = {
    {Py_tp_doc, "What the two sides tell each other."},
    {Py_tp_new, PyType_GenericNew},
    {Py_tp_repr, Event_repr},
    {Py_tp_richcompare, Event_compare},
    {Py_tp_hash, PyObject_HashNotImplemented},
    {Py_tp_traverse, Event_traverse},
    {Py_tp_clear, Event_clear},
    {Py_tp_dealloc, Event_dealloc},
    {0, NULL},
};
static PyType_Spec base_spec = {"raspcream.h11.Event", sizeof(Event), 0, FLAGS, base_slots};

static const struct {
    const char *name, *doc;
    initproc init;
} makers[EVENTS] = {
    {"raspcream.h11.Request",
     "Request(*, method, target, headers=(), http_version=b'1.1')\n--\n\nA request's head.",
     Request_init},
    {"raspcream.h11.InformationalResponse",
     "InformationalResponse(*, status_code, headers=(), http_version=b'1.1', reason=b'')\n--\n\nAn answer of status 100 to 199.",
     InformationalResponse_init},
    {"raspcream.h11.Response",
     "Response(*, status_code, headers=(), http_version=b'1.1', reason=b'')\n--\n\nAn answer's head.",
     Response_init},
    {"raspcream.h11.Data",
     "Data(data, chunk_start=False, chunk_end=False)\n--\n\nA piece of a body.",
     Data_init},
    {"raspcream.h11.EndOfMessage",
     "EndOfMessage(*, headers=None)\n--\n\nA body's end, with the lines behind its chunks.",
     EndOfMessage_init},
    {"raspcream.h11.ConnectionClosed",
     "ConnectionClosed()\n--\n\nNothing more comes.",
     ConnectionClosed_init},
};

static PyTypeObject *type_of(event_kind kind, PyObject *base) {
    PyMemberDef members[VALUES + 1] = {{NULL, 0, 0, 0, NULL}};
    for (int i = 0; i < VALUES && value_names[kind][i]; i++) {
        Py_ssize_t offset = (Py_ssize_t)(offsetof(Event, values) + sizeof(PyObject *) * (size_t)i);
        members[i] = (PyMemberDef){value_names[kind][i], T_OBJECT_EX, offset, READONLY, NULL};
        words[kind][i] = PyUnicode_InternFromString(value_names[kind][i]);
        if (!words[kind][i]) return NULL;
    }
    PyType_Slot slots[] = {
        {Py_tp_doc, (void *)makers[kind].doc},
        {Py_tp_init, makers[kind].init},
        {Py_tp_members, members},
        {Py_tp_hash, PyObject_HashNotImplemented},
        {Py_tp_richcompare, Event_compare},
        {Py_tp_traverse, Event_traverse},
        {Py_tp_clear, Event_clear},
        {Py_tp_dealloc, Event_dealloc},
        {0, NULL},
    };
    PyType_Spec spec = {makers[kind].name, sizeof(Event), 0, FLAGS, slots};
    return (PyTypeObject *)PyType_FromSpecWithBases(&spec, base);
}

/* ---- words */

static PyObject *the_words;

PyObject *word(const char *name) { return PyObject_GetAttrString(the_words, name); }

PyObject *broken(PyObject *error, const char *message, int status) {
    PyObject *made = PyObject_CallFunction(error, "si", message, status);
    if (made) PyErr_SetObject(error, made);
    Py_XDECREF(made);
    return NULL;
}

static int find_words(void) {
    PyObject *all = word("STATES");
    for (Py_ssize_t i = 0; all && i < STATES; i++) {
        PyObject *name = PySequence_GetItem(all, i);
        states[i] = name ? PyObject_GetAttr(the_words, name) : NULL;
        Py_XDECREF(name);
        if (!states[i]) Py_CLEAR(all);
    }
    Py_XDECREF(all);
    roles[CLIENT] = word("CLIENT");
    roles[SERVER] = word("SERVER");
    need_data = word("NEED_DATA");
    paused = word("PAUSED");
    local_error = word("LocalProtocolError");
    remote_error = word("RemoteProtocolError");
    versions[0] = PyBytes_FromString("1.0");
    versions[1] = PyBytes_FromString("1.1");
    no_bytes = PyBytes_FromString("");
    no_lines = PyTuple_New(0);
    return PyErr_Occurred() ? -1 : find_headers();
}

int add_events(PyObject *module) {
    the_words = PyImport_ImportModule("raspcream._words");
    if (!the_words || find_words() < 0) return -1;
    base_type = (PyTypeObject *)PyType_FromSpec(&base_spec);
    if (!base_type || PyModule_AddObjectRef(module, "Event", (PyObject *)base_type) < 0) return -1;
    for (event_kind kind = 0; kind < EVENTS; kind++) {
        types[kind] = type_of(kind, (PyObject *)base_type);
        if (!types[kind] || PyModule_AddObjectRef(module, event_names[kind], (PyObject *)types[kind]) < 0) return -1;
    }
    return 0;
}
