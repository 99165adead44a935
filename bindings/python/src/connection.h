/* One side of one connection, as raspcream.h11 has it. */
#ifndef RASPCREAM_CONNECTION_H
#define RASPCREAM_CONNECTION_H

#include "h11.h"
#include "rest.h"

typedef struct {
    PyObject_HEAD
    rc_conn *conn;
    PyObject *now;  /* what tells the time, NULL for the clock */
    int64_t second; /* which was told last */

    /* What there was no room for; whether the input has ended behind it, and whether the engine knows. */
    rest left;
    size_t most; /* as many bytes may wait for the rest of an event */
    bool has_ended, told_end;

    role ours, theirs;
    state states[2];
    PyObject *version; /* what the peer speaks, NULL before its first head */
    bool lasts;        /* whether the connection may outlive this exchange */
    bool is_refused;   /* of a server: whether a head was refused, to which the caller's answer is no one's step */

    /* Of this exchange: what its request asks for, and whether another protocol may follow it. */
    bool is_connect, is_head, expects, switches;

    /* The body that comes. */
    bool in_body, has_body, has_length;
    uint64_t came, length;

    /* The body that is sent: how much is left of one with a length, and whether it goes in chunks. */
    bool is_sized, is_chunked;
    uint64_t size;

    rc_event event;
} Connection;

static inline bool is_server(const Connection *self) { return self->ours == SERVER; }

/* ---- states */

/* Before a request. */
void begin_cycle(Connection *self);

/* Whether a side may have such an event now. */
bool may_step(const Connection *self, role side, event_kind kind);

/* The step of a side by an event; raises `error` where it may not come. */
int step(Connection *self, role side, event_kind kind, PyObject *error);
void fail_side(Connection *self, role side);

/* Another protocol follows. `behind` is what was held before the answer, which may drop it as a body that nobody read. */
int switch_protocol(Connection *self, PyObject *behind);

/* Tells the engine the time, once a second. */
int tell_time(Connection *self);

/* ---- what comes */

/* Whether what comes may be another protocol's. */
bool has_paused(const Connection *self);
PyObject *Connection_receive_data(Connection *self, PyObject *data);
PyObject *Connection_next_event(Connection *self, PyObject *unused);

/* ---- what is sent */

PyObject *Connection_send(Connection *self, PyObject *event);
PyObject *Connection_send_with_data_passthrough(Connection *self, PyObject *event);

#endif
