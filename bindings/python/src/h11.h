/* What the parts of raspcream.h11 share: lines, events and the words of raspcream._words. */
#ifndef RASPCREAM_H11_H
#define RASPCREAM_H11_H

#include <stdbool.h>

#include "shared.h"

/* ---- words */

typedef enum { CLIENT, SERVER } role;

/* In the order of raspcream._words.STATES. */
typedef enum { IDLE, SEND_RESPONSE, SEND_BODY, DONE, MUST_CLOSE, CLOSED, ERROR, MIGHT_SWITCH, SWITCHED, STATES } state;

extern PyObject *roles[2], *states[STATES], *need_data, *paused, *local_error, *remote_error;

/* An attribute of raspcream._words: a new reference, or NULL. */
PyObject *word(const char *name);

/* Raises LocalProtocolError or RemoteProtocolError with a status as its hint. */
PyObject *broken(PyObject *error, const char *message, int status);

/* ---- lines */

/* Lines that say something of the message or of the connection. */
typedef enum { OTHER, HOST, DATE, EXPECT, UPGRADE, CONNECTION, LENGTH, CODING } line_kind;

line_kind kind_of_line(const char *name, size_t len);

/* Whether a value has this word among those between its commas, in any case. */
bool has_word(const char *value, size_t len, const char *word);

bool is_token(const char *text, size_t len);
bool is_target(const char *text, size_t len);
bool is_value(const char *text, size_t len);

/* The number of a content-length; RC_SIZE_STREAM where it is none. */
uint64_t length_said(const char *text, size_t len);

/* Headers without a line. */
PyObject *no_headers(void);

/* The lines of an iterable, checked, as Headers. Those of Headers are taken as they are. */
PyObject *headers_of(PyObject *given);

/* The lines with their names as the caller wrote them: a list. */
PyObject *raw_of(PyObject *headers);

/* Text as bytes: of bytes, of ASCII, or of what bytes() takes. */
PyObject *bytes_from(PyObject *text);

/* Finds the types of lines in raspcream._words. */
int find_headers(void);

/* ---- events */

typedef enum { REQUEST, INFORMATIONAL, RESPONSE, DATA, END, ENDED, EVENTS } event_kind;

/* The places of an event's values. */
enum { METHOD_AT = 0, TARGET_AT = 2, REQUEST_VERSION_AT = 3, STATUS_AT = 0, ANSWER_VERSION_AT = 2, REASON_AT = 3, DATA_AT = 0 };

extern PyObject *versions[2];

/* An event with these values, which are taken over; NULL where one of them is NULL. */
PyObject *event_of(event_kind kind, PyObject *a, PyObject *b, PyObject *c, PyObject *d);

/* Of which type it is; EVENTS for none, or for an event that wasn't made whole. */
event_kind kind_of_event(PyObject *event);

/* A value of an event that is whole: borrowed. */
PyObject *value_of(PyObject *event, int place);
PyObject *headers_in(PyObject *event);
const char *name_of_event(PyObject *event);

#endif
