/* Bytes that came and wait to be handed in. */
#ifndef RASPCREAM_REST_H
#define RASPCREAM_REST_H

#include "shared.h"

/* Those of a block from `begin` up to `end`. */
typedef struct {
    char *block;
    size_t begin, end, room;
} rest;

static inline size_t rest_len(const rest *r) { return r->end - r->begin; }
static inline const char *rest_at(const rest *r) { return r->block ? r->block + r->begin : ""; }

/* Appends bytes: 0, or -1 with an exception, and then nothing changed. In all, each byte is moved a bounded number of times. */
int rest_append(rest *r, const void *data, size_t len);

/* Takes so many bytes away from the front. */
void rest_advance(rest *r, size_t count);
void rest_clear(rest *r);
PyObject *rest_bytes(const rest *r);

#endif
