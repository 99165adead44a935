/* Bytes that came and wait to be handed in. */
#include <string.h>

#include "rest.h"

/* Moves what waits to the front of a block with room for so many bytes more. Half of that block is free at least, so the next move
 * comes only after as many bytes as this one moves. */
static int make_room(rest *r, size_t len) {
    size_t count = rest_len(r);
    if (len > PY_SSIZE_T_MAX / 2 - count) return PyErr_NoMemory(), -1;
    if (count + len <= r->room / 2) {
        memmove(r->block, rest_at(r), count);
    } else {
        size_t room = 2 * (count + len);
        char *block = PyMem_Malloc(room);
        if (!block) return PyErr_NoMemory(), -1;
        memcpy(block, rest_at(r), count);
        PyMem_Free(r->block);
        r->block = block;
        r->room = room;
    }
    r->begin = 0;
    r->end = count;
    return 0;
}

int rest_append(rest *r, const void *data, size_t len) {
    if (len == 0) return 0;
    if (len > r->room - r->end && make_room(r, len) < 0) return -1;
    memcpy(r->block + r->end, data, len);
    r->end += len;
    return 0;
}

void rest_advance(rest *r, size_t count) {
    r->begin += count;
    if (r->begin == r->end) rest_clear(r);
}

void rest_clear(rest *r) {
    PyMem_Free(r->block);
    *r = (rest){0};
}

PyObject *rest_bytes(const rest *r) { return PyBytes_FromStringAndSize(rest_at(r), (Py_ssize_t)rest_len(r)); }
