/* raspcream.h: one side of an HTTP/1.1 connection, a server's or a client's, and WebSocket, without input or output.
 *
 * A handle is one side of one connection. Whoever owns it moves bytes between it and a socket, tells it the time, and answers
 * what it hands out. It has no thread, no global state and no callback.
 *
 * Codes. Every call answers one. Where it isn't RC_OK, nothing of the connection has changed: RC_NO_MEMORY may be tried again,
 * RC_MISPLACED says that the call may not come now, RC_INVALID that an argument is wrong.
 *
 * Events. What a call tells is written to the caller's rc_event, which is cleared first. It has some 3 KB: keep one. Its spans
 * point into the handle. Those of a head stand until the next rc_next; those of a piece and of trailers until the next
 * rc_pull; that of a frame until the next rc_frame; those of rc_front and rc_held until the next call that isn't a question
 * (rc_state, rc_front, rc_held, rc_ahead). No span of a handle is given back to the same handle.
 *
 * Units. Sizes are bytes; times are milliseconds, and moments milliseconds after the start of 1970.
 *
 * Undefined: a handle that is null, that is freed, or that rc_new didn't give; two calls at once on one handle; fewer bytes
 * behind a pointer than its length says. A handle may go from thread to thread, and two handles have nothing in common.
 *
 * Trusted, since no proof reaches it: what is undefined above; that the structures below are laid out as the library has them;
 * where spans point; and the heap file. What the library does is proved: crates/raspcream/README.md says what.
 */
#ifndef RASPCREAM_H
#define RASPCREAM_H

#include <stdbool.h>
#include <stddef.h>
#include <stdint.h>
#include <stdlib.h>
#include <string.h>

#ifdef __cplusplus
extern "C" {
#endif

/* The version of what stands here: rc_abi() answers the library's own. */
#define RC_ABI 1

/* As many lines as a head, or the trailers of a body, may have. */
#define RC_MAX_FIELDS 96

typedef struct rc_conn rc_conn;

typedef struct {
    const uint8_t *at;
    size_t len;
} rc_span;

/* A line of a head: its name is in lower case, and lines of one name stand together. */
typedef struct {
    rc_span name, value;
} rc_field;

typedef enum { RC_OK, RC_NO_MEMORY, RC_MISPLACED, RC_INVALID } rc_code;

/* What came: rc_event.kind. */
typedef enum {
    RC_DONE,      /* what was asked is done, and there is nothing to tell */
    RC_TOOK,      /* of rc_read: `number` bytes were taken */
    RC_HEAD,      /* a head */
    RC_FAULT,     /* a head is refused: `reason` 1 for malformed, 2 for too large. A server's side has answered it */
    RC_PENDING,   /* nothing before more bytes are read */
    RC_CLOSED,    /* the connection has ended: `reason` is an rc_end_reason. No call is left but rc_free */
    RC_PIECE,     /* a piece of a body: `bytes` */
    RC_TRAILERS,  /* the lines behind a body in chunks: `fields` */
    RC_END,       /* the body's end */
    RC_BROKEN,    /* the body is broken: `reason` 1 for wrong chunks, 2 for an input that ended inside it */
    RC_GIVES,     /* of rc_front: `bytes` */
    RC_EXPIRED,   /* of rc_tick: a time has run out, and the connection closes: `reason` is an rc_end_reason */
    RC_ABANDONED, /* of rc_tick: the peer took too long to read what was to be written: close the socket */
    RC_FRAME,     /* a frame: its opcode in `minor`, its payload in `bytes`, the code of a Close in `number`, 0 for none */
    RC_PROTOCOL,  /* a rule of WebSocket is broken: `reason` is an rc_rule */
    RC_REFUSED,   /* of rc_accept: the request fails a check: `reason` is an rc_check. It is still to be answered */
    RC_STATE,     /* of rc_state: `state`, and in `reason` why the connection closes, or RC_OPEN */
    RC_HOLDS,     /* of rc_held: `bytes` */
    RC_AHEAD      /* of rc_ahead: `number` heads */
} rc_kind;

/* How a body that comes ends: rc_event.body of RC_HEAD. */
typedef enum {
    RC_BODY_NONE,    /* there is none: nothing is to be pulled */
    RC_BODY_LENGTH,  /* after `number` bytes */
    RC_BODY_CHUNKED, /* by its chunks */
    RC_BODY_RAW      /* with the connection: of CONNECT, an upgrade, or an answer without a length */
} rc_body;

/* Why a connection ends. */
typedef enum {
    RC_OPEN,             /* it doesn't */
    RC_END_MALFORMED,    /* a head is refused */
    RC_END_TOO_LARGE,    /* a head is larger than may be held */
    RC_END_SLOW_REQUEST, /* the first head didn't come in time */
    RC_END_KEEP_ALIVE,   /* no further request came in time */
    RC_END_PROTOCOL,     /* a rule of WebSocket was broken */
    RC_END_BODY_FAILED,  /* rc_fail; of a client also a body that lacks bytes of its length */
    RC_END_BODY_SHORT,   /* an answer's body lacks bytes of its length */
    RC_END_ASKED,        /* a side asked for it, or nothing may follow the last message */
    RC_END_BROKEN_BODY,  /* a body that came is broken */
    RC_END_UNREAD_BODY,  /* the answer is whole, and the body of its request wasn't read */
    RC_END_DRAINED,      /* rc_drain */
    RC_END_HALF_CLOSED,  /* the peer sends no more, and the settings don't allow that */
    RC_END_INPUT_ENDED,  /* the peer sends no more, and there is nothing left to do */
    RC_END_UNASKED       /* of a client: bytes came that no request asked for */
} rc_end_reason;

/* Rules of WebSocket (RFC 6455, section 5). */
typedef enum {
    RC_RULE_UNMASKED = 1,
    RC_RULE_MASKED,
    RC_RULE_UNKNOWN_OPCODE,
    RC_RULE_RESERVED_BITS,
    RC_RULE_CONTROL_LENGTH,
    RC_RULE_BAD_OPCODE,
    RC_RULE_TOO_LARGE,
    RC_RULE_NOT_STARTED,
    RC_RULE_STARTED,
    RC_RULE_FRAGMENT
} rc_rule;

/* Checks of an upgrade to WebSocket (RFC 6455, section 4.2.1). */
typedef enum {
    RC_CHECK_METHOD = 1,
    RC_CHECK_UPGRADE,
    RC_CHECK_CONNECTION,
    RC_CHECK_NO_VERSION,
    RC_CHECK_VERSION,
    RC_CHECK_KEY
} rc_check;

/* The numbers of rc_state. */
typedef struct {
    uint32_t can;       /* what may come next: RC_CAN_ bits */
    uint32_t waiting;   /* of a client: requests without an answer; of a server 0 */
    uint64_t buffered;  /* how many bytes wait to be written */
    uint64_t write_room; /* while it is above 0 another piece of a body may be handed in */
    uint64_t held;      /* how many bytes came and were not passed */
    uint64_t read_room; /* how many more may be held: rc_read takes no more */
    uint64_t deadline;  /* the moment at which a time runs out, UINT64_MAX for none: call rc_tick then */
} rc_numbers;

typedef struct {
    uint32_t kind;       /* rc_kind */
    uint32_t reason;     /* what `kind` says; of a client's RC_HEAD the status */
    uint64_t number;     /* what `kind` says; of RC_HEAD with RC_BODY_LENGTH the length */
    rc_span bytes;       /* a piece, a payload, what is to be written, what is held */
    rc_span method;      /* of a server's RC_HEAD; of a client's the reason phrase */
    rc_span target;      /* of a server's RC_HEAD */
    uint32_t minor;      /* of RC_HEAD: 0 for HTTP/1.0, 1 for HTTP/1.1; of RC_FRAME the opcode */
    uint32_t body;       /* rc_body */
    rc_numbers state;    /* of RC_STATE */
    size_t count;        /* how many of `fields` are told */
    rc_field fields[RC_MAX_FIELDS];
} rc_event;

typedef struct {
    uint64_t keep_alive_ms;  /* for the next request; 0: the connection closes after each answer */
    uint64_t request_ms;     /* for the first head; 0: no limit */
    uint64_t disconnect_ms;  /* for a closing connection to be written out; 0: no limit */
    size_t write_buffer;     /* so many bytes may wait to be written before pieces of a body have to wait: 1 at least */
    size_t hold_size;        /* so many bytes of the input may be held: 8192 to 1048576 */
    bool half_closed;        /* whether a peer that sends no more is still answered */
    bool client;
} rc_config;

static const rc_config RC_SERVER_CONFIG = {5000, 5000, 0, 32768, 131072, true, false};
static const rc_config RC_CLIENT_CONFIG = {5000, 5000, 0, 32768, 131072, true, true};

/* The size of a body that is sent: its length, or one of these. */
#define RC_SIZE_STREAM UINT64_MAX     /* as many bytes as come: in chunks, or up to the connection's end */
#define RC_SIZE_NONE (UINT64_MAX - 1) /* no body, and no length is written: of 204 and 304, of a request without one */

enum {
    RC_CAN_READ = 1,       /* rc_read, rc_eof */
    RC_CAN_NEXT = 2,       /* rc_next */
    RC_CAN_PULL = 4,       /* rc_pull */
    RC_CAN_DROP = 8,       /* rc_drop_body */
    RC_CAN_CONTINUE = 16,  /* rc_continue: the client of the open request waits for it */
    RC_CAN_ANSWER = 32,    /* rc_answer */
    RC_CAN_CHUNK = 64,     /* rc_chunk */
    RC_CAN_END = 128,      /* rc_end, rc_fail */
    RC_CAN_WRITE = 256,    /* rc_advance */
    RC_CAN_DRAIN = 512,    /* rc_drain */
    RC_CAN_ACCEPT = 1024,  /* rc_accept with some limit: the open request is raw */
    RC_CAN_FRAME = 2048,   /* rc_frame */
    RC_CAN_SEND = 4096,    /* rc_send */
    RC_REUSABLE = 8192     /* of a client: another request may be asked once all that was is done. rc_ask answers by itself */
};

/* What becomes of the connection behind a message: what its version says, or one of the others. */
typedef enum { RC_KEEP_DEFAULT, RC_CLOSE, RC_KEEP_ALIVE, RC_UPGRADE } rc_keep;

/* The library's four functions. Use the calls below, which name what is asked. */
uint32_t raspcream_abi(void);
uint32_t raspcream_open(const rc_config *, void **out);
uint32_t raspcream_call(void *, uint32_t op, uint64_t number, const uint8_t *data, size_t len, rc_event *);
void raspcream_drop(void *);

/* The library's version of this header: compare it with RC_ABI. */
static inline uint32_t rc_abi(void) { return raspcream_abi(); }

/* A connection to which nothing has come. RC_INVALID: `write_buffer` or `hold_size` is out of range. */
static inline rc_code rc_new(const rc_config *config, rc_conn **out) {
    void *at = NULL;
    uint32_t code = raspcream_open(config, &at);
    if (code == RC_OK) *out = (rc_conn *)at;
    return (rc_code)code;
}

/* The end of a handle. Of NULL nothing. */
static inline void rc_free(rc_conn *c) {
    if (c) {
        raspcream_drop(c);
        free(c);
    }
}

static inline rc_code rc_call_(rc_conn *c, uint32_t op, uint64_t number, const void *data, size_t len, rc_event *e) {
    return (rc_code)raspcream_call(c, op, number, len ? (const uint8_t *)data : (const uint8_t *)"", len, e);
}

/* ---- what came from the peer */

/* Bytes were read. RC_TOOK says how many there was room for, from the first on: hand in the others later. */
static inline rc_code rc_read(rc_conn *c, const void *data, size_t len, rc_event *e) { return rc_call_(c, 0, 0, data, len, e); }

/* The peer sends no more. */
static inline rc_code rc_eof(rc_conn *c, rc_event *e) { return rc_call_(c, 1, 0, NULL, 0, e); }

/* The time. RC_DONE, RC_EXPIRED or RC_ABANDONED. A moment that is before the last one is RC_MISPLACED, and so is one of the
 * year 10000 or later. Call it before the first answer or request, which is dated by it, and from then on at least at each
 * deadline. */
static inline rc_code rc_tick(rc_conn *c, uint64_t moment, rc_event *e) { return rc_call_(c, 12, moment, NULL, 0, e); }

/* ---- what is handed out */

/* The next head: RC_HEAD, RC_FAULT, RC_PENDING or RC_CLOSED. Where the connection closes, all is to be written first. */
static inline rc_code rc_next(rc_conn *c, rc_event *e) { return rc_call_(c, 2, 0, NULL, 0, e); }

/* More of the body: RC_PIECE, RC_TRAILERS, RC_END, RC_BROKEN or RC_PENDING. Of a message without a body RC_MISPLACED. */
static inline rc_code rc_pull(rc_conn *c, rc_event *e) { return rc_call_(c, 3, 0, NULL, 0, e); }

/* The rest of the body isn't wanted. */
static inline rc_code rc_drop_body(rc_conn *c, rc_event *e) { return rc_call_(c, 4, 0, NULL, 0, e); }

/* The bytes that came and were not passed, from place `start` on: RC_HOLDS, with as many as lie together. Ask again behind
 * them until there are none. Who hands a connection over, behind an upgrade or CONNECT, hands these over with it. */
static inline rc_code rc_held(rc_conn *c, size_t start, rc_event *e) { return rc_call_(c, 18, start, NULL, 0, e); }

/* ---- what is sent */

/* Lines are handed in packed, so that no value can end its line: the lengths of the name and of the value, four bytes each
 * with the lowest first, then the name, then the value. A line of 4 GiB or more is packed without its bytes, which is refused. */
static inline bool rc_fits_(size_t name, size_t value) { return name <= UINT32_MAX && value <= UINT32_MAX; }
static inline size_t rc_packed(size_t name, size_t value) { return rc_fits_(name, value) ? 8 + name + value : 8; }

/* Packs a line at `to`, and answers where the next one goes. */
static inline uint8_t *rc_pack(uint8_t *to, const void *name, size_t name_len, const void *value, size_t value_len) {
    if (!rc_fits_(name_len, value_len)) name_len = value_len = 0;
    for (int i = 0; i < 4; i++) {
        to[i] = (uint8_t)(name_len >> (8 * i));
        to[4 + i] = (uint8_t)(value_len >> (8 * i));
    }
    memcpy(to + 8, name, name_len);
    memcpy(to + 8 + name_len, value, value_len);
    return to + 8 + name_len + value_len;
}

/* Answers the open request. RC_INVALID: a status below 100 or above 999, a `keep` that is none, a name or a value that none may
 * be, or lines that aren't packed. `content-length`, `transfer-encoding`, `connection` and `date` are written by the library. */
static inline rc_code rc_answer(rc_conn *c, unsigned status, rc_keep keep, uint64_t size, const uint8_t *packed, size_t len, rc_event *e) {
    if (status > 999 || (unsigned)keep > RC_UPGRADE) status = 1000, keep = RC_KEEP_DEFAULT; /* the library refuses it, and clears the event */
    return rc_call_(c, 6 | (status | (uint32_t)keep << 10) << 8, size, packed, len, e);
}

/* A client asks a request of HTTP/1.`minor`. The first pair of `packed` is the method and the target, the others are lines.
 * RC_INVALID: a `minor` above 1, a `keep`, a method, a target, a name or a value that none may be, or text that isn't packed. */
static inline rc_code rc_ask(rc_conn *c, unsigned minor, rc_keep keep, uint64_t size, const uint8_t *packed, size_t len, rc_event *e) {
    if (minor > 1 || (unsigned)keep > RC_UPGRADE) keep = RC_KEEP_DEFAULT, len = 0; /* the library refuses a request without a method */
    return rc_call_(c, 6 | ((uint32_t)(minor == 0) | (uint32_t)keep << 10) << 8, size, packed, len, e);
}

/* Tells the client of the open request to go on with its body. */
static inline rc_code rc_continue(rc_conn *c, rc_event *e) { return rc_call_(c, 5, 0, NULL, 0, e); }

/* A piece of the body that is sent: it is copied. RC_MISPLACED where `write_room` is 0: write first. */
static inline rc_code rc_chunk(rc_conn *c, const void *data, size_t len, rc_event *e) { return rc_call_(c, 7, 0, data, len, e); }

/* That body is whole. Of a message without a body, or with one of 0 bytes, RC_MISPLACED. */
static inline rc_code rc_end(rc_conn *c, rc_event *e) { return rc_call_(c, 8, 0, NULL, 0, e); }

/* That body failed: the connection closes. */
static inline rc_code rc_fail(rc_conn *c, rc_event *e) { return rc_call_(c, 9, 0, NULL, 0, e); }

/* No further request is answered: the connection closes once none is open. */
static inline rc_code rc_drain(rc_conn *c, rc_event *e) { return rc_call_(c, 13, 0, NULL, 0, e); }

/* ---- what is to be written */

/* The bytes to write next, where they lie: RC_GIVES, without a byte where none waits. */
static inline rc_code rc_front(rc_conn *c, rc_event *e) { return rc_call_(c, 10, 0, NULL, 0, e); }

/* So many of them were written. RC_INVALID: as many don't wait. */
static inline rc_code rc_advance(rc_conn *c, size_t count, rc_event *e) { return rc_call_(c, 11, count, NULL, 0, e); }

/* ---- WebSocket (RFC 6455) */

/* The open request upgrades the connection: RC_DONE, or RC_REFUSED. No frame may have a payload of more than `limit` bytes. */
static inline rc_code rc_accept(rc_conn *c, size_t limit, rc_event *e) { return rc_call_(c, 14, limit, NULL, 0, e); }

/* The next frame: RC_FRAME, RC_PROTOCOL or RC_PENDING. Opcodes: 1 text, 2 binary, 8 Close, 9 Ping, 10 Pong; of a message in
 * fragments 17 its first of text, 18 its first of bytes, 16 one between, 0 its last. */
static inline rc_code rc_frame(rc_conn *c, rc_event *e) { return rc_call_(c, 15, 0, NULL, 0, e); }

/* Sends a frame of such an opcode. Of a Close the payload is its reason, and `close_code` 0 is a Close without one. RC_DONE, or
 * RC_PROTOCOL for a fragment that may not stand there. RC_INVALID: an unknown opcode, a text or a reason that isn't UTF-8, or a
 * code above 65535. */
static inline rc_code rc_send(rc_conn *c, unsigned opcode, unsigned close_code, const void *data, size_t len, rc_event *e) {
    if (opcode > 255) opcode = 255; /* there is no such opcode either, and the event is cleared */
    return rc_call_(c, 16 | opcode << 8, close_code, data, len, e);
}

/* ---- questions, which change nothing */

/* What may come next, and the numbers of the connection: RC_STATE. */
static inline rc_code rc_state(rc_conn *c, rc_event *e) { return rc_call_(c, 17, 0, NULL, 0, e); }

/* Of a server's side how many heads stand ahead of the one that was handed out last, 16 at most: RC_AHEAD. None does behind a
 * request with a body. Each is read for it, which may want memory: ask where the number is needed, and not at each step. */
static inline rc_code rc_ahead(rc_conn *c, rc_event *e) { return rc_call_(c, 19, 0, NULL, 0, e); }

#ifdef __cplusplus
}
#endif
#endif
