/* What the library does, and that it does the same with each allocation refused in turn, and in pieces of every size. */
#include <pthread.h>
#include <raspcream.h>
#include <stdio.h>

/* ---- a heap that refuses one allocation */

struct tried {
    bool ok;
    void *at;
};
static max_align_t nothing;
static _Thread_local long made, refused_at = -1, live, refused;

static bool refuses(void) { return made++ == refused_at; }

struct tried rattle_alloc(size_t size, size_t align) {
    if (refuses()) return (struct tried){false, &nothing};
    void *at = malloc(size ? size : align);
    live++;
    return (struct tried){at != NULL, at ? at : &nothing};
}

struct tried rattle_realloc(void *was, size_t kept, size_t size, size_t align) {
    (void)kept;
    if (refuses()) return (struct tried){false, &nothing};
    void *at = realloc(was, size ? size : align);
    return (struct tried){at != NULL, at ? at : &nothing};
}

void rattle_dealloc(void *at) {
    live--;
    free(at);
}

/* The end of a handle, whose own block goes back by `free`. */
static void end(rc_conn *c) {
    rc_free(c);
    live--;
}

/* ---- what is compared */

typedef struct {
    char at[65536];
    size_t len;
} text;

static void put(text *t, const void *at, size_t len) {
    if (len > sizeof t->at - t->len) abort();
    if (len > 0) memcpy(t->at + t->len, at, len);
    t->len += len;
}

static void say(text *t, const char *words) { put(t, words, strlen(words)); }

static bool same(const text *a, const char *words) { return a->len == strlen(words) && memcmp(a->at, words, a->len) == 0; }

/* A call that had no memory is made again with memory. */
#define DO(CALL) \
    do { \
        rc_code code_ = (CALL); \
        if (code_ == RC_NO_MEMORY) refused++, refused_at = -1, code_ = (CALL); \
        if (code_ != RC_OK) return printf("%s:%d: code %d\n", __FILE__, __LINE__, (int)code_), false; \
    } while (0)
#define WANT(FACT) \
    do { \
        if (!(FACT)) return printf("%s:%d: not so: %s\n", __FILE__, __LINE__, #FACT), false; \
    } while (0)

static bool written(rc_conn *c, rc_event *e, text *t) {
    for (;;) {
        DO(rc_front(c, e));
        size_t len = e->bytes.len;
        if (len == 0) return true;
        put(t, e->bytes.at, len);
        DO(rc_advance(c, len, e));
    }
}

static void tell_fields(text *t, const rc_event *e) {
    for (size_t i = 0; i < e->count; i++) {
        put(t, e->fields[i].name.at, e->fields[i].name.len);
        say(t, "=");
        put(t, e->fields[i].value.at, e->fields[i].value.len);
        say(t, "\n");
    }
}

/* ---- a server's side */

static const char *requests =
    "GET /abc?d=e HTTP/1.1\r\nHost: localhost:8080\r\nAccept: */*\r\n\r\n"
    "POST /p HTTP/1.1\r\nHost: a\r\nContent-Length: 5\r\n\r\nhello"
    "POST /c HTTP/1.1\r\nHost: a\r\nTransfer-Encoding: chunked\r\n\r\n3\r\nabc\r\n4\r\ndefg\r\n0\r\nX-Sum: 7\r\n\r\n"
    "GET /stream HTTP/1.1\r\nHost: a\r\n\r\n"
    "GET /last HTTP/1.1\r\nHost: a\r\nConnection: close\r\n\r\n";

/* What is to come of them: what was handed out, in its pieces joined, and what was written, in their order. */
static const char *served =
    "GET /abc?d=e\nhost=localhost:8080\naccept=*/*\n"
    "HTTP/1.1 200 OK\r\ncontent-length: 2\r\nx-a: b\r\ndate: Tue, 14 Nov 2023 22:13:20 GMT\r\n\r\nhi"
    "POST /p\nhost=a\ncontent-length=5\nhello"
    "HTTP/1.1 200 OK\r\ncontent-length: 2\r\nx-a: b\r\ndate: Tue, 14 Nov 2023 22:13:20 GMT\r\n\r\nhi"
    "POST /c\nhost=a\ntransfer-encoding=chunked\nabcdefgx-sum=7\n"
    "HTTP/1.1 200 OK\r\ncontent-length: 2\r\nx-a: b\r\ndate: Tue, 14 Nov 2023 22:13:20 GMT\r\n\r\nhi"
    "GET /stream\nhost=a\n"
    "HTTP/1.1 200 OK\r\ntransfer-encoding: chunked\r\nx-a: b\r\ndate: Tue, 14 Nov 2023 22:13:20 GMT\r\n\r\n3\r\none\r\n6\r\ntwotwo\r\n0\r\n\r\n"
    "GET /last\nhost=a\nconnection=close\n"
    "HTTP/1.1 200 OK\r\ncontent-length: 2\r\nconnection: close\r\nx-a: b\r\ndate: Tue, 14 Nov 2023 22:13:20 GMT\r\n\r\nhi"
    "closed\n";

static bool answer(rc_conn *c, rc_event *e, bool is_stream) {
    uint8_t lines[64], *last = rc_pack(lines, "x-a", 3, "b", 1);
    DO(rc_answer(c, 200, RC_KEEP_DEFAULT, is_stream ? RC_SIZE_STREAM : 2, lines, (size_t)(last - lines), e));
    DO(rc_chunk(c, is_stream ? "one" : "hi", is_stream ? 3 : 2, e));
    if (is_stream) DO(rc_chunk(c, "twotwo", 6, e));
    DO(rc_end(c, e));
    return true;
}

/* Does what can be done without more bytes. */
static bool serve_on(rc_conn *c, rc_event *e, text *t, int *count, bool *open, bool *has_body, bool *over) {
    for (;;) {
        if (!*open) {
            if (!written(c, e, t)) return false;
            DO(rc_next(c, e));
            if (e->kind == RC_PENDING) return true;
            if (e->kind == RC_CLOSED) return say(t, "closed\n"), *over = true, true;
            WANT(e->kind == RC_HEAD);
            put(t, e->method.at, e->method.len), say(t, " ");
            put(t, e->target.at, e->target.len), say(t, "\n");
            tell_fields(t, e);
            *open = true, *has_body = e->body != RC_BODY_NONE, ++*count;
            continue;
        }
        if (*has_body) {
            DO(rc_pull(c, e));
            if (e->kind == RC_PENDING) return true;
            if (e->kind == RC_PIECE) put(t, e->bytes.at, e->bytes.len);
            if (e->kind == RC_TRAILERS) tell_fields(t, e);
            if (e->kind != RC_END) continue;
        }
        if (!answer(c, e, *count == 4)) return false;
        *open = false;
    }
}

static bool serve(rc_conn *c, rc_event *e, text *t, size_t step) {
    size_t at = 0, all = strlen(requests);
    int count = 0;
    bool open = false, has_body = false, over = false;
    DO(rc_tick(c, 1700000000000, e));
    while (!over) {
        if (!serve_on(c, e, t, &count, &open, &has_body, &over)) return false;
        if (over) break;
        WANT(at < all);
        DO(rc_read(c, requests + at, all - at < step ? all - at : step, e));
        WANT(e->kind == RC_TOOK && e->number > 0);
        at += e->number;
    }
    return true;
}

static bool serves(rc_event *e, size_t step, long refusal) {
    static _Thread_local text t;
    rc_conn *c;
    t.len = 0, refused_at = -1;
    DO(rc_new(&RC_SERVER_CONFIG, &c));
    made = 0, refused_at = refusal;
    bool done = serve(c, e, &t, step);
    refused_at = -1;
    end(c);
    WANT(done);
    if (!same(&t, served)) return printf("in steps of %zu, without allocation %ld:\n%.*s", step, refusal, (int)t.len, t.at), false;
    return true;
}

/* ---- WebSocket, a client, and what is held */

static bool websocket(rc_event *e) {
    static _Thread_local text t;
    const char *request =
        "GET /chat HTTP/1.1\r\nHost: a\r\nUpgrade: websocket\r\nConnection: Upgrade\r\n"
        "Sec-WebSocket-Key: dGhlIHNhbXBsZSBub25jZQ==\r\nSec-WebSocket-Version: 13\r\n\r\n";
    rc_conn *c;
    t.len = 0;
    DO(rc_new(&RC_SERVER_CONFIG, &c));
    DO(rc_read(c, request, strlen(request), e));
    DO(rc_next(c, e));
    WANT(e->kind == RC_HEAD && e->body == RC_BODY_RAW);
    DO(rc_accept(c, 1000, e));
    WANT(e->kind == RC_DONE);
    if (!written(c, e, &t)) return false;
    WANT(t.len > 12 && memcmp(t.at, "HTTP/1.1 101", 12) == 0);
    DO(rc_read(c, "\x81\x85\x37\xfa\x21\x3d\x7f\x9f\x4d\x51\x58", 11, e)); /* RFC 6455, section 5.7 */
    DO(rc_frame(c, e));
    WANT(e->kind == RC_FRAME && e->minor == 1 && e->bytes.len == 5 && memcmp(e->bytes.at, "Hello", 5) == 0);
    rc_span payload = e->bytes;
    DO(rc_read(c, "\x89\x80zzzz", 6, e)); /* a Ping */
    DO(rc_send(c, 1, 0, "Hello", 5, e));
    WANT(payload.len == 5 && memcmp(payload.at, "Hello", 5) == 0);
    DO(rc_frame(c, e));
    WANT(e->kind == RC_FRAME && e->minor == 9 && e->bytes.len == 0);
    t.len = 0;
    if (!written(c, e, &t)) return false;
    WANT(same(&t, "\x81\x05Hello"));
    DO(rc_frame(c, e));
    WANT(e->kind == RC_PENDING);
    WANT(rc_send(c, 1, 0, "\xff", 1, e) == RC_INVALID);
    WANT(rc_send(c, 257, 0, "a", 1, e) == RC_INVALID && rc_send(c, 8, 65536, "", 0, e) == RC_INVALID);
    DO(rc_read(c, "\xff\xff\xff", 3, e));
    DO(rc_frame(c, e));
    WANT(e->kind == RC_PROTOCOL);
    end(c);
    return true;
}

static bool client(rc_event *e) {
    static _Thread_local text t;
    rc_conn *c;
    uint8_t packed[64], *last = rc_pack(packed, "POST", 4, "/x", 2);
    t.len = 0;
    last = rc_pack(last, "host", 4, "a", 1);
    DO(rc_new(&RC_CLIENT_CONFIG, &c));
    DO(rc_tick(c, 1700000000000, e));
    DO(rc_ask(c, 1, RC_KEEP_DEFAULT, 4, packed, (size_t)(last - packed), e));
    DO(rc_chunk(c, "body", 4, e));
    DO(rc_end(c, e));
    if (!written(c, e, &t)) return false;
    WANT(t.len > 18 && memcmp(t.at, "POST /x HTTP/1.1\r\n", 18) == 0 && memcmp(t.at + t.len - 8, "\r\n\r\nbody", 8) == 0);
    const char *came = "HTTP/1.1 200 Fine\r\nContent-Length: 3\r\nX-A: 1\r\n\r\nabc";
    DO(rc_read(c, came, strlen(came), e));
    DO(rc_next(c, e));
    WANT(e->kind == RC_HEAD && e->reason == 200 && e->number == 3 && e->method.len == 4 && e->count == 2);
    DO(rc_held(c, 0, e));
    WANT(e->bytes.len == 3 && memcmp(e->bytes.at, "abc", 3) == 0);
    DO(rc_pull(c, e));
    WANT(e->kind == RC_PIECE && e->bytes.len == 3);
    DO(rc_pull(c, e));
    WANT(e->kind == RC_END);
    DO(rc_state(c, e));
    WANT((e->state.can & RC_REUSABLE) && e->state.held == 0 && e->state.deadline == UINT64_MAX);
    WANT(rc_drain(c, e) == RC_INVALID && rc_ahead(c, e) == RC_INVALID);
    end(c);
    return true;
}

/* Requests that stand ahead are held, and counted. */
static bool held(rc_event *e) {
    rc_conn *c;
    text *all = calloc(1, sizeof *all);
    const char *first = "GET /1 HTTP/1.1\r\nHost: a\r\n\r\n", *others = "GET /2 HTTP/1.1\r\nHost: b\r\n\r\nGET /3 HTTP/1.1\r\nHost: c\r\n\r\nPOST";
    if (!all) return false;
    DO(rc_new(&RC_SERVER_CONFIG, &c));
    DO(rc_read(c, first, strlen(first), e));
    DO(rc_read(c, others, strlen(others), e));
    DO(rc_next(c, e));
    DO(rc_state(c, e));
    WANT(e->state.waiting == 0 && e->state.held == strlen(others));
    for (refused_at = 0;; refused_at++) {
        made = 0;
        rc_code code = rc_ahead(c, e);
        if (code == RC_OK) break;
        WANT(code == RC_NO_MEMORY && e->kind == RC_DONE);
    }
    WANT(refused_at > 0 && e->kind == RC_AHEAD && e->number == 2);
    refused_at = -1;
    DO(rc_state(c, e));
    WANT(e->state.held == strlen(others));
    for (;;) {
        DO(rc_held(c, all->len, e));
        if (e->bytes.len == 0) break;
        put(all, e->bytes.at, e->bytes.len);
    }
    WANT(same(all, others));
    free(all);
    end(c);
    return true;
}

/* ---- how long spans stand */

static bool holds(rc_span span, const char *words) { return span.len == strlen(words) && memcmp(span.at, words, span.len) == 0; }

static bool read_all(rc_conn *c, rc_event *e, const void *data, size_t len) {
    DO(rc_read(c, data, len, e));
    WANT(e->number == len);
    return true;
}

/* Those of a head, of a piece and of trailers, while all other calls come. */
static bool stand(rc_event *e) {
    static _Thread_local rc_event head, piece, lines;
    static const char more[40000] = "GET /2 HTTP/1.1\r\nHost: b\r\n\r\n";
    const char *request = "POST /p HTTP/1.1\r\nHost: a\r\nTransfer-Encoding: chunked\r\n\r\n5\r\nhello\r\n0\r\nX-Sum: 5\r\n\r\n";
    rc_conn *c;
    DO(rc_new(&RC_SERVER_CONFIG, &c));
    if (!read_all(c, e, request, strlen(request))) return false;
    DO(rc_next(c, &head));
    DO(rc_pull(c, &piece));
    WANT(rc_next(c, e) == RC_MISPLACED && rc_pull(c, &lines) == RC_OK);
    if (!read_all(c, e, more, strlen(more)) || !answer(c, e, false)) return false;
    DO(rc_tick(c, 1700000000000, e));
    DO(rc_front(c, e));
    DO(rc_advance(c, e->bytes.len, e));
    DO(rc_state(c, e));
    DO(rc_ahead(c, e));
    if (!read_all(c, e, more, sizeof more)) return false;
    WANT(holds(head.method, "POST") && holds(head.target, "/p") && head.count == 2 && holds(head.fields[0].value, "a"));
    WANT(lines.kind == RC_TRAILERS && holds(lines.fields[0].name, "x-sum") && holds(lines.fields[0].value, "5"));
    DO(rc_next(c, e));
    WANT(e->kind == RC_HEAD && holds(e->target, "/2"));
    end(c);
    DO(rc_new(&RC_SERVER_CONFIG, &c));
    request = "POST /p HTTP/1.1\r\nHost: a\r\nContent-Length: 100\r\n\r\nhello";
    if (!read_all(c, e, request, strlen(request))) return false;
    DO(rc_next(c, &head));
    DO(rc_pull(c, &piece));
    if (!read_all(c, e, more, 95) || !answer(c, e, false) || !read_all(c, e, more, sizeof more)) return false;
    WANT(holds(piece.bytes, "hello") && holds(head.target, "/p"));
    end(c);
    return true;
}

/* ---- wrong calls */

static bool wrong(rc_event *e) {
    rc_conn *c;
    rc_config config = RC_SERVER_CONFIG;
    uint8_t b[64], *last = rc_pack(b, "x", 1, "a\r\nb", 4);
    config.hold_size = 8191;
    WANT(rc_new(&config, &c) == RC_INVALID);
    config.hold_size = 1048577;
    WANT(rc_new(&config, &c) == RC_INVALID);
    config = RC_SERVER_CONFIG;
    config.write_buffer = 0;
    WANT(rc_new(&config, &c) == RC_INVALID);
    DO(rc_new(&RC_SERVER_CONFIG, &c));
    WANT(rc_answer(c, 200, RC_KEEP_DEFAULT, 0, NULL, 0, e) == RC_MISPLACED);
    WANT(rc_pull(c, e) == RC_MISPLACED && rc_frame(c, e) == RC_MISPLACED && rc_send(c, 1, 0, "", 0, e) == RC_MISPLACED);
    WANT(rc_advance(c, 1, e) == RC_INVALID && raspcream_call(c, 20, 0, b, 0, e) == RC_INVALID && raspcream_call(c, 99, 0, b, 0, e) == RC_INVALID);
    WANT(rc_ahead(c, e) == RC_OK && e->number == 0);
    DO(rc_read(c, "GET / HTTP/1.1\r\n\r\n", 18, e));
    DO(rc_next(c, e));
    WANT(e->kind == RC_HEAD && e->target.len == 1);
    WANT(rc_answer(c, 200, RC_KEEP_DEFAULT, 0, b, (size_t)(last - b), e) == RC_INVALID);
    WANT(e->target.len == 0 && e->kind == RC_DONE); /* nothing of the head is left in the event */
    WANT(rc_answer(c, 99, RC_KEEP_DEFAULT, 0, b, 0, e) == RC_INVALID && rc_answer(c, 1000, RC_KEEP_DEFAULT, 0, b, 0, e) == RC_INVALID);
    WANT(rc_state(c, e) == RC_OK && rc_answer(c, 1224, RC_KEEP_DEFAULT, 0, b, 0, e) == RC_INVALID && e->kind == RC_DONE);
    WANT(rc_state(c, e) == RC_OK && rc_answer(c, 200, (rc_keep)4, 0, b, 0, e) == RC_INVALID && e->kind == RC_DONE);
    WANT(rc_answer(c, 200, (rc_keep)0x4000, 0, b, 0, e) == RC_INVALID && rc_answer(c, 200, (rc_keep)-1, 0, b, 0, e) == RC_INVALID);
    WANT(rc_answer(c, 200, RC_KEEP_DEFAULT, 0, b, 7, e) == RC_INVALID); /* lengths are cut off */
    WANT(rc_answer(c, 200, RC_KEEP_DEFAULT, 0, b, 9, e) == RC_INVALID); /* bytes are cut off */
    DO(rc_answer(c, 204, RC_KEEP_DEFAULT, RC_SIZE_NONE, NULL, 0, e));
    WANT(rc_end(c, e) == RC_MISPLACED);
    DO(rc_read(c, "\0\1\2\r\n\r\n", 7, e));
    DO(rc_next(c, e));
    WANT(e->kind == RC_FAULT && e->reason == 1);
    end(c);
    return true;
}

/* A line whose length doesn't fit is packed as one that is refused: nothing of it is taken for a line. */
static bool large(rc_event *e) {
    rc_conn *c;
    uint8_t b[64];
    size_t large = (size_t)UINT32_MAX + 1;
    DO(rc_new(&RC_SERVER_CONFIG, &c));
    DO(rc_read(c, "GET / HTTP/1.1\r\n\r\n", 18, e));
    DO(rc_next(c, e));
    WANT(rc_packed(large, 1) == 8 && rc_packed(1, large) == 8 && rc_packed(3, 4) == 15);
    WANT(rc_pack(b, "x", large, "a", 1) == b + 8);
    WANT(rc_answer(c, 200, RC_KEEP_DEFAULT, 0, b, 8, e) == RC_INVALID);
    WANT(rc_pack(b, "x", 1, "a", large) == b + 8);
    WANT(rc_answer(c, 200, RC_KEEP_DEFAULT, 0, b, 8, e) == RC_INVALID);
    end(c);
    DO(rc_new(&RC_CLIENT_CONFIG, &c));
    uint8_t *last = rc_pack(b, "GET", 3, "/", 1);
    WANT(rc_ask(c, 2, RC_KEEP_DEFAULT, RC_SIZE_NONE, b, (size_t)(last - b), e) == RC_INVALID);
    WANT(rc_ask(c, 1, (rc_keep)4, RC_SIZE_NONE, b, (size_t)(last - b), e) == RC_INVALID);
    WANT(rc_pack(b, "x", large, "a", 1) == b + 8 && rc_ask(c, 1, RC_KEEP_DEFAULT, RC_SIZE_NONE, b, 8, e) == RC_INVALID);
    end(c);
    return true;
}

static bool opens(void) {
    rc_conn *c;
    for (refused_at = 0;; refused_at++) {
        made = 0;
        rc_code code = rc_new(&RC_SERVER_CONFIG, &c);
        if (code == RC_OK) break;
        WANT(code == RC_NO_MEMORY);
    }
    refused_at = -1;
    end(c);
    rc_free(NULL);
    return true;
}

static bool all(long *most) {
    static _Thread_local rc_event e;
    WANT(rc_abi() == RC_ABI);
    for (size_t step = 1; step <= 64; step++)
        if (!serves(&e, step, -1)) return false;
    if (!serves(&e, 100000, -1)) return false;
    *most = made;
    for (long refusal = 0; refusal <= *most; refusal++)
        if (!serves(&e, 100000, refusal) || !serves(&e, 7, refusal)) return false;
    if (!opens() || !websocket(&e) || !client(&e) || !held(&e) || !stand(&e) || !wrong(&e) || !large(&e)) return false;
    WANT(live == 0);
    return true;
}

static void *run(void *failed) {
    long most;
    *(bool *)failed = !all(&most);
    return NULL;
}

int main(void) {
    long most = 0;
    bool failed[4];
    pthread_t threads[4];
    if (!all(&most)) return 1;
    printf("%ld allocations at most, %ld refused\n", most, refused);
    for (int i = 0; i < 4; i++)
        if (pthread_create(&threads[i], NULL, run, &failed[i]) != 0) return 1;
    for (int i = 0; i < 4; i++) {
        pthread_join(threads[i], NULL);
        if (failed[i]) return puts("a thread failed"), 1;
    }
    puts("all passed");
    return 0;
}
