/* The library for C at work: embed WORK FILE DEPTH COUNT.
 *
 * WORK get: so many requests of the file are read, so many in each read, and each is answered without a body; post: they have a
 * body, which is pulled; client: a GET is asked, and the file is its answer. nothing, front, state: calls that change nothing. */
#include <stdio.h>

#include "raspcream.h"

static rc_event event;
static size_t sum;

static void stop(const char *what) {
    fprintf(stderr, "embed: %s\n", what);
    exit(1);
}

static size_t text_of(const char *path, uint8_t *to, size_t room) {
    FILE *file = fopen(path, "rb");
    if (!file) stop("there is no such file");
    size_t length = fread(to, 1, room, file);
    fclose(file);
    return length;
}

static rc_conn *opened(const rc_config *config) {
    rc_conn *connection;
    if (rc_new(config, &connection) || rc_tick(connection, 1700000000000ull, &event)) stop("no connection");
    return connection;
}

static void pull_all(rc_conn *connection) {
    for (;;) {
        if (rc_pull(connection, &event)) stop("pull");
        if (event.kind == RC_END) return;
        if (event.kind != RC_PIECE) stop("no piece");
        sum += event.bytes.len;
    }
}

static void write_all(rc_conn *connection) {
    if (rc_front(connection, &event)) stop("front");
    sum += event.bytes.len;
    if (rc_advance(connection, event.bytes.len, &event)) stop("advance");
}

static void read_all(rc_conn *connection, const uint8_t *text, size_t length) {
    if (rc_read(connection, text, length, &event) || event.number != length) stop("read");
}

/* The next head, with all its fields looked at. */
static void take_head(rc_conn *connection) {
    if (rc_next(connection, &event) || event.kind != RC_HEAD) stop("no head");
    sum += event.method.len + event.target.len;
    for (size_t i = 0; i < event.count; i++) sum += event.fields[i].name.len + event.fields[i].value.len;
}

static void serve(const uint8_t *text, size_t length, long depth, long count, bool has_body) {
    rc_conn *connection = opened(&RC_SERVER_CONFIG);
    for (long done = 0; done < count; done += depth) {
        read_all(connection, text, length);
        for (long i = 0; i < depth; i++) {
            take_head(connection);
            if (has_body) pull_all(connection);
            if (rc_answer(connection, 200, RC_KEEP_DEFAULT, 0, NULL, 0, &event)) stop("answer");
        }
        write_all(connection);
    }
    rc_free(connection);
}

static void ask(const uint8_t *text, size_t length, long count) {
    uint8_t packed[64];
    size_t size = (size_t)(rc_pack(rc_pack(packed, "GET", 3, "/", 1), "host", 4, "a", 1) - packed);
    rc_conn *connection = opened(&RC_CLIENT_CONFIG);
    for (long done = 0; done < count; done++) {
        if (rc_ask(connection, 1, RC_KEEP_DEFAULT, RC_SIZE_NONE, packed, size, &event)) stop("ask");
        write_all(connection);
        read_all(connection, text, length);
        take_head(connection);
        pull_all(connection);
    }
    rc_free(connection);
}

static void call(const char *work, long count) {
    rc_conn *connection = opened(&RC_SERVER_CONFIG);
    for (long done = 0; done < count; done++) {
        if (work[0] == 'f') sum += rc_front(connection, &event);
        else if (work[0] == 's') sum += rc_state(connection, &event);
        else sum += rc_call_(connection, 99, 0, NULL, 0, &event);
    }
    rc_free(connection);
}

int main(int argc, char **argv) {
    static uint8_t text[1 << 20];
    if (argc != 5) stop("four words are wanted");
    const char *work = argv[1];
    long depth = atol(argv[3]), count = atol(argv[4]);
    size_t one = text_of(argv[2], text, sizeof text);
    if (depth < 1 || (size_t)depth * one > sizeof text) stop("no such depth");
    for (long i = 1; i < depth; i++) memcpy(text + (size_t)i * one, text, one);
    size_t length = (size_t)depth * one;
    if (!strcmp(work, "get")) serve(text, length, depth, count, false);
    else if (!strcmp(work, "post")) serve(text, length, depth, count, true);
    else if (!strcmp(work, "client")) ask(text, length, count);
    else call(work, count);
    printf("%zu\n", sum);
    return 0;
}
