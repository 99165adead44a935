/* Calls in any order, half of them misplaced or with wrong arguments, and every span is read: calls SEED COUNT. */
#include <raspcream.h>
#include <stdio.h>

static uint64_t seed;

/* A number below `most`. */
static uint32_t any(uint32_t most) {
    seed ^= seed << 13, seed ^= seed >> 7, seed ^= seed << 17;
    return (uint32_t)(seed >> 11) % most;
}

#define UPGRADE "Upgrade: websocket\r\nConnection: Upgrade\r\nSec-WebSocket-Key: dGhlIHNhbXBsZSBub25jZQ==\r\nSec-WebSocket-Version: 13\r\n"
#define MASKED "\x81\x85\x37\xfa\x21\x3d\x7f\x9f\x4d\x51\x58"

static const char *parts[] = {
    "GET ", "POST ", "/ ", "/a?b", " HTTP/1.1\r\n", " HTTP/1.0\r\n", "Host: a\r\n", "Content-Length: 5\r\n", "Transfer-Encoding: chunked\r\n",
    "\r\n", "\r\n", "hello", "5\r\nhello\r\n", "0\r\n", "X: y\r\n", "Connection: close\r\n", "Expect: 100-continue\r\n", UPGRADE, MASKED,
    "\x01\x80zzzz", "\x88\x80zzzz", "HTTP/1.1 200 OK\r\n", "HTTP/1.1 101 X\r\n", "\xff"};
static const char *messages[] = {
    "GET / HTTP/1.1\r\nHost: a\r\n\r\n", "POST / HTTP/1.1\r\nHost: a\r\nContent-Length: 5\r\n\r\nhello",
    "POST / HTTP/1.1\r\nHost: a\r\nTransfer-Encoding: chunked\r\n\r\n5\r\nhello\r\n0\r\nX: y\r\n\r\n", "GET / HTTP/1.1\r\nHost: a\r\n" UPGRADE "\r\n",
    "PUT / HTTP/1.1\r\nHost: a\r\nExpect: 100-continue\r\nContent-Length: 5\r\n\r\n", "hello", MASKED,
    "HTTP/1.1 200 OK\r\ncontent-length: 5\r\n\r\nhello", "HTTP/1.1 200 OK\r\ntransfer-encoding: chunked\r\n\r\n5\r\nhello\r\n0\r\nX: y\r\n\r\n",
    "HTTP/1.1 100 Go\r\n\r\n", "HTTP/1.1 204 No\r\n\r\n"};

static uint8_t room[16384];

/* Fills `room` with words, and says how many bytes they have. */
static size_t words(bool whole) {
    size_t len = 0;
    for (uint32_t count = 1 + any(6); count > 0; count--) {
        const char *word = whole ? messages[any(sizeof messages / sizeof *messages)] : parts[any(sizeof parts / sizeof *parts)];
        memcpy(room + len, word, strlen(word));
        len += strlen(word);
    }
    while (any(20) == 0 && len < 8000) room[len++] = (uint8_t)any(256);
    return len;
}

/* Packs lines, some of which aren't any, and sometimes cuts them off. */
static size_t lines(bool client) {
    uint8_t *end = room;
    if (client) end = rc_pack(end, any(2) ? "GET" : "POST", any(5), "/x y", any(5));
    for (uint32_t count = any(4); count > 0; count--) end = rc_pack(end, "x-a\r", any(5), "val\n", any(5));
    size_t len = (size_t)(end - room);
    return any(9) == 0 ? any((uint32_t)len + 1) : len;
}

static volatile size_t sum;

static void look(rc_span span) {
    for (size_t i = 0; i < span.len; i++) sum += span.at[i];
}

static void look_at(const rc_event *e) {
    look(e->bytes), look(e->method), look(e->target);
    for (size_t i = 0; i < e->count; i++) look(e->fields[i].name), look(e->fields[i].value);
}

/* A call that may come next, or any. */
static uint32_t wanted(rc_conn *c, rc_event *e, bool client) {
    static const uint32_t calls[13] = {0, 2, 3, 4, 5, 6, 7, 8, 11, 13, 14, 15, 16};
    if (any(3) > 0 || rc_state(c, e) != RC_OK) return any(3) == 0 ? any(4) : any(21);
    uint32_t can = e->state.can | (client ? 32 : 0), bit = any(13);
    for (int i = 0; i < 13 && !(can >> bit & 1); i++) bit = (bit + 1) % 13;
    return calls[bit];
}

static rc_code call(rc_conn *c, rc_event *e, bool client, bool whole, uint64_t *moment) {
    uint32_t op = wanted(c, e, client);
    size_t len = 0;
    uint64_t number = any(2) ? any(70000) : 0;
    if (op == 1 && any(8) > 0) op = 2;
    if (op == 13 && any(8) > 0) op = 10;
    if (op == 0 || op == 7 || op == 16) len = words(whole);
    if (op == 16) op |= any(20) << 8, number = any(2) ? 1000 : number;
    if (op == 6) {
        len = lines(client);
        number = any(3) == 0 ? RC_SIZE_STREAM : any(2) ? RC_SIZE_NONE : any(8);
        op |= (client ? any(2) : any(4) ? 200 : any(1024)) << 8 | any(4) << 18;
    }
    if (op == 11 && any(2) && rc_front(c, e) == RC_OK) number = e->bytes.len;
    if (op == 12) *moment += any(1000), number = any(30) ? *moment : *moment - 5000;
    return (rc_code)raspcream_call(c, op, number, len ? room : (const uint8_t *)"", len, e);
}

int main(int count, char **given) {
    unsigned long codes[4] = {0}, kinds[19] = {0};
    long connections = count > 2 ? atol(given[2]) : 1000;
    rc_event e;
    seed = (count > 1 ? strtoull(given[1], NULL, 10) : 1) * 2654435761u + 88172645463325252ull;
    for (long i = 0; i < connections; i++) {
        bool client = any(3) == 0, whole = any(4) > 0;
        rc_config config = {any(2) * 5000, any(2) * 5000, any(2) * 1000, any(2) ? 32768 : 1 + any(40), any(2) ? 8192 : 131072, any(2) == 0, client};
        uint64_t moment = 1700000000000;
        rc_conn *c;
        if (rc_new(&config, &c) != RC_OK) return 1;
        for (uint32_t calls = 20 + any(200); calls > 0; calls--) {
            rc_code code = call(c, &e, client, whole, &moment);
            if (code > RC_INVALID || e.kind > RC_AHEAD || e.count > RC_MAX_FIELDS) return puts("no such answer"), 1;
            codes[code]++, kinds[e.kind] += code == RC_OK;
            look_at(&e);
        }
        rc_free(c);
    }
    printf("codes");
    for (int i = 0; i < 4; i++) printf(" %lu", codes[i]);
    printf("\nkinds");
    for (int i = 0; i < 19; i++) printf(" %lu", kinds[i]);
    puts("");
    return 0;
}
