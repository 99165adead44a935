/* A WebSocket echo over one connection at a time: websocket_echo PORT. Each message comes back as it is. */
#include <arpa/inet.h>
#include <raspcream.h>
#include <stdio.h>
#include <sys/socket.h>
#include <time.h>
#include <unistd.h>

static rc_event e;

static uint64_t now(void) {
    struct timespec t;
    timespec_get(&t, TIME_UTC);
    return (uint64_t)t.tv_sec * 1000 + (uint64_t)t.tv_nsec / 1000000;
}

static bool flush(int fd, rc_conn *conn) {
    while (rc_front(conn, &e) == RC_OK && e.bytes.len > 0) {
        ssize_t n = send(fd, e.bytes.at, e.bytes.len, MSG_NOSIGNAL);
        if (n < 0 || rc_advance(conn, (size_t)n, &e) != RC_OK) return false;
    }
    return true;
}

/* Sends the frame in `e` back: a span of a handle isn't given back to it, so its payload is copied. */
static bool answer(rc_conn *conn) {
    static uint8_t payload[65536];
    size_t len = e.bytes.len;
    unsigned opcode = e.minor == 9 ? 10 : e.minor;
    memcpy(payload, e.bytes.at, len);
    return opcode == 10 && e.minor == 10 ? true : rc_send(conn, opcode, (unsigned)e.number, payload, len, &e) == RC_OK;
}

/* false: the connection is over. */
static bool go_on(rc_conn *conn, bool *upgraded) {
    while (!*upgraded) {
        if (rc_next(conn, &e) != RC_OK || e.kind == RC_CLOSED) return false;
        if (e.kind == RC_PENDING) return true;
        if (e.kind == RC_FAULT) continue;
        if (rc_accept(conn, 65536, &e) == RC_OK && e.kind == RC_DONE) {
            *upgraded = true;
        } else if (rc_answer(conn, 400, RC_CLOSE, 0, NULL, 0, &e) != RC_OK) {
            return false;
        } else {
            return true;
        }
    }
    while (rc_frame(conn, &e) == RC_OK) {
        if (e.kind == RC_PENDING) return true;
        if (e.kind == RC_PROTOCOL) return false;
        bool is_close = e.minor == 8;
        if (!answer(conn) || is_close) return false;
    }
    return false;
}

static void serve(int fd) {
    rc_conn *conn;
    bool upgraded = false;
    uint8_t room[4096];
    if (rc_new(&RC_SERVER_CONFIG, &conn) != RC_OK) return;
    rc_tick(conn, now(), &e);
    for (ssize_t n; (n = recv(fd, room, sizeof room, 0)) > 0;) {
        if (rc_read(conn, room, (size_t)n, &e) != RC_OK) break;
        bool goes_on = go_on(conn, &upgraded);
        if (!flush(fd, conn) || !goes_on) break;
    }
    rc_free(conn);
}

int main(int count, char **words) {
    struct sockaddr_in at = {.sin_family = AF_INET, .sin_port = htons((uint16_t)(count > 1 ? atoi(words[1]) : 8081)), .sin_addr.s_addr = htonl(INADDR_LOOPBACK)};
    int listener = socket(AF_INET, SOCK_STREAM, 0), yes = 1;
    setsockopt(listener, SOL_SOCKET, SO_REUSEADDR, &yes, sizeof yes);
    if (bind(listener, (struct sockaddr *)&at, sizeof at) != 0 || listen(listener, 16) != 0) return perror("listen"), 1;
    for (int fd; (fd = accept(listener, NULL, NULL)) >= 0; close(fd)) serve(fd);
    return 0;
}
