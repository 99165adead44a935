/* A server over poll: serve PORT. Each request is answered with its method, its target and how many bytes its body had. */
#include <arpa/inet.h>
#include <errno.h>
#include <fcntl.h>
#include <poll.h>
#include <raspcream.h>
#include <stdio.h>
#include <sys/socket.h>
#include <time.h>
#include <unistd.h>

enum { MOST = 512 };
struct peer { rc_conn *conn; char said[256]; int len; unsigned long body; bool open, full; };
static struct pollfd fds[MOST];
static struct peer peers[MOST];
static rc_event e;

/* The moment, which never goes back, as rc_tick wants it. */
static uint64_t now(void) {
    static uint64_t last;
    struct timespec t;
    timespec_get(&t, TIME_UTC);
    uint64_t ms = (uint64_t)t.tv_sec * 1000 + (uint64_t)t.tv_nsec / 1000000;
    return last = ms > last ? ms : last;
}

/* Writes what waits, as far as the socket takes it. */
static bool flush(int fd, struct peer *p) {
    while (rc_front(p->conn, &e) == RC_OK && e.bytes.len > 0) {
        ssize_t n = send(fd, e.bytes.at, e.bytes.len, MSG_NOSIGNAL);
        if (n < 0) return p->full = true, errno == EAGAIN;
        if (rc_advance(p->conn, (size_t)n, &e) != RC_OK) return false;
    }
    return p->full = false, true;
}

/* Does what can be done without more bytes; false where the connection is over. */
static bool go_on(int fd, struct peer *p) {
    for (;;) {
        if (!p->open) {
            if (!flush(fd, p)) return false;
            if (p->full) return true;
            if (rc_next(p->conn, &e) != RC_OK || e.kind == RC_CLOSED) return false;
            if (e.kind == RC_PENDING) return true;
            if (e.kind == RC_FAULT) continue; /* the library has answered it */
            p->open = true, p->body = 0;
            p->len = snprintf(p->said, 200, "%.*s %.*s", (int)e.method.len, e.method.at, (int)e.target.len, e.target.at);
            if (p->len > 199) p->len = 199;
            if (e.body != RC_BODY_NONE) rc_continue(p->conn, &e); /* RC_MISPLACED where the client doesn't wait for it */
        } else if (rc_pull(p->conn, &e) == RC_NO_MEMORY) {
            return false;
        } else if (e.kind == RC_PIECE) {
            p->body += e.bytes.len;
        } else if (e.kind == RC_PENDING) {
            return flush(fd, p);
        } else if (e.kind == RC_BROKEN) {
            return false;
        } else if (e.kind != RC_TRAILERS) { /* the body's end, or RC_MISPLACED: there is none */
            uint8_t lines[64], *end = rc_pack(lines, "content-type", 12, "text/plain", 10);
            p->len += snprintf(p->said + p->len, sizeof p->said - (size_t)p->len, " %lu\n", p->body);
            if (rc_answer(p->conn, 200, RC_KEEP_DEFAULT, (uint64_t)p->len, lines, (size_t)(end - lines), &e) != RC_OK ||
                rc_chunk(p->conn, p->said, (size_t)p->len, &e) != RC_OK || rc_end(p->conn, &e) != RC_OK) return false;
            p->open = false;
        }
    }
}

/* Takes what the socket gives, and tells the time; false where the connection is over. */
static bool turn(struct pollfd *f, struct peer *p) {
    static uint8_t room[65536];
    if (rc_tick(p->conn, now(), &e) != RC_OK || e.kind == RC_ABANDONED) return false;
    rc_state(p->conn, &e);
    if (f->revents && (e.state.can & RC_CAN_READ) && e.state.read_room > 0) {
        ssize_t n = recv(f->fd, room, e.state.read_room < sizeof room ? e.state.read_room : sizeof room, 0);
        if (n < 0 && errno != EAGAIN) return false;
        if (n == 0) rc_eof(p->conn, &e);
        if (n > 0 && rc_read(p->conn, room, (size_t)n, &e) != RC_OK) return false;
    }
    return go_on(f->fd, p);
}

int main(int count, char **words) {
    struct sockaddr_in at = {.sin_family = AF_INET, .sin_port = htons((uint16_t)(count > 1 ? atoi(words[1]) : 8080)), .sin_addr.s_addr = htonl(INADDR_LOOPBACK)};
    int listener = socket(AF_INET, SOCK_STREAM, 0), yes = 1, most = 1;
    setsockopt(listener, SOL_SOCKET, SO_REUSEADDR, &yes, sizeof yes);
    if (bind(listener, (struct sockaddr *)&at, sizeof at) != 0 || listen(listener, 128) != 0) return perror("listen"), 1;
    fds[0] = (struct pollfd){listener, POLLIN, 0};
    for (;;) {
        uint64_t wait = 60000, moment = now();
        for (int i = 1; i < most; i++) {
            rc_state(peers[i].conn, &e);
            bool reads = (e.state.can & RC_CAN_READ) && e.state.read_room > 0;
            fds[i].events = (short)((reads ? POLLIN : 0) | (peers[i].full ? POLLOUT : 0));
            uint64_t left = e.state.deadline > moment ? e.state.deadline - moment : 0;
            wait = left < wait ? left : wait;
        }
        poll(fds, (nfds_t)most, (int)wait);
        for (int i = most - 1; i > 0; i--)
            if (!turn(&fds[i], &peers[i])) {
                close(fds[i].fd), rc_free(peers[i].conn);
                fds[i] = fds[--most], peers[i] = peers[most];
            }
        int fd = fds[0].revents && most < MOST ? accept(listener, NULL, NULL) : -1;
        if (fd < 0) continue;
        peers[most] = (struct peer){0};
        if (rc_new(&RC_SERVER_CONFIG, &peers[most].conn) != RC_OK) { close(fd); continue; }
        fcntl(fd, F_SETFL, O_NONBLOCK);
        fds[most++] = (struct pollfd){fd, POLLIN, 0};
    }
}
