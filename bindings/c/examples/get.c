/* A client: get ADDRESS PORT TARGET asks for a target, and writes the status and the body. */
#include <arpa/inet.h>
#include <raspcream.h>
#include <stdio.h>
#include <sys/socket.h>
#include <time.h>
#include <unistd.h>

static rc_event e;

static uint64_t now(void) {
    struct timespec t;
    timespec_get(&t, TIME_UTC);
    return (uint64_t)t.tv_sec * 1000 + (uint64_t)t.tv_nsec / 1000000;
}

static bool flush(int fd, rc_conn *conn) {
    while (rc_front(conn, &e) == RC_OK && e.bytes.len > 0) {
        ssize_t n = send(fd, e.bytes.at, e.bytes.len, MSG_NOSIGNAL);
        if (n < 0 || rc_advance(conn, (size_t)n, &e) != RC_OK) return false;
    }
    return true;
}

static bool ask(rc_conn *conn, const char *host, const char *target) {
    uint8_t packed[2048];
    if (strlen(target) + strlen(host) > 1900) return false;
    uint8_t *end = rc_pack(packed, "GET", 3, target, strlen(target));
    end = rc_pack(end, "host", 4, host, strlen(host));
    return rc_ask(conn, 1, RC_CLOSE, RC_SIZE_NONE, packed, (size_t)(end - packed), &e) == RC_OK;
}

/* Takes what can be taken without more bytes: 1 goes on, 0 is whole, -1 failed. */
static int take(rc_conn *conn, bool *has_head) {
    while (!*has_head) {
        if (rc_next(conn, &e) != RC_OK || e.kind == RC_FAULT || e.kind == RC_CLOSED) return -1;
        if (e.kind == RC_PENDING) return 1;
        if (e.reason < 200 && e.reason != 101) continue; /* the answer is still to come */
        fprintf(stderr, "%u %.*s\n", e.reason, (int)e.method.len, e.method.at);
        *has_head = true;
    }
    for (;;) {
        rc_code code = rc_pull(conn, &e);
        if (code == RC_MISPLACED || (code == RC_OK && e.kind == RC_END)) return 0;
        if (code != RC_OK || e.kind == RC_BROKEN) return -1;
        if (e.kind == RC_PENDING) return 1;
        if (e.kind == RC_PIECE) fwrite(e.bytes.at, 1, e.bytes.len, stdout);
    }
}

int main(int count, char **words) {
    if (count != 4) return fprintf(stderr, "get ADDRESS PORT TARGET\n"), 2;
    struct sockaddr_in at = {.sin_family = AF_INET, .sin_port = htons((uint16_t)atoi(words[2]))};
    int fd = socket(AF_INET, SOCK_STREAM, 0);
    if (inet_pton(AF_INET, words[1], &at.sin_addr) != 1 || connect(fd, (struct sockaddr *)&at, sizeof at) != 0) return perror("connect"), 1;
    rc_conn *conn;
    if (rc_new(&RC_CLIENT_CONFIG, &conn) != RC_OK) return 1;
    rc_tick(conn, now(), &e);
    bool has_head = false;
    int state = ask(conn, words[1], words[3]) && flush(fd, conn) ? 1 : -1;
    uint8_t room[65536];
    while (state == 1) {
        rc_state(conn, &e);
        size_t most = e.state.read_room < sizeof room ? e.state.read_room : sizeof room;
        ssize_t n = recv(fd, room, most, 0);
        if (n < 0) break;
        rc_code code = n == 0 ? rc_eof(conn, &e) : rc_read(conn, room, (size_t)n, &e);
        if (code != RC_OK) break;
        state = take(conn, &has_head);
        if (n == 0) break;
    }
    rc_free(conn);
    close(fd);
    return state == 0 ? 0 : 1;
}
