"""Calls in any order, half of them wrong, and from inside other calls: the interpreter goes on. It runs by pytest, by unittest,
and alone for longer: `test_random.py SEED SECONDS`."""
import array
import gc
import random
import sys
import time
import unittest

import raspcream.h11 as h11
from raspcream import Conn

UPGRADE = b"Upgrade: websocket\r\nConnection: Upgrade\r\nSec-WebSocket-Key: dGhlIHNhbXBsZSBub25jZQ==\r\nSec-WebSocket-Version: 13\r\n"
FRAME = b"\x81\x85\x37\xfa\x21\x3d\x7f\x9f\x4d\x51\x58"
PARTS = [
    b"GET ", b"POST ", b"/ ", b" HTTP/1.1\r\n", b" HTTP/1.0\r\n", b"Host: a\r\n", b"Content-Length: 5\r\n", b"Transfer-Encoding: chunked\r\n",
    b"\r\n", b"hello", b"5\r\nhello\r\n", b"0\r\n", b"X: y\r\n", b"Connection: close\r\n", b"Expect: 100-continue\r\n", UPGRADE, FRAME,
    b"HTTP/1.1 200 OK\r\n", b"HTTP/1.1 101 X\r\n", b"\xff",
]
MESSAGES = [
    b"GET / HTTP/1.1\r\nHost: a\r\n\r\n", b"POST / HTTP/1.1\r\nHost: a\r\nContent-Length: 5\r\n\r\nhello",
    b"POST / HTTP/1.1\r\nHost: a\r\nTransfer-Encoding: chunked\r\n\r\n5\r\nhello\r\n0\r\nX: y\r\n\r\n", b"GET / HTTP/1.1\r\nHost: a\r\n" + UPGRADE + b"\r\n",
    b"CONNECT a:1 HTTP/1.1\r\nHost: a\r\n\r\n", b"HTTP/1.1 200 OK\r\ncontent-length: 5\r\n\r\nhello",
    b"HTTP/1.1 200 OK\r\ntransfer-encoding: chunked\r\n\r\n5\r\nhello\r\n0\r\nX: y\r\n\r\n", b"HTTP/1.1 100 Go\r\n\r\n", b"HTTP/1.1 204 No\r\n\r\n",
]
NAMES = [b"a", "X-A", b"X", b"Content-Length", b"date", b"connection", b"Transfer-Encoding", b"host", b"Upgrade", b"bad name"]
VALUES = [b"5", b"b", "c", b"chunked", b"close", b"a\r\nb", b"upgrade"]
ALLOWED = ValueError, TypeError, RuntimeError, BufferError, AttributeError, h11.ProtocolError


class Player:
    def __init__(self, seed):
        self.random, self.depth, self.count = random.Random(seed), 0, 0

    def any(self, *given):
        return self.random.choice(given)

    def often(self, part):
        return self.random.random() < part

    def data(self):
        text = b"".join(self.any(*(MESSAGES if self.often(0.8) else PARTS)) for _ in range(self.random.randint(1, 5)))
        if self.often(0.05):
            text += b"a" * self.any(1000, 9000, 200000)
        if self.often(0.2):
            text = text[: self.random.randint(0, len(text))]
        return self.any(bytes, bytearray, memoryview)(text)

    def lines(self):
        lines = [(self.any(*NAMES), self.any(*VALUES)) for _ in range(self.random.randint(0, 4))]
        return self.any(lines, lines, lines, iter(lines), lines + [5])

    def event(self, conn):
        data = b"hello", b"", array.array("I", [1, 2]), memoryview(b"abcdef")[::2], Odd(self, conn), 5, b"x" * 50000
        return self.any(
            lambda: h11.Request(method=self.any(b"GET", "POST", b"HEAD", b"G T"), target=self.any("/", b"/x y"), headers=self.lines()),
            lambda: h11.InformationalResponse(status_code=self.any(100, 101, 103), headers=self.lines()),
            lambda: h11.Response(status_code=self.any(200, 204, 304), headers=self.lines(), reason=self.any("", "x")),
            lambda: h11.Data(data=self.any(*data)),
            lambda: h11.EndOfMessage(headers=self.lines()),
            lambda: self.any(h11.ConnectionClosed(), 5, h11.Response.__new__(h11.Response)),
        )()

    def on_conn(self, conn):
        pairs = self.any([(b"x", b"y")], Odd(self, conn), [(b"x", b"y\n")], ())
        sizes = self.any(-1, -2, 0, 5, -7)
        self.any(
            lambda: conn.read(self.data()),
            lambda: conn.read(self.data()),
            lambda: (conn.next(), conn.pull()),
            lambda: (conn.next(), conn.pull()),
            lambda: conn.answer(self.any(200, 204, 2**40, Odd(self, conn)), self.any(0, 1, 3, 9), sizes, pairs),
            lambda: conn.ask(self.any(b"GET", b"G T"), b"/", self.any(0, 1, 2), 0, sizes, pairs),
            lambda: conn.chunk(self.data()),
            lambda: conn.take(),
            lambda: (conn.held(), conn.state(), conn.ahead()),
            lambda: (conn.accept(1000), conn.frame()),
            lambda: conn.send(self.random.randint(0, 20), self.any(0, 1000, 2**33), self.data()),
            lambda: conn.tick(self.any(0, 2000, 9000) + 1_700_000_000_000),
            lambda: self.any(conn.end, conn.eof, conn.fail, conn.drain, conn.drop_body, conn.send_continue)(),
            lambda: conn.__init__(hold_size=Odd(self, conn)),
        )()

    def on_connection(self, conn):
        self.any(
            lambda: conn.receive_data(self.any(self.data(), self.data(), b"", Odd(self, conn))),
            lambda: repr(conn.next_event()),
            lambda: repr(conn.next_event()),
            lambda: self.any(conn.send, conn.send_with_data_passthrough)(self.event(conn)),
            lambda: conn.start_next_cycle(),
            lambda: (conn.trailing_data, conn.states, conn.bytes_to_send(), conn.their_http_version),
        )()

    def act(self, conn):
        """A call; True, as the number that some are asked for."""
        if self.depth < 3:
            self.depth += 1
            try:
                self.count += 1
                self.on_conn(conn) if type(conn) is Conn else self.on_connection(conn)
            except ALLOWED:
                pass
            finally:
                self.depth -= 1
        return True

    def connection(self):
        if self.often(0.5):
            return Conn(client=self.often(0.3))
        made = []
        now = self.any(None, lambda: float(all(map(self.act, made))))
        made.append(h11.Connection(self.any(h11.CLIENT, h11.SERVER), max_incomplete_event_size=self.any(100, 10000, 131072), now=now))
        return made[0]

    def play(self):
        conn = self.connection()
        gc.set_threshold(self.any(1, 3, 700), 1, 1)
        for _ in range(self.random.randint(5, 60)):
            if self.often(0.3):
                Loop(self, conn)
            self.act(conn)


class Odd:
    """Whatever is asked of it makes a call on the connection first."""

    def __init__(self, player, conn):
        self.act = lambda: player.act(conn)

    def __len__(self):
        return self.act() + 2

    def __iter__(self):
        return iter([(b"x", b"y")] * self.act())

    def __index__(self):
        return self.act() + 199

    def __bool__(self):
        return self.act()


class Loop:
    """The collector has it make a call."""

    def __init__(self, player, conn):
        self.player, self.conn, self.me = player, conn, self

    def __del__(self):
        self.player.act(self.conn)


def play(seed, seconds):
    player, end, was = Player(seed), time.monotonic() + seconds, gc.get_threshold()
    try:
        while time.monotonic() < end:
            player.play()
    finally:
        gc.set_threshold(*was)
        gc.collect()
    return player.count


class Random(unittest.TestCase):
    def test_calls_in_any_order(self):
        for seed in range(4):
            self.assertGreater(play(seed, 0.5), 100)


if __name__ == "__main__":
    if len(sys.argv) == 3:
        print(play(int(sys.argv[1]), float(sys.argv[2])), "calls")
    else:
        unittest.main()
