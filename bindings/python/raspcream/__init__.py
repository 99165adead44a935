"""HTTP/1.1 and WebSocket connections without input or output, by a proved engine.

`Conn` is one side of a connection, a server's or a client's. `raspcream.h11` has the names of h11, for programs that are
written for it.

    conn = Conn()
    conn.tick(int(time.time() * 1000))
    conn.read(sock.recv(65536))
    head = conn.next()                      # None, (kind, reason), or (Kind.HEAD, method, target, minor, body, length, headers)
    conn.answer(200, Keep.DEFAULT, 2, [(b"content-type", b"text/plain")])
    conn.chunk(b"hi")
    conn.end()
    sock.sendall(conn.take())
"""
from enum import IntEnum, IntFlag

from ._conn import Conn, Invalid, Misplaced

__all__ = ["Conn", "Misplaced", "Invalid", "Kind", "Body", "Keep", "Can", "STREAM", "NO_BODY"]

#: Sizes of a body that is sent: as many bytes as come, and none.
STREAM = -1
NO_BODY = -2


class Kind(IntEnum):
    """What came."""

    DONE = 0
    TOOK = 1
    HEAD = 2
    FAULT = 3
    PENDING = 4
    CLOSED = 5
    PIECE = 6
    TRAILERS = 7
    END = 8
    BROKEN = 9
    GIVES = 10
    EXPIRED = 11
    ABANDONED = 12
    FRAME = 13
    PROTOCOL = 14
    REFUSED = 15


class Body(IntEnum):
    """How a body that comes ends."""

    NONE = 0
    LENGTH = 1
    CHUNKED = 2
    RAW = 3


class Keep(IntEnum):
    """What becomes of the connection behind a message."""

    DEFAULT = 0
    CLOSE = 1
    ALIVE = 2
    UPGRADE = 3


class Can(IntFlag):
    """What may come next: the first number of `Conn.state()`."""

    READ = 1
    NEXT = 2
    PULL = 4
    DROP = 8
    CONTINUE = 16
    ANSWER = 32
    CHUNK = 64
    END = 128
    WRITE = 256
    DRAIN = 512
    ACCEPT = 1024
    FRAME = 2048
    SEND = 4096
    REUSABLE = 8192
