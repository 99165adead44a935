"""The names of h11, over the engine: `import raspcream.h11 as h11`.

    conn = h11.Connection(h11.SERVER)
    conn.receive_data(sock.recv(65536))
    event = conn.next_event()       # Request, Data, EndOfMessage, ConnectionClosed, NEED_DATA, PAUSED
    sock.sendall(conn.send(h11.Response(status_code=200, headers=[(b"content-length", b"2")])))
    sock.sendall(conn.send(h11.Data(data=b"hi")) + conn.send(h11.EndOfMessage()))
    conn.start_next_cycle()

The engine reads all that comes, checks the lines that are sent, says how a body is framed and when the connection ends, and
writes bodies. The extension writes heads and trailers, with the caller's reason, and its lines in their order and case.

What differs from h11: lines of one name come together, with the name in lower case; 128 KiB may wait for the rest of an event
where no `max_incomplete_event_size` is given, and 1 MiB of a head at most; a piece of a body doesn't say where it stands in its
chunk; no body's length is sent with a status of 100 to 199 or 204, for CONNECT, or behind a body; empty lines before a request
are passed over; a client can't send CONNECT; a server closes the connection where it declines a CONNECT without a length, or an
upgrade that the `connection` line names; nothing is answered before a request came.
"""
from ._conn import Connection, ConnectionClosed, Data, EndOfMessage, Event, InformationalResponse, Request, Response
from ._words import (
    CLIENT, CLOSED, DONE, ERROR, IDLE, MIGHT_SWITCH_PROTOCOL, MUST_CLOSE, NEED_DATA, PAUSED, SEND_BODY, SEND_RESPONSE, SERVER,
    SWITCHED_PROTOCOL, Headers, LocalProtocolError, ProtocolError, RemoteProtocolError,
)

__all__ = [
    "Connection", "Event", "Request", "InformationalResponse", "Response", "Data", "EndOfMessage", "ConnectionClosed",
    "CLIENT", "SERVER", "NEED_DATA", "PAUSED", "IDLE", "SEND_RESPONSE", "SEND_BODY", "DONE", "MUST_CLOSE", "CLOSED", "ERROR",
    "MIGHT_SWITCH_PROTOCOL", "SWITCHED_PROTOCOL", "ProtocolError", "LocalProtocolError", "RemoteProtocolError", "PRODUCT_ID",
]

PRODUCT_ID = "python-raspcream/0.1.0"
