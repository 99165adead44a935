"""A server with a thread for each connection: serve.py PORT. Each request is answered with its method, its target and how many
bytes its body had."""
import socket
import sys
import threading

import raspcream.h11 as h11


def answer(conn: h11.Connection, request: h11.Request, size: int) -> bytes:
    text = b"%s %s %d\n" % (request.method, request.target, size)
    head = h11.Response(status_code=200, headers=[("Content-Length", str(len(text)))], reason=b"OK")
    body = h11.Data(data=b"" if request.method == b"HEAD" else text)
    return b"".join(conn.send(event) for event in (head, body, h11.EndOfMessage()))


def talk(conn: h11.Connection, sock: socket.socket) -> None:
    while True:
        event = conn.next_event()
        if event is h11.NEED_DATA:
            if conn.they_are_waiting_for_100_continue:
                sock.sendall(conn.send(h11.InformationalResponse(status_code=100, reason=b"Continue")))
            conn.receive_data(sock.recv(65536))
        elif type(event) is h11.Request:
            request, size = event, 0
        elif type(event) is h11.Data:
            size += len(event.data)
        elif type(event) is h11.EndOfMessage:
            sock.sendall(answer(conn, request, size))
            if conn.our_state is not h11.DONE:
                return
            conn.start_next_cycle()
        else:
            return


def serve(sock: socket.socket) -> None:
    conn = h11.Connection(h11.SERVER)
    with sock:
        try:
            talk(conn, sock)
        except h11.RemoteProtocolError:
            sock.sendall(conn.bytes_to_send())
        except OSError:
            pass


if __name__ == "__main__":
    with socket.create_server(("127.0.0.1", int(sys.argv[1]) if len(sys.argv) > 1 else 8080)) as listener:
        while True:
            threading.Thread(target=serve, args=(listener.accept()[0],), daemon=True).start()
