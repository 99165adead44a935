"""Requests parsed and answered from Python: raspcream's Conn and raspcream.h11, beside httptools and h11. Prints a table of
processor microseconds a request, the least of several turns that the peers take one after another.

    embed_python.py FOLDER     with a file in it for each kind of request"""
import sys, time

import raspcream
import raspcream.h11

try:
    import h11
except ImportError:
    h11 = None
try:
    import httptools
except ImportError:
    httptools = None

TURNS = 9
DATE = b"date", b"Tue, 14 Nov 2023 22:13:20 GMT"
KINDS = ("minimal", 1), ("minimal", 16), ("curl", 1), ("curl", 16), ("browser", 1), ("post", 1)


def by_conn(text, depth, count):
    connection = raspcream.Conn()
    connection.tick(1700000000000)
    for _ in range(count // depth):
        connection.read(text)
        for _ in range(depth):
            head = connection.next()
            if head[4]:
                while type(connection.pull()) is bytes:
                    pass
            connection.answer(200, 0, 0, ())
        connection.take()


def by_events(module):
    """A server that is written for h11, over h11 or over raspcream.h11."""
    def run(text, depth, count):
        connection = module.Connection(module.SERVER)
        headers = [(b"content-length", b"0"), DATE]
        for _ in range(count // depth):
            connection.receive_data(text)
            for _ in range(depth):
                while type(connection.next_event()) is not module.EndOfMessage:
                    pass
                connection.send(module.Response(status_code=200, headers=headers))
                connection.send(module.EndOfMessage())
                connection.start_next_cycle()
    return run


class Callbacks:
    """What a server does with httptools: it keeps the head, and puts an answer together."""

    def __init__(self):
        self.answers = []
        self.parser = httptools.HttpRequestParser(self)

    def on_message_begin(self):
        self.url, self.headers, self.body = b"", [], []

    def on_url(self, url):
        self.url += url

    def on_header(self, name, value):
        self.headers.append((name.lower(), value))

    def on_headers_complete(self):
        self.head = self.parser.get_method(), self.parser.get_http_version(), self.parser.should_keep_alive()

    def on_body(self, body):
        self.body.append(body)

    def on_message_complete(self):
        lines = [b"HTTP/1.1 200 OK\r\n"]
        for name, value in ((b"content-length", b"0"), DATE):
            lines += name, b": ", value, b"\r\n"
        lines.append(b"\r\n")
        self.answers.append(b"".join(lines))


def by_httptools(text, depth, count):
    callbacks = Callbacks()
    for _ in range(count // depth):
        callbacks.parser.feed_data(text)
        b"".join(callbacks.answers)
        callbacks.answers.clear()


def main(folder):
    peers = {"`raspcream.Conn`": by_conn, "`raspcream.h11`": by_events(raspcream.h11)}
    if httptools:
        peers["httptools"] = by_httptools
    if h11:
        peers["h11"] = by_events(h11)
    print("| processor microseconds a request | " + " | ".join(peers) + " |\n|" + "---|" * (len(peers) + 1))
    for name, depth in KINDS:
        with open(f"{folder}/{name}", "rb") as file:
            text = file.read()
        least = dict.fromkeys(peers, float("inf"))
        for _ in range(TURNS):
            for peer, run in peers.items():
                count = 320 if peer == "h11" else 3200
                begun = time.process_time()
                run(text * depth, depth, count)
                least[peer] = min(least[peer], (time.process_time() - begun) / count * 1e6)
        print(f"| {name}, {depth} in a read | " + " | ".join(f"{it:.1f}" for it in least.values()) + " |", flush=True)


if __name__ == "__main__":
    main(sys.argv[1])
