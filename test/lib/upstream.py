"""A server that answers well or badly, by the path that is asked for. It keeps all that came on each of its connections."""
import socket, struct, threading, time

BIG = bytes(range(256)) * 8192  # 2 MiB


class Upstream:
    def __init__(self):
        self.listener = socket.create_server(("127.0.0.1", 0), backlog=256)
        self.address = self.listener.getsockname()
        self.came = []  # what came on each connection
        threading.Thread(target=self.accept, daemon=True).start()

    def accept(self):
        while True:
            try:
                sock, _ = self.listener.accept()
            except OSError:
                return
            sock.setsockopt(socket.IPPROTO_TCP, socket.TCP_NODELAY, 1)
            seen = bytearray()
            self.came.append(seen)
            threading.Thread(target=self.serve, args=(sock, seen), daemon=True).start()

    def serve(self, sock, seen):
        with sock:
            try:
                conversation = Conversation(sock, seen)
                while conversation.answer_one():
                    pass
            except OSError:
                pass


class Conversation:
    def __init__(self, sock, seen):
        self.sock, self.seen, self.place = sock, seen, 0

    def more(self):
        piece = self.sock.recv(65536)
        self.seen += piece
        return bool(piece)

    def until(self, mark):
        """The bytes up to and with the mark, or none at the end."""
        searched = self.place
        while (end := self.seen.find(mark, searched)) < 0:
            searched = max(self.place, len(self.seen) - len(mark))
            if not self.more():
                return None
        found = bytes(self.seen[self.place:end + len(mark)])
        self.place = end + len(mark)
        return found

    def exactly(self, count):
        while len(self.seen) - self.place < count:
            if not self.more():
                return None
        found = bytes(self.seen[self.place:self.place + count])
        self.place += count
        return found

    def body(self, head):
        lower = head.lower()
        if b"\r\ntransfer-encoding: chunked" in lower:
            whole = bytearray()
            while (line := self.until(b"\r\n")) is not None:
                piece = self.exactly(int(line, 16) + 2)
                if piece is None:
                    return None
                if piece == b"\r\n":
                    return bytes(whole)
                whole += piece[:-2]
            return None
        if b"\r\ncontent-length: " in lower:
            return self.exactly(int(lower.split(b"\r\ncontent-length: ")[1].split(b"\r\n")[0]))
        return b""

    def answer_one(self):
        """Answers one request, and says whether the connection goes on."""
        head = self.until(b"\r\n\r\n")
        if head is None:
            return False
        method, target = head.split(b" ")[:2]
        path = target.split(b"?")[0].decode("latin-1").strip("/").replace("-", "_")
        if path == "early":
            self.say(b"HTTP/1.1 413 Too Large\r\ncontent-length: 0\r\nconnection: close\r\n\r\n")
            return False
        if path == "early_end":
            # It reads no body, answers this request and the next one, and then sends no more; its socket stays open.
            self.sized(b"ok")
            time.sleep(0.5)
            self.sized(b"ok")
            self.sock.shutdown(socket.SHUT_WR)
            time.sleep(5)
            return False
        body = self.body(head)
        if body is None:
            return False
        answer = getattr(self, "at_" + path, self.at_)
        return answer(method, head, body) is not False

    def say(self, text):
        self.sock.sendall(text)

    def sized(self, body, *lines, method=b"GET"):
        self.say(b"HTTP/1.1 200 OK\r\n" + b"".join(line + b"\r\n" for line in lines)
                 + b"content-length: %d\r\n\r\n" % len(body) + (b"" if method == b"HEAD" else body))

    # ---- good answers

    def at_(self, method, head, body):
        self.sized(b"hello", method=method)

    def at_echo(self, method, head, body):
        self.sized(body)

    def at_head(self, method, head, body):
        self.sized(head)

    def at_big(self, method, head, body):
        self.sized(BIG, method=method)

    def at_chunks(self, method, head, body):
        whole = body or BIG
        self.say(b"HTTP/1.1 200 OK\r\ntransfer-encoding: chunked\r\n\r\n")
        for place in range(0, len(whole), 10_000):
            piece = whole[place:place + 10_000]
            self.say(b"%x;ext=1\r\n%s\r\n" % (len(piece), piece))
        self.say(b"0\r\ntrailer: x\r\n\r\n")

    def at_to_the_end(self, method, head, body):
        self.say(b"HTTP/1.1 200 OK\r\n\r\n" + BIG)
        return False

    def at_empty(self, method, head, body):
        self.say(b"HTTP/1.1 204 No Content\r\n\r\n")

    def at_last(self, method, head, body):
        self.sized(b"last", b"connection: close")
        return False

    def at_interim(self, method, head, body):
        self.say(b"HTTP/1.1 103 Early Hints\r\nlink: </a.css>\r\n\r\n")
        self.sized(b"after")

    def at_hop_lines(self, method, head, body):
        self.sized(b"kept", b"Connection: x-hop, keep-alive", b"X-Hop: 1", b"Keep-Alive: timeout=5", b"X-Own: 2")

    # ---- bad ones

    def at_two(self, method, head, body):
        self.say(b"HTTP/1.1 200 OK\r\ncontent-length: 5\r\n\r\nfirst" b"HTTP/1.1 200 OK\r\ncontent-length: 6\r\n\r\nsecond")

    def at_unasked(self, method, head, body):
        self.sized(b"right")
        threading.Timer(0.2, self.say_late).start()

    def say_late(self):
        try:
            self.say(b"HTTP/1.1 408 Request Timeout\r\ncontent-length: 0\r\nconnection: close\r\n\r\n")
        except OSError:
            pass

    def at_lengths(self, method, head, body):
        self.say(b"HTTP/1.1 200 OK\r\ncontent-length: 5\r\ncontent-length: 3\r\n\r\nhello")

    def at_length_and_chunks(self, method, head, body):
        self.say(b"HTTP/1.1 200 OK\r\ncontent-length: 5\r\ntransfer-encoding: chunked\r\n\r\n2\r\nhi\r\n0\r\n\r\n")

    def at_switch(self, method, head, body):
        self.say(b"HTTP/1.1 101 Switching Protocols\r\nupgrade: x\r\nconnection: upgrade\r\n\r\nraw")

    def at_endless(self, method, head, body):
        while True:
            self.say(b"HTTP/1.1 100 Continue\r\n\r\n" * 100)
            time.sleep(0.01)

    def at_nothing(self, method, head, body):
        return False

    def at_no_http(self, method, head, body):
        self.say(b"220 mail.example ESMTP\r\n\r\n")

    def at_cut(self, method, head, body):
        self.say(b"HTTP/1.1 200 OK\r\ncontent-length: 100\r\n\r\nhalf")
        return False

    def at_cut_chunks(self, method, head, body):
        self.say(b"HTTP/1.1 200 OK\r\ntransfer-encoding: chunked\r\n\r\n5\r\nhello\r\n")
        return False

    def at_reset(self, method, head, body):
        """A body to the end that isn't ended, but broken off."""
        self.say(b"HTTP/1.1 200 OK\r\n\r\nhalf")
        time.sleep(0.3)
        self.sock.setsockopt(socket.SOL_SOCKET, socket.SO_LINGER, struct.pack("ii", 1, 0))
        return False

    def at_half_silent(self, method, head, body):
        """Half of a body to the end, and then nothing."""
        self.say(b"HTTP/1.1 200 OK\r\n\r\nhalf")
        time.sleep(90)
        return False

    def at_silent(self, method, head, body):
        time.sleep(90)
        return False
