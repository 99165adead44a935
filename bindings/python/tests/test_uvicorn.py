"""uvicorn over the engine. Each test runs by pytest, and by unittest too; without uvicorn they are skipped."""
import http.client
import importlib.util
import socket
import threading
import time
import unittest

HAS_UVICORN = importlib.util.find_spec("uvicorn") is not None


async def echo(scope, receive, send):
    await receive()
    await send({"type": "websocket.accept"})
    while (message := await receive())["type"] == "websocket.receive":
        await send({"type": "websocket.send", "text": f"{scope['path']} {message['text']}"})


async def app(scope, receive, send):
    if scope["type"] == "websocket":
        await echo(scope, receive, send)
    if scope["type"] != "http":
        return
    if scope["path"] == "/raises":
        raise ValueError("as asked")
    size, message = 0, {"more_body": True}
    while message.get("more_body"):
        message = await receive()
        size += len(message.get("body", b""))
    text = f"{scope['method']} {scope['path']} {scope['query_string'].decode()} {size}".encode()
    headers = [(b"content-type", b"text/plain")]
    if scope["path"] == "/stream":
        await send({"type": "http.response.start", "status": 200, "headers": headers})
        for part in (text, b"", b" and more"):
            await send({"type": "http.response.body", "body": part, "more_body": True})
        await send({"type": "http.response.body"})
        return
    await send({"type": "http.response.start", "status": 200, "headers": [*headers, (b"content-length", b"%d" % len(text))]})
    await send({"type": "http.response.body", "body": text})


@unittest.skipUnless(HAS_UVICORN, "there is no uvicorn (apt-get install uvicorn)")
class Uvicorn(unittest.TestCase):
    @classmethod
    def setUpClass(cls):
        import uvicorn
        from raspcream.uvicorn import Protocol

        with socket.socket() as free:
            free.bind(("127.0.0.1", 0))
            cls.port = free.getsockname()[1]
        config = uvicorn.Config(app, port=cls.port, http=Protocol, log_level="critical", lifespan="off", loop="asyncio")
        cls.server = uvicorn.Server(config)
        cls.server.install_signal_handlers = lambda: None
        cls.thread = threading.Thread(target=cls.server.run, daemon=True)
        cls.thread.start()
        for _ in range(400):
            if cls.server.started:
                return
            time.sleep(0.05)
        raise RuntimeError("uvicorn didn't start")

    @classmethod
    def tearDownClass(cls):
        cls.server.should_exit = True
        cls.thread.join(20)

    def talk(self, data):
        """All that is answered to these bytes, up to the connection's end."""
        with socket.create_connection(("127.0.0.1", self.port), timeout=20) as sock:
            sock.sendall(data)
            text = b""
            while part := sock.recv(65536):
                text += part
            return text

    def test_requests_on_one_connection(self):
        conn = http.client.HTTPConnection("127.0.0.1", self.port, timeout=20)
        for turn in range(5):
            conn.request("GET", f"/a%20b?n={turn}")
            answer = conn.getresponse()
            self.assertEqual((answer.status, answer.read()), (200, f"GET /a b n={turn} 0".encode()))
        conn.request("POST", "/up", body=b"x" * 1000000)
        self.assertEqual(conn.getresponse().read(), b"POST /up  1000000")
        conn.request("POST", "/chunks", body=iter([b"ab", b"cde"]), encode_chunked=True, headers={"Transfer-Encoding": "chunked"})
        self.assertEqual(conn.getresponse().read(), b"POST /chunks  5")
        conn.request("GET", "/stream")
        self.assertEqual(conn.getresponse().read(), b"GET /stream  0 and more")
        conn.request("HEAD", "/")
        answer = conn.getresponse()
        self.assertEqual((answer.status, answer.read(), answer.getheader("content-length")), (200, b"", "9"))
        conn.close()

    def test_requests_in_one_read(self):
        text = self.talk(b"GET /1 HTTP/1.1\r\nHost: a\r\n\r\n" * 15 + b"GET /2 HTTP/1.1\r\nHost: a\r\nConnection: close\r\n\r\n")
        self.assertEqual((text.count(b"HTTP/1.1 200 OK"), text.count(b"GET /1  0"), text.count(b"GET /2  0")), (16, 15, 1))

    def test_a_client_that_waits_is_told_to_go_on(self):
        with socket.create_connection(("127.0.0.1", self.port), timeout=20) as sock:
            sock.sendall(b"POST / HTTP/1.1\r\nHost: a\r\nExpect: 100-continue\r\nContent-Length: 2\r\nConnection: close\r\n\r\n")
            self.assertEqual(sock.recv(65536), b"HTTP/1.1 100 Continue\r\n\r\n")
            sock.sendall(b"ab")
            text = b""
            while part := sock.recv(65536):
                text += part
        self.assertTrue(text.endswith(b"POST /  2"), text)

    def test_what_is_refused_and_what_fails(self):
        self.assertTrue(self.talk(b"GET / HTTP/1.1\r\nbad line\r\n\r\n").startswith(b"HTTP/1.1 400 "))
        text = self.talk(b"GET /raises HTTP/1.1\r\nHost: a\r\n\r\n")
        self.assertTrue(text.startswith(b"HTTP/1.1 500 ") and text.endswith(b"Internal Server Error"), text)

    @unittest.skipUnless(importlib.util.find_spec("wsproto"), "there is no wsproto (apt-get install python3-wsproto)")
    def test_a_websocket_is_handed_over(self):
        with socket.create_connection(("127.0.0.1", self.port), timeout=20) as sock:
            sock.sendall(
                b"GET /w HTTP/1.1\r\nHost: a\r\nUpgrade: websocket\r\nConnection: Upgrade\r\n"
                b"Sec-WebSocket-Key: dGhlIHNhbXBsZSBub25jZQ==\r\nSec-WebSocket-Version: 13\r\n\r\n"
            )
            text = b""
            while not text.endswith(b"\r\n\r\n"):
                text += sock.recv(65536)
            self.assertIn(b"s3pPLMBiTxaQ9kYGzzhZRbK+xOo=", text)
            sock.sendall(b"\x81\x85\x37\xfa\x21\x3d\x7f\x9f\x4d\x51\x58")
            self.assertEqual(sock.recv(65536), b"\x81\x08/w Hello")
            # uvicorn's protocol goes on waiting where no Close comes.
            sock.sendall(b"\x88\x80zzzz")
            self.assertEqual(sock.recv(65536)[0], 0x88)

    def test_a_slow_client_is_closed(self):
        with socket.create_connection(("127.0.0.1", self.port), timeout=20) as sock:
            sock.sendall(b"GET / HTT")
            text = b""
            while part := sock.recv(65536):
                text += part
        self.assertTrue(text.startswith(b"HTTP/1.1 408 "), text)

    def test_a_half_closed_client_is_answered(self):
        with socket.create_connection(("127.0.0.1", self.port), timeout=20) as sock:
            sock.sendall(b"GET /last HTTP/1.1\r\nHost: a\r\n\r\n")
            sock.shutdown(socket.SHUT_WR)
            text = b""
            while part := sock.recv(65536):
                text += part
        self.assertTrue(text.endswith(b"GET /last  0"), text)


if __name__ == "__main__":
    unittest.main()
