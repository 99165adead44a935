"""The fast type. Each test runs by pytest, and by unittest too."""
import unittest

from raspcream import Body, Can, Conn, Invalid, Keep, Kind, Misplaced, NO_BODY, STREAM

MOMENT = 1_700_000_000_000
DATE = b"date: Tue, 14 Nov 2023 22:13:20 GMT\r\n"


def server(**settings):
    conn = Conn(**settings)
    conn.tick(MOMENT)
    return conn


class Server(unittest.TestCase):
    def test_a_request_is_answered(self):
        conn = server()
        text = b"POST /p HTTP/1.1\r\nHost: a\r\nContent-Length: 5\r\n\r\nhello"
        self.assertEqual(conn.read(text), len(text))
        head = (Kind.HEAD, b"POST", b"/p", 1, Body.LENGTH, 5, [(b"host", b"a"), (b"content-length", b"5")])
        self.assertEqual(conn.next(), head)
        self.assertEqual([conn.pull(), conn.pull()], [b"hello", (Kind.END, 0)])
        conn.answer(200, Keep.DEFAULT, 2, [(b"X-A", b"b")])
        conn.chunk(b"hi")
        conn.end()
        self.assertEqual(conn.take(), b"HTTP/1.1 200 OK\r\ncontent-length: 2\r\nx-a: b\r\n" + DATE + b"\r\nhi")
        self.assertEqual(conn.take(), b"")
        self.assertIsNone(conn.next())

    def test_chunks_come_byte_by_byte_and_go_out_as_a_stream(self):
        conn, got, head = server(), [], None
        for byte in b"POST / HTTP/1.1\r\nTransfer-Encoding: chunked\r\n\r\n3\r\nabc\r\n0\r\nX-Sum: 3\r\n\r\n":
            conn.read(bytes([byte]))
            head = head or conn.next()
            piece = conn.pull() if head else None
            if piece is not None:
                got.append(piece)
        self.assertEqual(b"".join(piece for piece in got if type(piece) is bytes), b"abc")
        self.assertEqual(got[-1], [(b"x-sum", b"3")])
        self.assertEqual(conn.pull(), (Kind.END, 0))
        conn.answer(200, Keep.DEFAULT, STREAM, [])
        conn.chunk(b"ab")
        conn.end()
        self.assertTrue(conn.take().endswith(b"\r\n\r\n2\r\nab\r\n0\r\n\r\n"))

    def test_wrong_calls_change_nothing(self):
        conn = server()
        self.assertRaises(Misplaced, conn.answer, 200, Keep.DEFAULT, 0, [])
        self.assertRaises(Misplaced, conn.pull)
        conn.read(b"GET / HTTP/1.1\r\nHost: a\r\n\r\n")
        self.assertEqual(conn.next()[0], Kind.HEAD)
        self.assertRaises(Invalid, conn.answer, 200, Keep.DEFAULT, 0, [(b"x", b"a\r\nb: c")])
        self.assertRaises(Invalid, conn.answer, 1000, Keep.DEFAULT, 0, [])
        self.assertRaises(TypeError, conn.answer, 200, Keep.DEFAULT, 0, [("x", b"a")])
        self.assertRaises(Invalid, Conn, hold_size=1)
        conn.answer(204, Keep.DEFAULT, NO_BODY, [])
        self.assertTrue(conn.take().startswith(b"HTTP/1.1 204 "))

    def test_the_numbers(self):
        conn = server()
        can, closing, buffered, write_room, held, read_room, waiting, deadline = conn.state()
        self.assertEqual((closing, buffered, write_room, held, read_room, waiting), (0, 0, 32768, 0, 131072, 0))
        self.assertEqual(deadline, MOMENT + 5000)
        self.assertEqual(can & (Can.READ | Can.ANSWER), Can.READ)
        self.assertEqual(conn.tick(MOMENT + 5000)[0], Kind.EXPIRED)
        self.assertTrue(conn.take().startswith(b"HTTP/1.1 408 "))

    def test_what_is_held_goes_on_elsewhere(self):
        conn = server()
        conn.read(b"GET /1 HTTP/1.1\r\nHost: a\r\n\r\n")
        more = b"GET /2 HTTP/1.1\r\nHost: a\r\n\r\nGET /3 HTTP/1.1\r\nHost: a\r\n\r\nPOST"
        conn.read(more)
        conn.next()
        self.assertEqual(conn.held(), more)
        self.assertEqual((conn.ahead(), conn.state()[6]), (2, 0))

    def test_a_websocket(self):
        conn = server()
        conn.read(
            b"GET / HTTP/1.1\r\nHost: a\r\nUpgrade: websocket\r\nConnection: Upgrade\r\n"
            b"Sec-WebSocket-Key: dGhlIHNhbXBsZSBub25jZQ==\r\nSec-WebSocket-Version: 13\r\n\r\n"
        )
        self.assertEqual(conn.next()[4], Body.RAW)
        self.assertEqual(conn.accept(1000), 0)
        self.assertIn(b"s3pPLMBiTxaQ9kYGzzhZRbK+xOo=", conn.take())
        conn.read(b"\x81\x85\x37\xfa\x21\x3d\x7f\x9f\x4d\x51\x58")
        self.assertEqual(conn.frame(), (1, 0, b"Hello"))
        self.assertEqual(conn.send(1, 0, b"Hello"), 0)
        self.assertEqual(conn.take(), b"\x81\x05Hello")


class Client(unittest.TestCase):
    def test_a_request_is_asked(self):
        conn = Conn(client=True)
        conn.ask(b"GET", b"/x", 1, Keep.DEFAULT, NO_BODY, [(b"host", b"a")])
        self.assertTrue(conn.take().startswith(b"GET /x HTTP/1.1\r\n"))
        conn.read(b"HTTP/1.1 404 Nowhere\r\nContent-Length: 2\r\n\r\nno")
        self.assertEqual(conn.next(), (Kind.HEAD, 404, b"Nowhere", 1, Body.LENGTH, 2, [(b"content-length", b"2")]))
        self.assertEqual([conn.pull(), conn.pull()], [b"no", (Kind.END, 0)])
        self.assertTrue(conn.state()[0] & Can.REUSABLE)
        self.assertEqual(conn.state()[6], 0)
        self.assertRaises(Invalid, conn.drain)
        self.assertRaises(Invalid, conn.ahead)
        self.assertRaises(Invalid, conn.ask, b"G T", b"/", 1, Keep.DEFAULT, NO_BODY, [])


if __name__ == "__main__":
    unittest.main()
