"""Wrong use, calls from inside calls, and memory that runs out: nothing of it ends the interpreter, or reaches the peer. Each test
runs by pytest, and by unittest too."""
import array
import gc
import sys
import unittest

import raspcream.h11 as h11
from raspcream import Conn, Invalid, Keep, Kind, NO_BODY

try:
    from _testcapi import remove_mem_hooks, set_nomemory
except ImportError:
    set_nomemory = None

MOMENT = 1_700_000_000_000
GET = b"GET / HTTP/1.1\r\nHost: a\r\n\r\n"


def server(text=GET):
    conn = Conn()
    conn.tick(MOMENT)
    conn.read(text)
    return conn


def events(text=GET):
    conn = h11.Connection(h11.SERVER, now=lambda: MOMENT / 1000)
    conn.receive_data(text)
    return conn


def opened(text=GET):
    conn = events(text)
    while type(conn.next_event()) is not h11.EndOfMessage:
        pass
    return conn


class Numbers(unittest.TestCase):
    def test_no_number_wraps(self):
        conn = server()
        conn.next()
        for status, keep, size in ((2**32 + 200, 0, 0), (-1, 0, 0), (200, 2**32, 0), (200, 4, 0), (200, 0, -3), (200, 0, 2**63)):
            self.assertRaises(Invalid, conn.answer, status, keep, size, ())
        self.assertRaises(TypeError, conn.answer, 200.0, 0, 0, ())
        self.assertRaises(Invalid, conn.tick, -1)
        self.assertRaises(Invalid, conn.tick, 2**64)
        conn.answer(200, Keep.DEFAULT, 0, ())
        self.assertIn(b"content-length: 0\r\n", conn.take())
        for words in ({"keep_alive_ms": -1}, {"request_ms": 2**64}, {"disconnect_ms": -1}, {"write_buffer": -1}, {"hold_size": -1}):
            self.assertRaises(Invalid, Conn, **words)
        client = Conn(client=True)
        for minor, keep in ((2, 0), (2**32 + 1, 0), (1, 4)):
            self.assertRaises(Invalid, client.ask, b"GET", b"/", minor, keep, NO_BODY, ())

    def test_the_most_that_is_held(self):
        for most in (-1, 0, 16384, 2**40):
            self.assertIs(type(h11.Connection(h11.SERVER, max_incomplete_event_size=most)), h11.Connection)
        self.assertRaises(Invalid, h11.Connection, h11.SERVER, write_buffer=-1)
        self.assertRaises(Invalid, h11.Connection, h11.SERVER, keep_alive_ms=-1)


class Reentrancy(unittest.TestCase):
    def test_a_connection_begins_once(self):
        conn = server()
        conn.next()

        class Lines:
            def __iter__(self):
                try:
                    conn.__init__(hold_size=1)
                except (Invalid, TypeError):
                    pass
                return iter(())

        conn.answer(200, Keep.DEFAULT, 0, Lines())
        self.assertTrue(conn.take().startswith(b"HTTP/1.1 200 OK\r\n"))
        self.assertRaises(TypeError, conn.__init__)

    def collecting(self, call, wanted):
        """Whoever is collected calls the connection, while what came is copied out of it."""
        called = []

        class Loop:
            def __init__(self):
                self.me = self

            def __del__(self):
                try:
                    call()
                except Exception as error:
                    called.append(error)

        gc.collect()
        Loop()
        was = gc.get_threshold()
        gc.set_threshold(1, 1, 1)
        try:
            got = wanted()
            for _ in range(10):
                gc.get_referents([], [])
        finally:
            gc.set_threshold(*was)
        gc.collect()
        self.assertEqual(len(called), 1)
        self.assertTrue(gc.isenabled())
        return got

    def test_the_collector_calls_while_a_head_is_told(self):
        lines = [(b"x-%d" % i, b"v%d" % i) for i in range(50)]
        text = b"GET /t HTTP/1.1\r\n" + b"".join(b"%s: %s\r\n" % it for it in lines) + b"\r\n"
        conn = server(text)
        self.assertEqual(self.collecting(conn.pull, conn.next), (Kind.HEAD, b"GET", b"/t", 1, 0, 0, lines))
        conn = events(text.replace(b"x-0", b"host"))
        head = self.collecting(conn.start_next_cycle, conn.next_event)
        self.assertEqual((head.target, len(head.headers)), (b"/t", 50))

    def test_the_collector_calls_while_trailers_are_told(self):
        lines = [(b"x-%d" % i, b"v%d" % i) for i in range(50)]
        text = b"POST / HTTP/1.1\r\nHost: a\r\nTransfer-Encoding: chunked\r\n\r\n0\r\n" + b"".join(b"%s: %s\r\n" % it for it in lines) + b"\r\n"
        conn = server(text)
        conn.next()
        self.assertEqual(self.collecting(conn.accept, conn.pull), lines)
        conn = events(text)
        conn.next_event()
        self.assertEqual(self.collecting(conn.start_next_cycle, conn.next_event).headers, lines)


class Events(unittest.TestCase):
    def test_no_event_becomes_one_of_another_type(self):
        class Both(h11.Request, h11.Response):
            __slots__ = ()

        event = Both.__new__(Both)
        h11.Response.__init__(event, status_code=200, reason=b"1.1")
        with self.assertRaises(TypeError):
            event.__class__ = h11.Request
        with self.assertRaises(h11.LocalProtocolError):
            h11.Connection(h11.CLIENT).send(event)

    def test_an_event_that_was_refused_is_not_sent(self):
        for of, words in (
            (h11.Response, {"status_code": 400, "reason": b"a\r\nx: y"}),
            (h11.Response, {"status_code": 10**30}),
            (h11.InformationalResponse, {"status_code": 200}),
        ):
            conn = events(b"GET / HTTP/1.1\r\nbad line\r\n\r\n")
            self.assertRaises(h11.RemoteProtocolError, conn.next_event)
            event = of.__new__(of)
            self.assertRaises(h11.LocalProtocolError, event.__init__, **words)
            self.assertRaises(h11.LocalProtocolError, conn.send, event)
        event = h11.Request.__new__(h11.Request)
        self.assertRaises(h11.LocalProtocolError, event.__init__, method=b"G T", target=b"/", headers=[(b"host", b"a")])
        self.assertRaises(h11.LocalProtocolError, h11.Connection(h11.CLIENT).send, event)

    def test_events_do_not_nest(self):
        self.assertRaises(TypeError, h11.Data, h11.Data(b""))
        self.assertRaises(TypeError, h11.Data, h11.EndOfMessage())
        self.assertIs(h11.Data(b"", chunk_end=[1]).chunk_end, True)

    def test_a_name_of_one_capital(self):
        event = h11.Response(status_code=200, headers=[(b"Q", b"1"), ("R", "2")])
        self.assertEqual(event.headers, [(b"q", b"1"), (b"r", b"2")])
        self.assertEqual(event.headers.raw_items(), [(b"Q", b"1"), (b"R", b"2")])
        # The interpreter has one object for each of these.
        self.assertEqual([bytes([number])[0] for number in b"QRqr"], list(b"QRqr"))

    def test_lines_that_are_none(self):
        event = h11.Response(status_code=200, headers=[("X-A", "b")])
        for raw in (5, ((b"a", b"b"),), [b"ab"], [(b"a", 1)]):
            event.headers.raw = raw
            with self.assertRaises(TypeError):
                opened().send(event)
        del event.headers.raw
        with self.assertRaises(AttributeError):
            opened().send(event)
        event = h11.Response(status_code=200)
        event.headers.append(5)
        with self.assertRaises(TypeError):
            opened().send(event)


class Sent(unittest.TestCase):
    def test_bytes_are_counted_and_not_items(self):
        conn = opened()
        conn.send(h11.Response(status_code=200, headers=[(b"content-length", b"12")]))
        data = array.array("I", [1, 2, 3])
        self.assertEqual(conn.send(h11.Data(data=data)), data.tobytes())
        self.assertEqual(conn.send(h11.EndOfMessage()), b"")
        conn = opened()
        conn.send(h11.Response(status_code=200, headers=[(b"content-length", b"3")]))
        self.assertRaises(h11.LocalProtocolError, conn.send, h11.Data(data=data))

    def test_nothing_goes_out_behind_a_failure(self):
        class Odd:
            def __len__(self):
                raise KeyError("odd")

        for data, error in ((memoryview(b"abcdef")[::2], BufferError), (Odd(), KeyError), (5, TypeError)):
            conn = opened()
            conn.send(h11.Response(status_code=200, headers=[(b"content-length", b"3")]))
            self.assertRaises(error, conn.send, h11.Data(data=data))
            self.assertIs(conn.our_state, h11.ERROR)
            self.assertRaises(h11.LocalProtocolError, conn.send, h11.Data(data=b"abc"))

    def test_no_body_is_framed_where_there_is_none(self):
        lines = [(b"Content-Length", b"12"), (b"X-A", b"b")]
        for text, status in ((GET, 204), (b"CONNECT a:1 HTTP/1.1\r\nHost: a:1\r\n\r\n", 200)):
            conn = opened(text)
            early = conn.send(h11.InformationalResponse(status_code=103, headers=[*lines, (b"Transfer-Encoding", b"chunked")]))
            self.assertEqual(early, b"HTTP/1.1 103 \r\nX-A: b\r\n\r\n")
            self.assertEqual(conn.send(h11.Response(status_code=status, headers=lines)), b"HTTP/1.1 %d \r\nX-A: b\r\n\r\n" % status)
        conn = opened()
        self.assertIn(b"Content-Length: 12\r\n", conn.send(h11.Response(status_code=304, headers=lines)))
        conn = opened()
        conn.send(h11.Response(status_code=200))
        self.assertEqual(conn.send(h11.EndOfMessage(headers=[*lines, (b"Transfer-Encoding", b"chunked")])), b"0\r\nX-A: b\r\n\r\n")


    def test_a_body_keeps_its_frames_where_the_peer_fails(self):
        # A client's, whose answer is none.
        for answer in (b"HTTP/1.1 20\r\n\r\n", b"\r\n", b"\0"):
            conn = h11.Connection(h11.CLIENT)
            conn.send(h11.Request(method="POST", target="/", headers=[("Host", "a"), ("Transfer-Encoding", "chunked")]))
            self.assertEqual(conn.send(h11.Data(data=b"abc")), b"3\r\nabc\r\n")
            conn.receive_data(answer)
            self.assertRaises(h11.RemoteProtocolError, conn.next_event)
            try:
                self.assertEqual(conn.send(h11.Data(data=b"abc")), b"3\r\nabc\r\n")
            except h11.LocalProtocolError:
                self.assertIs(conn.our_state, h11.ERROR)
        # A server's, while the body that comes is none.
        conn = events(b"POST / HTTP/1.1\r\nHost: a\r\nTransfer-Encoding: chunked\r\n\r\n")
        conn.next_event()
        conn.send(h11.Response(status_code=200))
        conn.receive_data(b"x\r\n")
        self.assertRaises(h11.RemoteProtocolError, conn.next_event)
        try:
            self.assertEqual(conn.send(h11.Data(data=b"abc")), b"3\r\nabc\r\n")
        except h11.LocalProtocolError:
            self.assertIs(conn.our_state, h11.ERROR)


class Received(unittest.TestCase):
    def test_what_begins_no_head_is_refused_at_once(self):
        for text in (b" ", b"\0", b"\x16\x03\x01\0\xa5"):
            conn = events(text)
            self.assertRaises(h11.RemoteProtocolError, conn.next_event)
            self.assertEqual((conn.their_state, conn.trailing_data, conn.bytes_to_send()), (h11.ERROR, (text, False), b""))
            answer = conn.send(h11.Response(status_code=400, headers=[("content-length", "0")]))
            self.assertEqual(answer, b"HTTP/1.1 400 \r\ncontent-length: 0\r\nConnection: close\r\n\r\n")
            self.assertEqual((conn.send(h11.EndOfMessage()), conn.our_state), (b"", h11.MUST_CLOSE))
        conn = events(b"\r\n")
        self.assertIs(conn.next_event(), h11.NEED_DATA)
        conn.receive_data(GET)
        self.assertIs(type(conn.next_event()), h11.Request)
        for text in (b"\r\n", b"\r\nHTTP/1.1 200 OK\r\n\r\n"):
            conn = h11.Connection(h11.CLIENT)
            conn.send(h11.Request(method="GET", target="/", headers=[("Host", "a")]))
            conn.receive_data(text)
            self.assertRaises(h11.RemoteProtocolError, conn.next_event)

    def test_no_more_waits_than_may(self):
        text = b"GET / HTTP/1.1\r\nHost: a\r\nBig: " + b"a" * 4000
        conn = h11.Connection(h11.SERVER, max_incomplete_event_size=4000)
        conn.receive_data(text)
        with self.assertRaises(h11.RemoteProtocolError) as raised:
            conn.next_event()
        self.assertEqual(raised.exception.error_status_hint, 431)
        conn = h11.Connection(h11.SERVER, max_incomplete_event_size=4000)
        conn.receive_data(text + b"\r\n\r\n")
        self.assertEqual(len(conn.next_event().headers), 2)
        conn = h11.Connection(h11.SERVER, max_incomplete_event_size=2**21)
        conn.receive_data(text + b"a" * 1_000_000 + b"\r\n\r\n")
        self.assertEqual(len(conn.next_event().headers[1][1]), 1_004_000)
        conn = h11.Connection(h11.SERVER)
        conn.receive_data(text + b"a" * 200_000)
        self.assertRaises(h11.RemoteProtocolError, conn.next_event)
        self.assertTrue(conn.bytes_to_send().startswith(b"HTTP/1.1 431 "))


@unittest.skipUnless(set_nomemory, "this Python has no _testcapi")
class Memory(unittest.TestCase):
    """Each allocation fails in turn, the library's aside."""

    def failing(self, make, call):
        """Calls with allocation 0, 1, .. failing, until none does. What came of it each time: a value, or None for MemoryError."""
        for place in range(2000):
            it = make()
            got, failed = None, False
            set_nomemory(place, place + 1)
            try:
                got = call(it)
            except MemoryError:
                failed = True
            finally:
                remove_mem_hooks()
            yield it, got, failed
            if not failed and place > 200:
                return
        self.fail("it never ends")

    def test_no_byte_that_is_to_be_written_is_lost(self):
        def make():
            conn = server()
            conn.next()
            conn.answer(200, Keep.DEFAULT, 25000, ())
            for _ in range(5):
                conn.chunk(bytes(range(250)) * 20)
            return conn

        wanted = make().take()
        for conn, got, failed in self.failing(make, lambda conn: conn.take()):
            self.assertEqual(conn.take() if failed else got, wanted)
            self.assertEqual(conn.take(), b"" if failed or got == wanted else None)

    def test_a_head_that_was_not_told_ends_the_connection(self):
        wanted = server().next()
        for conn, got, failed in self.failing(server, lambda conn: conn.next()):
            if not failed:
                self.assertEqual(got, wanted)
            else:
                self.assertRaises(ValueError, conn.next)
                self.assertRaises(ValueError, conn.answer, 200, 0, 0, ())

    def test_a_piece_that_was_not_told_ends_the_connection(self):
        def make():
            conn = server(b"POST / HTTP/1.1\r\nHost: a\r\nTransfer-Encoding: chunked\r\n\r\n3\r\nabc\r\n0\r\nx: y\r\n\r\n")
            conn.next()
            return conn

        for conn, got, failed in self.failing(make, lambda conn: (conn.pull(), conn.pull())):
            if not failed:
                self.assertEqual(got, (b"abc", [(b"x", b"y")]))
            elif conn_is_over(conn):
                self.assertRaises(ValueError, conn.take)
            else:
                # Only the pair of both was wanting.
                self.assertEqual(conn.pull(), (Kind.END, 0))

    def test_a_whole_exchange(self):
        def make():
            return h11.Connection(h11.SERVER)

        def exchange(conn):
            conn.receive_data(b"POST /x HTTP/1.1\r\nHost: a\r\nTransfer-Encoding: chunked\r\n\r\n3\r\nabc\r\n0\r\nX-B: y\r\n\r\nmore")
            while type(conn.next_event()) is not h11.EndOfMessage:
                pass
            head = conn.send(h11.Response(status_code=200, headers=[("X-A", "b"), (b"date", b"now")], reason="Fine"))
            end = conn.send(h11.Data(data=b"hello")) + conn.send(h11.EndOfMessage(headers=[("X-Sum", "5")]))
            return head + end, conn.trailing_data

        wanted = exchange(make())
        for conn, got, failed in self.failing(make, exchange):
            self.assertEqual(got, None if failed else wanted)
            self.assertIsNotNone(conn.our_state)

    def test_a_client(self):
        def make():
            return h11.Connection(h11.CLIENT)

        def exchange(conn):
            text = conn.send(h11.Request(method="POST", target="/", headers=[("Host", "a"), ("Content-Length", "3")]))
            text += b"".join(conn.send_with_data_passthrough(h11.Data(data=b"abc")))
            text += conn.send(h11.EndOfMessage())
            conn.receive_data(b"HTTP/1.1 200 Fine\r\nContent-Length: 2\r\n\r\nhi")
            return text, [conn.next_event() for _ in range(3)]

        wanted = exchange(make())
        for _, got, failed in self.failing(make, exchange):
            self.assertEqual(got, None if failed else wanted)


def conn_is_over(conn):
    try:
        conn.state()
    except ValueError:
        return True
    return False


@unittest.skipUnless(sys.version_info >= (3, 12), "no class of Python's has a buffer before 3.12")
class Buffers(unittest.TestCase):
    def test_a_buffer_calls_where_it_is_let_go(self):
        conn = server(b"")

        class Bytes:
            def __buffer__(self, flags):
                return memoryview(GET)

            def __release_buffer__(self, view):
                conn.read(b"G")

        self.assertEqual(conn.read(Bytes()), len(GET))

    def test_an_inner_call(self):
        conn = opened()
        conn.send(h11.Response(status_code=200, headers=[(b"content-length", b"3")]))

        class Bytes:
            def __len__(self):
                return 3

            def __buffer__(self, flags):
                conn.send(h11.Data(data=b"xyz"))
                return memoryview(b"abc")

        self.assertRaises(h11.LocalProtocolError, conn.send, h11.Data(data=Bytes()))


if __name__ == "__main__":
    unittest.main()
