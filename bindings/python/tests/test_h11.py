"""The names of h11. Each test runs by pytest, and by unittest too."""
import unittest

import raspcream.h11 as h11


def server():
    return h11.Connection(h11.SERVER, now=lambda: 1700000000.0)


class Server(unittest.TestCase):
    def test_a_request_and_the_next_one(self):
        conn = server()
        conn.receive_data(b"POST /x HTTP/1.1\r\nHost: a\r\nContent-Length: 3\r\n\r\nabcGET /y HTTP/1.1\r\nHost: a\r\n\r\n")
        headers = [(b"host", b"a"), (b"content-length", b"3")]
        self.assertEqual(conn.next_event(), h11.Request(method=b"POST", target=b"/x", headers=headers))
        self.assertEqual((conn.our_state, conn.their_state), (h11.SEND_RESPONSE, h11.SEND_BODY))
        self.assertEqual([conn.next_event() for _ in range(3)], [h11.Data(data=b"abc"), h11.EndOfMessage(), h11.PAUSED])
        text = conn.send(h11.Response(status_code=200, headers=[("Content-Length", "2")]))
        self.assertEqual(text, b"HTTP/1.1 200 \r\nContent-Length: 2\r\n\r\n")
        self.assertEqual((conn.send(h11.Data(data=b"hi")), conn.send(h11.EndOfMessage())), (b"hi", b""))
        self.assertEqual(conn.states, {h11.SERVER: h11.DONE, h11.CLIENT: h11.DONE})
        conn.start_next_cycle()
        self.assertIs(type(conn.next_event()), h11.Request)
        self.assertEqual([conn.next_event(), conn.next_event()], [h11.EndOfMessage(), h11.NEED_DATA])

    def test_a_large_body_goes_through_the_hold(self):
        conn = server()
        conn.receive_data(b"POST / HTTP/1.1\r\nHost: a\r\nContent-Length: 1000000\r\n\r\n" + b"x" * 1000000)
        event, size = conn.next_event(), 0
        while type(event) is not h11.EndOfMessage:
            self.assertIsNot(event, h11.NEED_DATA)
            size += len(event.data) if type(event) is h11.Data else 0
            event = conn.next_event()
        self.assertEqual(size, 1000000)

    def test_pieces_wait_in_their_order(self):
        conn = server()
        head = b"POST / HTTP/1.1\r\nHost: a\r\nContent-Length: 1000000\r\n\r\n"
        body = bytes(range(250)) * 4000
        conn.receive_data(head)
        self.assertIs(type(conn.next_event()), h11.Request)
        got, at = b"", 0
        while len(got) < len(body):
            # More comes than is taken at a time, in pieces of many sizes.
            for size in (300_000, 1, 70_001, 7):
                if at < len(body):
                    conn.receive_data(body[at : at + size])
                    at += size
            event = conn.next_event()
            got += event.data if type(event) is h11.Data else b""
        self.assertEqual((got, type(conn.next_event())), (body, h11.EndOfMessage))

    def test_faults(self):
        conn = server()
        conn.receive_data(b"GET / HTTP/1.1\r\nbad line\r\n\r\n")
        with self.assertRaises(h11.RemoteProtocolError) as raised:
            conn.next_event()
        self.assertEqual(raised.exception.error_status_hint, 400)
        self.assertTrue(conn.bytes_to_send().startswith(b"HTTP/1.1 400 "))
        with self.assertRaises(h11.LocalProtocolError):
            server().send(h11.Response(status_code=200))
        for name, value in ((b"x", b"a\r\nb: c"), (b"x y", b"a"), (b"", b"a"), (b"x", b"a\0"), (b"content-length", b"+1")):
            with self.assertRaises(h11.LocalProtocolError):
                h11.Response(status_code=200, headers=[(name, value)])
        with self.assertRaises(h11.LocalProtocolError):
            h11.Response(status_code=200, reason=b"a\r\nb: c")
        conn = server()
        conn.receive_data(b"GET / HTTP/1.1\r\nHost: a\r\n\r\n")
        conn.next_event()
        conn.send(h11.Response(status_code=200, headers=[(b"content-length", b"2")]))
        with self.assertRaises(h11.LocalProtocolError):
            conn.send(h11.Data(data=b"abc"))
        self.assertIs(conn.our_state, h11.ERROR)

    def test_the_callers_answer_to_a_refused_head(self):
        conn = server()
        conn.receive_data(b"GET / HTTP/1.1\r\nbad line\r\n\r\n")
        with self.assertRaises(h11.RemoteProtocolError):
            conn.next_event()
        text = conn.send(h11.Response(status_code=400, headers=[(b"X-A", b"b")], reason=b"No"))
        self.assertEqual(text, b"HTTP/1.1 400 No\r\nX-A: b\r\nConnection: close\r\n\r\n")
        self.assertEqual((conn.send(h11.Data(data=b"no")), conn.send(h11.EndOfMessage()), conn.our_state), (b"no", b"", h11.MUST_CLOSE))

    def test_what_the_caller_writes_itself(self):
        class File:
            def __len__(self):
                return 100000

        conn, file = server(), File()
        conn.receive_data(b"GET / HTTP/1.1\r\nHost: a\r\n\r\nGET / HTTP/1.1\r\nHost: a\r\n\r\n")
        for headers, framed, end in (
            ([(b"Content-Length", b"100000")], [file], b""),
            ([], [b"186a0\r\n", file, b"\r\n"], b"0\r\nX-Sum: 3\r\n\r\n"),
        ):
            self.assertEqual([type(conn.next_event()) for _ in range(2)], [h11.Request, h11.EndOfMessage])
            conn.send(h11.Response(status_code=200, headers=headers))
            self.assertEqual(conn.send_with_data_passthrough(h11.Data(data=file)), framed)
            self.assertEqual(conn.send(h11.EndOfMessage(headers=[] if headers else [(b"X-Sum", b"3")])), end)
            conn.start_next_cycle()

    def test_a_client_that_waits_is_told_to_go_on(self):
        conn = server()
        conn.receive_data(b"POST / HTTP/1.1\r\nHost: a\r\nExpect: 100-continue\r\nContent-Length: 2\r\n\r\n")
        conn.next_event()
        self.assertTrue(conn.they_are_waiting_for_100_continue)
        self.assertEqual(conn.send(h11.InformationalResponse(status_code=100)), b"HTTP/1.1 100 \r\n\r\n")
        self.assertFalse(conn.they_are_waiting_for_100_continue)

    def test_what_is_behind_connect_is_trailing(self):
        conn = server()
        conn.receive_data(b"CONNECT a:1 HTTP/1.1\r\nHost: a:1\r\n\r\nmore")
        self.assertEqual(conn.next_event().method, b"CONNECT")
        self.assertEqual(conn.next_event(), h11.EndOfMessage())
        self.assertIs(conn.next_event(), h11.PAUSED)
        self.assertEqual(conn.trailing_data, (b"more", False))
        conn.send(h11.Response(status_code=200))
        conn.receive_data(b" of it")
        self.assertIs(conn.next_event(), h11.PAUSED)
        self.assertEqual(conn.trailing_data, (b"more of it", False))

    def upgraded(self, lines=b""):
        conn = server()
        conn.receive_data(b"GET / HTTP/1.1\r\nHost: a\r\n" + lines + b"Upgrade: a, b\r\n\r\n")
        self.assertEqual(conn.next_event().method, b"GET")
        self.assertEqual(conn.next_event(), h11.EndOfMessage())
        self.assertIs(conn.their_state, h11.MIGHT_SWITCH_PROTOCOL)
        conn.receive_data(b"GET /2 HTTP/1.1\r\nHost: a\r\n\r\n")
        self.assertIs(conn.next_event(), h11.PAUSED)
        return conn

    def test_an_upgrade_is_accepted(self):
        conn = self.upgraded(b"Connection: upgrade\r\n")
        conn.send(h11.InformationalResponse(status_code=101, headers=[("upgrade", "a")]))
        self.assertEqual(conn.states, {h11.CLIENT: h11.SWITCHED_PROTOCOL, h11.SERVER: h11.SWITCHED_PROTOCOL})
        self.assertEqual(conn.trailing_data, (b"GET /2 HTTP/1.1\r\nHost: a\r\n\r\n", False))

    def test_an_upgrade_is_declined(self):
        conn = self.upgraded()
        conn.send(h11.Response(status_code=200, headers=[("content-length", "0")]))
        conn.send(h11.EndOfMessage())
        conn.start_next_cycle()
        self.assertEqual(conn.next_event().target, b"/2")
        conn = self.upgraded(b"Connection: upgrade\r\n")
        self.assertIn(b"Connection: close", conn.send(h11.Response(status_code=200, headers=[("content-length", "0")])))
        conn.send(h11.EndOfMessage())
        self.assertIs(conn.our_state, h11.MUST_CLOSE)


class Events(unittest.TestCase):
    def test_names_keep_their_capitals(self):
        event = h11.Response(status_code=200, headers=[(b"a", b"1"), ("X-B", "2"), (b"Content-Length", b"5, 5"), (b"content-length", b"5")])
        self.assertEqual(event.headers, [(b"a", b"1"), (b"x-b", b"2"), (b"content-length", b"5")])
        self.assertEqual(event.headers.raw_items(), [(b"a", b"1"), (b"X-B", b"2"), (b"Content-Length", b"5")])
        again = h11.Response(status_code=201, headers=event.headers)
        self.assertIs(again.headers, event.headers)

    def test_events_are_compared_and_shown(self):
        event = h11.Data(b"ab", True)
        self.assertEqual(repr(event), "Data(data=b'ab', chunk_start=True, chunk_end=False)")
        self.assertEqual(event, h11.Data(data=b"ab", chunk_start=True))
        self.assertNotEqual(event, h11.Data(data=b"ab"))
        self.assertNotEqual(h11.Response(status_code=200), h11.InformationalResponse(status_code=100))
        self.assertEqual(repr(h11.ConnectionClosed()), "ConnectionClosed()")
        with self.assertRaises(TypeError):
            hash(event)

    def test_an_event_does_not_change(self):
        event = h11.Data(data=b"ab")
        with self.assertRaises(AttributeError):
            event.data = b""
        with self.assertRaises(TypeError):
            event.__init__(data=b"")
        self.assertEqual(event.data, b"ab")

    def test_wrong_values(self):
        for words in ({}, {"status_code": 200, "body": b""}, {"status_code": 200, "headers": 1}, {"status_code": 200, "headers": [(1, b"a")]}):
            with self.assertRaises(TypeError):
                h11.Response(**words)
        with self.assertRaises(TypeError):
            h11.Response(200)
        for headers in ([(b"content-length", b"1, 2")], [(b"a", b" b")], [(b"transfer-encoding", b"gzip")]):
            with self.assertRaises(h11.LocalProtocolError):
                h11.Response(status_code=200, headers=headers)
        for status in ("200", 99, 199, 1000, 10**30):
            with self.assertRaises(h11.LocalProtocolError):
                h11.Response(status_code=status)

    def test_a_line_that_was_changed_is_checked_again(self):
        for line in ((b"date", b"a\r\nb: c"), (b"x", b"a\r\nb: c"), (b"content-length", b"-1")):
            conn, event = server(), h11.Response(status_code=200)
            conn.receive_data(b"GET / HTTP/1.1\r\nHost: a\r\n\r\n")
            conn.next_event()
            event.headers.append(line)
            with self.assertRaises(h11.LocalProtocolError):
                conn.send(event)

    def test_what_never_began(self):
        conn = h11.Connection.__new__(h11.Connection)
        for call in (conn.next_event, conn.bytes_to_send, lambda: conn.receive_data(b"a"), lambda: conn.send(h11.Data(b"a")), lambda: conn.trailing_data):
            with self.assertRaises(ValueError):
                call()
        with self.assertRaises(h11.LocalProtocolError):
            server().send(h11.Request.__new__(h11.Request))


class TwoEnds(unittest.TestCase):
    def test_exchanges(self):
        server, client = h11.Connection(h11.SERVER), h11.Connection(h11.CLIENT)
        for turn in range(20):
            request = h11.Request(method="POST", target=f"/{turn}", headers=[("host", "a"), ("transfer-encoding", "chunked")])
            text = client.send(request) + client.send(h11.Data(data=b"ab")) + client.send(h11.EndOfMessage())
            server.receive_data(text)
            self.assertEqual(server.next_event().target, b"/%d" % turn)
            self.assertEqual([server.next_event(), server.next_event()], [h11.Data(data=b"ab"), h11.EndOfMessage()])
            text = server.send(h11.Response(status_code=404)) + server.send(h11.Data(data=b"no")) + server.send(h11.EndOfMessage())
            client.receive_data(text)
            self.assertEqual(client.next_event().status_code, 404)
            self.assertEqual([client.next_event(), client.next_event()], [h11.Data(data=b"no"), h11.EndOfMessage()])
            server.start_next_cycle()
            client.start_next_cycle()

    def test_an_end_of_input(self):
        conn = h11.Connection(h11.SERVER)
        conn.receive_data(b"")
        self.assertEqual(conn.next_event(), h11.ConnectionClosed())


if __name__ == "__main__":
    unittest.main()
