"""The engine under uvicorn: `uvicorn.run(app, http=raspcream.uvicorn.Protocol)`.

The times, `date` and what is refused are the engine's. A WebSocket goes to the protocol that uvicorn has for it."""
import asyncio
import logging
import time
from urllib.parse import unquote

from uvicorn.protocols.http.flow_control import HIGH_WATER_LIMIT, FlowControl, service_unavailable
from uvicorn.protocols.utils import get_client_addr, get_local_addr, get_path_with_query_string, get_remote_addr, is_ssl

from . import Body, Can, Keep, Kind, NO_BODY, STREAM
from ._conn import Conn, Misplaced

_VERSIONS = ("1.0", "1.1")
_WRITTEN = frozenset((b"date", b"connection", b"content-length", b"transfer-encoding"))


class Protocol(asyncio.Protocol):
    """A connection of uvicorn."""

    def __init__(self, config, server_state, app_state=None, _loop=None):
        if not config.loaded:
            config.load()
        self.config, self.server_state, self.app_state = config, server_state, app_state
        self.loop = _loop or asyncio.get_event_loop()
        self.logger, self.access_logger = logging.getLogger("uvicorn.error"), logging.getLogger("uvicorn.access")
        self.logs = config.access_log and self.access_logger.hasHandlers()
        self.conn = Conn(keep_alive_ms=int(config.timeout_keep_alive * 1000))
        self.left, self.has_ended = b"", False
        self.transport = self.flow = self.exchange = self.timer = None
        self.is_over = False

    # ---- what asyncio calls

    def connection_made(self, transport):
        self.transport, self.flow = transport, FlowControl(transport)
        self.server, self.client = get_local_addr(transport), get_remote_addr(transport)
        self.scheme = "https" if is_ssl(transport) else "http"
        self.server_state.connections.add(self)
        self.tick()
        self.watch()

    def connection_lost(self, exc):
        self.server_state.connections.discard(self)
        self.is_over = True
        if self.timer is not None:
            self.timer.cancel()
        if self.exchange is not None:
            self.exchange.is_lost = True
            self.exchange.news.set()
        self.flow.resume_writing()

    def data_received(self, data):
        self.left = self.left + data if self.left else data
        self.tick()
        self.go()

    def eof_received(self):
        self.has_ended = True
        self.tick()
        self.go()
        return self.scheme == "http" and not self.is_over

    def pause_writing(self):
        self.flow.pause_writing()

    def resume_writing(self):
        self.flow.resume_writing()

    def shutdown(self):
        """What uvicorn calls before it ends: the open exchange is the last one."""
        try:
            if self.conn.state()[0] & Can.DRAIN:
                self.conn.drain()
        except Misplaced:
            pass
        if self.exchange is None:
            self.close()

    # ---- the time

    def tick(self):
        try:
            kind, _ = self.conn.tick(int(time.time() * 1000))
        except Misplaced:
            return
        if kind == Kind.ABANDONED:
            self.close()

    def watch(self):
        """One timer runs, and looks again where the moment has moved."""
        if self.timer is None and not self.is_over:
            deadline = self.conn.state()[7]
            if deadline >= 0:
                self.timer = self.loop.call_later(max(0.001, deadline / 1000 - time.time()), self.ring)

    def ring(self):
        self.timer = None
        self.tick()
        self.go()

    # ---- what comes

    def go(self):
        """As far as the bytes go that are here."""
        while not self.is_over:
            has_fed = self.feed()
            exchange = self.exchange
            if exchange is None:
                goes_on = self.head()
            elif exchange.has_more and len(exchange.body) < HIGH_WATER_LIMIT:
                goes_on = self.piece(exchange)
            else:
                break
            if not goes_on and not has_fed:
                break
        if self.is_over:
            return
        if self.left:
            self.flow.pause_reading()
        else:
            self.flow.resume_reading()
        self.write()
        self.watch()

    def feed(self):
        """Hands in what there is room for. Whether something was taken."""
        count = 0
        try:
            if self.left:
                count = self.conn.read(self.left)
                self.left = self.left[count:]
            if self.has_ended and not self.left:
                self.has_ended = False
                self.conn.eof()
                return True
        except Misplaced:
            pass
        return count > 0

    def head(self):
        try:
            head = self.conn.next()
        except Misplaced:
            # A connection that closes is written out first.
            return self.write()
        if head is None:
            return False
        if head[0] == Kind.HEAD:
            self.begin(*head[1:])
            return True
        if head[0] == Kind.FAULT:
            self.logger.warning("Invalid HTTP request received.")
            self.write()
            return True
        self.close()
        return False

    def begin(self, method, target, minor, body, length, headers):
        path, _, query = target.partition(b"?")
        text = path.decode("ascii", "replace")
        scope = {
            "type": "http",
            "asgi": {"version": self.config.asgi_version, "spec_version": "2.3"},
            "http_version": _VERSIONS[minor],
            "server": self.server,
            "client": self.client,
            "scheme": self.scheme,
            "method": method.decode("ascii"),
            "root_path": self.config.root_path,
            "path": unquote(text) if "%" in text else text,
            "raw_path": path,
            "query_string": query,
            "headers": headers,
        }
        if self.app_state is not None:
            scope["state"] = self.app_state.copy()
        if body == Body.RAW and self.config.ws_protocol_class and any(n == b"upgrade" and v.lower() == b"websocket" for n, v in headers):
            self.hand_over(method, target, headers)
            return
        state, limit = self.server_state, self.config.limit_concurrency
        app = self.config.loaded_app
        if limit is not None and (len(state.connections) >= limit or len(state.tasks) >= limit):
            self.logger.warning("Exceeded concurrency limit.")
            app = service_unavailable
        self.exchange = exchange = Exchange(self, scope, body not in (Body.NONE, Body.RAW))
        task = self.loop.create_task(exchange.run(app))
        task.add_done_callback(state.tasks.discard)
        state.tasks.add(task)

    def hand_over(self, method, target, headers):
        """Gives the connection, with all that came, to uvicorn's protocol for WebSocket."""
        lines = b"".join(b"%s: %s\r\n" % pair for pair in headers)
        text = b"%s %s HTTP/1.1\r\n%s\r\n" % (method, target, lines) + self.conn.held() + self.left
        self.is_over = True
        self.server_state.connections.discard(self)
        if self.timer is not None:
            self.timer.cancel()
        more = {} if self.app_state is None else {"app_state": self.app_state}
        protocol = self.config.ws_protocol_class(config=self.config, server_state=self.server_state, **more)
        protocol.connection_made(self.transport)
        protocol.data_received(text)
        self.transport.set_protocol(protocol)

    def piece(self, exchange):
        """More of the body. Whether there may be more at once."""
        try:
            piece = self.conn.pull()
        except Misplaced:
            piece = (Kind.END, 0)
        if piece is None:
            return False
        if type(piece) is bytes:
            exchange.body += piece
        else:
            exchange.has_more = False
            exchange.is_lost = type(piece) is tuple and piece[0] == Kind.BROKEN
        exchange.news.set()
        return True

    # ---- what goes

    def write(self):
        """Whether something waited."""
        data = self.conn.take()
        if data and not self.transport.is_closing():
            self.transport.write(data)
        return bool(data)

    def done(self, exchange):
        """The answer is whole."""
        self.server_state.total_requests += 1
        if self.exchange is not exchange or self.is_over:
            return
        if exchange.has_more and self.conn.state()[0] & Can.DROP:
            self.conn.drop_body()
        self.write()
        self.exchange = None
        self.tick()
        self.go()

    def close(self):
        if not self.is_over:
            try:
                self.write()
            except Misplaced:
                pass
            self.is_over = True
            self.transport.close()


class Exchange:
    """A request and its answer."""

    def __init__(self, protocol, scope, has_more):
        self.protocol, self.scope, self.has_more = protocol, scope, has_more
        self.body, self.news = b"", asyncio.Event()
        self.is_lost = self.is_done = False
        self.start = None
        self.has_answered = self.has_told_all = False

    async def run(self, app):
        try:
            result = await app(self.scope, self.receive, self.send)
        except BaseException as error:
            self.protocol.logger.error("Exception in ASGI application\n", exc_info=error)
            await self.fail()
        else:
            if result is not None:
                self.protocol.logger.error("ASGI callable should return None, but returned '%s'.", result)
                await self.fail()
            elif not self.is_done and not self.is_lost:
                self.protocol.logger.error("ASGI callable returned without completing response.")
                await self.fail()

    async def fail(self):
        """500, or where an answer has begun its end with the connection's."""
        if self.is_done or self.protocol.is_over:
            return
        if not self.has_answered:
            self.start = None
            headers = [(b"content-type", b"text/plain; charset=utf-8"), (b"connection", b"close")]
            await self.send({"type": "http.response.start", "status": 500, "headers": headers})
            await self.send({"type": "http.response.body", "body": b"Internal Server Error"})
            return
        self.is_done = True
        if self.protocol.conn.state()[0] & Can.END:
            self.protocol.conn.fail()
        self.protocol.done(self)
        self.protocol.close()

    async def receive(self):
        protocol = self.protocol
        if self.has_more and not self.body and not protocol.is_over and protocol.conn.state()[0] & Can.CONTINUE:
            protocol.conn.send_continue()
            protocol.write()
        while not self.body and not self.is_lost and not self.is_done and (self.has_more or self.has_told_all):
            self.news.clear()
            await self.news.wait()
        if self.is_lost or self.is_done:
            return {"type": "http.disconnect"}
        body, self.body, self.has_told_all = self.body, b"", not self.has_more
        message = {"type": "http.request", "body": body, "more_body": self.has_more}
        if self.has_more:
            # There is room again.
            protocol.go()
        return message

    async def send(self, message):
        protocol = self.protocol
        if protocol.flow.write_paused and not self.is_lost:
            await protocol.flow.drain()
        if self.is_lost or protocol.is_over:
            return
        kind = message["type"]
        if self.is_done or kind != ("http.response.start" if self.start is None else "http.response.body"):
            raise RuntimeError(f"Unexpected ASGI message '{kind}'.")
        if self.start is None:
            self.start = message
            return
        body, goes_on = message.get("body", b""), message.get("more_body", False)
        if not self.has_answered:
            self.answer(None if goes_on else len(body))
        if body and protocol.conn.state()[0] & Can.CHUNK:
            protocol.conn.chunk(body)
        if not goes_on:
            self.is_done = True
            if protocol.conn.state()[0] & Can.END:
                protocol.conn.end()
            self.news.set()
            protocol.done(self)
        else:
            protocol.write()

    def answer(self, length):
        """Sends the head, with the length of a body that is here whole."""
        protocol, status = self.protocol, self.start["status"]
        is_head = self.scope["method"] == "HEAD"
        size, keep, lines, is_stream = STREAM if length is None or is_head else length, Keep.DEFAULT, [], False
        for name, value in [*protocol.server_state.default_headers, *self.start.get("headers", ())]:
            name, value = bytes(name).lower(), bytes(value)
            if name not in _WRITTEN:
                lines.append((name, value))
            elif name == b"content-length":
                if not value.isdigit():
                    raise ValueError(f"no content-length: {value!r}")
                size = int(value)
            elif name == b"transfer-encoding":
                is_stream = True
            elif name == b"connection" and b"close" in value.lower():
                keep = Keep.CLOSE
        size = NO_BODY if status in (204, 304) else STREAM if is_stream else size
        protocol.conn.answer(status, keep, size, lines)
        self.has_answered = True
        if protocol.logs:
            scope = self.scope
            protocol.access_logger.info(
                '%s - "%s %s HTTP/%s" %d', get_client_addr(scope), scope["method"], get_path_with_query_string(scope), scope["http_version"], status)
