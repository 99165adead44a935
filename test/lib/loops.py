"""Clients of the servers over a dispatcher: app_counters, a thread for each connection over one board of counters, and app_site,
an event loop."""
import http.client, json, os, re, secrets, socket, subprocess, tempfile, threading

from checks import check, connect, differs, free_port, has, read_all, run, statuses_of, wait_for

NGINX = """
worker_processes 1; daemon off; pid %(place)s/nginx.pid; error_log %(place)s/error.log;
events { worker_connections 512; }
http {
  access_log off; client_body_temp_path %(place)s/b; proxy_temp_path %(place)s/p; fastcgi_temp_path %(place)s/f;
  uwsgi_temp_path %(place)s/u; scgi_temp_path %(place)s/s; client_max_body_size 0;
  upstream kept { server %(server)s; keepalive 8; }
  server { listen 127.0.0.1:%(port)d;
    location / { proxy_pass http://kept; proxy_http_version 1.1; proxy_set_header Connection ""; } } }
"""
LAST = b"GET / HTTP/1.1\r\nhost: a\r\nconnection: close\r\n\r\n"


def behind_nginx(name, server, make):
    """Runs a client of nginx, which has the server behind it."""
    if not has("nginx"):
        return
    port = free_port()
    with tempfile.TemporaryDirectory() as place:
        # A process of nginx's that isn't root keeps large bodies there.
        os.chmod(place, 0o755)
        with open(f"{place}/nginx.conf", "w") as text:
            text.write(NGINX % {"place": place, "server": "%s:%d" % server, "port": port})
        nginx = subprocess.Popen(["nginx", "-c", f"{place}/nginx.conf"], stderr=subprocess.DEVNULL)
        try:
            wait_for(("127.0.0.1", port))
            check(name, lambda: make(("127.0.0.1", port)))
        finally:
            nginx.terminate()
            nginx.wait()


def asked(address, method, path, body=None):
    """One request over a connection of its own: the status, the count that the answer tells, and its body."""
    client = http.client.HTTPConnection(*address, timeout=20)
    try:
        client.request(method, path, body)
        answer = client.getresponse()
        return answer.status, answer.getheader("x-count"), answer.read()
    finally:
        client.close()


def by_byte(address, name):
    def make():
        with connect(address) as sock:
            for byte in LAST:
                sock.sendall(bytes([byte]))
            return differs(len(statuses_of(read_all(sock))), 1)
    check(f"{name}, byte by byte", make)


def malformed(address, name):
    def make():
        with connect(address) as sock:
            sock.sendall(b"NO HTTP\r\n\r\n")
            return differs(statuses_of(read_all(sock)), [b"400"])
    check(f"{name}, no HTTP", make)


def deaf(address, name, path):
    """A peer that sends requests and reads no answer holds up nobody."""
    def make():
        with connect(address) as sock:
            sock.setblocking(False)
            pipelined = b"GET %s HTTP/1.1\r\nhost: a\r\n\r\n" % path.encode() * 1000
            for _ in range(200):
                try:
                    sock.send(pipelined)
                except BlockingIOError:
                    break
            return differs([asked(address, "GET", path)[0] for _ in range(20)], [200] * 20)
    check(f"{name}, twenty requests beside a peer that reads nothing", make)


# ---- a thread for each connection

def counting_clients(address, program):
    """The counters of app_counters. Each check has a counter of its own, which no one has added to."""
    new = "/" + secrets.token_hex(8)
    if has("curl"):
        url = "http://%s:%d%s" % (*address, new)

        def counted():
            done = run("curl", "-sS", "-m", "20", "-D", "-", "-X", "POST", f"{url}/curl", "-X", "POST", f"{url}/curl")
            return done.stderr.decode() or differs(re.findall(rb"x-count: (\d+)", done.stdout), [b"1", b"2"])
        check("counters, curl POST twice over one connection", counted)
    check("counters, GET of one that was never added to", lambda: differs(asked(address, "GET", f"{new}/none")[:2], (200, "0")))
    check("counters, another method", lambda: differs(asked(address, "PUT", "/a", b"abc"), (404, None, b"")))
    check("counters, a name of 65 bytes", lambda: differs(asked(address, "GET", "/" + "a" * 64)[0], 404))
    by_byte(address, "counters")
    malformed(address, "counters")
    deaf(address, "counters", f"{new}/deaf")

    def pipelined():
        with connect(address) as sock:
            threading.Thread(target=sock.sendall, args=(b"POST %s/many HTTP/1.1\r\nhost: a\r\n\r\n" % new.encode() * 1999 + LAST,)).start()
            counts = re.findall(rb"x-count: (\d+)", read_all(sock))
            return differs([int(count) for count in counts[:1999]], list(range(1, 2000)))
    check("counters, 2,000 requests at once", pipelined)

    def together():
        def add():
            # On a slow machine a kept connection may end between two requests: then the second one is sent again.
            client = http.client.HTTPConnection(*address, timeout=20)
            added = 0
            while added < 20:
                try:
                    client.request("POST", f"{new}/together")
                    client.getresponse().read()
                    added += 1
                except (ConnectionError, http.client.HTTPException):
                    client.close()
            client.close()
        threads = [threading.Thread(target=add) for _ in range(50)]
        for thread in threads:
            thread.start()
        for thread in threads:
            thread.join()
        return differs(asked(address, "GET", f"{new}/together")[1], "1000")
    check("counters, 50 connections at once that add 20 each", together)
    behind_nginx("counters, nginx in front", address,
                 lambda nginx: differs([asked(nginx, "POST", f"{new}/nginx")[1] for _ in range(20)], [str(n) for n in range(1, 21)]))
    check("counters, the report of three connections", lambda: report_of_three(program))


def report_of_three(program):
    """Three connections of a server that takes no more: then it ends with its report."""
    port = free_port()
    server = subprocess.Popen([program, str(port), "3", "100000"], stdout=subprocess.PIPE)
    try:
        seen = []
        for method, path in (("POST", "/b"), ("POST", "/a"), ("GET", "/c")):
            for attempt in range(200):
                try:
                    seen.append(asked(("127.0.0.1", port), method, path)[1])
                    break
                except ConnectionRefusedError:
                    threading.Event().wait(0.05)
        said = server.communicate(timeout=20)[0]
        return differs((seen, said, server.returncode), (["1", "1", "0"], b"calls 3\n/a 1\n/b 1\n/c 0\n", 0))
    finally:
        server.kill()
        server.wait()


# ---- an event loop

def json_clients(address):
    """The pages of app_site that answer JSON, and its routes."""
    def told(name, method, path, wanted, body=None, **headers):
        def make():
            client = http.client.HTTPConnection(*address, timeout=20)
            try:
                client.request(method, path, body, headers)
                answer = client.getresponse()
                return differs((answer.status, answer.getheader("content-type"), answer.getheader("allow"), json.loads(answer.read())), wanted)
            finally:
                client.close()
        check("event loop, JSON: " + name, make)

    def fine(value):
        return 200, "application/json", None, value

    def wrong(status, what, allow=None):
        return status, "application/json", allow, {"error": what}
    numbers = "the body has no list of whole numbers"
    told("a greeting by name", "GET", "/greet/Ann", fine({"hello": "Ann"}))
    told("a name that needs escapes", "GET", "/greet/a%22b", fine({"hello": 'a"b'}))
    told("a name in UTF-8", "GET", "/greet/J%C3%BCrgen", fine({"hello": "J\u00fcrgen"}))
    told("a name that isn't UTF-8", "GET", "/greet/%ff", wrong(400, "the name is no text"))
    told("a name and a query", "GET", "/greet/Ann?x=1", fine({"hello": "Ann"}))
    told("no name", "GET", "/greet/", wrong(404, "there is no such page"))
    told("two names", "GET", "/greet/Ann/Bob", wrong(404, "there is no such page"))
    told("a sum", "POST", "/sum", fine({"count": 3, "sum": -4}), '{"numbers": [1, 2, -7]}')
    told("a sum of none", "POST", "/sum", fine({"count": 0, "sum": 0}), '{"numbers": []}')
    told("a sum in chunks", "POST", "/sum", fine({"count": 2, "sum": 3}), iter([b'{"numb', b'ers": [1, ', b'2]}']))
    told("the largest sum", "POST", "/sum", fine({"count": 2, "sum": 2**63 - 1}), '{"numbers": [9223372036854775806, 1]}')
    told("a sum that is too large", "POST", "/sum", wrong(400, "the sum is too large"), '{"numbers": [9223372036854775807, 1]}')
    told("no JSON", "POST", "/sum", wrong(400, "the body is no JSON"), '{"numbers": [1,}')
    told("no body", "POST", "/sum", wrong(400, "the body is no JSON"))
    told("no UTF-8", "POST", "/sum", wrong(400, "the body is no JSON"), b'"\xff"')
    told("no numbers", "POST", "/sum", wrong(400, numbers), '{"number": [1]}')
    told("a list alone", "POST", "/sum", wrong(400, numbers), '[1, 2]')
    told("a fraction", "POST", "/sum", wrong(400, numbers), '{"numbers": [1, 2.5]}')
    told("a number of 64 bits and more", "POST", "/sum", wrong(400, numbers), '{"numbers": [9223372036854775808]}')
    told("a text in the list", "POST", "/sum", wrong(400, numbers), '{"numbers": ["1"]}')
    told("10,000 levels", "POST", "/sum", wrong(400, "the body is no JSON"), "[" * 10_000)
    told("a body that is too large", "POST", "/sum", wrong(413, "the body is too large"), '{"numbers": [' + "1," * 40_000 + "1]}")
    told("GET of a sum", "GET", "/sum", wrong(405, "the page has no such method", "POST"))
    told("DELETE of a page", "DELETE", "/greet/Ann", wrong(405, "the page has no such method", "GET, HEAD"))
    told("an unknown page", "GET", "/sums", wrong(404, "there is no such page"))


def looped_clients(address):
    """The pages of app_site: a greeting, three lines in chunks, and an echo."""
    json_clients(address)
    url = "http://%s:%d" % address
    body = bytes(range(256)) * 200

    def statuses(name, wanted, *words):
        def make():
            done = run("curl", "-sS", "-m", "20", "-o", "/dev/null", "-w", "%{http_code} %{num_connects} ", *words)
            return done.stderr.decode() or differs(done.stdout, wanted)
        check("event loop, curl " + name, make)

    def lines():
        done = run("curl", "-sS", "-m", "20", f"{url}/lines", f"{url}/lines")
        return done.stderr.decode() or differs(done.stdout, b"line\n" * 6)

    def echoed(name, *words):
        def make():
            done = run("curl", "-sS", "-m", "20", *words, "--data-binary", "@-", f"{url}/echo", data=body)
            return done.stderr.decode() or differs(done.stdout, body)
        check("event loop, curl POST of " + name, make)
    if has("curl"):
        echoed("51,200 bytes, which come back", "-H", "Expect:")
        echoed("the same in chunks", "-H", "Transfer-Encoding: chunked", "-H", "Expect:")
        echoed("the same with Expect: 100-continue", "-H", "Expect: 100-continue")
        statuses("GET twice over one connection", b"404 1 200 0 ", f"{url}/nothing", "-o", "/dev/null", f"{url}/")
        statuses("POST of a page", b"405 1 ", "-d", "abc", f"{url}/")
        statuses("HEAD of a body in pieces, and of the first page after it", b"200 1 200 0 ", "-I", f"{url}/lines", "-o", "/dev/null",
                 f"{url}/")
        check("event loop, curl GET of a body in pieces, twice", lines)
    check("event loop, GET", lambda: differs(asked(address, "GET", "/"), (200, None, b"hello\n")))
    check("event loop, HEAD", lambda: differs(asked(address, "HEAD", "/"), (200, None, b"")))
    check("event loop, an unknown path", lambda: differs(asked(address, "GET", "/x")[0], 404))
    check("event loop, a body that is too large", lambda: differs(asked(address, "POST", "/echo", b"x" * 70_000)[0], 413))
    by_byte(address, "event loop")
    malformed(address, "event loop")
    deaf(address, "event loop", "/")

    def pipelined():
        with connect(address) as sock:
            threading.Thread(target=sock.sendall, args=(b"GET / HTTP/1.1\r\nhost: a\r\n\r\n" * 1999 + LAST,)).start()
            return differs(read_all(sock).count(b"HTTP/1.1 200 OK\r\n"), 2000)
    check("event loop, 2,000 requests at once", pipelined)

    def many():
        socks = [connect(address) for _ in range(400)]
        try:
            for sock in socks:
                sock.sendall(b"GET / HTTP/1.1\r\nhost: a\r\n\r\n")
            return differs([sock.recv(17) for sock in socks], [b"HTTP/1.1 200 OK\r\n"] * 400)
        finally:
            for sock in socks:
                sock.close()
    check("event loop, 400 connections at once", many)

    def reset():
        # A peer that resets its connection in the middle of a body ends that one alone.
        with connect(address) as other:
            for _ in range(20):
                sock = connect(address)
                sock.sendall(b"POST /echo HTTP/1.1\r\nhost: a\r\ncontent-length: 1000\r\n\r\nabc")
                sock.setsockopt(socket.SOL_SOCKET, socket.SO_LINGER, b"\1\0\0\0\0\0\0\0")
                sock.close()
            other.sendall(LAST)
            return differs(statuses_of(read_all(other)), [b"200"])
    check("event loop, twenty peers that reset their connections", reset)
    behind_nginx("event loop, nginx in front", address,
                 lambda nginx: differs([asked(nginx, "POST", "/echo", body)[2] == body for _ in range(20)], [True] * 20))


def looped_end(server):
    """Its standard input ends, and so does it, although a connection is open and idle."""
    def make():
        server.stdin.close()
        return differs(server.wait(timeout=20), 0)
    check("event loop, its input ends", make)
