"""Clients of app_proxy at the edge: which heads it refuses, what it tells its server, and how long it waits for whom."""
import os, random, re, socket, struct, subprocess, tempfile, threading, time

from checks import check, connect, differs, free_port, has, read_all, run, statuses_of, wait_for
from forwarder import GET, LAST, Forwarder, exchange, send_all

# Heads, each with the status that it gets, and with --lax.
HEADS = (
    ("one Host", b"GET /x HTTP/1.1\r\nhost: a\r\n", b"200", b"200"),
    ("a Host with a port", b"GET /x HTTP/1.1\r\nhost: a.b:80\r\n", b"200", b"200"),
    ("a Host in brackets", b"GET /x HTTP/1.1\r\nhost: [::1]:80\r\n", b"200", b"200"),
    ("HTTP/1.0 without Host", b"GET /x HTTP/1.0\r\n", b"200", b"200"),
    ("no Host", b"GET /x HTTP/1.1\r\n", b"400", b"200"),
    ("two Hosts", b"GET /x HTTP/1.1\r\nhost: a\r\nhost: a\r\n", b"400", b"200"),
    ("two Hosts in HTTP/1.0", b"GET /x HTTP/1.0\r\nhost: a\r\nhost: b\r\n", b"400", b"200"),
    ("a Host with a blank", b"GET /x HTTP/1.1\r\nhost: a b\r\n", b"400", b"200"),
    ("a Host with a user", b"GET /x HTTP/1.1\r\nhost: u@a\r\n", b"400", b"200"),
    ("a Host with a path", b"GET /x HTTP/1.1\r\nhost: a/b\r\n", b"400", b"200"),
    ("a Host that is a port", b"GET /x HTTP/1.1\r\nhost: :80\r\n", b"400", b"200"),
    ("a byte from 128 on in the target", b"GET /\xc3\xa4 HTTP/1.1\r\nhost: a\r\n", b"400", b"200"),
    ("a fragment", b"GET /x#y HTTP/1.1\r\nhost: a\r\n", b"400", b"200"),
    ("a target that is no path", b"GET x HTTP/1.1\r\nhost: a\r\n", b"400", b"501"),
    ("GET of all", b"GET * HTTP/1.1\r\nhost: a\r\n", b"400", b"501"),
    ("a URL with a user", b"GET http://u@a/x HTTP/1.1\r\nhost: a\r\n", b"400", b"501"),
    ("a URL without a host", b"GET http://:80/x HTTP/1.1\r\nhost: a\r\n", b"400", b"501"),
    ("a URL of another scheme", b"GET https://a/x HTTP/1.1\r\nhost: a\r\n", b"501", b"501"),
)

NGINX = """
worker_processes 1; daemon off; master_process off; pid %(place)s/pid; error_log %(place)s/error.log;
events { worker_connections 512; }
http { access_log off; client_body_temp_path %(place)s/b; proxy_temp_path %(place)s/p; fastcgi_temp_path %(place)s/f;
  uwsgi_temp_path %(place)s/u; scgi_temp_path %(place)s/s; proxy_request_buffering off;
  client_header_timeout 2s; client_body_timeout 2s; send_timeout 2s; keepalive_timeout 2s; proxy_read_timeout 2s;
  server { listen 127.0.0.1:%(port)d; location / { proxy_pass http://%(server)s; proxy_set_header Host $host;
    proxy_set_header X-Forwarded-For $proxy_add_x_forwarded_for; } } }
"""


class Nginx:
    """nginx before a server, with limits of two seconds."""
    def __init__(self, server):
        self.place = tempfile.TemporaryDirectory()
        os.chmod(self.place.name, 0o755)
        self.address = ("127.0.0.1", free_port())
        with open(f"{self.place.name}/nginx.conf", "w") as text:
            text.write(NGINX % {"place": self.place.name, "port": self.address[1], "server": "%s:%d" % server})
        self.process = subprocess.Popen(["nginx", "-c", f"{self.place.name}/nginx.conf"], stderr=subprocess.DEVNULL)
        wait_for(self.address)

    def __enter__(self):
        return self

    def __exit__(self, *_):
        self.process.terminate()
        self.process.wait()
        self.place.cleanup()


def edge_clients(program, server):
    head_clients(program, server)
    told_clients(program, server)
    limit_clients(program, server)
    span_clients(program, server)
    reuse_clients(program, server)
    descriptor_clients(program, server)
    gone_clients(program)
    if has("nginx"):
        with Nginx(server.address) as nginx:
            beside_nginx(program, server, nginx.address)


# ---- heads

def status_by(address, head):
    """The statuses for a request with this head."""
    return re.findall(rb"HTTP/1\.[01] (\d\d\d) ", exchange(address, head + b"connection: close\r\n\r\n"))


def head_clients(program, server):
    for words, column in ((), 2), (("--lax",), 3):
        with Forwarder(program, server.address, *words) as forwarder:
            for row in HEADS:
                check(" ".join(["forwarder,", row[0], *words]), lambda: differs(status_by(forwarder.address, row[1]), [row[column]]))
            if not words:
                check("forwarder, a head that is refused gets its answer before its body", lambda: at_once(forwarder.address, server))
            else:
                check("forwarder, --lax sends one Host", lambda: one_host(forwarder.address, server))


def at_once(address, server):
    before = b"".join(map(bytes, server.came))
    start = time.monotonic()
    seen = exchange(address, b"POST /refused HTTP/1.1\r\ncontent-length: 1000\r\n\r\nx")
    time.sleep(0.1)
    reached = b"".join(map(bytes, server.came)).count(b"/refused") - before.count(b"/refused")
    return differs((statuses_of(seen), b"\r\nconnection: close\r\n" in seen.lower(), reached, time.monotonic() - start < 5), ([b"400"], True, 0, True))


def one_host(address, server):
    def hosts(lines):
        seen = exchange(address, b"GET /head HTTP/1.1\r\n" + lines + b"connection: close\r\n\r\n")
        return re.findall(rb"\r\nhost: ([^\r]*)\r\n", seen.split(b"\r\n\r\n", 1)[1].lower())
    return differs((hosts(b""), hosts(b"host: b\r\nhost: c\r\n")), ([b"%s:%d" % (b"127.0.0.1", server.address[1])], [b"b"]))


# ---- what the server is told

def told_clients(program, server):
    own = b"x-forwarded-for: 10.0.0.1\r\nx-forwarded-proto: https\r\nx-forwarded-host: c\r\nforwarded: for=x\r\n"

    def lines_of(address, lines):
        with connect(address) as sock:
            port = sock.getsockname()[1]
            sock.sendall(b"GET /head HTTP/1.1\r\nhost: a\r\nconnection: close\r\n" + lines + b"\r\n")
            sent = read_all(sock).split(b"\r\n\r\n", 1)[1].decode()
        return sorted(line.replace(str(port), "PORT") for line in sent.strip().split("\r\n")[1:] if not line.startswith("date"))

    here = ['forwarded: for="127.0.0.1:PORT";proto=http', "host: a", "via: 1.1 raspcream", "x-forwarded-for: 127.0.0.1"]
    with Forwarder(program, server.address) as forwarder:
        wanted = sorted([*here, "x-forwarded-host: a", "x-forwarded-proto: http"])
        check("forwarder, its server is told the client", lambda: differs(lines_of(forwarder.address, b""), wanted))
        check("forwarder, and what the client says is replaced", lambda: differs(lines_of(forwarder.address, own), wanted))

        def old():
            seen = exchange(forwarder.address, b"GET /head HTTP/1.0\r\n\r\n").split(b"\r\n\r\n", 1)[1]
            return differs((b"\r\nhost: 127.0.0.1:%d\r\n" % server.address[1] in seen, b"\r\nvia: 1.0 raspcream\r\n" in seen), (True, True))
        check("forwarder, a request of HTTP/1.0 without Host gets one", old)
    with Forwarder(program, server.address, "--trust-forwarded") as forwarder:
        kept = sorted([*here, "x-forwarded-for: 10.0.0.1", "x-forwarded-proto: https", "x-forwarded-host: c", "forwarded: for=x"])
        check("forwarder, --trust-forwarded", lambda: differs(lines_of(forwarder.address, own), kept))


# ---- times

def ends(address, begin, drips=b""):
    """What comes until the connection ends, and after how many seconds, where a client begins so and then sends this now and then."""
    start = time.monotonic()
    seen = b""
    with connect(address) as sock:
        sock.sendall(begin)
        sock.settimeout(0.2)
        while time.monotonic() - start < 40:
            try:
                piece = sock.recv(65536)
                if not piece:
                    break
                seen += piece
            except TimeoutError:
                send_all(sock, drips)
            except OSError:
                break
    return statuses_of(seen), time.monotonic() - start


def check_end(name, address, statuses, least, most, begin, drips=b""):
    def make():
        seen, seconds = ends(address, begin, drips)
        return differs((seen, least <= seconds <= most), (statuses, True)) and f"{seen} after {seconds:.1f} s"
    check("forwarder, " + name, make)


HALF_HEAD = b"GET / HTTP/1.1\r\nx: "
HALF_BODY = b"POST /echo HTTP/1.1\r\nhost: a\r\ncontent-length: 1000\r\n\r\nhalf"
HALF_DROPPED = b"POST /early HTTP/1.1\r\nhost: a\r\ncontent-length: 1000\r\n\r\nhalf"


def default_clients(program, server):
    """Clients of a forwarder with the default limits, all at once, in a thread that is answered."""
    rows = (
        ("by default a first head that doesn't end gets 408 after 5 seconds", [b"408"], 4.5, 8.5, HALF_HEAD, b"x"),
        ("by default an idle client is let go after 5 seconds", [b"200"], 4.5, 8.5, GET % b""),
        ("by default half a second head is let go after 30 seconds", [b"200"], 29, 34, GET % b"" + HALF_HEAD, b"x"),
        ("by default half a body is let go after 30 seconds", [], 29, 34, HALF_BODY, b"x"),
        ("by default the rest of a body is let go 2 seconds after its reply", [b"413"], 0, 6, HALF_DROPPED, b"x"),
    )

    def all_rows():
        with Forwarder(program, server.address) as forwarder:
            threads = [threading.Thread(target=check_end, args=(row[0], forwarder.address, *row[1:])) for row in rows]
            for thread in threads:
                thread.start()
            for thread in threads:
                thread.join()
    thread = threading.Thread(target=all_rows)
    thread.start()
    return thread


def limit_clients(program, server):
    for name, words in ("no limit of that name", ("--limit", "x=1")), ("a limit that is no number", ("--limit", "idle=x")), ("a limit alone", ("--limit",)):
        def refused():
            done = run(program, "0", "80", *words)
            return differs((done.returncode, b"--limit wants NAME=NUMBER" in done.stderr), (2, True))
        check("forwarder, " + name, refused)
    limits = [word for name in ("head=1500", "idle=1000", "stall=2000", "drain=1000", "reader=2000", "server=1000", "clients=6") for word in ("--limit", name)]
    with Forwarder(program, server.address, *limits) as forwarder:
        address = forwarder.address
        check_end("head: the first head", address, [b"408"], 1, 5, HALF_HEAD, b"x")
        check_end("idle: a client that sends no second request", address, [b"200"], 0.9, 4, GET % b"")
        check_end("stall: a client that sends little of a body", address, [], 1.9, 6, HALF_BODY, b"x")
        check_end("stall: a client that sends nothing more of a body", address, [], 1.9, 6, HALF_BODY)
        check_end("stall: a client that sends little of its second head", address, [b"200"], 1.9, 6, GET % b"" + HALF_HEAD, b"x")
        check_end("drain: a client that sends on behind its reply", address, [b"413"], 0, 4, HALF_DROPPED, b"x")
        check_end("server: a server that doesn't answer", address, [b"502"], 0.9, 4, LAST % b"silent")
        check("forwarder, reader: a client that takes nothing", lambda: deaf(address))
        check("forwarder, clients: one too many waits", lambda: one_too_many(address))
    with Forwarder(program, server.address, "--limit", "idle=0") as forwarder:
        check_end("idle=0: a connection ends behind its first reply", forwarder.address, [b"200"], 0, 2, GET % b"" + GET % b"")
    with Forwarder(program, server.address, "--limit", "kept=0") as forwarder:
        def none_kept():
            before = len(server.came)
            for _ in range(3):
                exchange(forwarder.address, LAST % b"")
            return differs(len(server.came) - before, 3)
        check("forwarder, kept: no server connection waits", none_kept)


def deaf(address):
    with socket.socket() as sock:
        sock.setsockopt(socket.SOL_SOCKET, socket.SO_RCVBUF, 4096)
        sock.settimeout(20)
        sock.connect(address)
        threading.Thread(target=send_all, args=(sock, GET % b"big" * 20), daemon=True).start()
        time.sleep(6)
        count = 0
        try:
            while piece := sock.recv(1 << 20):
                count += len(piece)
        except OSError:
            pass
        return differs(count < 20 << 21, True)


def one_too_many(address):
    socks = [connect(address) for _ in range(7)]
    try:
        for sock in socks:
            sock.sendall(GET % b"")
        seen = [sock.recv(65536)[:12] for sock in socks[:6]]
        socks[6].settimeout(0.4)
        try:
            return f"the last one got {socks[6].recv(100)}"
        except TimeoutError:
            pass
        socks[0].close()
        socks[6].settimeout(10)
        return differs(seen + [socks[6].recv(65536)[:12]], [b"HTTP/1.1 200"] * 7)
    finally:
        for sock in socks:
            sock.close()


def span_clients(program, server):
    """Nobody is let go who does what is wanted, or who isn't to send."""
    with Forwarder(program, server.address, "--limit", "stall=1000", "--limit", "least=1024", "--limit", "drain=1000") as forwarder:
        def steady():
            with connect(forwarder.address) as sock:
                sock.sendall(b"POST /echo HTTP/1.1\r\nhost: a\r\nconnection: close\r\ncontent-length: 16000\r\n\r\n")
                for _ in range(20):
                    time.sleep(0.25)
                    sock.sendall(b"x" * 800)
                return differs(statuses_of(read_all(sock)), [b"200"])
        check("forwarder, a client that sends enough in each span is served", steady)

        def patient():
            with connect(forwarder.address) as sock:
                sock.sendall(LAST % b"big")
                time.sleep(4)
                return differs(len(read_all(sock)) > 1 << 21, True)
        check("forwarder, a client that takes its reply late isn't let go by its sending", patient)
    with socket.create_server(("127.0.0.1", 0)) as slow, Forwarder(program, slow.getsockname(), "--limit", "stall=1000", "--limit", "idle=1000") as forwarder:
        def thinks():
            with connect(forwarder.address) as client:
                client.sendall(b"POST / HTTP/1.1\r\nhost: a\r\nconnection: close\r\ncontent-length: 3\r\n\r\nabc")
                at_server, _ = slow.accept()
                with at_server:
                    at_server.recv(65536)
                    time.sleep(4)
                    at_server.sendall(b"HTTP/1.1 200 OK\r\ncontent-length: 2\r\n\r\nhi")
                    return differs(statuses_of(read_all(client)), [b"200"])
        check("forwarder, a server that thinks for long doesn't count against its client", thinks)

        def takes_late():
            with connect(forwarder.address) as client:
                client.settimeout(20)
                threading.Thread(target=send_all, args=(client, b"POST / HTTP/1.1\r\nhost: a\r\nconnection: close\r\ncontent-length: 16000000\r\n\r\n" + b"x" * 16_000_000), daemon=True).start()
                at_server, _ = slow.accept()
                with at_server:
                    time.sleep(4)
                    count = 0
                    while count < 16_000_000:
                        piece = at_server.recv(1 << 20)
                        if not piece:
                            return f"{count} bytes came"
                        count += len(piece)
                    at_server.sendall(b"HTTP/1.1 200 OK\r\ncontent-length: 2\r\n\r\nhi")
                    return differs(statuses_of(read_all(client)), [b"200"])
        check("forwarder, nor does one that takes nothing of a body", takes_late)


# ---- connections that are kept

class Impatient:
    """A server that ends each connection after so many idle seconds."""
    def __init__(self, seconds):
        self.seconds, self.count = seconds, 0
        self.listener = socket.create_server(("127.0.0.1", 0), backlog=64)
        self.address = self.listener.getsockname()
        threading.Thread(target=self.accept, daemon=True).start()

    def accept(self):
        while True:
            sock, _ = self.listener.accept()
            self.count += 1
            threading.Thread(target=self.serve, args=(sock,), daemon=True).start()

    def serve(self, sock):
        with sock:
            sock.settimeout(self.seconds)
            try:
                while sock.recv(65536):
                    sock.sendall(b"HTTP/1.1 200 OK\r\ncontent-length: 2\r\n\r\nhi")
            except OSError:
                pass


def reuse_clients(program, server):
    with Forwarder(program, server.address, "--limit", "reuse=100") as forwarder:
        def reuse():
            before = len(server.came)
            with connect(forwarder.address) as sock:
                for _ in range(3):
                    sock.sendall(GET % b"")
                    sock.recv(65536)
                    time.sleep(0.4)
            return differs(len(server.came) - before, 3)
        check("forwarder, reuse: a server connection that was idle for too long isn't used again", reuse)

        def others():
            before = len(server.came)
            for _ in range(3):
                exchange(forwarder.address, LAST % b"")
                time.sleep(0.4)
            return differs(len(server.came) - before, 3)
        check("forwarder, reuse: nor is one that another client had", others)
    for words in ("--limit", "reuse=200"), ():
        impatient = Impatient(0.3)
        with Forwarder(program, impatient.address, *words) as forwarder:
            def ended():
                # The server ends its connections within the pauses, in the middle of which a new one is wanted.
                chance = random.Random(1)
                seen = []
                with connect(forwarder.address) as sock:
                    for _ in range(40):
                        sock.sendall(GET % b"")
                        seen += statuses_of(sock.recv(65536))
                        time.sleep(chance.choice((0.01, 0.29, 0.3, 0.31, 0.4) if words else (0.01, 0.25, 0.35, 0.4)))
                return differs((seen.count(b"200"), 1 < impatient.count < 40), (40, True))
            check(" ".join(["forwarder, a server that ends its idle connections", *words]), ended)


def descriptor_clients(program, server):
    with Forwarder(program, server.address, descriptors=60) as forwarder:
        def many():
            socks = [connect(forwarder.address) for _ in range(40)]
            for sock in socks:
                sock.sendall(LAST % b"")
            return differs([statuses_of(read_all(sock)) for sock in socks], [[b"200"]] * 40)
        check("forwarder, forty clients with 60 descriptors", many)
    with Forwarder(program, server.address, "--limit", "kept=100000", descriptors=60) as forwarder:
        check("forwarder, 60 descriptors, and kept is far above them", lambda: differs(statuses_of(exchange(forwarder.address, LAST % b"")), [b"200"]))


# ---- clients that go

def gone_clients(program):
    """Before a server that answers late, or not."""
    with socket.create_server(("127.0.0.1", 0)) as server, Forwarder(program, server.getsockname()) as forwarder:
        def gone(name, leave, most):
            def make():
                client = connect(forwarder.address)
                client.sendall(GET % b"")
                at_server, _ = server.accept()
                with at_server:
                    at_server.settimeout(20)
                    head = at_server.recv(65536)
                    start = time.monotonic()
                    leave(client)
                    try:
                        rest = at_server.recv(65536)
                    except ConnectionError:
                        rest = b""
                    return differs((head[:4], rest, time.monotonic() - start < most), (b"GET ", b"", True))
            check("forwarder, " + name, make)

        def reset(client):
            client.setsockopt(socket.SOL_SOCKET, socket.SO_LINGER, struct.pack("ii", 1, 0))
            client.close()
        gone("a client that closes while its server thinks lets go of it", socket.socket.close, 5)
        gone("so does one that resets", reset, 2)

        def half():
            with connect(forwarder.address) as client:
                client.sendall(LAST % b"")
                client.shutdown(socket.SHUT_WR)
                at_server, _ = server.accept()
                with at_server:
                    at_server.recv(65536)
                    time.sleep(0.5)
                    at_server.sendall(b"HTTP/1.1 200 OK\r\ncontent-length: 2\r\n\r\nhi")
                    return differs(statuses_of(read_all(client)), [b"200"])
        check("forwarder, a client that sends no more gets its answer", half)


# ---- beside nginx

def beside_nginx(program, server, nginx):
    limits = [word for name in ("head", "idle", "stall", "reader", "server") for word in ("--limit", name + "=2000")]
    with Forwarder(program, server.address, *limits) as forwarder:
        def refused():
            by = [{row[0] for row in HEADS if status_by(address, row[1]) == [b"400"]} for address in (nginx, forwarder.address)]
            return differs((by[0] - by[1], len(by[0]) >= 4), (set(), True))
        check("forwarder, each head that nginx refuses is refused", refused)
        for name, begin in (("half a second head", GET % b"" + HALF_HEAD), ("half a body", HALF_BODY), ("no second request", GET % b"")):
            def as_soon():
                theirs, ours = ends(nginx, begin), ends(forwarder.address, begin)
                return None if ours[1] < theirs[1] + 3 < 20 else f"nginx ends it after {theirs}, the forwarder after {ours}"
            check(f"forwarder, {name} is let go as nginx does", as_soon)
    with Forwarder(program, server.address, "--trust-forwarded") as forwarder:
        def chain(address):
            seen = exchange(address, b"GET /head HTTP/1.1\r\nhost: a\r\nconnection: close\r\nx-forwarded-for: 10.0.0.1\r\n\r\n").lower()
            return b", ".join(re.findall(rb"\r\nx-forwarded-for: ([^\r]*)", seen))
        check("forwarder, X-Forwarded-For grows as nginx's does", lambda: differs(chain(forwarder.address), chain(nginx)))
