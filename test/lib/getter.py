"""The program app_get against servers: app_files, app_hello, Python's http.server, nginx, and servers that say by heart what
they were told."""
import os, socket, struct, subprocess, sys, tempfile, threading

from checks import check, differs, free_port, has, run, wait_for


class Parrot:
    """A server on a port of its own. Each of its connections says one answer for each head that it reads, and closes after
    its last one; None is an answer that never comes. One that resets breaks the connection instead. PLACE in an answer stands
    for another server's URL."""

    def __init__(self, *connections, resets=False):
        self.heads, self.count, self.resets, self.place = [], 0, resets, b""
        self.listener = socket.create_server(("127.0.0.1", 0))
        self.url = "http://127.0.0.1:%d" % self.listener.getsockname()[1]
        self.thread = threading.Thread(target=self.serve, args=(connections,), daemon=True)
        self.thread.start()

    def serve(self, connections):
        for answers in connections:
            sock = self.listener.accept()[0]
            self.count += 1
            self.converse(sock, answers)
            if self.resets:
                sock.setsockopt(socket.SOL_SOCKET, socket.SO_LINGER, struct.pack("ii", 1, 0))
            sock.close()

    def converse(self, sock, answers):
        unread = b""
        for answer in answers:
            while b"\r\n\r\n" not in unread:
                piece = sock.recv(65536)
                if not piece:
                    return
                unread += piece
            head, unread = unread.split(b"\r\n\r\n", 1)
            self.heads.append(head)
            if answer is None:
                # The client gives up and closes.
                sock.recv(65536)
                return
            sock.sendall(answer.replace(b"PLACE", self.place))


def get_clients(program, files, hello, folder):
    """Runs the program against all of them."""
    url, echo = "http://%s:%d" % files, "http://%s:%d/echo" % hello
    small, big = (open(f"{folder}/{name}", "rb").read() for name in ("a.txt", "big.bin"))

    def get(status, wanted, *words):
        def make():
            done = run(program, *words)
            return differs((done.returncode, done.stdout), (status, wanted))
        return make
    check("app_get of a small file", get(0, small, f"{url}/a.txt"))
    check("app_get of 3,000,000 bytes", get(0, big, f"{url}/big.bin"))
    check("app_get of three files, one after another", get(0, small + big + small, f"{url}/a.txt", f"{url}/big.bin", f"{url}/a.txt"))
    check("app_get by a host's name", get(0, small, url.replace("127.0.0.1", "localhost") + "/a.txt"))
    check("app_get of a file that isn't there, and of one that is", get_missing(program, url, small))
    check("app_get --fail of a file that isn't there", get(22, b"", "--fail", f"{url}/nothing"))
    check("app_get -f of a file that isn't there, and of one that is", get(22, small, "-f", f"{url}/nothing", f"{url}/a.txt"))
    check("app_get -f of a file", get(0, small, "-f", f"{url}/a.txt"))
    check("app_get -f POST to a file, which isn't wanted", get(22, b"", "-f", f"{url}/a.txt", f"{folder}/big.bin"))
    check("app_get POST by length", get(0, big, echo, f"{folder}/big.bin"))
    check("app_get POST in chunks", get(0, big, "--chunked", echo, f"{folder}/big.bin"))
    check("app_get POST of a file for which the system says 0 bytes",
          get(0, open("/proc/version", "rb").read(), echo, "/proc/version"))
    check("app_get POST to a file, which isn't wanted", lambda: differs(run(program, f"{url}/a.txt", f"{folder}/big.bin").returncode, 8))
    check("app_get -d of a text", get(0, b"a=b&c=@", "-d", "a=b&c=@", echo))
    check("app_get -d of a text in chunks", get(0, b"a=b", "-d", "a=b", "--chunked", echo))
    check("app_get -d of an empty text", get(0, b"", "-d", "", echo))
    check("app_get -d of a file", get(0, big, "-d", f"@{folder}/big.bin", echo))
    check("app_get HEAD", get_head(program, f"{url}/big.bin"))
    check("app_get where nobody listens", lambda: differs(run(program, "http://127.0.0.1:%d/" % free_port()).returncode, 4))
    check("app_get of no file to send", lambda: differs(run(program, echo, f"{folder}/nothing").returncode, 3))
    check("app_get of no URL", lambda: differs(run(program, "--head").returncode, 2))
    parrot_clients(program, folder, get)
    field_clients(program, folder)
    output_clients(program, url, small, big)
    redirect_clients(program, folder)
    foreign_clients(program)
    python_server(program, folder, get, small, big)
    nginx_server(program, folder, get, small, big)


def get_missing(program, url, small):
    def make():
        done = run(program, f"{url}/nothing", f"{url}/a.txt")
        return None if done.returncode == 8 and done.stdout.endswith(small) and done.stderr.count(b"\n") == 1 else done
    return make


def get_head(program, url):
    def make():
        done = run(program, "--head", url)
        lines = done.stdout.split(b"\n")
        return None if done.returncode == 0 and lines[0] == b"HTTP/1.1 200 OK" and b"content-length: 3000000" in lines else done
    return make


def parrot_clients(program, folder, get):
    ok = b"HTTP/1.1 200 OK\r\ncontent-length: 2\r\n\r\nhi"

    def said(name, status, wanted, connections, *words, count=None, heads=None):
        def make():
            parrot = Parrot(*connections)
            done = run(program, *[word.replace("URL", parrot.url) for word in words])
            if count is not None and parrot.count != count:
                return f"{parrot.count} connections"
            if heads is not None and len(parrot.heads) != heads:
                return f"{len(parrot.heads)} requests"
            return differs((done.returncode, done.stdout), (status, wanted))
        check("app_get, " + name, make)
    said("an interim answer first", 0, b"hi", [[b"HTTP/1.1 103 Early Hints\r\nlink: x\r\n\r\n" + ok]], "URL/")
    said("three answers over one connection", 0, b"hihihi", [[ok, ok, ok]], "URL/", "URL/a", "URL/b", count=1, heads=3)
    said("no body after a 304 or a 204", 0, b"hi", [[b"HTTP/1.1 304 Not Modified\r\ncontent-length: 5\r\n\r\n",
         b"HTTP/1.1 204 No Content\r\n\r\n", ok]], "URL/", "URL/", "URL/", count=1)
    said("no body after HEAD", 0, b"HTTP/1.1 200 OK\ncontent-length: 2\n\n" * 2,
         [[b"HTTP/1.1 200 OK\r\ncontent-length: 2\r\n\r\n"] * 2], "--head", "URL/", "URL/", count=1)
    gone = b"HTTP/1.1 410 Gone\r\ncontent-length: 4\r\n\r\ngone"
    said("a refusal", 8, b"gonehi", [[gone, ok]], "URL/", "URL/", count=1)
    said("--fail and a refusal", 22, b"hi", [[gone], [ok]], "--fail", "URL/", "URL/", count=2)
    said("--fail and a refusal of which only the head came", 22, b"", [[gone[:-4], None]], "-f", "--wait", "5", "URL/")
    said("--fail and an answer of 399", 0, b"hi", [[b"HTTP/1.1 399 X" + ok[15:]]], "-f", "URL/")
    said("--fail, and an answer that is cut off", 6, b"h", [[ok[:-1]]], "-f", "URL/")
    said("--fail and HEAD", 22, b"HTTP/1.1 410 Gone\ncontent-length: 4\n\n", [[gone[:-4]]], "-f", "-I", "URL/")
    said("chunks and trailers", 0, b"hihi", [[b"HTTP/1.1 200 OK\r\ntransfer-encoding: chunked\r\n\r\n2;x\r\nhi\r\n0\r\na: b\r\n\r\n", ok]],
         "URL/", "URL/", count=1)
    said("a body to the connection's end", 0, b"allhi", [[b"HTTP/1.0 200 OK\r\n\r\nall"], [ok]], "URL/", "URL/", count=2)
    said("an answer that closes", 0, b"hihi", [[b"HTTP/1.1 200 OK\r\nconnection: close\r\ncontent-length: 2\r\n\r\nhi", ok], [ok]],
         "URL/", "URL/", count=2)
    said("a kept connection that the server closes", 0, b"hihi", [[ok], [ok]], "URL/", "URL/", count=2)
    said("a kept connection that closes in place of an answer", 0, b"hihi", [[ok, b""], [ok]], "URL/", "URL/", count=2)
    said("the same, by another method", 6, b"hi", [[ok, b""], [ok]], "-X", "PUT", "URL/", "URL/", count=1)
    said("bytes that nobody asked for", 0, b"hihi", [[ok + b"HTTP/1.1 200 OK\r\n\r\n"], [ok]], "URL/", "URL/", count=2)
    said("a body that is cut off", 6, b"h", [[b"HTTP/1.1 200 OK\r\ncontent-length: 2\r\n\r\nh"]], "URL/")
    said("a chunk that is broken", 6, b"", [[b"HTTP/1.1 200 OK\r\ntransfer-encoding: chunked\r\n\r\nx\r\n"]], "URL/")
    said("no HTTP", 6, b"", [[b"NO HTTP\r\n\r\n"]], "URL/")
    said("a head of 200,000 bytes", 6, b"", [[b"HTTP/1.1 200 OK\r\nx: " + b"x" * 200_000]], "URL/")
    said("no answer at all", 6, b"", [[b""]], "URL/")
    said("another protocol", 6, b"", [[b"HTTP/1.1 101 Switching Protocols\r\n\r\n"]], "URL/")
    said("a server that says nothing", 7, b"", [[None]], "--wait", "1", "URL/")
    check("app_get, a connection that is reset inside a body to its end", lambda: get_reset(program))
    said("a server that refuses a body before it came", 8, b"no", [[b"HTTP/1.1 413 Content Too Large\r\nconnection: close\r\n"
         b"content-length: 2\r\n\r\nno"]], "URL/", f"{folder}/a.txt")


def field_clients(program, folder):
    usual = [b"user-agent: app_get/0.1.0", b"accept: */*"]
    form = b"content-type: application/x-www-form-urlencoded"

    def asked(name, first, lines, *words):
        def make():
            parrot = Parrot([b"HTTP/1.1 204 No Content\r\n\r\n"])
            done = run(program, *words, parrot.url + "/a")
            head = [line for line in parrot.heads[0].split(b"\r\n") if not line.startswith(b"date: ")]
            wanted = [first + b" /a HTTP/1.1"] + [line.replace(b"PLACE", parrot.url[7:].encode()) for line in lines]
            return differs((done.returncode, sorted(head)), (0, sorted(wanted)))
        check("app_get, " + name, make)
    asked("the usual fields", b"GET", [b"host: PLACE", *usual])
    asked("fields of the user's own", b"GET", [b"host: PLACE", *usual, b"x-a: 1", b"x-a: 2:3", b"x-b: "],
          "-H", "X-A: 1", "-H", "x-a:2:3 ", "--header", "X-b:")
    asked("fields in place of the program's", b"GET", [b"host: h.example", usual[0], b"accept: text/plain"],
          "-H", "accept: text/plain", "-H", "HOST: h.example")
    asked("a text that is sent", b"POST", [b"host: PLACE", *usual, form, b"content-length: 3"], "-d", "a=b")
    asked("a text of another type", b"POST", [b"host: PLACE", *usual, b"content-type: text/plain", b"content-length: 2"],
          "--data", "hi", "-H", "Content-Type: text/plain")
    asked("another method", b"DELETE", [b"host: PLACE", *usual], "-X", "DELETE")
    asked("another method, and a text", b"PUT", [b"host: PLACE", *usual, form, b"content-length: 2"], "--request", "PUT", "-d", "hi")
    asked("another method, and a file", b"PUT", [b"host: PLACE", *usual, b"content-type: application/octet-stream", b"content-length: %d" % os.path.getsize(f"{folder}/a.txt")],
          "-X", "PUT", f"{folder}/a.txt")

    def refused(name, status, *words):
        def make():
            parrot = Parrot()
            done = run(program, *words, parrot.url + "/")
            return differs((done.returncode, done.stdout, done.stderr.count(b"\n"), parrot.count), (status, b"", 1, 0))
        check("app_get, " + name, make)
    for field in ("X", "X Y: 1", ": 1", "X: a\rb: c", "X: \x01", "Content-Length: 3", "transfer-encoding: chunked", "Connection: close"):
        refused(f"a field that isn't sent: {field!r}", 64, "-H", field)
    refused("two Hosts", 64, "-H", "Host: a", "-H", "host: b")
    refused("a method that is none", 64, "-X", "A B")
    refused("a method that asks for a tunnel", 64, "-X", "CONNECT")
    refused("--head and a text", 2, "-I", "-d", "a")
    refused("--head and a method", 2, "-I", "-X", "GET")
    refused("two texts", 2, "-d", "a", "-d", "b")
    refused("an option without its value", 2, "--wait", "5", "-q")


def output_clients(program, url, small, big):
    def written(name, status, wanted, *words, before=None):
        def make():
            with tempfile.TemporaryDirectory() as place:
                if before is not None:
                    with open(f"{place}/out", "wb") as out:
                        out.write(before)
                done = run(program, "-o", f"{place}/out", *words)
                seen = open(f"{place}/out", "rb").read() if os.path.exists(f"{place}/out") else None
                return differs((done.returncode, done.stdout, seen), (status, b"", wanted))
        check("app_get, " + name, make)
    written("a body to a file", 0, big, f"{url}/big.bin")
    written("two bodies to a file", 0, small + big, f"{url}/a.txt", f"{url}/big.bin", before=b"old")
    written("no bytes to a file", 0, b"", Parrot([b"HTTP/1.1 200 OK\r\ncontent-length: 0\r\n\r\n"]).url + "/", before=b"old")
    written("a refusal that leaves the file as it is", 22, b"old", "-f", f"{url}/nothing", before=b"old")
    written("a refusal that makes no file", 22, None, "-f", f"{url}/nothing")
    written("a refusal and then a body to a file", 22, small, "-f", f"{url}/nothing", f"{url}/a.txt", before=b"old")
    written("a server that isn't there, which leaves the file as it is", 4, b"old", "http://127.0.0.1:%d/" % free_port(), before=b"old")

    def unwritten():
        done = run(program, "-o", "/proc/nothing/x", f"{url}/a.txt")
        return differs((done.returncode, done.stderr), (1, b"app_get: /proc/nothing/x: the output can't be written\n"))
    check("app_get, a file that can't be written", unwritten)


def moved(status, place):
    location = b"location: " + place + b"\r\n" if place is not None else b""
    return b"HTTP/1.1 %d Moved\r\n%scontent-length: 5\r\n\r\nmoved" % (status, location)


def redirect_clients(program, folder):
    ok = b"HTTP/1.1 200 OK\r\ncontent-length: 2\r\n\r\nhi"
    gone = b"HTTP/1.1 410 Gone\r\ncontent-length: 0\r\n\r\n"

    def led(name, status, wanted, answers, firsts, *words):
        def make():
            parrot = Parrot(*[[answer] for answer in answers])
            done = run(program, *words, parrot.url + "/d/a")
            seen = [head.split(b" HTTP/1.1")[0] for head in parrot.heads]
            return differs((done.returncode, done.stdout, seen), (status, wanted, firsts))
        check("app_get, " + name, make)
    led("a redirect that isn't followed", 0, b"moved", [moved(302, b"/b")], [b"GET /d/a"])
    for status in (301, 302, 303, 307, 308):
        led(f"-L and {status}", 0, b"hi", [moved(status, b"/b"), ok], [b"GET /d/a", b"GET /b"], "-L")
    for status in (300, 305, 309):
        led(f"-L and {status}, which isn't followed", 0, b"moved", [moved(status, b"/b")], [b"GET /d/a"], "-L")
    for place, target in ((b"b", b"/d/b"), (b"../b?c=d", b"/b?c=d"), (b"?c", b"/d/a?c"), (b"#f", b"/d/a"), (b"./../../b/./c/..", b"/b/"),
                          (b"/b c", b"/b%20c")):
        led(f"-L to {place!r}", 0, b"hi", [moved(302, place), ok], [b"GET /d/a", b"GET " + target], "--location")
    for status, second in ((301, b"GET"), (302, b"GET"), (303, b"GET"), (307, b"POST"), (308, b"POST")):
        led(f"-L and POST, by {status}", 0, b"hi", [moved(status, b"/b"), ok], [b"POST /d/a", second + b" /b"], "-L", "-d", "x")
        led(f"-L and PUT, by {status}", 0, b"hi", [moved(status, b"/b"), ok], [b"PUT /d/a", (b"GET" if status == 303 else b"PUT") + b" /b"],
            "-L", "-X", "PUT", f"{folder}/a.txt")
    led("-L and a GET in place of a POST, which stays one", 0, b"hi", [moved(303, b"/b"), moved(307, b"/c"), ok],
        [b"POST /d/a", b"GET /b", b"GET /c"], "-L", "-d", "x")
    led("-L and HEAD, by 303", 0, b"HTTP/1.1 303 Moved\nlocation: /b\ncontent-length: 5\n\nHTTP/1.1 200 OK\ncontent-length: 2\n\n",
        [moved(303, b"/b")[:-5], ok[:-2]], [b"HEAD /d/a", b"HEAD /b"], "-L", "-I")
    led("-L and ten redirects", 0, b"hi", [moved(302, b"/b")] * 10 + [ok], [b"GET /d/a"] + [b"GET /b"] * 10, "-L")
    led("-L and eleven redirects", 6, b"", [moved(302, b"/b")] * 11, [b"GET /d/a"] + [b"GET /b"] * 10, "-L")
    led("-L and no Location", 6, b"", [moved(302, None)], [b"GET /d/a"], "-L")
    led("-L to no URL", 6, b"", [moved(302, b"http://[")], [b"GET /d/a"], "-L")
    led("-L to what is no text", 6, b"", [moved(302, b"/\xff")], [b"GET /d/a"], "-L")
    led("-L to another scheme", 6, b"", [moved(302, b"https://127.0.0.1/")], [b"GET /d/a"], "-L")

    def barred():
        url = Parrot([moved(302, b"https://127.0.0.1/")]).url + "/"
        return differs(run(program, "-L", url).stderr, f"app_get: {url}: the server redirects to a URL that can't be asked for, such as https://\n".encode())
    check("app_get, what is said of a redirect to https", barred)
    led("-L to a URL with a user", 6, b"", [moved(302, b"http://a:b@127.0.0.1/")], [b"GET /d/a"], "-L")
    led("-L and a redirect of which only the head came", 0, b"hi", [moved(302, b"/b")[:-5], ok], [b"GET /d/a", b"GET /b"], "-L")
    led("-L and a refusal", 8, b"", [moved(302, b"/b"), gone], [b"GET /d/a", b"GET /b"], "-L")
    led("-L, --fail and a refusal", 22, b"", [moved(302, b"/b"), gone], [b"GET /d/a", b"GET /b"], "-L", "-f")

    def escaped():
        parrot = Parrot([ok])
        done = run(program, parrot.url.replace("http", "HTTP") + "/a b/../\u00fc?\"#x")
        return differs((done.returncode, [head.split(b" HTTP/1.1")[0] for head in parrot.heads]), (0, [b"GET /%C3%BC?%22"]))
    check("app_get, a URL with what is escaped", escaped)

    def written():
        parrot = Parrot([moved(302, b"/b")[:-5]], [ok[:-2]])
        with tempfile.TemporaryDirectory() as place:
            done = run(program, "-I", "-L", "-o", f"{place}/out", parrot.url + "/")
            seen = open(f"{place}/out", "rb").read()
        return differs((done.returncode, done.stdout, seen.count(b"HTTP/1.1 ")), (0, b"", 2))
    check("app_get, both heads of a redirect to a file", written)


def foreign_clients(program):
    """What is sent of the user's own fields to the host that they were meant for, to another one, and to the first again."""
    given = ["authorization: a", "cookie: b=c", "host: h.example", "proxy-authorization: d", "x-own: e", "content-type: text/plain"]
    words = [word for field in given for word in ("-H", field)]
    secret = set(given[:4])

    def sent(name, wanted, status, *more):
        def make():
            first = Parrot([moved(status, b"/a")], [moved(status, b"PLACE/b")], [b"HTTP/1.1 204 No Content\r\n\r\n"])
            other = Parrot([moved(status, b"PLACE/c")])
            first.place, other.place = other.url.encode(), first.url.encode()
            done = run(program, "-L", *words, *more, first.url + "/")
            heads = [*first.heads[:2], *other.heads, *first.heads[2:]]
            seen = [set(given) & set(head.decode().split("\r\n")) for head in heads]
            return differs((done.returncode, seen), (0, wanted))
        check("app_get, -L and " + name, make)
    sent("the user's fields at another host", [set(given)] * 2 + [set(given) - secret] * 2, 307, "-d", "x")
    sent("the user's fields without a body", [set(given)] + [set(given[:5])] + [{given[4]}] * 2, 303, "-d", "x")


def get_reset(program):
    # What came of the body is written, and it doesn't count as whole.
    done = run(program, Parrot([b"HTTP/1.0 200 OK\r\n\r\nall"], resets=True).url + "/")
    return None if done.returncode == 6 and b"all".startswith(done.stdout) else done


def python_server(program, folder, get, small, big):
    port = free_port()
    words = [sys.executable, "-m", "http.server", str(port), "--bind", "127.0.0.1", "--directory", folder]
    server = subprocess.Popen(words, stdout=subprocess.DEVNULL, stderr=subprocess.DEVNULL)
    try:
        wait_for(("127.0.0.1", port))
        url = "http://127.0.0.1:%d" % port
        check("app_get of http.server, two files", get(0, small + big, f"{url}/a.txt", f"{url}/big.bin"))
        check("app_get --fail of http.server, no such file", get(22, b"", "-f", f"{url}/nothing"))
        check("app_get of http.server, no such file", lambda: differs(b"status 404" in run(program, f"{url}/nothing").stderr, True))
    finally:
        server.terminate()
        server.wait()


# A server that root has started reads the folder, which is root's alone, as root.
NGINX = """
%(user)s worker_processes 1; daemon off; pid %(place)s/nginx.pid; error_log %(place)s/error.log;
events { worker_connections 64; }
http { log_format count "$connection"; access_log %(place)s/access.log count; client_body_temp_path %(place)s/b;
  proxy_temp_path %(place)s/p; fastcgi_temp_path %(place)s/f; uwsgi_temp_path %(place)s/u; scgi_temp_path %(place)s/s;
  server { listen 127.0.0.1:%(port)d; root %(folder)s; location /post { client_max_body_size 0; return 200 taken; } } }
"""


def nginx_server(program, folder, get, small, big):
    if not has("nginx"):
        return
    port = free_port()
    with tempfile.TemporaryDirectory() as place:
        os.chmod(place, 0o755)
        with open(f"{place}/nginx.conf", "w") as text:
            text.write(NGINX % {"place": place, "folder": folder, "port": port, "user": "" if os.geteuid() else "user root;"})
        server = subprocess.Popen(["nginx", "-c", f"{place}/nginx.conf"], stderr=subprocess.DEVNULL)
        try:
            wait_for(("127.0.0.1", port))
            url = "http://127.0.0.1:%d" % port
            check("app_get of nginx, three files", get(0, small + big + small, f"{url}/a.txt", f"{url}/big.bin", f"{url}/a.txt"))
            check("app_get of nginx, all of them over one connection",
                  lambda: differs(len(set(open(f"{place}/access.log").read().split())), 1))
            check("app_get POST to nginx by length", get(0, b"taken", f"{url}/post", f"{folder}/big.bin"))
            check("app_get POST to nginx in chunks", get(0, b"taken", "--chunked", f"{url}/post", f"{folder}/big.bin"))
            check("app_get --fail of nginx, no such file", get(22, b"", "-f", f"{url}/nothing"))
            check("app_get of nginx, no such file", lambda: differs(b"status 404" in run(program, f"{url}/nothing").stderr, True))
        finally:
            server.terminate()
            server.wait()
