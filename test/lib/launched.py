"""bin/raspcream: that a server goes on without an input, and how a signal ends it."""
import os, signal, socket, subprocess, time

from checks import ROOT, check, connect, differs, free_port, program_of, read_all


class Launched:
    """A server that the launcher started, without an input, once its port answers."""

    def __init__(self, words, *, drain=None, ports=1):
        self.port = free_port()
        # The page of the rooms is at the next port.
        while ports > 1 and not is_free(self.port + 1):
            self.port = free_port()
        before = ["--drain", str(drain)] if drain else []
        words = [f"{ROOT}/bin/raspcream", *before, *(str(self.port) if it == "PORT" else it for it in words)]
        self.process = subprocess.Popen(words, stdin=subprocess.DEVNULL, stdout=subprocess.DEVNULL, stderr=subprocess.PIPE, text=True)
        self.said = []
        for line in self.process.stderr:
            self.said.append(line)
            if line.startswith("ready: "):
                return
        raise OSError(f"it isn't ready: {self.said}")

    @property
    def address(self):
        return "127.0.0.1", self.port

    def signal(self, number):
        self.process.send_signal(number)
        return time.monotonic()

    def end(self, seconds=20):
        """The status with which it ends."""
        try:
            return self.process.wait(seconds)
        except subprocess.TimeoutExpired:
            return "it goes on"

    def __enter__(self):
        return self

    def __exit__(self, *_):
        if self.process.poll() is None:
            self.process.kill()
            self.process.wait()
        self.process.stderr.close()


def is_free(port):
    with socket.socket() as sock:
        return sock.connect_ex(("127.0.0.1", port)) != 0


def get(path):
    return f"GET {path} HTTP/1.1\r\nhost: a\r\n\r\n".encode()


def launched_clients(folder):
    """Runs the checks of each word that has its proved program here."""
    words = {"serve": ["serve", "PORT", folder], "site": ["site", "PORT", "1"], "chat": ["chat", "PORT"],
             "proxy": ["proxy", "PORT", str(free_port()), "--quiet"], "hello": ["hello", "PORT", "1000000"]}
    programs = {"serve": "app_files", "site": "app_site", "chat": "app_chat", "proxy": "app_proxy", "hello": "app_hello"}
    # Where a server has no end of its own, TERM ends it at once.
    statuses = {"hello": 143}
    for word in words:
        if not program_of(programs[word]):
            print(f"passed over: bin/raspcream {word} (there is no proved {programs[word]} here)", flush=True)
            continue

        def ended(number, word=word):
            with Launched(words[word], ports=2 if word == "chat" else 1) as server:
                connect(server.address).close()
                server.signal(number)
                return differs(server.end(), statuses.get(word, 0))
        check(f"launcher, {word} goes on without an input, and TERM ends it", lambda: ended(signal.SIGTERM))
        if word == "serve":
            check("launcher, serve is ended by INT", lambda: ended(signal.SIGINT))
    if program_of("app_files"):
        download_clients(words["serve"], folder)


def download_clients(words, folder):
    size = os.path.getsize(f"{folder}/big.bin")

    def begun(server):
        sock = connect(server.address)
        sock.setsockopt(socket.SOL_SOCKET, socket.SO_RCVBUF, 65536)
        sock.sendall(get("/big.bin"))
        return sock, sock.recv(1000)

    def finishes():
        with Launched(words) as server:
            sock, seen = begun(server)
            server.signal(signal.SIGTERM)
            time.sleep(0.5)
            seen += read_all(sock)
            sock.close()
            return differs((len(seen.split(b"\r\n\r\n", 1)[1]), server.end()), (size, 0))
    check("launcher, a download that is under way at TERM comes whole", finishes)

    def takes_none():
        with Launched(words) as server:
            sock, _ = begun(server)
            server.signal(signal.SIGTERM)
            time.sleep(0.5)
            try:
                with connect(server.address) as other:
                    other.sendall(get("/a.txt"))
                    return differs(read_all(other), b"")
            except OSError:
                return None
            finally:
                sock.close()
    check("launcher, no request is taken after TERM", takes_none)

    def limited():
        with Launched(words, drain=1) as server:
            sock, _ = begun(server)
            at = server.signal(signal.SIGTERM)
            status, took = server.end(), time.monotonic() - at
            sock.close()
            return None if status == 137 and 0.9 < took < 3 else f"status {status} after {took:.1f} s"
    check("launcher, a peer that reads nothing is cut off after --drain seconds", limited)

    def twice():
        with Launched(words) as server:
            sock, _ = begun(server)
            server.signal(signal.SIGTERM)
            time.sleep(0.3)
            at = server.signal(signal.SIGTERM)
            status, took = server.end(), time.monotonic() - at
            sock.close()
            return None if status == 137 and took < 1 else f"status {status} after {took:.1f} s"
    check("launcher, a second signal kills", twice)
