"""Servers one of whose allocations is refused, for test/refuse."""
import os, re, subprocess, threading, time
from checks import connect, free_port, wait_for

HELLO, LONG = b"hello\n", b"0123456789" * 20_000
CLOSES = b" HTTP/1.1\r\nhost: a\r\nconnection: close\r\n\r\n"

# What app_files says of itself: memory that ran out, and a thread that couldn't be started.
NO_MEMORY, NO_THREAD = 5, 6

# So long has a server for its end, in seconds.
END = 30


def fill(folder):
    os.makedirs(f"{folder}/sub")
    for name, data in ("a.txt", HELLO), ("long.bin", LONG), ("sub/index.html", HELLO):
        with open(f"{folder}/{name}", "wb") as file:
            file.write(data)
    # So old that a page of them always has its date.
    for name in "a.txt", "long.bin", "sub/index.html", "sub", "":
        os.utime(f"{folder}/{name}", (1_000_000_000, 1_000_000_000))


def answer(address, head, rest=CLOSES):
    """All that comes on a connection of one request; none where it can't be had."""
    try:
        with connect(address) as sock:
            sock.sendall(head + rest)
            seen = b""
            while piece := sock.recv(65536):
                seen += piece
            return seen
    except OSError:
        return seen if "seen" in locals() else None


def without_date(text):
    return re.sub(rb"\r\ndate: [^\r]*", b"", text, flags=re.I)


def is_cut(seen, whole, refusals):
    """Whether what came is the beginning of the whole answer, or a refusal."""
    if seen is None:
        return True
    seen, whole = without_date(seen), without_date(whole)
    # A date that didn't come whole.
    begun = re.sub(rb"\r\n(d(a(t(e(:[^\r]*\r?)?)?)?)?)?$", b"", seen, flags=re.I)
    return whole.startswith(seen) or whole.startswith(begun) or seen[9:12] in refusals


class Server:
    """A server that was started, and what it answers to these requests, one connection each."""

    def __init__(self, words, environment, closes_input):
        self.port = free_port()
        self.closes_input = closes_input
        words = [str(self.port) if it == "PORT" else it for it in words]
        self.process = subprocess.Popen(words, stdin=subprocess.PIPE, stdout=subprocess.DEVNULL, stderr=subprocess.DEVNULL,
                                        env=environment)

    def listens(self):
        """Whether it came as far as to listen."""
        end = time.monotonic() + END
        while self.process.poll() is None and time.monotonic() < end:
            try:
                with open(f"/proc/{self.process.pid}/net/tcp") as table:
                    if f"0100007F:{self.port:04X} 00000000:0000 0A" in table.read():
                        return True
            except OSError:
                return False
            time.sleep(0.002)
        return False

    def asked(self, requests):
        return [answer(("127.0.0.1", self.port), it) for it in requests]

    def end(self):
        """Its status, once its input has ended; none where it doesn't end."""
        if self.closes_input:
            self.process.stdin.close()
        try:
            return self.process.wait(END)
        except subprocess.TimeoutExpired:
            self.process.kill()
            self.process.wait()
            return None


def files_run(program, folder):
    """A run of app_files: each kind of answer, and then the same request until it is answered whole, at most twice."""
    requests = [b"GET /a.txt", b"HEAD /a.txt", b"GET /long.bin", b"GET /", b"GET /sub/", b"GET /sub", b"GET /nothing", b"POST /a.txt",
                b"NO HTTP\r\n\r\n"]

    def run(environment):
        server = Server([program, "PORT", folder, "--until-input-ends"], environment, True)
        if not server.listens():
            return server.end(), [], None
        answers = server.asked(requests)
        last = server.asked([b"GET /a.txt"] * 2)
        return server.end(), answers, last
    return run


def files_judge():
    """What is wrong with such a run. The first one has ample memory, and says what is answered."""
    whole = []

    def judge(seen, number):
        status, answers, last = seen
        if not number:
            whole.extend(answers + (last or [])[:1])
            codes = [it[9:12] for it in whole if it]
            wanted = [b"200", b"200", b"200", b"200", b"200", b"301", b"404", b"405", b"400", b"200"]
            return None if status == 0 and codes == wanted and whole[2].endswith(LONG) else f"status {status}, {codes}"
        if not answers:
            return None if status in (NO_MEMORY, NO_THREAD) else f"it doesn't listen, status {status}"
        if status not in (0, NO_MEMORY, NO_THREAD):
            return f"status {status}"
        cut = [it for it, (some, all_of_it) in enumerate(zip(answers, whole)) if not is_cut(some, all_of_it, (b"500", b"503"))]
        if cut:
            return f"another answer: {answers[cut[0]][:200]!r}"
        if status == 0 and without_date(whole[-1]) not in [without_date(it) for it in last if it]:
            return f"no whole answer afterwards: {last}"
        return None
    return judge


def looped_run(program):
    """A run of app_site, of one thread: three connections, one after another."""
    def run(environment):
        server = Server([program, "PORT", "1"], environment, True)
        answers = server.asked([b"GET /", b"GET /nothing", b"GET /lines"]) if server.listens() else []
        return server.end(), answers
    return run


def looped_judge():
    """What is wrong with such a run: it ends once its input does, and an answer is whole or cut. With status 1 it told that a
    loop or a thread couldn't be had."""
    whole = []

    def judge(seen, number):
        status, answers = seen
        if not number:
            whole.extend(answers)
            codes = [it[9:12] for it in whole if it]
            return None if status == 0 and codes == [b"200", b"404", b"200"] else f"status {status}, {codes}"
        if status not in (0, 1):
            return f"status {status}"
        for some, all_of_it in zip(answers, whole):
            if not is_cut(some, all_of_it, ()):
                return f"another answer: {some[:200]!r}"
        entire = sum(without_date(some or b"") == without_date(all_of_it) for some, all_of_it in zip(answers, whole))
        return f"only {entire} of 3 answers" if status == 0 and entire < 2 else None
    return judge
