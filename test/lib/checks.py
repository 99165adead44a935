"""What the tests with real clients and servers share: how a check is run and told, programs and sockets."""
import os, re, shutil, socket, subprocess, time

ROOT = os.path.dirname(os.path.dirname(os.path.dirname(os.path.realpath(__file__))))

PACKAGES = {"curl": "curl", "node": "nodejs", "ab": "apache2-utils", "wrk": "wrk", "nginx": "nginx-light", "chromium": "chromium"}
results = []


def program_of(name, folder=None):
    """The proved program of this name, where bin/prove or rt ci has made it on this machine, or the one in the folder."""
    program = f"{folder}/{name}" if folder else f"{ROOT}/crates/{name}/out/{name}"
    return program if os.access(program, os.X_OK) else None


def tell(name, is_right, seen=""):
    results.append(is_right)
    print(("right  " if is_right else "WRONG  ") + name + ("" if is_right else f": {seen!r}"), flush=True)


def check(name, make):
    """Runs one client; what it raises is a wrong answer."""
    try:
        wrong = make()
    except Exception as error:
        wrong = f"{type(error).__name__}: {error}"
    tell(name, wrong is None, wrong)


def differs(seen, wanted):
    return None if seen == wanted else f"{str(seen)[:200]} in place of {str(wanted)[:200]}"


def has(tool):
    if shutil.which(tool):
        return True
    print(f"passed over: {tool} (package {PACKAGES[tool]})", flush=True)
    return False


def run(*words, data=None, seconds=60):
    return subprocess.run(words, input=data, stdout=subprocess.PIPE, stderr=subprocess.PIPE, timeout=seconds)


def connect(address):
    sock = socket.create_connection(address, timeout=20)
    sock.setsockopt(socket.IPPROTO_TCP, socket.TCP_NODELAY, 1)
    return sock


def statuses_of(seen):
    return re.findall(rb"HTTP/1\.1 (\d\d\d) ", seen)


def read_all(sock):
    seen = b""
    while piece := sock.recv(65536):
        seen += piece
    return seen


def wait_for(address, seconds=20):
    end = time.monotonic() + seconds
    while True:
        try:
            socket.create_connection(address, timeout=1).close()
            return
        except OSError:
            if time.monotonic() > end:
                raise
            time.sleep(0.05)


def free_port():
    with socket.socket() as sock:
        sock.bind(("127.0.0.1", 0))
        return sock.getsockname()[1]
