"""Scripts of app_replay: seeds, their lines as lists of words, and the program that replays them."""
import os, re, signal, subprocess, tempfile

from checks import ROOT, program_of

ESCAPES = {"r": b"\r", "n": b"\n", "t": b"\t", "\\": b"\\", '"': b'"'}


def hexed(data):
    return data.hex() if data else "-"


def unhexed(text):
    return b"" if text == "-" else bytes.fromhex(text)


def text_of(script):
    return "".join(" ".join(line) + "\n" for line in script)


def lines_of(text):
    return [line.split(" ") for line in text.splitlines()]


# ---- seeds

def clear(line):
    """A line of clear text: quoted bytes in hex, and `[..]*N` so often."""
    line = re.sub(r'\[((?:"(?:\\.|[^"\\])*"|[^\]"])*)\]\*(\d+)', lambda it: it[1] * int(it[2]), line)
    return re.sub(r'"(?:\\.|[^"\\])*"(?:\*\d+)?(?:\+"(?:\\.|[^"\\])*"(?:\*\d+)?)*', lambda it: hexed(joined(it[0])), line)


def joined(text):
    data = b""
    for body, times in re.findall(r'"((?:\\.|[^"\\])*)"(?:\*(\d+))?', text):
        data += unquoted(body) * int(times or 1)
    return data


def unquoted(body):
    data, place = b"", 0
    while place < len(body):
        if body[place] != "\\":
            data += body[place].encode()
            place += 1
        elif body[place + 1] == "x":
            data += bytes.fromhex(body[place + 2:place + 4])
            place += 4
        else:
            data += ESCAPES[body[place + 1]]
            place += 2
    return data


def exchanges():
    """Each exchange of vectors_exchanges: its name, its script and its report."""
    folder = f"{ROOT}/crates/vectors_exchanges/data/exchanges"
    found = []
    for name in sorted(os.listdir(folder)):
        for line in open(f"{folder}/{name}", encoding="latin-1").read().split("\n"):
            if line.startswith("== "):
                found.append((line[3:], [], []))
            elif line.startswith("> "):
                found[-1][1].append(clear(line[2:]).split(" "))
            elif line.startswith("< "):
                found[-1][2].append(clear(line[2:]))
    return found


def connections():
    """Each connection of vectors_servers: its name and its lines. One that is played in many pieces is played once."""
    folder = f"{ROOT}/crates/vectors_servers/data/dispatch"
    found = []
    for name in sorted(os.listdir(folder)):
        for line in open(f"{folder}/{name}", encoding="latin-1").read().split("\n"):
            if line.startswith("== "):
                found.append((line[3:], [line]))
            elif line[:2] in ("> ", "< ") and line[2:] not in ("in-any-pieces", "by-any-writes"):
                found[-1][1].append(line)
    return found


def examples(kind=""):
    """Each script of examples/, or of its folder of this kind: its name, its lines and its report."""
    folder = f"{ROOT}/examples/{kind}"
    names = [it[:-4] for it in sorted(os.listdir(folder)) if it.endswith(".txt") and not it.endswith(".report.txt")]
    return [(it, lines_of(open(f"{folder}/{it}.txt").read()), open(f"{folder}/{it}.report.txt").read().splitlines())
            for it in names]


def seeds():
    found = [script for _, script, _ in examples() + exchanges()]
    return [it for it in found if len(it) > 1 and len(text_of(it)) < 60_000]


# ---- the program

class Program:
    """A built program: each script is its standard input."""

    def __init__(self, file, environment=None):
        self.file, self.name, self.environment = file, file, environment

    def answer(self, script, environment=None):
        """The status (negative: the signal that ended it), the text, and whether it had no end."""
        env = environment if environment is not None else self.environment
        try:
            done = subprocess.run([self.file, "replay"], input=text_of(script).encode("latin-1"), stdout=subprocess.PIPE,
                                  stderr=subprocess.DEVNULL, timeout=60, env=env)
        except subprocess.TimeoutExpired:
            return 0, "", True
        return done.returncode, done.stdout.decode("latin-1"), False

    def answers(self, all_scripts):
        return [self.answer(it) for it in all_scripts]


class Checked:
    """A build that is checked as it runs, and isn't proved: `rt try --cases`, once for all scripts of a batch."""

    def __init__(self, batch):
        self.name = f"rt try --cases, {batch} scripts at a time"

    def answers(self, all_scripts):
        with tempfile.TemporaryDirectory(prefix="h1-fuzz-") as folder:
            os.mkdir(f"{folder}/cases")
            for number, script in enumerate(all_scripts):
                open(f"{folder}/cases/{number:05}", "wb").write(text_of(script).encode("latin-1"))
            with open(f"{folder}/out", "wb") as out, open(f"{folder}/said", "wb") as said:
                process = subprocess.Popen(["rt", "try", "--cases", f"{folder}/cases", "--", "replay"], stdout=out,
                                           stderr=said, stdin=subprocess.DEVNULL, cwd=f"{ROOT}/crates/app_replay")
                try:
                    process.wait()
                except BaseException:
                    process.send_signal(signal.SIGTERM)
                    raise
            texts = {}
            for part in re.split(r"^== ", open(f"{folder}/out", encoding="latin-1").read(), flags=re.M)[1:]:
                name, _, text = part.partition("\n")
                texts[name] = text
            said = open(f"{folder}/said", encoding="latin-1").read()
            found = {it[0]: it[1:] for it in re.findall(r"^case=(\S+) (\S+) ?(.*)$", said, re.M)}
            return [self.one(f"{it:05}", texts, found, said) for it in range(len(all_scripts))]

    @staticmethod
    def one(name, texts, found, said):
        words = " ".join(found.get(name, ("", "")))
        status = re.search(r"status=(\d+)", words)
        if not status:
            return -1, f"{words}\n{said[-400:]}", False
        return int(status[1]), texts.get(name, ""), False
