"""What the processes of a running rt cost, by crate and part, as /proc tells it."""
import glob
import os
import threading
import time

# How often is looked. What a process runs between the last look and its end isn't counted.
PAUSE = 0.5
TICKS = os.sysconf("SC_CLK_TCK")


class Sampler(threading.Thread):
    """Looks at the processes that a run of rt ci has started, until that ends."""

    def __init__(self, pid):
        super().__init__(daemon=True)
        self.pid = pid
        # By process: the crate and the part that it works for, and its processor seconds so far.
        self.works, self.spent = {}, {}
        self.lock = threading.Lock()

    def run(self):
        while os.path.isdir(f"/proc/{self.pid}"):
            try:
                self.look()
            except OSError:
                # A process ended meanwhile.
                pass
            time.sleep(PAUSE)

    def look(self):
        for pid in children(self.pid):
            times = [it for it in map(stat_of, family(pid)) if it]
            if not times:
                continue
            key = pid, times[0][0]
            work = self.works.get(key) or work_of(pid)
            if work:
                with self.lock:
                    self.works[key] = work
                    self.spent[key] = max(self.spent.get(key, 0), sum(seconds for _, seconds in times))

    def sums(self):
        """The processor seconds so far by crate and part: proof, tests or edits."""
        found = {}
        with self.lock:
            for key, work in self.works.items():
                found[work] = found.get(work, 0) + self.spent[key]
        return found

    def seconds(self, crate, part):
        return self.sums().get((crate, part), 0.0)


def children(pid):
    found = []
    for file in glob.glob(f"/proc/{pid}/task/*/children"):
        try:
            with open(file) as it:
                found += it.read().split()
        except OSError:
            # The thread ended meanwhile.
            pass
    return found


def family(pid):
    """A process and all below it."""
    found = [pid]
    for it in found:
        found += children(it)
    return found


def stat_of(pid):
    """When a process began, and its processor seconds with those of the children that it has waited for."""
    try:
        with open(f"/proc/{pid}/stat") as it:
            fields = it.read().rsplit(")", 1)[1].split()
    except OSError:
        return None
    return fields[19], sum(map(int, fields[11:15])) / TICKS


def work_of(pid):
    """For which crate, and what part of the gate, a process of the prover works, if it is one."""
    try:
        with open(f"/proc/{pid}/cmdline", errors="replace") as it:
            words = it.read().split("\0")
        place = os.readlink(f"/proc/{pid}/cwd")
    except OSError:
        return None
    if not words[0].endswith("/rattle") or "--crate-name" not in words[:-1]:
        return None
    crate = words[words.index("--crate-name") + 1]
    # An edit is tried in a copy of its crate.
    if os.path.basename(place).startswith("rt-edit-"):
        return crate, "edits"
    return crate, "tests" if "--test" in words else "proof"
