"""What the gate costs: its times by crate, from its log or from docs/DEVELOPING.md, and how long it takes on so many processors.

  python3 bin/lib/times.py NAME..     says how long the proof of these programs takes, and of all that they stand on"""
import dataclasses
import heapq
import os
import re
import sys

sys.path.insert(0, os.path.dirname(os.path.realpath(__file__)))
sys.dont_write_bytecode = True
from repository import ROOT, all_below, crates, files_of

TABLE = "docs/DEVELOPING.md"
# The processor minutes that the gate may take from nothing, so that it ends on two processors.
MOST = 320
# A proof from nothing, a thousand lines of code with their contracts, where nothing was measured.
MINUTES_A_THOUSAND_LINES = 5
# What bin/gate writes, and the parts that it tells apart.
PARTS = ("proof", "tests", "edits")
PROVED = re.compile(r"rt: (\w+)(: its tests are)? proved(?: \(([\d.]+) processor minutes\))?$")
EDITS = re.compile(r"gate: the edits of (\w+) took ([\d.]+) processor minutes$")
KEPT = re.compile(r"rt: (\w+) is kept")


@dataclasses.dataclass
class Cost:
    """A crate's processor minutes."""

    proof: float = 0.0
    tests: float = 0.0
    edits: float = 0.0

    @property
    def whole(self):
        return self.proof + self.tests + self.edits


def from_log(lines):
    """The costs by crate that a log of bin/gate has, and the crates that an earlier run had proved."""
    found, kept = {}, []
    for line in lines:
        line = line.rstrip("\n")
        if proved := PROVED.match(line):
            setattr(found.setdefault(proved[1], Cost()), "tests" if proved[2] else "proof", float(proved[3] or 0))
        elif edits := EDITS.match(line):
            found.setdefault(edits[1], Cost()).edits = float(edits[2])
        elif is_kept := KEPT.match(line):
            kept.append(is_kept[1])
    return found, kept


def from_table(root=ROOT):
    """The costs by crate of the table in docs/DEVELOPING.md."""
    found = {}
    row = re.compile(r"\| `(\w+)` \|" + r" *([\d.]*) *\|" * 4 + "$")
    with open(f"{root}/{TABLE}", encoding="utf-8") as text:
        for line in text:
            if cells := row.match(line.strip()):
                found[cells[1]] = Cost(*[float(it or 0) for it in cells.groups()[1:4]])
    return found


def as_table(costs):
    """The table, the dearest crate first."""
    cell = lambda it: f"{it:.1f}" if it >= 0.05 else ""
    rows = sorted(costs.items(), key=lambda it: (-it[1].whole, it[0]))
    lines = ["| crate | proof | tests | edits | together |", "|---|---|---|---|---|"]
    return lines + [f"| `{name}` | {cell(it.proof)} | {cell(it.tests)} | {cell(it.edits)} | {cell(it.whole)} |" for name, it in rows]


def lines_in(name, root=ROOT):
    total = 0
    for file in files_of(f"{root}/crates/{name}"):
        if file.endswith(".rt"):
            with open(file, "rb") as it:
                total += it.read().count(b"\n")
    return total


def tasks_of(costs, on, root=ROOT):
    """The gate's tasks as rt plans them: what each waits for, by how many lines it is ranked, and its minutes."""
    tasks = {}
    for name, cost in costs.items():
        below = [(it, "proof") for it in all_below(name, on) if it != name and it in costs]
        lines = lines_in(name, root)
        tasks[name, "proof"] = (below, lines, cost.proof)
        if cost.tests:
            tasks[name, "tests"] = (below, lines, cost.tests)
        if cost.edits:
            both = [(name, it) for it in ("proof", "tests") if (name, it) in tasks]
            tasks[name, "edits"] = (both, lines, cost.edits)
    return tasks


def minutes_on(processors, tasks):
    """How long the tasks take side by side, each on one processor, in the order in which rt begins them: first those with the
    longest chain behind them, by lines, and the edits where no proof waits."""
    behind = dict.fromkeys(tasks, 0)
    for key in reversed(list(tasks)):
        waits, lines, _ = tasks[key]
        behind[key] += lines
        for it in waits:
            behind[it] = max(behind[it], behind[key])
    left = sorted(tasks, key=lambda it: (it[1] == "edits", -behind[it]))
    now, running, ended = 0.0, [], set()
    while left or running:
        for key in [it for it in left if all(below in ended for below in tasks[it][0])][: processors - len(running)]:
            left.remove(key)
            heapq.heappush(running, (now + tasks[key][2], key))
        now, key = heapq.heappop(running)
        ended.add(key)
    return now


def longest_chain(tasks):
    """The tasks that wait for one another and take longest together, and their minutes."""
    best = {}
    for key, (waits, _, minutes) in tasks.items():
        before = max((best[it] for it in waits), default=(0.0, []), key=lambda it: it[0])
        best[key] = (before[0] + minutes, [*before[1], key])
    return max(best.values(), key=lambda it: it[0], default=(0.0, []))


def guessed(names, known, root=ROOT):
    """The cost of each crate's proof, by the table or, where that lacks it, by its lines."""
    guess = lambda it: Cost(proof=lines_in(it, root) * MINUTES_A_THOUSAND_LINES / 1000)
    return {it: Cost(proof=known[it].proof) if it in known and known[it].proof else guess(it) for it in names}


def main(names):
    on = crates()
    wanted = {below for it in names for below in all_below(it, on)}
    known = from_table()
    costs = guessed([it for it in on if it in wanted], known)
    lanes = int(os.environ.get("RT_JOBS") or 4)
    processors = min(lanes, len(os.sched_getaffinity(0)))
    whole = sum(it.proof for it in costs.values())
    by = "by docs/DEVELOPING.md" if wanted <= set(known) else "by a rough rule"
    minutes = minutes_on(processors, tasks_of(costs, on))
    print(f"prove: the proof of {len(costs)} crates takes some {max(whole, 1):.0f} processor minutes from nothing ({by}), about {max(minutes, 1):.0f} on "
          f"{processors} processors, less what rt ci has proved of the same files on this machine")


if __name__ == "__main__":
    main(sys.argv[1:])
