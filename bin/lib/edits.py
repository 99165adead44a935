"""The must-fail edits of a crate: how one is read, what rt's answer to it says of the contract, and the table of them."""
import dataclasses
import hashlib
import os
import re

from repository import ROOT, files_of, sum_of

TABLE = "docs/EDITS.md"
# What a try comes to. Only the first shows that the contract refuses the edit.
GOAL, ELSEWHERE, NAME, LIMIT, BAD, PROVED, UNTRIED = (
    "goal", "elsewhere", "name", "limit", "can't be read", "still proved", "")
WHAT_IT_MEANS = {
    GOAL: "refused at a goal of the function that was changed",
    ELSEWHERE: "refused, but rt names a goal of another function first",
    NAME: "refused only because a proof names what the edit took away",
    LIMIT: "no verdict: the prover came to a limit of its own",
    BAD: "the edited text can't be read, so no contract was tried",
    PROVED: "STILL PROVED: no contract refuses it",
    UNTRIED: "not tried",
}
# A function's first line.
FUNCTION = re.compile(r"(\s*)(?:pub(?:\([^)]*\))?\s+)?(?:(?:const|unsafe|ghost|extern)\s+)*fn\s+(\w+)")
# A block of methods, and what its first line says behind the word.
BLOCK = re.compile(r"(?:pub(?:\([^)]*\))?\s+)?(?:unsafe\s+)?(impl|trait)\b(.*)")
PARAMETERS = re.compile(r"^<(?:[^<>]|<[^<>]*>)*>")
# A proof that names what the edit took away.
NAMES = re.compile(r"(note: )?(\./)?proofs/.*(has no field|is not in scope|has no `|was not admitted)")
# What the prover says of a text that it can't read, and of a limit of its own.
UNREAD = re.compile(r"is not in scope|has no field|is no name|operand is missing|expected the end|cannot continue")
LIMITS = re.compile(r"ran out of (stack|the (steps|memory) that)|(outgrew the memory limit|stopped at the step limit) \(")
PLACE = re.compile(r"(?:note: )?(?:\./)?(\S+?):(\d+):\d+: ?(?:error: )?(.*)")


@dataclasses.dataclass
class Edit:
    """An edit, why it can't be applied if it can't, and what came of it."""

    crate: str
    file: str
    unfit: str = ""
    # What it replaces, in order: the file, the old text, the new one.
    pairs: list = dataclasses.field(default_factory=list)
    # The functions that it changes, as their file, the numbers of their first and last line, and their name.
    changed: list = dataclasses.field(default_factory=list)
    # The edited files' texts, by their paths below the crate.
    texts: dict = dataclasses.field(default_factory=dict)
    outcome: str = UNTRIED
    said: str = ""

    @property
    def name(self):
        return os.path.basename(self.file).removesuffix(".md").removesuffix(".edit")

    @property
    def is_in_gate(self):
        return self.file.endswith(".edit")


def edits_of(crate, root=ROOT):
    """A crate's edits of both kinds, in the order of their names."""
    folder = f"{root}/crates/{crate}/must-fail"
    names = os.listdir(folder) if os.path.isdir(folder) else []
    found = [read(crate, f"{folder}/{it}") for it in names if it.endswith((".edit", ".edit.md"))]
    return sorted(found, key=lambda it: it.name)


def read(crate, file):
    """Reads an edit as rt does: pairs of 'old:' and 'new:' lines, each applied to what the earlier ones made."""
    edit = Edit(crate, file)
    folder = os.path.dirname(os.path.dirname(file))
    path = old = None
    texts = edit.texts
    with open(file, encoding="utf-8") as lines:
        for line in lines.read().split("\n"):
            if line.startswith("file: "):
                path = line.removeprefix("file: ").strip()
            elif line.startswith("old: "):
                old = line.removeprefix("old: ")
            elif line.startswith("new:"):
                edit.unfit = edit.unfit or apply(edit, folder, texts, path, old, line.removeprefix("new:").removeprefix(" "))
                old = None
            elif line.strip():
                edit.unfit = edit.unfit or f"a line that isn't read: {line[:60]}"
    if not texts and not edit.unfit:
        edit.unfit = "it has no 'old:' and 'new:' pair"
    return edit


def apply(edit, folder, texts, path, old, new):
    """Applies one pair and notes the function that it changes, or says why it can't."""
    if not path or not old:
        return "a 'new:' line with no 'file:' or 'old:' line before it"
    if path not in texts:
        if not os.path.isfile(f"{folder}/{path}"):
            return f"there is no file {path}"
        with open(f"{folder}/{path}", encoding="utf-8") as it:
            texts[path] = it.read()
    times = texts[path].count(old)
    if times != 1:
        return f"its 'old:' text stands {times} times in {path}, and not once: {old}"
    line = texts[path][: texts[path].index(old)].count("\n") + 1
    if path.startswith("src/"):
        edit.changed.append((path, *function_at(texts[path].split("\n"), line)))
    edit.pairs.append((path, old, new))
    texts[path] = texts[path].replace(old, new)
    return ""


def function_at(lines, line):
    """The first and last line of the function that holds a line, and its name: all lines and none where it is outside of one."""
    for first in range(line - 1, -1, -1):
        found = FUNCTION.match(lines[first])
        last = found and next((at for at in range(first + 1, len(lines)) if lines[at].startswith(f"{found[1]}}}")), first)
        if found and last >= line - 1:
            # Its attributes and comments stand right above it.
            while first > 0 and lines[first - 1].strip() and not lines[first - 1].rstrip().endswith(("{", "}", ";")):
                first -= 1
            return first + 1, last + 1, found[2]
    return 1, len(lines), ""


def ways_of(edit, folder):
    """The words for rt check that name what is to be tried, the narrowest first: the changed functions, their modules, the crate."""
    changed = [it for it in edit.changed if it[3]]
    if not changed or len(changed) < len(edit.changed) or any(not it.startswith("src/") for it in edit.texts):
        return [[]]
    ways = [sorted(set(it)) for it in zip(*(names_of(it, folder) for it in changed))]
    modules = sorted({module_of(it[0]) for it in changed})
    if all(modules):
        ways.append(modules)
    return [[word for name in way for word in ("--only", name)] for at, way in enumerate(ways) if way not in ways[:at]] + [[]]


def groups_of(edits, folder, most):
    """The edits in groups that one check can try together: each changes functions alone, and no two functions of a group have one
    name, so that each of the prover's lines belongs to one edit. An edit that fits no group is one by itself."""
    groups = []
    for edit in edits:
        names = {it[3] for it in edit.changed}
        one = len(ways_of(edit, folder)) == 1
        fits = (it for it in groups if not one and len(it[0]) < most and it[1] and not it[1] & names and merged([*it[0], edit], folder))
        group = next(fits, None)
        if group is None:
            groups.append(([edit], set() if one else names))
        else:
            group[0].append(edit)
            group[1].update(names)
    return [it for it, _ in groups]


def merged(edits, folder):
    """The texts of all edited files with every pair of these edits applied, or None where a pair no longer stands once."""
    texts = {}
    for path, old, new in (it for edit in edits for it in edit.pairs):
        if path not in texts:
            with open(f"{folder}/{path}", encoding="utf-8") as it:
                texts[path] = it.read()
        if texts[path].count(old) != 1:
            return None
        texts[path] = texts[path].replace(old, new)
    return texts


def names_of(changed, folder):
    """What rt check may call a function: by its type or module, by both, by its own name alone."""
    path, first, _, function = changed
    with open(f"{folder}/{path}", encoding="utf-8") as text:
        lines = text.read().split("\n")
    module, kind = module_of(path), type_at(lines, first)
    whole = "::".join(it for it in (module, kind, function) if it)
    return [f"{kind}::{function}" if kind else whole, whole, function]


def module_of(path):
    parts = path.removeprefix("src/").removesuffix(".rt").split("/")
    return "::".join(it for it in parts if it not in ("lib", "main", "mod"))


def type_at(lines, line):
    """The type or trait that the block around a line belongs to, as rt names it, or nothing."""
    for at in range(line - 1, -1, -1):
        if lines[at].startswith("}"):
            return ""
        found = BLOCK.match(lines[at])
        if found:
            head = PARAMETERS.sub("", found[2]) if found[1] == "impl" else found[2]
            of, _, type_ = head.rpartition(" for ")
            # rt calls a method of a trait by its type's and its trait's name in one.
            return re.match(r"[&\s]*(?:mut\s+)?(\w*)", type_)[1] + re.match(r"\s*(?:\w+::)*(\w*)", of)[1]
    return ""


def judged(edit, status, said):
    """What a check of the edited crate shows of the contract, and the line that says so."""
    lines = said.rstrip("\n").split("\n")
    if status == 0:
        return PROVED, ""
    unread = next((it for it in lines if is_unread(it, edit)), "")
    if status == 1 and unread:
        return BAD, unread
    told = [it for it in lines if PLACE.match(it) and (": error" in it or it.startswith("note: "))]
    if status == 1 and any("not proved" in it for it in lines):
        first = next((it for it in told if not NAMES.match(it)), "")
        if told and not first:
            return NAME, told[0]
        place = PLACE.match(first)
        return (GOAL if place and is_of(edit, first) else ELSEWHERE), first
    limit = next((it for it in lines if LIMITS.search(it)), "")
    if status == 3 and limit:
        return LIMIT, limit
    if status == 1:
        return BAD, next((it for it in lines if "error" in it), lines[-1])
    return UNTRIED, f"rt check ended with status {status}: {lines[-1]}"


def judge_together(edits, status, said):
    """What a check of several edits shows: gives those that have errors of their own an outcome, and leaves the others untried.
    Where the prover can't read a text, or names a place outside of the changed functions, no line can be given to an edit."""
    lines = said.rstrip("\n").split("\n")
    errors = [it for it in lines if PLACE.match(it) and (": error" in it or "it is not proved that" in it)]
    if status != 1 or not any("not proved" in it for it in lines) or any(is_unread(it, edit) for it in errors for edit in edits):
        return
    by_edit = [[it for it in errors if is_of(edit, it)] for edit in edits]
    if sum(map(len, by_edit)) != len(errors):
        return
    for edit, own in zip(edits, by_edit):
        goals = [it for it in own if not NAMES.match(it)]
        if goals:
            edit.outcome, edit.said = GOAL, goals[0]


def is_of(edit, line):
    place = PLACE.match(line)
    return any(is_at(it, place[1], int(place[2])) for it in edit.changed)


def is_unread(line, edit):
    """Whether the prover couldn't read an edited text, where one that only makes a statement false reads well."""
    at = re.match(r"(?:\./)?(\S+?):\d+:\d+: error: (?:(`[^`]*`): )?(.*)", line)
    if not at or at[1] not in edit.texts and not at[1].startswith(("src/", "specs/")):
        return False
    return not at[2] or bool(UNREAD.search(re.sub(r"`[^`]*`", "", at[3])))


def is_at(changed, path, line):
    """Whether a place is in a function, or in the folder of its proofs. What stands outside of functions, as a constant, means
    something to each function of the crate: to its code, and to the answers to its goals."""
    file, first, last, function = changed
    if not function:
        return path.startswith("src/") or os.path.basename(path) == "Answers.antt"
    if path.startswith("proofs/"):
        return os.path.basename(os.path.dirname(path)) == function
    return path == file and first <= line <= last


def tell(edit):
    goal = re.search(r"`[\w-]+`", edit.said)
    place = PLACE.match(edit.said)
    if edit.outcome == GOAL and place:
        return f"{edit.name}: {place[1]}:{place[2]} {goal[0] if goal else place[3]}"
    return f"{edit.name}: {WHAT_IT_MEANS[edit.outcome]}" + (f": {edit.said}" if edit.said else "")


def text_of(crate, root=ROOT):
    """A short sum of what an edit's meaning stands on in its crate: the code with its contracts, the definitions, and the edits
    (by their names and texts, whether the gate tries them or not)."""
    folder = f"{root}/crates/{crate}"
    texts = sum_of(files_of(folder, ("src", "specs")), folder)
    for edit in edits_of(crate, root):
        texts += f" {edit.name} {sum_of([edit.file], edit.file)}"
    return hashlib.sha256(texts.encode()).hexdigest()[:8]


def read_rows(root=ROOT):
    """The rows of crates whose edits were tried, by crate."""
    found = {}
    if os.path.isfile(f"{root}/{TABLE}"):
        with open(f"{root}/{TABLE}", encoding="utf-8") as table:
            for line in table:
                cells = [it.strip() for it in line.strip().strip("|").split("|")]
                if len(cells) == 5 and re.fullmatch(r"`\w+`", cells[0]) and cells[2] != "never":
                    found[cells[0].strip("`")] = cells
    return found


def is_old(crate, row):
    return row[4] != text_of(crate)


HEAD = """# Edits

An edit is a wrong body that the prover has to refuse (`crates/NAME/must-fail`). `bin/edits` tries those of the named crates, or
all, and writes this table. The gate tries {gate} of the {all} (`*.edit`), and not the others (`*.edit.md`).

An edit is refused at a goal where the first thing that the prover names of the changed function is a goal; `bin/edits --help` has
the other outcomes. A row is written once all edits of a crate were tried. The last column is a sum of its code, contracts,
definitions and edits; `bin/edits --look` names old rows.

| crate | edits | tried | refused at a goal | sum |
|---|---|---|---|---|
"""


def write_table(crate, edits, day, root=ROOT):
    """Writes the table anew, with this crate's row; the others stay."""
    others = [it for it in edits if it.outcome != GOAL]
    kinds = sorted({it.outcome for it in others})
    good = len(edits) - len(others)
    told = "; ".join([str(good), *(f"{kind}: " + ", ".join(f"`{it.name}`" for it in others if it.outcome == kind) for kind in kinds)]) if others else "all"
    write_rows({**read_rows(root), crate: [f"`{crate}`", str(len(edits)), day, told, text_of(crate, root)]}, root)


def write_rows(rows, root=ROOT):
    """Writes the table with these rows, and one that says never for each other crate with edits."""
    every = {name: edits_of(name, root) for name in sorted(os.listdir(f"{root}/crates"))}
    every = {name: its for name, its in every.items() if its}
    lines = [rows.get(name, [f"`{name}`", str(len(its)), "never", "", ""]) for name, its in every.items()]
    numbers = {"gate": sum(it.is_in_gate for its in every.values() for it in its), "all": sum(map(len, every.values()))}
    with open(f"{root}/{TABLE}.new", "w", encoding="utf-8") as table:
        table.write(HEAD.format(**numbers) + "".join(f"| {' | '.join(it)} |\n" for it in lines))
    os.replace(f"{root}/{TABLE}.new", f"{root}/{TABLE}")
