"""Crates that stand beside the gate's, as folders bench/NAME whose sources end in .in. Each is laid beside a copy of what it
stands on, as a repository of its own, and proved, built and run there by rt ci, which takes what the gate proved before.

    beside.py NAME          says where the program is, once it is built: out/bench/NAME. While what it is made from stays the
                            same, it is built once
    beside.py NAME FOLDER   lays it in that folder, to work on it there"""
import hashlib, os, re, shutil, subprocess, sys, tempfile

sys.path.insert(0, f"{os.path.dirname(os.path.realpath(__file__))}/../../bin/lib")
sys.dont_write_bytecode = True
from repository import ROOT, all_below, copy_unpacked, files_of, libraries_of, lines_of, sum_of

OUT = f"{ROOT}/out/bench"

# What a program is run on.
RUN_ON = "stdin", "stdout", "args", "status"


def say(text):
    print(f"bench: {text}", file=sys.stderr, flush=True)


def lines_for(name):
    """The lines of a crate that stands here and of all that it stands on."""
    lines = lines_of(f"{ROOT}/crates.txt") | lines_of(f"{ROOT}/bench/crates.txt.in")
    on = {crate: [it for it in libraries_of(line) if it in lines] for crate, line in lines.items()}
    return {crate: lines[crate] for crate in all_below(name, on)}


def files_for(crate):
    """The folder of a crate, and the files that it is made from and run on."""
    folder = f"{ROOT}/bench/{crate}"
    if not os.path.isdir(folder):
        folder = f"{ROOT}/crates/{crate}"
        return folder, files_of(folder)
    return folder, files_of(folder) + [f"{folder}/{name}" for name in RUN_ON if os.path.isfile(f"{folder}/{name}")]


def lay(name, to):
    lines = lines_for(name)
    for crate in lines:
        folder, files = files_for(crate)
        copy_unpacked(files, folder, f"{to}/crates/{crate}")
    with open(f"{to}/crates.txt", "w", encoding="utf-8") as text:
        text.writelines(f"{line}\n" for line in lines.values())
    shutil.copyfile(f"{ROOT}/HANDLES", f"{to}/HANDLES")
    # It is the top of a repository.
    os.makedirs(f"{to}/.git", exist_ok=True)


def sum_for(name):
    """A sum of all that a program is made from, the toolchain among it."""
    lines = lines_for(name)
    version = subprocess.run(["rt", "version"], capture_output=True, check=True).stdout
    sums = [sum_of(files, folder) for folder, files in map(files_for, lines)]
    return hashlib.sha256(repr((version, lines, sums)).encode()).hexdigest()


def build(name):
    """Has rt ci prove, build and run the program, says how far it is, and keeps what it built."""
    count = len(lines_for(name))
    say(f"{name} and what it stands on, {count} crates, are proved and built first; what the gate proved is taken")
    with tempfile.TemporaryDirectory(prefix="bench-") as room:
        lay(name, room)
        how = {"stdin": subprocess.DEVNULL, "stdout": subprocess.PIPE, "stderr": subprocess.STDOUT}
        run = subprocess.Popen(["rt", "ci"], cwd=room, text=True, errors="replace", **how)
        done, said = 0, []
        for line in run.stdout:
            said.append(line)
            ended = re.match(r"rt: (\w+) (proved$|NOT PROVED|is kept)", line)
            if ended:
                done += 1
                say(f"{ended[1]} {ended[2]} ({done} of {count})")
        if run.wait():
            sys.stderr.writelines(said[-40:])
            say(f"{name} could not be built")
            sys.exit(70)
        os.makedirs(OUT, exist_ok=True)
        shutil.copyfile(f"{room}/crates/{name}/out/{name}", f"{OUT}/{name}")
        os.chmod(f"{OUT}/{name}", 0o755)


def program(name):
    """Where the program is, once it is built from the files as they stand."""
    wanted, file = sum_for(name), f"{OUT}/{name}.sum"
    is_built = False
    if os.path.isfile(file) and os.path.isfile(f"{OUT}/{name}"):
        with open(file) as text:
            is_built = text.read() == wanted
    if not is_built:
        if os.path.exists(file):
            os.remove(file)
        build(name)
        with open(file, "w") as text:
            text.write(wanted)
    return f"{OUT}/{name}"


if __name__ == "__main__":
    try:
        if len(sys.argv) == 3:
            lay(sys.argv[1], sys.argv[2])
        else:
            print(program(sys.argv[1]))
    except KeyboardInterrupt:
        sys.exit(130)
