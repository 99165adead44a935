"""The crates of this repository: what crates.txt says, what a crate is proved from, and copies to work on."""
import hashlib
import os
import shutil

ROOT = os.path.dirname(os.path.dirname(os.path.dirname(os.path.realpath(__file__))))
# What a proof of a crate reads of its folder.
PROVED_FROM = ("src", "specs", "proofs")


def lines_of(file):
    """The lines of a list of crates, by the crate of each, in its order."""
    with open(file, encoding="utf-8") as text:
        lines = [line.split("#")[0].strip() for line in text]
    return {line.split(":")[0].split()[0]: line for line in lines if ":" in line}


def libraries_of(line):
    """The crates that such a line lists, those of the toolchain among them."""
    return line.partition(":")[2].split()


def crates(root=ROOT):
    """Each crate of crates.txt, lowest first, with the crates of this repository that it stands on."""
    found = {name: libraries_of(line) for name, line in lines_of(f"{root}/crates.txt").items()}
    return lowest_first({name: [it for it in on if it in found] for name, on in found.items()})


def lowest_first(on):
    placed = {}

    def place(name):
        if name not in placed:
            for it in on[name]:
                place(it)
            placed[name] = on[name]

    for name in on:
        place(name)
    return placed


def all_below(name, on):
    """The crate itself and all that stand below it, lowest first."""
    found = set()
    left = [name]
    while left:
        it = left.pop()
        if it not in found:
            found.add(it)
            left += on[it]
    return [it for it in on if it in found]


def files_of(folder, parts=PROVED_FROM):
    """The files of these folders of a crate, in order."""
    found = []
    for part in parts:
        for at, folders, names in os.walk(f"{folder}/{part}"):
            folders.sort()
            found += [f"{at}/{name}" for name in sorted(names)]
    return found


def sum_of(files, top):
    """A sum of these files, by their names below the folder top and their bytes."""
    total = hashlib.sha256()
    for file in files:
        total.update(os.path.relpath(file, top).encode() + b"\0")
        with open(file, "rb") as it:
            total.update(hashlib.sha256(it.read()).digest())
    return total.hexdigest()


def copy_to(place, root=ROOT):
    """Copies what rt ci reads to a new folder, without what was built."""
    shutil.copytree(f"{root}/crates", f"{place}/crates", symlinks=True, ignore=built)
    for name in ("crates.txt", "HANDLES"):
        shutil.copyfile(f"{root}/{name}", f"{place}/{name}")


def copy_unpacked(files, folder, to):
    """Copies files below a folder whose sources end in .in, as they stand outside of crates/, without that ending."""
    for file in files:
        place = f"{to}/{os.path.relpath(file, folder).removesuffix('.in')}"
        os.makedirs(os.path.dirname(place), exist_ok=True)
        shutil.copyfile(file, place)


def built(folder, names):
    return [it for it in names if it == "out" and os.path.basename(os.path.dirname(folder)) == "crates"]
