#!/usr/bin/env python3
"""kept.py FOLDER: gives a checkout the libraries that rt ci kept on this machine for crates of the same text, and prints which
crates have theirs now. It calls functions of the command rt that no page of the toolchain promises: where they are other ones by now
it ends with another status than 0, and rt check builds the libraries itself."""
import importlib.machinery
import importlib.util
import os
import shutil
import sys


def load_rt():
    file = os.path.realpath(shutil.which("rt"))
    sys.path.insert(0, os.path.dirname(file))
    loader = importlib.machinery.SourceFileLoader("rt_command", file)
    module = importlib.util.module_from_spec(importlib.util.spec_from_loader("rt_command", loader))
    sys.modules["rt_command"] = module
    loader.exec_module(module)
    return module


def give(folder):
    rt = load_rt()
    os.chdir(folder)
    rt.Crate.allowed = rt.handles_of(folder)
    every = rt.crates_of(folder)
    kept, have = rt.Kept(every), set()
    for crate in every:
        if crate.is_program or crate.is_static or any(it.name not in have for it in crate.below()):
            continue
        if not crate.is_built():
            key = kept.key(crate)
            if not os.path.isdir(kept.place(crate, False, key)):
                continue
            shutil.rmtree(f"{crate.folder}/out/rlib", ignore_errors=True)
            os.makedirs(f"{crate.folder}/out", exist_ok=True)
            if not kept.give(crate, False, key):
                continue
            with open(f"{crate.folder}/out/rlib/stamp", "w", encoding="utf-8") as stamp:
                stamp.write(crate.stamp())
        kept.is_built(crate)
        have.add(crate.name)
    return sorted(have)


if __name__ == "__main__":
    print(" ".join(give(os.path.realpath(sys.argv[1]))))
