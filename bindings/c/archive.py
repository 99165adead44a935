"""Builds the archive of a static library where rt ci has just proved it: `python3 archive.py NAME FILE` at the top of that folder.

rt ci keeps no archive, and rt lib takes no library that rt ci proved. So this proves that one crate again, over the libraries
that rt ci left below it, by the words that rt itself would give, and LLVM compiles it."""
import importlib.machinery
import importlib.util
import os
import shutil
import sys

sys.dont_write_bytecode = True


def load(file):
    """The command rt as a module."""
    loader = importlib.machinery.SourceFileLoader("rt_command", file)
    module = importlib.util.module_from_spec(importlib.util.spec_from_loader("rt_command", loader))
    sys.modules["rt_command"] = module
    loader.exec_module(module)
    return module


def main(name, file):
    rt = load(os.path.realpath(shutil.which("rt")))
    rt.rtlib.guarded()
    rt.Crate.cuts_libraries = True
    rt.Crate.allowed = rt.handles_of(os.getcwd())
    crate = next(it for it in rt.crates_of(os.getcwd()) if it.name == name)
    lacking = [it.name for it in crate.below() if not os.path.isdir(it.rlib)]
    if lacking or not crate.is_static:
        sys.exit(f"archive: {name} is no static library over proved libraries: {' '.join(lacking)}")
    os.makedirs(f"{crate.folder}/out", exist_ok=True)
    words = [*crate.words(["--jobs", os.environ.get("RT_JOBS", "1")], keeps=False), "--toolchain", f"{rt.KIT}/toolchain", "--backend", "llvm"]
    return crate.prove(["build", *words, "-o", os.path.abspath(file)])


if __name__ == "__main__":
    sys.exit(main(*sys.argv[1:]))
