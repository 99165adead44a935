"""Builds the extension over libraspcream.a: the one in RASPCREAM_LIB_DIR, or else the one that `make` in bindings/c leaves."""
import glob
import os
import shutil

from setuptools import Extension, setup

here = os.path.dirname(os.path.abspath(__file__))
library = os.environ.get("RASPCREAM_LIB_DIR", os.path.join(here, "..", "c", "out"))
header = os.environ.get("RASPCREAM_INCLUDE_DIR", os.path.join(here, "..", "..", "include"))

# The wheel has the licences of what it contains in its metadata, as pyproject.toml says: they stand at the top of the repository.
licences = os.environ.get("RASPCREAM_LICENSE_DIR", os.path.join(here, "..", ".."))
for name in ("NOTICE", "LICENSE-APACHE", "LICENSE-MIT"):
    if not os.path.exists(os.path.join(here, name)):
        shutil.copyfile(os.path.join(licences, name), os.path.join(here, name))

setup(
    ext_modules=[
        Extension(
            "raspcream._conn",
            sorted(glob.glob("src/*.c")),
            depends=glob.glob("src/*.h"),
            include_dirs=[header],
            extra_objects=[os.path.join(library, "libraspcream.a")],
            # It exports its init function alone, so that no name of the C library or of another extension takes the place of its own.
            extra_compile_args=["-O2", "-fvisibility=hidden"],
            extra_link_args=["-Wl,--exclude-libs,ALL"],
            py_limited_api=True,
        )
    ],
    options={"bdist_wheel": {"py_limited_api": "cp311"}},
)
