"""For tests: the shared library that PETSIVOLA_LIBRARY names, or else one that is linked out of the static library
into a temporary folder, which goes when the interpreter ends."""
from __future__ import annotations

import atexit
import os
import pathlib
import shutil
import subprocess
import tempfile

ROOT = pathlib.Path(__file__).resolve().parent.parent.parent
ARCHIVE = ROOT / "target" / "staticlib" / "libpetsivola.a"


def provide() -> None:
    """Sets PETSIVOLA_LIBRARY, which child processes inherit, so it is linked once for all of them."""
    if os.environ.get("PETSIVOLA_LIBRARY"):
        # Some tests start their children in other folders.
        os.environ["PETSIVOLA_LIBRARY"] = os.path.abspath(os.environ["PETSIVOLA_LIBRARY"])
        return
    folder = tempfile.mkdtemp()
    atexit.register(shutil.rmtree, folder, ignore_errors=True)
    shared = os.path.join(folder, "libpetsivola.so")
    whole = ["-Wl,--whole-archive", str(ARCHIVE), "-Wl,--no-whole-archive"]
    subprocess.run(["gcc", "-shared", "-Wl,-z,defs", *whole, "-lc", "-o", shared], check=True)
    os.environ["PETSIVOLA_LIBRARY"] = shared
