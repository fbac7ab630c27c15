#!/usr/bin/env python3
"""large.py [VERTICES] [REFUSED] [SEED]

Refuses requests for memory of a large store, through the library for C that bindings/build has made (large.c). It refuses 50 of
the requests of a run with 10,000,000 vertices, unless other numbers are given. Each refused call must return TG_OUT_OF_MEMORY
and leave the store as it was, or be served all the same. It prints the refused requests, and ends with status 1 at the first
answer that is wrong. It needs a C compiler, and 3 GB for 10,000,000 vertices."""
import argparse
import os
import subprocess
import sys
import tempfile
from pathlib import Path

sys.dont_write_bytecode = True
sys.path.insert(0, str(Path(__file__).resolve().parents[3] / "tools"))
from repository.tree import TOP

BINDINGS = TOP / "bindings"
WRAPPED = [f"-Wl,--wrap={name}" for name in ("malloc", "realloc", "free")]


def main():
    words = argparse.ArgumentParser(usage=__doc__)
    words.add_argument("vertices", type=int, nargs="?", default=10_000_000)
    words.add_argument("refused", type=int, nargs="?", default=50)
    words.add_argument("seed", type=int, nargs="?", default=1)
    asked = words.parse_args()
    with tempfile.TemporaryDirectory() as folder:
        program = Path(folder) / "large"
        compiler = os.environ.get("CC", "cc").split()
        source = Path(__file__).with_suffix(".c")
        command = [*compiler, "-O2", *WRAPPED, "-I", BINDINGS, "-o", program, source, BINDINGS / "out" / "libkovshenul.a"]
        subprocess.run(command, check=True)
        return subprocess.run([program, *map(str, (asked.vertices, asked.refused, asked.seed))], check=False).returncode


if __name__ == "__main__":
    sys.exit(main())
