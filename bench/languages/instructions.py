#!/usr/bin/env python3
"""instructions.py [FOLDER]: how many instructions a call from Python takes, through the library that bindings/check has built.

They are counted by callgrind over the whole interpreter, so other work on the machine doesn't matter. The rows are the calls by ctypes,
and those by the extension module where it was built. FOLDER has another module kovshenul, as an older one, whose numbers are beside. It
needs valgrind with its headers, and a C compiler. """
import argparse
import os
import re
import subprocess
import sys
import tempfile
from pathlib import Path

HERE = Path(__file__).resolve().parent
BINDINGS = HERE.parent.parent / "bindings"
CALLS = 1000


def counted(module, marks, room, by_ctypes=False):
    """The instructions of a call, by its kind."""
    environment = {
        **os.environ,
        "PYTHONPATH": str(module),
        "PYTHONHASHSEED": "0",
        "PYTHONDONTWRITEBYTECODE": "1",
        "KOVSHENUL_LIBRARY": str(next((BINDINGS / "out").glob("libkovshenul.so.*"))),
        "KOVSHENUL_CTYPES": str(int(by_ctypes)),
    }
    room.mkdir()
    words = ["valgrind", "--tool=callgrind", f"--callgrind-out-file={room}/counts", sys.executable]
    subprocess.run([*words, HERE / "speed.py", str(CALLS), marks], env=environment, check=True, capture_output=True)
    found = {}
    for text in (part.read_text() for part in sorted(room.glob("counts.*"), key=lambda it: int(it.suffix[1:]))):
        if kind := re.search(r"Client Request: (\w+)", text):
            found[kind[1]] = int(re.search(r"^(?:totals|summary): (\d+)", text, re.M)[1]) / CALLS
    del found["before"]
    return found


def main():
    words = argparse.ArgumentParser(usage=__doc__)
    words.add_argument("folder", nargs="?")
    asked = words.parse_args()
    with tempfile.TemporaryDirectory() as name:
        marks = Path(name) / "marks.so"
        command = [os.environ.get("CC", "cc"), "-O2", "-fPIC", "-shared", "-o", marks, HERE / "mark.c"]
        subprocess.run(command, check=True)
        rows = {"Python by ctypes": counted(BINDINGS / "python", marks, Path(name) / "ctypes", by_ctypes=True)}
        if list((BINDINGS / "python" / "kovshenul").glob("_extension.*.so")):
            rows["Python"] = counted(BINDINGS / "python", marks, Path(name) / "this")
        if asked.folder:
            rows["Python, other"] = counted(asked.folder, marks, Path(name) / "other")
    kinds = list(rows["Python by ctypes"])
    print(f"| | {' | '.join(kinds)} |\n|{'---|' * (len(kinds) + 1)}")
    for language, counts in rows.items():
        print(f"| {language} | {' | '.join(f'{counts[kind]:,.0f}' for kind in kinds)} |")


if __name__ == "__main__":
    main()
