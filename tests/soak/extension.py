#!/usr/bin/env python3
"""extension.py [--only WORD]

Builds Python's extension module, and runs the tests of Python and 150,000 calls of python.py over it. All of these have to pass. Then it
plants a fault in the module, and builds it. It runs the same tests and calls, until one of these fails, crashes or hangs. Then it plants
the next fault. With --only it plants only the faults whose name has the word. Exit status 1 if a fault isn't found, or if something fails
where no fault is planted. It needs the headers of Python 3.11 or later, a C compiler, and what bindings/build built.
"""
import argparse
import os
import shutil
import subprocess
import sys
import sysconfig
import tempfile
from pathlib import Path

TOP = Path(__file__).resolve().parents[2]
BINDINGS = TOP / "bindings"
CALLS, SECONDS = "150000", 120
TESTS = "test_values test_journal test_could test_handlers test_threads test_arguments test_plain".split()

# Where a long call gives the interpreter's lock up, and where it takes it again.
KEPT = "{}    return true;\n}}\n\nbool end_long(struct state *state) {{\n{}"
SAVED, RESTORED = "    state->thread = PyEval_SaveThread();\n", "    PyEval_RestoreThread(state->thread);\n"

# The name of each fault: in which file it is planted, which text it replaces, and by what.
FAULTS = {
    "a short call doesn't wait": ("locks.c", "while (state->is_busy)", "while (false)"),
    "a long call takes no lock": ("locks.c", "if (!is_called(state->given.acquire))\n        return false;\n    state->is_busy", "state->is_busy"),
    "a long call keeps the interpreter's lock": ("locks.c", KEPT.format(SAVED, RESTORED), KEPT.format("", "")),
    "a long call isn't noted": ("locks.c", "state->is_busy = true;\n", ""),
    "a lock isn't given back": ("locks.c", "return is_called(state->given.release);", "return true;"),
    "a denial's vertices leak": ("answers.c", "    Py_DECREF(vertices);\n    return raised", "    return raised"),
    "an exception leaks": ("answers.c", "    Py_XDECREF(why);\n    return NULL;", "    return NULL;"),
    "a target's name leaks": ("answers.c", "    Py_XDECREF(to);\n    return tuple_of_type", "    return tuple_of_type"),
    "a tuple's items leak": ("answers.c", "    Py_XDECREF(items);\n", ""),
    "a set's numbers leak": ("answers.c", "        Py_XDECREF(number);\n", ""),
    "rights are given back too often": ("answers.c", "Py_XDECREF(to);\n    return", "Py_XDECREF(to);\n    Py_XDECREF(rights);\n    return"),
    "a denial has the other edge": ("answers.c", "denial->cause, from, to, rights,", "denial->cause, to, from, rights,"),
    "a number out of range is taken": ("arguments.c", "        PyErr_Clear();\n", "        PyErr_Clear();\n        return true;\n"),
    "each object is a store": ("arguments.c", "if (!PyObject_TypeCheck(word, state->store_type)) {", "if (false) {"),
    "a store isn't closed at its end": ("store.c", "if (self->place.is_open) {", "if (false) {"),
    "a create is refused of the rights": ("store.c", "return counted(self->state, status, name, asked);", "return counted(self->state, status, name, asked + 1);"),
    "a denial names a vertex too few": ("store.c", "&denial, asked, 3);", "&denial, asked, 2);"),
    "a value has any size": ("store.c", "if (value_count != 1) {", "if (false) {"),
    "a row ends at 64": ("rows.c", "return long_row_told(self, entries - 1, count,", "return long_row_told(self, entries - 1, SHORT_ROW,"),
    "a row is that of another entry": ("rows.c", "entries - 1", "entries - 2"),
    "holders are asked for again": ("rows.c", "? counts.vertices : 0;", "? SHORT_ROW : 0;"),
    "holders leak": ("rows.c", "    free(names);\n    return told;", "    return told;"),
    "an answer isn't closed": ("outlooks.c", "    state->library.answer_close(&answer);\n", ""),
}


def lay_out(folder):
    """Puts the package into the folder, beside the script that soaks it."""
    shutil.copytree(BINDINGS / "python", folder / "bindings" / "python")
    shutil.copy(BINDINGS / "kovshenul.h", folder / "bindings")
    shutil.copytree(BINDINGS / "tests", folder / "bindings" / "tests")
    (folder / "tests" / "soak").mkdir(parents=True)
    shutil.copy(TOP / "tests" / "soak" / "python.py", folder / "tests" / "soak")


def plant(folder, file, text, other):
    """Plants the fault in the package of the folder."""
    source = folder / "bindings" / "python" / "extension" / file
    whole = source.read_text()
    if whole.count(text) != 1:
        sys.exit(f"extension.py: {file} has {whole.count(text)} times, and not once, the text {text!r}")
    source.write_text(whole.replace(text, other))


def build(folder):
    """Builds the module of the folder."""
    sources = folder / "bindings" / "python" / "extension"
    words = [os.environ.get("CC", "cc"), "-std=c11", "-O2", "-w", "-fPIC", "-fvisibility=hidden", "-shared", "-I../.."]
    words += ["-isystem", sysconfig.get_paths()["include"], "-o", "../kovshenul/_extension.abi3.so"]
    subprocess.run([*words, *sorted(path.name for path in sources.glob("*.c"))], cwd=sources, check=True)


def found_by(folder):
    """Which test finds the fault, and how it ends, or nothing."""
    package = folder / "bindings" / "python"
    library = next((BINDINGS / "out").glob("libkovshenul.so.*"))
    environment = {**os.environ, "PYTHONPATH": str(package), "KOVSHENUL_LIBRARY": str(library), "KOVSHENUL_CTYPES": "0"}
    tests = [[package / "tests" / f"{name}.py"] for name in TESTS]
    for test in [*tests, [folder / "tests" / "soak" / "python.py", "--calls", CALLS]]:
        try:
            status = subprocess.run([sys.executable, "-B", *test], env=environment, capture_output=True, timeout=SECONDS).returncode
        except subprocess.TimeoutExpired:
            return f"{test[0].stem} hangs"
        if status:
            return f"{test[0].stem} ends with status {status}"
    return None


def tried(fault=None):
    """Which test finds the fault, and how it ends, or nothing. Without a fault the module is as it is."""
    with tempfile.TemporaryDirectory() as folder:
        lay_out(Path(folder))
        if fault is not None:
            plant(Path(folder), *fault)
        build(Path(folder))
        return found_by(Path(folder))


def main():
    words = argparse.ArgumentParser(usage=__doc__)
    words.add_argument("--only", default="")
    asked = words.parse_args()
    failed = tried()
    if failed is not None:
        sys.exit(f"extension.py: no fault was planted, and {failed}")
    missed = 0
    for name, fault in FAULTS.items():
        if asked.only not in name:
            continue
        found = tried(fault)
        missed += found is None
        print(f"{name}: {found or 'NOT FOUND'}", flush=True)
    return missed


if __name__ == "__main__":
    sys.exit(1 if main() else 0)
