#!/usr/bin/env python3
"""run.py [FOLDER]: commands a second from C, Rust and Python, through the library that bindings/check has built.

Five runs of each in turn. The medians are printed as a table, in millions a second, and how many times as many the extension module of
Python makes as ctypes. FOLDER has another module kovshenul for Python, as an older one, whose speed is then beside that of this one. It
needs a C compiler, and leaves out Rust where there is no cargo, and the extension module where it wasn't built. """
import argparse
import os
import shutil
import subprocess
import sys
import tempfile
from pathlib import Path
from statistics import median

HERE = Path(__file__).resolve().parent
BINDINGS = HERE.parent.parent / "bindings"
OUT = BINDINGS / "out"
ROUNDS = 5
CALLS = {"C": 1_000_000, "Rust": 1_000_000}
CALLS_OF_PYTHON = 100_000
EXTENSION, CTYPES, OTHER = "Python", "Python by ctypes", "Python, other"
MANIFEST = """[package]
name = "speed"
version = "0.0.0"
edition = "2021"
[workspace]
[dependencies]
kovshenul = {{ path = "{}" }}
"""


def build_c(folder):
    program = folder / "speed_c"
    compiler = os.environ.get("CC", "cc")
    words = [compiler, "-O2", "-I", BINDINGS, "-o", program, HERE / "speed.c", OUT / "libkovshenul.a"]
    subprocess.run(words, check=True)
    return [program]


def build_rust(folder):
    source = folder / "speed" / "src"
    source.mkdir(parents=True)
    shutil.copy(HERE / "speed.rs", source / "main.rs")
    (folder / "speed" / "Cargo.toml").write_text(MANIFEST.format(BINDINGS / "rust"))
    environment = {**os.environ, "KOVSHENUL_LIB_DIR": str(OUT)}
    subprocess.run(
        ["cargo", "build", "--quiet", "--offline", "--release"], cwd=folder / "speed", env=environment, check=True
    )
    return [folder / "speed" / "target" / "release" / "speed"]


def run(language, command, module):
    """The millions of calls a second, by their kinds."""
    environment = {
        **os.environ,
        "PYTHONPATH": str(module),
        "PYTHONDONTWRITEBYTECODE": "1",
        "KOVSHENUL_LIBRARY": str(next(OUT.glob("libkovshenul.so.*"))),
        "KOVSHENUL_CTYPES": "1" if language == CTYPES else "0",
    }
    words = [*command, str(CALLS.get(language, CALLS_OF_PYTHON))]
    told = subprocess.run(words, env=environment, check=True, capture_output=True, text=True).stdout
    return {kind: float(speed) for kind, speed in (line.split() for line in told.splitlines())}


def main():
    words = argparse.ArgumentParser(usage=__doc__)
    words.add_argument("folder", nargs="?")
    asked = words.parse_args()
    with tempfile.TemporaryDirectory() as name:
        commands = {"C": build_c(Path(name))}
        if shutil.which("cargo"):
            commands["Rust"] = build_rust(Path(name))
        for language in (EXTENSION, CTYPES, OTHER):
            commands[language] = [sys.executable, HERE / "speed.py"]
        if not list((BINDINGS / "python" / "kovshenul").glob("_extension.*.so")):
            del commands[EXTENSION]
        if not asked.folder:
            del commands[OTHER]
        runs = {language: [] for language in commands}
        for _ in range(ROUNDS):
            for language, command in commands.items():
                module = asked.folder if language == OTHER else BINDINGS / "python"
                runs[language].append(run(language, command, module))
    kinds = list(runs["C"][0])
    print(f"| | {' | '.join(kinds)} |\n|{'---|' * (len(kinds) + 1)}")
    medians = {language: [median(one[kind] for one in its) for kind in kinds] for language, its in runs.items()}
    for language, speeds in medians.items():
        print(f"| {language} | {' | '.join(f'{speed:.2f}' for speed in speeds)} |")
    for language in (CTYPES, OTHER):
        if language in medians and EXTENSION in medians:
            ratios = [median(one[kind] / two[kind] for one, two in zip(runs[EXTENSION], runs[language])) for kind in kinds]
            print(f"| {EXTENSION}, times {language} | {' | '.join(f'{ratio:.2f}' for ratio in ratios)} |")


if __name__ == "__main__":
    main()
