#!/usr/bin/env python3
"""vertex.py [PROGRAM]

Prints how many bytes of malloc, with headers, a vertex takes in the store and in both plain programs. The vertex comes with its
payload, its entry of the journal and its reference. A script with twice as many creates holds more at its end, and this is divided by
how many creates it has more. Vectors and tables that double are full or half empty by this number. So there are two numbers. It needs
cc and rustc, and asserts nothing. PROGRAM is crates/tgstore/out/tgstore unless it is given."""
import argparse
import os
import re
import subprocess
import sys
import tempfile
from pathlib import Path

sys.dont_write_bytecode = True
sys.path.insert(0, str(Path(__file__).resolve().parents[2] / "tools"))
from repository.tree import Tree

HERE = os.path.dirname(os.path.abspath(__file__))
BENCH = os.path.dirname(HERE)
BUILT = str(Tree().program("tgstore"))
PLAIN = ("reference", "boxed")
VERTICES = (28_672, 32_767)


def held(command, count, library):
    """The bytes that are held once so many vertices were made."""
    run = subprocess.run(
        [*command, "--workers", "1", "--stock", f"c{count}"], input=b"0 create r\n" * count, env={"LD_PRELOAD": library},
        stdout=subprocess.DEVNULL, stderr=subprocess.PIPE, check=True)
    return int(re.search(rb"held: (\d+)", run.stderr)[1])


def main():
    words = argparse.ArgumentParser(usage=__doc__)
    words.add_argument("program", nargs="?", default=BUILT)
    program = os.path.abspath(words.parse_args().program)
    with tempfile.TemporaryDirectory() as folder:
        library = os.path.join(folder, "vertex.so")
        subprocess.run(["cc", "-O2", "-fPIC", "-shared", "-o", library, os.path.join(HERE, "vertex.c"), "-ldl"], check=True)
        commands = {"store": [program]}
        for name in PLAIN:
            commands[name] = [os.path.join(folder, name), "--journal"]
            subprocess.run(["rustc", "-O", "--edition", "2021", "-o", commands[name][0], os.path.join(BENCH, f"{name}.rs")], check=True)
        for count in VERTICES:
            bytes_of = {name: (held(it, 2 * count, library) - held(it, count, library)) / count for name, it in commands.items()}
            print(f"{count} vertices and twice as many:", ", ".join(f"{name} {it:.0f}" for name, it in bytes_of.items()), "bytes each")


if __name__ == "__main__":
    main()
