#!/usr/bin/env python3
"""Has the built tgaudit audit what tgstore answers to the stored scripts: tests/soak/entries/stored.py

The text of the history of each row of tests/runs/scripts is put together. It is made of the lines, the stored replies, and the boxes of the
stock. It must pass. A collection has no entry, and neither has a line that was refused, but for lack of vertices or of room for a
subject."""
import argparse
import re
import subprocess
import sys
from itertools import takewhile
from pathlib import Path

sys.dont_write_bytecode = True
sys.path.insert(0, str(Path(__file__).resolve().parents[3] / "tools"))
from plain import VERSION, judge
from repository.rows import Row, rows_in
from repository.tree import Tree

PROGRAM = Tree().program("tgaudit")
NEW = {"c": "c0", "s": "s0", "m": "m0", "l": "l4"}
NO_ENTRY = re.compile(r"refused (memory|heap|stock|threads|worker)\n")


def history_of(row: Row) -> tuple[str, int]:
    """The text of the history of a row's script and its replies."""
    said = dict(zip(row.words[::2], row.words[1::2]))
    workers, limit = int(said.get("--workers", 2)), int(said.get("--vertices", 1_000_000))
    boxes = [NEW[kind] for kind, count in re.findall(r"([csml])([0-9]*)", said.get("--stock", "")) for _ in range(int(count or 1))]
    lines, replies = (row.stored(file).decode().splitlines(keepends=True) for file in ("stdin", "stdout"))
    edges = list(takewhile(lambda line: line.startswith("edge "), lines))
    text = [VERSION, f"opening {workers} {limit}\n", *["worker c0\n"] * workers]
    if replies:
        text += edges
    taken, count = 0, 0
    for line, reply in zip(lines[len(edges) :], replies):
        if line in ("full\n", "minor\n") or NO_ENTRY.fullmatch(reply):
            continue
        if line.split(" ")[1] in ("create", "spawn"):
            line = f"{line[:-1]} {boxes[taken]}\n"
            taken += reply.startswith("ok")
        text.append(f"{line[:-1]} = {reply}")
        count += 1
    return "".join([*text, f"entries {count}\n"]), count


def main():
    argparse.ArgumentParser(usage=__doc__).parse_args()
    rows, entries = 0, 0
    for row in rows_in("scripts"):
        text, count = history_of(row)
        if count == 0:
            continue
        ran = subprocess.run([PROGRAM], input=text.encode(), capture_output=True, timeout=120)
        said = (ran.stdout + ran.stderr).decode()
        if said != f"audit ok, {count} entries\n":
            Path("/tmp/entries.failed").write_text(text)
            sys.exit(f"entries: FAILED: {row.name}: {said.strip()}: see /tmp/entries.failed; the rules say: {judge(text).strip()}")
        rows, entries = rows + 1, entries + count
    print(f"entries: {rows} stored scripts, {entries} entries: all passed")


if __name__ == "__main__":
    main()
