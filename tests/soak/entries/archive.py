#!/usr/bin/env python3
"""Tries the built tgaudit on archives in parts: tests/soak/entries/archive.py [SEED [ENTRIES]]

A random legal history is cut into 20 parts. The head of each next part is the output of tgaudit --snapshot for the part before. The archive
has the head after its last part too. Then 20 runs of tgaudit side by side audit the parts, and 19 runs with --after compare the sums.

Then each byte of a small archive of three parts is altered, once. The run of its part has to find the alteration, or the head that this run
prints, or the head that the run of the part before printed. Counts how many were found by each, and how many by the sum alone."""
import argparse
import random
import subprocess
import sys
import tempfile
from collections import Counter
from concurrent.futures import ThreadPoolExecutor
from pathlib import Path

sys.dont_write_bytecode = True
sys.path.insert(0, str(Path(__file__).resolve().parents[3] / "tools"))
from plain import history_at_random
from repository.tree import Tree

PROGRAM = Tree().program("tgaudit")
PARTS = 20
SMALL = b"""kovshenul entries 1
opening 2 9
worker c3
worker c0
edge 0 1 rw
0 write 1 7 = ok
0 read 1 = ok 7
0 list = ok 1:rw
0 create r c0 = ok 2
0 read 2 = ok 0
0 read 1 = ok 7
1 read 0 = denied read 1->0 r
0 write 1 8 = ok
0 remove 2 r = ok
entries 9
"""


def audit(text, *words):
    """The status of tgaudit on this text, and its output."""
    ran = subprocess.run([PROGRAM, *words], input=text, capture_output=True, timeout=60, check=False)
    return ran.returncode, ran.stdout


def archive_of(text, many):
    """So many parts of the history, and the head after the last one."""
    lines = text.splitlines(keepends=True)
    head = b"".join(line for line in lines[:-1] if b" = " not in line)
    entries = [line for line in lines if b" = " in line]
    parts = []
    for at in range(many):
        body = entries[len(entries) * at // many : len(entries) * (at + 1) // many]
        parts.append(head + b"".join(body) + b"entries %d\n" % len(body))
        status, head = audit(parts[-1], "--snapshot")
        if status != 0:
            sys.exit(f"archive: FAILED: part {at} of a legal history is refused")
    return [*parts, head]


def try_whole(archive):
    """Audits all parts side by side, and compares each sum with the part before."""
    *parts, _ = archive
    with tempfile.TemporaryDirectory(prefix="archive-") as room, ThreadPoolExecutor(len(parts)) as pool:
        files = [Path(room) / f"part{at}.txt" for at in range(len(parts))]
        for file, part in zip(files, parts):
            file.write_bytes(part)
        heads = list(pool.map(lambda part: audit(part, "--snapshot"), parts))
        afters = list(pool.map(lambda at: audit(parts[at], "--after", files[at - 1])[0], range(1, len(parts))))
        others = list(pool.map(lambda at: audit(parts[at], "--after", files[at])[0], range(1, len(parts))))
    wrong = [at for at, (status, head) in enumerate(heads) if status != 0 or not archive[at + 1].startswith(head)]
    wrong += [at + 1 for at, status in enumerate(afters) if status != 0]
    wrong += [at + 1 for at, status in enumerate(others) if status != 1]
    if wrong:
        sys.exit(f"archive: FAILED: parts {sorted(set(wrong))} of {len(parts)}")


def found(archive, at, altered):
    """How the alteration of a part is found: by its run, by a snapshot, by a sum alone, or not."""
    parts = [*archive[:at], altered, *archive[at + 1 :]]
    seen = []
    for here in {max(at - 1, 0), min(at, len(parts) - 2)}:
        status, head = audit(parts[here], "--snapshot")
        if status != 0:
            return "run"
        if not parts[here + 1].startswith(head):
            snapshot = head[: head.rindex(b"sha256 ")]
            seen.append("sum" if parts[here + 1].startswith(snapshot) else "snapshot")
    return min(seen, default=None)


def try_altered(archive):
    """Alters each byte of the archive, once. How many alterations each means has found."""
    places = [(at, place) for at, part in enumerate(archive) for place in range(len(part))]

    def one(where):
        at, place = where
        part = archive[at]
        byte = part[place : place + 1]
        other = bytes([byte[0] ^ 1]) if byte.isalnum() else b"0"
        return found(archive, at, part[:place] + other + part[place + 1 :])

    with ThreadPoolExecutor(4) as pool:
        results = list(pool.map(one, places))
    missed = [where for where, how in zip(places, results) if how is None]
    if missed:
        sys.exit(f"archive: FAILED: {len(missed)} altered bytes were not found, the first at byte {missed[0][1]} of part {missed[0][0]}")
    return Counter(results)


def try_swapped(archive):
    """Two reads that change places leave everything legal, and are found by the sum alone."""
    at = next((at for at, part in enumerate(archive[:-1]) if part.count(b" read ") > 1), None)
    if at is None:
        return False
    lines = archive[at].splitlines(keepends=True)
    for place in range(len(lines) - 1):
        if all(b" read " in line and b" = ok " in line for line in lines[place : place + 2]) and lines[place] != lines[place + 1]:
            lines[place], lines[place + 1] = lines[place + 1], lines[place]
            if found(archive, at, b"".join(lines)) != "sum":
                sys.exit("archive: FAILED: two reads that change places are not found by the sum alone")
            return True
    return False


def main():
    words = argparse.ArgumentParser(usage=__doc__)
    words.add_argument("seed", nargs="?", type=int, default=1)
    words.add_argument("entries", nargs="?", type=int, default=2000)
    asked = words.parse_args()
    draw = random.Random(asked.seed)
    whole = archive_of(history_at_random(draw, asked.entries).encode(), PARTS)
    try_whole(whole)
    small = archive_of(SMALL, 3)
    ways = try_altered(small)
    if not try_swapped(small):
        sys.exit("archive: FAILED: the small archive has no two reads that change places")
    count = sum(ways.values())
    print(f"archive: {PARTS} parts passed, and each of {count} altered bytes was found: {', '.join(f'{ways[way]} by a {way}' for way in sorted(ways))}")


if __name__ == "__main__":
    main()
