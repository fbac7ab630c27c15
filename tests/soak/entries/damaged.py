#!/usr/bin/env python3
"""Tries the built tgaudit on kept files that were damaged: tests/soak/entries/damaged.py [--program PROGRAM]

The files are the files of tests/runs/kept.py. One is of a run that was closed, and one of a run that wasn't. Each is cut at each of
its bytes, and each of its bits is flipped. In the file of the run that wasn't closed each byte of the last batch is also a zero, alone
and with all after it. A plain reader of lines says what tgaudit has to print of each file. It prints how many entries and batches
there are, the last line, how the run ended, and the line and the byte of a damage. With --front it has to write the whole lines of
every hundredth file."""
import argparse
import subprocess
import sys
import tempfile
import zlib
from pathlib import Path

sys.dont_write_bytecode = True
TOP = Path(__file__).resolve().parents[3]
sys.path[:0] = [str(TOP / "tools"), str(TOP / "tests/runs")]
from kept import CLOSED, OPEN, OPENING, line
from repository.tree import Tree

# How many lines the opening has without its edges, and the first line before it.
LEAST = len(OPENING)


def is_whole(before: bytes, it: bytes) -> bool:
    """Whether a line without its line feed is whole after these digits."""
    text, mark, digits = it[:-10], it[-10:-8], it[-8:]
    return 0 not in it and mark in (b" @", b" #") and digits == b"%08x" % zlib.crc32(before + text)


def lines_of(file: bytes) -> tuple[list[bytes], bool]:
    """The whole lines of a file, and whether a batch was begun after a line that isn't whole."""
    whole, before = [], b"00000000"
    raw = file.split(b"\n")[:-1]
    while raw and is_whole(before, raw[0]):
        whole.append(raw.pop(0))
        before = whole[-1][-8:]
    later = [is_whole(first[-8:], second) and second[-9:-8] == b"@" for first, second in zip(raw, raw[1:])]
    return whole, any(later)


def judged(name: str, file: bytes) -> tuple[list[str], str]:
    """The standard output that tgaudit has to print of a file, and how the first line on standard error begins."""
    whole, is_damaged = lines_of(file)
    texts, at = [it[:-10] for it in whole], sum(len(it) + 1 for it in whole)
    place = f"line {len(whole) + 1}, at byte {at}, "
    if not texts or texts[0] != b"kovshenul kept 1":
        return [], f"tgaudit: {name}: "
    if is_damaged:
        return [], f"tgaudit: {name}: {place}is damaged"
    if len(texts) < LEAST:
        return [], f"tgaudit: {name}: the opening is cut off after line {len(texts)}"
    entries = sum(text[:1].isdigit() for text in texts)
    batches = sum(it[-9:-8] == b"@" for it in whole)
    is_closed = at == len(file) and texts[-1].startswith(b"entries ")
    ended = "the last run was closed" if is_closed else "the last run wasn't closed: it was cut off, or it still goes on"
    said = [f"audit ok, {entries} entries", f"{batches} batches", f"last line: {whole[-1].decode()}", ended]
    torn = len(file[at:].rstrip(b"\0"))
    return [f"{name}: {it}" for it in said], f"tgaudit: {name}: {place}was cut off; bytes left out: {torn}" if torn else ""


def damaged() -> dict[str, bytes]:
    """The files, by their names."""
    files = {"closed": CLOSED, "open": OPEN}
    for kind, file in (("closed", CLOSED), ("open", OPEN)):
        files |= {f"{kind}.cut.{size}": file[:size] for size in range(len(file))}
        for bit in range(8 * len(file)):
            place, value = bit // 8, file[bit // 8] ^ (1 << bit % 8)
            files[f"{kind}.flipped.{bit}"] = file[:place] + bytes([value]) + file[place + 1 :]
    for place in range(line(7), len(OPEN)):
        files[f"zero.{place}"] = OPEN[:place] + bytes(1) + OPEN[place + 1 :] + bytes(64)
        files[f"zeros.{place}"] = OPEN[:place] + bytes(len(OPEN) - place + 64)
    return files


def differs(program: Path, folder: Path, name: str, file: bytes, with_front: bool) -> str | None:
    """How tgaudit differs from the plain reader on a file, or None."""
    said, told = judged(name, file)
    ran = subprocess.run([program, name], cwd=folder, capture_output=True, check=False)
    first = ran.stderr.decode().split("\n")[0]
    if ran.stdout.decode().splitlines() != said or ran.returncode != (0 if said else 1):
        return f"{name}: status {ran.returncode}, {ran.stdout.decode()!r}, {first!r} in the place of {said}"
    if not first.startswith(told) or bool(first) != bool(told):
        return f"{name}: {first!r} in the place of {told!r}"
    whole, _ = lines_of(file)
    if with_front and whole and whole[0].startswith(b"kovshenul kept 1 "):
        front = subprocess.run([program, "--front", name], cwd=folder, capture_output=True, check=False).stdout
        if front != b"".join(it + b"\n" for it in whole):
            return f"{name}: --front writes {front!r}"
    return None


def main() -> int:
    """Tries all files. Returns the status."""
    words = argparse.ArgumentParser(usage=__doc__)
    words.add_argument("--program", type=Path, default=Tree().program("tgaudit"))
    program = words.parse_args().program.resolve()
    files, wrong = damaged(), 0
    with tempfile.TemporaryDirectory(prefix="damaged-") as room:
        for number, (name, file) in enumerate(files.items()):
            (Path(room) / name).write_bytes(file)
            fault = differs(program, Path(room), name, file, number % 100 == 0)
            (Path(room) / name).unlink()
            if fault:
                wrong += 1
                print(f"damaged: {fault}", file=sys.stderr)
    print(f"damaged: {len(files)} files, {wrong} judged otherwise than by the plain reader")
    return 1 if wrong else 0


if __name__ == "__main__":
    sys.exit(main())
