#!/usr/bin/env python3
"""Tries the built tgcould and tgdot on kept files that were damaged: tests/soak/could/kept.py [--folder FOLDER]

FOLDER has both programs, which are else where the gate leaves them. The file is the one of tests/runs/kept.py whose last entry
hands a right on, with its two marks and without them. It is cut at each of its bytes, and each of its bits is flipped. A plain
reader of lines makes the text of a history of the whole lines (tests/soak/entries/damaged.py). With --kept each program has to
write what it writes for this text on standard input. Standard error has to name an end that was cut off. A file that is
refused has no output, and standard error begins with the name of the file and the place."""
import argparse
import subprocess
import sys
import tempfile
from pathlib import Path

sys.dont_write_bytecode = True
TOP = Path(__file__).resolve().parents[3]
sys.path[:0] = [str(TOP / part) for part in ("tools", "tests/runs", "tests/soak/entries")]
from damaged import lines_of
from kept import GRANTED, GRANTED_CLOSED, GRANTING
from repository.tree import Tree

WORDS = {"tgcould": ["--silent", "0", "--ask", "1 r 2", "--never", "1 w 2"], "tgdot": []}


def judged(name: str, file: bytes) -> tuple[bytes, str]:
    """The text of a history that the file says, or none if it is refused, and how standard error goes on after the name."""
    whole, is_damaged = lines_of(file)
    texts, at = [it[:-10] for it in whole], sum(len(it) + 1 for it in whole)
    place = f"{name}: line {len(whole) + 1}, at byte {at}, "
    if not texts or texts[0] != b"kovshenul kept 1":
        return b"", f"{name}: "
    if is_damaged:
        return b"", f"{place}is damaged"
    if len(texts) < len(GRANTING):
        return b"", f"{name}: the opening is cut off after line {len(texts)}"
    entries = sum(text[:1].isdigit() for text in texts)
    lines = [b"kovshenul entries 1", *texts[1:], b"entries %d" % entries]
    torn = len(file[at:].rstrip(b"\0"))
    return b"\n".join(lines) + b"\n", f"{place}was cut off; bytes left out: {torn}\n" if torn else ""


def damaged() -> dict[str, bytes]:
    """The files, by their names."""
    files = {}
    for kind, file in (("closed", GRANTED_CLOSED), ("open", GRANTED)):
        files |= {f"{kind}.cut.{size}": file[:size] for size in range(len(file) + 1)}
        for bit in range(8 * len(file)):
            place, value = bit // 8, file[bit // 8] ^ (1 << bit % 8)
            files[f"{kind}.flipped.{bit}"] = file[:place] + bytes([value]) + file[place + 1 :]
    return files


def differs(program: Path, folder: Path, name: str, text: bytes, told: str) -> str | None:
    """How a program differs from a run on the text, or None."""
    words = WORDS[program.name]
    ran = subprocess.run([program, "--kept", name, *words], cwd=folder, capture_output=True, check=False)
    errors = ran.stderr.decode()
    if not text:
        is_right = ran.returncode == 1 and not ran.stdout and errors.startswith(f"{program.name}: {told}") and errors.count("\n") == 1
    else:
        wanted = subprocess.run([program, *words], input=text, capture_output=True, check=False)
        front = f"{program.name}: {told}" if told else ""
        is_right = (ran.returncode, ran.stdout, errors) == (wanted.returncode, wanted.stdout, front + wanted.stderr.decode())
    return None if is_right else f"{program.name} --kept {name}: status {ran.returncode}, {ran.stdout!r}, {errors!r}"


def main() -> int:
    """Tries all files. Returns the status."""
    words = argparse.ArgumentParser(usage=__doc__)
    words.add_argument("--folder", type=Path)
    folder = words.parse_args().folder
    programs = [folder.resolve() / name if folder else Tree().program(name).resolve() for name in WORDS]
    files, wrong = damaged(), 0
    with tempfile.TemporaryDirectory(prefix="kept-") as room:
        for name, file in files.items():
            (Path(room) / name).write_bytes(file)
            text, told = judged(name, file)
            for program in programs:
                fault = differs(program, Path(room), name, text, told)
                if fault:
                    wrong += 1
                    print(f"kept: {fault}", file=sys.stderr)
            (Path(room) / name).unlink()
    print(f"kept: {len(files)} files, {wrong} runs otherwise than on the text of the plain reader")
    return 1 if wrong else 0


if __name__ == "__main__":
    sys.exit(main())
