"""Runs of a program on a row, beside what it must write. A function here returns None, or the first difference."""
import os
import re
import select
import shutil
import subprocess
import tempfile
import time
from collections.abc import Iterator, Sequence
from contextlib import ExitStack, contextmanager
from dataclasses import dataclass
from pathlib import Path

from repository.rows import Row

# How long a run may take, in seconds, and how long a client waits for what it is answered.
MOST_SECONDS, MOST_WAITING = 120, 10

# The most characters of a line that are shown.
SHOWN = 400

NO_ENTRY = re.compile(rb"refused (heap|memory|stock|threads|worker)")
WHAT_IT_STORES = re.compile(rb"^(\d* (?:create|spawn) [a-z]*) [clms][0-9:,]* = ")

# Limits the memory of what it runs then: the stack of a thread, and all that it maps, in KB.
LIMITED = ("sh", "-c", 'ulimit -S -s 8192; ulimit -S -v "$0"; exec "$@"')


@dataclass(frozen=True)
class Wanted:
    """What a run reads, and what it must write."""

    stdin: bytes
    stdout: bytes
    stderr: bytes
    status: int

    @classmethod
    def of(cls, row: Row) -> "Wanted":
        """What is stored of a row."""
        return cls(row.stored("stdin"), row.stored("stdout"), row.stored("stderr"), row.status)


@dataclass(frozen=True)
class Ran:
    """What a run wrote, and how it ended."""

    stdout: bytes
    stderr: bytes
    status: int


def cut(row: Row, size: int) -> Wanted:
    """What a run on the first bytes of the row's script must write, so many. A line that isn't whole is a bad one."""
    script = row.stored("stdin")[:size]
    *lines, part = script.split(b"\n")
    edges = sum(line.startswith(b"edge ") for line in lines)
    replies = row.stored("stdout").splitlines(keepends=True)[: len(lines) - edges]
    fault = b"tgstore: line %d: bad line\n" % (len(lines) + 1) if part else b""
    return Wanted(script, b"".join(replies), fault, 1 if part else 0)


def run(row: Row, program: Path, given: bytes, words: Sequence[str] = (), history: bytes | None = None) -> Ran:
    """Runs the program on the row, with these words after its own, in a folder that has the files of the row alone. If a
    history is given, it is in the place of the row's."""
    command = [str(program), *row.words, *words]
    if (row.folder / "memory").exists():
        command = [*LIMITED, str(int(row.named("memory", "")) + program.stat().st_size // 1024), *command]
    with tempfile.TemporaryDirectory(prefix="row-") as room, ExitStack() as held:
        empty = Path(room) / "empty"
        if (row.folder / "files").is_dir():
            shutil.copytree(row.folder / "files", empty, symlinks=True)
        else:
            empty.mkdir()
        if history is not None:
            (empty / "history").write_bytes(history)
        (Path(room) / "stdin").write_bytes(given)
        said = {"stdout": Path(room) / "stdout", "stderr": Path(room) / "stderr"}
        source = held.enter_context(opened(empty / row.named("stdin.from", f"{room}/stdin"), os.O_RDONLY))
        sinks = [held.enter_context(sink(row.named(f"{name}.to", ""), path)) for name, path in said.items()]
        try:
            status = subprocess.run(
                command, cwd=empty, stdin=source, stdout=sinks[0], stderr=sinks[1], timeout=MOST_SECONDS, check=False
            ).returncode
        except subprocess.TimeoutExpired:
            return Ran(b"", f"it didn't end in {MOST_SECONDS} seconds".encode(), -1)
        return Ran(*(path.read_bytes() for path in said.values()), status if status >= 0 else 128 - status)


@contextmanager
def opened(path: Path, how: int) -> Iterator[int]:
    """A file or a folder, while it is used."""
    number = os.open(path, how, 0o600)
    try:
        yield number
    finally:
        os.close(number)


@contextmanager
def sink(to: str, otherwise: Path) -> Iterator[int]:
    """What the program writes to: what the row names, a pipe that nobody reads, or the other file."""
    otherwise.touch()
    if to == "|":
        ours, theirs = os.pipe()
        os.close(ours)
        try:
            yield theirs
        finally:
            os.close(theirs)
        return
    with opened(Path(to) if to else otherwise, os.O_WRONLY | os.O_CREAT) as number:
        yield number


def check(row: Row, program: Path, wanted: Wanted, words: Sequence[str] = ()) -> str | None:
    """Runs the program on the row, and compares."""
    ran = run(row, program, wanted.stdin, words)
    return first_difference(
        [row.name, *words],
        program,
        ("status", number(wanted.status), number(ran.status)),
        ("stdout", wanted.stdout, ran.stdout),
        ("stderr", wanted.stderr, ran.stderr),
    )


def check_entries(row: Row, program: Path, auditor: Path) -> str | None:
    """Runs the program on the row with --entries. Compares the text with the entries of the row, which a race has in
    any order. Then hands it to tgaudit, and compares the answer."""
    wanted = Wanted.of(row)
    ran = run(row, program, wanted.stdin, ["--entries"])
    order = sorted if row.name.startswith("races/") else list
    entries, written = order(entries_of(wanted)), order(entries_in(ran.stdout))
    if row.status == 0:
        answer = b"audit ok, %d entries\n" % len(entries)
    else:
        answer = b"tgaudit: line %d: the end is cut off\n" % (ran.stdout.count(b"\n") + 1)
    audit = subprocess.run([auditor], input=ran.stdout, stdout=subprocess.PIPE, stderr=subprocess.STDOUT, check=False)
    return first_difference(
        [row.name, "--entries"],
        program,
        ("status", number(wanted.status), number(ran.status)),
        ("stderr", wanted.stderr, ran.stderr),
        ("entries", b"\n".join(entries), b"\n".join(written)),
        ("audit", answer, audit.stdout.splitlines(keepends=True)[0]),
    )


def check_resumed(row: Row, program: Path, auditor: Path) -> str | None:
    """Runs the program on the row with --entries. The history with what it writes after it has to be a history that
    tgaudit accepts, and from which another run goes on. A race has its entries in any order."""
    wanted = Wanted.of(row)
    ran = run(row, program, wanted.stdin, ["--entries"])
    status = ("status", number(wanted.status), number(ran.status))
    if row.status not in (0, 3):
        return first_difference([row.name, "--entries"], program, status, ("stderr", wanted.stderr, ran.stderr))
    order = sorted if "--race" in row.words else list
    text = (row.folder / "files/history").read_bytes() + ran.stdout
    last = text.splitlines(keepends=True)[-1]
    audit = subprocess.run([auditor], input=text, stdout=subprocess.PIPE, stderr=subprocess.STDOUT, check=False)
    again = run(row, program, b"", ["--entries"], text)
    return first_difference(
        [row.name, "--entries"],
        program,
        status,
        ("stderr", wanted.stderr, ran.stderr),
        ("entries", b"\n".join(order(entries_of(wanted))), b"\n".join(order(entries_in(ran.stdout)))),
        ("audit", b"audit ok, %d entries\n" % int(last.split()[1]), audit.stdout.splitlines(keepends=True)[0]),
        ("end of a run without lines", last, again.stdout),
    )


def entries_of(wanted: Wanted) -> Iterator[bytes]:
    """The entries that a script and its replies come to: each line whose reply is one of a command, with that reply.
    What new vertices store is left out."""
    lines = (line for line in wanted.stdin.splitlines() if not line.startswith(b"edge "))
    for line, reply in zip(lines, wanted.stdout.splitlines()):
        if line not in (b"full", b"minor") and not NO_ENTRY.fullmatch(reply):
            yield line + b" = " + reply


def entries_in(text: bytes) -> Iterator[bytes]:
    """The entries of the text of a history, without what new vertices store."""
    return (WHAT_IT_STORES.sub(rb"\1 = ", line) for line in text.splitlines() if b" = " in line)


def number(status: int) -> bytes:
    """A status as a text."""
    return str(status).encode()


def first_difference(name: Sequence[str], program: Path, *parts: tuple[str, bytes, bytes]) -> str | None:
    """The first of these parts whose stored text isn't what was written, with the first lines that differ, or None."""
    for what, stored, written in parts:
        if stored != written:
            lines, others = stored.split(b"\n"), written.split(b"\n")
            pairs = enumerate(zip(lines, others))
            at = next((at for at, (ours, theirs) in pairs if ours != theirs), min(len(lines), len(others)))
            by = f"{' '.join(name)} by {program.parent.name}/{program.name}"
            told = [f"\n{sign} {shown(of, at)}" for sign, of in (("<", lines), (">", others))]
            return f"{by} FAILED: {what}, line {at + 1}: < as stored, > as it ran:{''.join(told)}"
    return None


def shown(lines: Sequence[bytes], at: int) -> str:
    """A line, or what represents one that isn't there."""
    return lines[at][:SHOWN].decode(errors="backslashreplace") if at < len(lines) else "(no line)"


def check_talk(row: Row, program: Path) -> str | None:
    """Leads the talk that is stored in an empty folder, and compares what came, in the form of the stored file, and after
    it what came later."""
    with tempfile.TemporaryFile() as errors, tempfile.TemporaryDirectory() as folder:
        process = subprocess.Popen(
            [program.resolve(), *row.words],
            stdin=subprocess.PIPE,
            stdout=subprocess.PIPE,
            stderr=errors,
            bufsize=0,
            cwd=folder,
        )
        came = []
        for line in row.stored("talk").splitlines():
            text = line[2:].replace(b"\\n", b"\n")
            if line.startswith(b"> "):
                send(process, text)
            else:
                text = answer(process, len(text))
            came.append(line[:2] + text.replace(b"\n", b"\\n") + b"\n")
        process.stdin.close()
        came.append(process.stdout.read())
        status = process.wait(MOST_SECONDS)
        process.stdout.close()
        errors.seek(0)
        said = errors.read()
    return first_difference(
        [row.name],
        program,
        ("talk", row.stored("talk"), b"".join(came)),
        ("stderr", row.stored("stderr"), said),
        ("status", number(row.status), number(status)),
    )


def send(process: subprocess.Popen, text: bytes) -> None:
    """Sends a text. A program that has ended is found by what doesn't come."""
    try:
        process.stdin.write(text)
    except BrokenPipeError:
        pass


def answer(process: subprocess.Popen, size: int) -> bytes:
    """The next bytes that the program writes, so many, or what came of them in time."""
    text, until = b"", time.monotonic() + MOST_WAITING
    while len(text) < size and select.select([process.stdout], [], [], max(0, until - time.monotonic()))[0]:
        part = process.stdout.read(size - len(text))
        if not part:
            break
        text += part
    return text
