"""The parts on which a proof rests. They are the checker's last line for each crate, the axioms with their texts, unsafe code, proofs by
hand, and sums."""
import hashlib
import re
import subprocess
from collections.abc import Callable, Iterable, Iterator
from pathlib import Path

from .kit import LAST, Last, home, last_of
from .tree import TOP, Tree

HEADING = re.compile(r"^== (\w+)\n", re.M)

# A report of axioms names some functions, or counts them and lists each on a line of its own (`--list-axioms`).
REPORT = re.compile(r"^axioms \w+: (.*)$", re.M)
LISTED = re.compile(r"^ +([\w:]+)(?: .*)? reached$", re.M)
NAMED = re.compile(r"\b\w+(?:::\w+)+")

# Unsafe code of a source file: the line, with the comment before it.
UNSAFE = re.compile(r"(?:^ *//.*\n)*^.*\bunsafe (?:impl|fn|\{).*\n", re.M)

# The function that finds the text of an axiom, or None if the toolchain has none.
TextOf = Callable[[str], str | None]


def parts_of(log: str) -> dict[str, str]:
    """The part of a log for each crate, by the crate's name. Its part begins with a line `== NAME`, as in the log of `rt ci`."""
    _, *pieces = HEADING.split(log)
    return dict(zip(pieces[::2], pieces[1::2]))


def last_line(said: str) -> str:
    """The last line of a check as it was written, or the empty text if there is none."""
    lines = LAST.findall(said)
    return lines[-1] if lines else ""


def axioms_in(said: str) -> list[str]:
    """The functions that a report of axioms names, each by its path, in order."""
    named = [path for report in REPORT.findall(said) for path in NAMED.findall(report)]
    return sorted({*named, *LISTED.findall(said)})


def text_of_axiom(path: str) -> str | None:
    """The text of a function that a crate of the toolchain declares and C defines, with its comment and its contract."""
    crate, name = path.split("::")[0], path.split("::")[-1]
    declared = re.compile(rf"^((?: *//.*\n)*) *pub (?:safe |unsafe )?fn {re.escape(name)}\b(?:.*[^;\n]\n)*.*;\n", re.M)
    for file in sorted((home() / "rattle" / crate / "src").rglob("*.rt")):
        foreign = file.read_text(encoding="utf-8").partition('extern "C" {')[2]
        if found := declared.search(foreign):
            return found[0]
    return None


def faults_of(parts: dict[str, str], crates: Iterable[str], logic: str, text_of: TextOf) -> Iterator[str]:
    """The faults of the parts of a log, for these crates and the logic with this sum."""
    for crate in crates:
        last = last_of(parts.get(crate, ""))
        if last is None:
            yield f"{crate} has no last line of the checker in the log"
        elif not last.is_proved:
            yield f"{crate} isn't proved in the log: {last_line(parts[crate])}"
        else:
            yield from faults_of_proof(crate, parts[crate], last, logic, text_of)


def faults_of_proof(crate: str, said: str, last: Last, logic: str, text_of: TextOf) -> Iterator[str]:
    """The faults of a proof, which are another logic, or axioms that aren't all there with their texts."""
    if last.fields.get("sum") != logic:
        yield f"{crate} was proved by the logic {last.fields.get('sum')}, and not by {logic}"
    reached = axioms_in(said)
    for path in reached:
        if text_of(path) is None:
            yield f"{crate} rests on {path}, of which the toolchain has no text"
    if len(reached) != last.number("axioms"):
        yield f"{crate} rests on {last.number('axioms')} axioms, and the log lists {len(reached)}: 'rt check --list-axioms' lists all"


def planted_logs(crates: list[str], logic: str) -> Iterator[dict[str, str]]:
    """Five wrong logs, and before them the right log. They have a missing crate, a crate that isn't proved, another logic, an axiom
    without a text, and an axiom that isn't counted."""
    proved = f"logic=proved functions=1 sum={logic}\n"
    right = {crate: proved for crate in crates}
    first, *_ = crates
    report = "axioms libc: 1 reached of the 2 declared\n  libc::known reached\n"
    right[first] = f"{report}logic=proved functions=1 axioms=1 sum={logic}\n"
    yield right
    yield {crate: said for crate, said in right.items() if crate != first}
    yield {**right, first: "only=1 holes=2\n"}
    yield {**right, first: proved.replace(logic, "0" * len(logic))}
    yield {**right, first: right[first].replace("libc::known", "libc::unheard_of")}
    yield {**right, first: right[first].replace("axioms=1", "axioms=2")}


def planted_faults() -> Iterator[str]:
    """Says which of the wrong logs isn't found, or that the right one isn't accepted."""
    crates = [*Tree().crates]
    text_of = {"libc::known": "known"}.get
    right, *wrong = ([*faults_of(parts, crates, "0123456789abcdef", text_of)] for parts in planted_logs(crates, "0123456789abcdef"))
    if right:
        yield f"a right log is refused: {right[0]}"
    for number, found in enumerate(wrong, 1):
        if len(found) != 1:
            yield f"the wrong log {number} has {len(found)} faults"


# ---- unsafe code and proofs by hand


def unsafe_code(tree: Tree) -> Iterator[tuple[str, str]]:
    """The file and the text of each unsafe impl, function and block of the crates. Attributes of exports are no such code."""
    for crate in tree.crates:
        for file in sorted(tree.source(crate).rglob("*.rt")):
            for found in UNSAFE.finditer(file.read_text(encoding="utf-8")):
                yield file.relative_to(tree.top).as_posix(), found[0]


def proofs_by_hand(tree: Tree) -> Iterator[tuple[str, int, int, str]]:
    """Of each crate with proofs by hand: its name, how many files and lines these are, and their sum."""
    for crate in sorted(tree.crates):
        files = sorted((tree.folder(crate) / "proofs").rglob("*.antt"))
        if files:
            yield crate, len(files), sum(file.read_bytes().count(b"\n") for file in files), sum_of(files, tree.top)


# ---- sums


def sum_of_file(file: Path) -> str:
    """The SHA-256 of a file."""
    with file.open("rb") as opened:
        return hashlib.file_digest(opened, "sha256").hexdigest()


def sum_of(files: Iterable[Path], top: Path) -> str:
    """One sum of several files: the SHA-256 of what `sha256sum` prints of them, each named from the folder."""
    lines = "".join(f"{sum_of_file(file)}  {file.relative_to(top).as_posix()}\n" for file in files)
    return hashlib.sha256(lines.encode()).hexdigest()


def sums_of_toolchain(tree: Tree) -> Iterator[tuple[str, int, str]]:
    """For each part of the toolchain that the crates use, its name, how many files it has, and their sum."""
    used = ["std", *(name for crate in tree.crates.values() for name in crate.uses if name not in tree.crates)]
    for name in used:
        listed = (home() / f"rlibs/{name}.rlib/format").read_text(encoding="utf-8")
        used += [below for below in re.findall(r"^dep (\w+)$", listed, re.M) if below not in used]
    parts = ["KIT-ID", "bin", "c", "logic_built", "rattle", "toolchain", *(f"rlibs/{name}.rlib" for name in sorted(set(used)))]
    for part in parts:
        at = home() / part
        files = [at] if at.is_file() else sorted(file for file in at.rglob("*") if file.is_file())
        yield part, len(files), sum_of(files, home())


def sources() -> Iterator[str]:
    """A line as `sha256sum` prints it for each file that git has of the tree."""
    listed = subprocess.run(["git", "ls-files", "-z"], cwd=TOP, capture_output=True, text=True, check=True).stdout
    for path in (TOP / name for name in listed.split("\0") if name):
        if path.is_file():
            yield f"{sum_of_file(path)}  {path.relative_to(TOP).as_posix()}"
