"""A mutant as it is in its file. The manual of `tests/mutants/run` gives the form."""
import re
from collections.abc import Callable
from dataclasses import dataclass
from pathlib import Path
from typing import NamedTuple

from repository.tree import BadInput, Tree, read_text

# The mutants by which the driver is tried. The name of a file begins with a crate's and two underscores.
CONTROLS = Path(__file__).resolve().parent.parent / "controls"
# The keys after which lines of source come.
SOURCE = ("old", "new")


@dataclass(frozen=True)
class Edit:
    """A text that is once in the file, and the text that takes its place. The line is that of the old text."""

    file: str
    old: str
    new: str
    line: int


class Public(NamedTuple):
    """The public function and its clauses, as `clause` or `clause.field`, that are proved from the refusing clause."""

    function: str
    crate: str
    clauses: tuple[str, ...]


@dataclass(frozen=True)
class Mutant:
    """A mutant: what it changes, and what has to refuse it. That is clauses of a function, or else a run."""

    name: str
    crate: str
    path: Path
    what: str
    edits: tuple[Edit, ...]
    kind: str = ""
    # the function that is checked, and its clauses that have to refuse the mutant
    function: str = ""
    clauses: tuple[str, ...] = ()
    public: Public | None = None
    # the goals of the answers that don't fit the mutant, where the search finds no proof of the right function
    breaks: tuple[str, ...] = ()
    # the words after `found:`, as ('held', NAME)
    found: tuple[str, ...] = ()
    # the outcome of a control
    wanted: str = ""

    def planted(self, read: Callable[[str], str | None]) -> dict[str, str]:
        """The texts of its files with the mutant, by path below the crate. `read` gives a file's text as it is."""
        made: dict[str, str] = {}
        for edit in self.edits:
            text, where = made.get(edit.file) or read(edit.file), f"{self.path}:{edit.line}"
            if text is None:
                raise BadInput(f"{where}: {self.crate} has no file {edit.file}: name one after 'file:'")
            if text.count(edit.old) != 1:
                told = f"this text stands {text.count(edit.old)} times in {edit.file}, and has to stand once"
                raise BadInput(f"{where}: {told}: {edit.old[:80]}")
            made[edit.file] = text.replace(edit.old, edit.new)
        return made


class Entry(NamedTuple):
    """A key of a file with the number of its line, and the parts of its text. They are lines of source, or parts of one
    line."""

    number: int
    key: str
    parts: list[str]

    @property
    def text(self) -> str:
        """All of its text."""
        return ("\n" if self.key in SOURCE else " ").join(self.parts)


def entries_of(path: Path) -> list[Entry]:
    """The keys of a file in their order. A text goes on in lines with a bar, or with two spaces, in front."""
    found: list[Entry] = []
    for number, line in enumerate(read_text(path).split("\n"), 1):
        if found and line.startswith("|" if found[-1].key in SOURCE else "  "):
            found[-1].parts.append(line[1:].removeprefix(" "))
        elif key := re.match(r"(\w+):(?: |$)", line):
            found.append(Entry(number, key[1], [line[key.end() :]] if line[key.end() :] else []))
        elif line.strip():
            raise BadInput(f"{path}:{number}: not of the form that 'tests/mutants/run --help' has: {line[:80]}")
    return found


def read_mutant(path: Path, crate: str) -> Mutant:
    """The mutant in the file, or BadInput with the line that isn't of the form."""
    fields: dict[str, object] = {}
    edits: list[Edit] = []
    file, old = "", None
    for entry in entries_of(path):
        key, where = entry.key, f"{path}:{entry.number}: '{entry.key}:'"
        if key == "file" and old is None:
            file = entry.text
        elif key == "old" and file and old is None:
            old = entry
        elif key == "new" and old is not None:
            edits.append(Edit(file, old.text, entry.text, old.number))
            old = None
        elif key not in FORMS or FORMS[key].field in fields:
            raise BadInput(f"{where} isn't expected here: 'tests/mutants/run --help' has the form")
        elif (parts := re.fullmatch(FORMS[key].form, entry.text)) is None:
            raise BadInput(f"{where} is followed by {FORMS[key].told}, and not by: {entry.text[:80]}")
        else:
            fields[FORMS[key].field] = FORMS[key].read(parts)
    needed = ("what", "found") if "found" in fields else ("what", "function", "clauses")
    if "wanted" not in fields and not fields.keys() >= set(needed) or not edits or old is not None:
        raise BadInput(f"{path}: it lacks one of what:, check: and refused:, or found:, file:, old:, new:")
    return Mutant(path.stem, crate, path, edits=tuple(edits), **fields)


def names_in(text: str) -> tuple[str, ...]:
    """The names of a list."""
    return tuple(name.strip() for name in text.split(",") if name.strip())


class Form(NamedTuple):
    """The rule for the text after a key. It has the field of a mutant, the form of the text, a message about the form,
    and the function that reads it."""

    field: str
    form: str
    told: str
    read: Callable[[re.Match[str]], object] = lambda parts: parts[0]


PUBLIC = "'FUNCTION of CRATE: CLAUSE, CLAUSE.FIELD'"
FOUND = "'test CRATE NAME', 'held NAME', 'row PROGRAM GROUP/NAME', 'counted SCRIPT NAME' or 'allocation'"
FOUND_BY = r"test \w+ \w+|held \S+|row \w+ \S+|counted (?:growth|takes|cells)(?: \w+)?|allocation"
FORMS = {
    "what": Form("what", r".+", "a text"),
    "kind": Form("kind", r".+", "a text"),
    "check": Form("function", r"[\w:]+", "'FUNCTION'"),
    "refused": Form("clauses", r"[\w:]+: (\S.*)", "'FUNCTION: CLAUSE, CLAUSE'", lambda parts: names_in(parts[1])),
    "public": Form("public", r"(\S+) of (\w+): (.+)", PUBLIC, lambda of: Public(of[1], of[2], names_in(of[3]))),
    "breaks": Form("breaks", r"[^:;]+", "'GOAL, GOAL'", lambda parts: names_in(parts[0])),
    "found": Form("found", FOUND_BY, FOUND, lambda parts: tuple(parts[0].split())),
    "wanted": Form("wanted", r".+", "an outcome"),
}


def mutants_of(tree: Tree) -> dict[str, Mutant]:
    """Every mutant of the tree, by name."""
    found: dict[str, Mutant] = {}
    for path in sorted((tree.top / "crates").glob("*/mutants/*.edit")):
        crate = path.parent.parent.name
        if crate not in tree.crates:
            raise BadInput(f"{path.parent}: crates.txt has no crate {crate}")
        if path.stem in found:
            raise BadInput(f"{path}: {found[path.stem].path} has the same name: give it another one")
        found[path.stem] = read_mutant(path, crate)
    return found


def controls() -> list[Mutant]:
    """The mutants by which the driver is tried."""
    return [read_mutant(path, path.name.partition("__")[0]) for path in sorted(CONTROLS.glob("*.edit"))]
