"""The tree: its crates, as crates.txt lists them, the texts of their files, and the programs that were built."""
import os
import shutil
from dataclasses import dataclass
from pathlib import Path

# The folder that holds crates.txt.
TOP = Path(__file__).resolve().parent.parent.parent


class BadInput(Exception):
    """An input has the wrong form, or doesn't fit the tree. The message says what is wrong, and where."""


@dataclass(frozen=True)
class Crate:
    """A crate of the tree: the options before the colon of its line, and the libraries that it uses, the toolchain's
    among them."""

    name: str
    options: tuple[str, ...]
    uses: tuple[str, ...]

    @property
    def is_static(self) -> bool:
        """Whether it is built as a static library for C."""
        return "staticlib" in self.options

    @property
    def line(self) -> str:
        """Its line of crates.txt."""
        return f"{' '.join((self.name, *self.options))}: {' '.join(self.uses)}"


class Tree:
    """A tree in a folder, which is read and never changed."""

    def __init__(self, top: str | Path = TOP):
        self.top = Path(top)
        self.crates = read_crates(self.top / "crates.txt")

    def crate(self, name: str) -> Crate:
        """The crate with this name. BadInput if there is none."""
        if name not in self.crates:
            raise BadInput(f"no crate {name} in {self.top / 'crates.txt'}")
        return self.crates[name]

    def folder(self, crate: str) -> Path:
        """The folder of the crate."""
        return self.top / "crates" / crate

    def source(self, crate: str) -> Path:
        """The folder with the crate's own source files."""
        return self.folder(crate) / "src"

    def proof(self, crate: str, path: str) -> Path:
        """The folder with the proof of the function with this path. It may be missing."""
        return proof_of(self.folder(crate), path)

    def program(self, name: str) -> Path:
        """Where the gate leaves the program of this crate. It may be missing."""
        return self.folder(name) / "out" / name

    def is_program(self, crate: str) -> bool:
        """Whether the crate is a program, and not a library."""
        return (self.source(crate) / "main.rt").is_file()

    def below(self, *crates: str) -> list[str]:
        """The tree's libraries on which these crates depend, without the crates themselves. Each comes after the
        crates that it uses."""
        found: dict[str, None] = {}
        for crate in crates:
            for name in self.crate(crate).uses:
                if name in self.crates:
                    found.update(dict.fromkeys((*self.below(name), name)))
        return list(found)

    def with_those_below(self, *crates: str) -> list[str]:
        """The crates, and the tree's libraries on which they depend. Each comes after the crates that it uses."""
        return list(dict.fromkeys(name for crate in crates for name in (*self.below(crate), crate)))

    def text(self, crate: str, file: str) -> str | None:
        """The text of a crate's file, or None if there is no such file."""
        path = self.folder(crate) / file
        return read_text(path) if path.is_file() else None

    def copy_crate(self, crate: str, room: Path) -> Path:
        """Copies a crate into the folder without what was built of it. Returns the folder of the copy."""
        return Path(shutil.copytree(self.folder(crate), room / crate, ignore=shutil.ignore_patterns("out")))


def parse_crates(text: str) -> dict[str, Crate]:
    """The crates of a text, by name: `NAME [OPTION].. : LIBRARY LIBRARY` a line. `#` begins a comment."""
    crates = {}
    for line in text.splitlines():
        head, _, uses = line.partition("#")[0].partition(":")
        if head.split():
            name, *options = head.split()
            crates[name] = Crate(name, tuple(options), tuple(uses.split()))
    return crates


def read_crates(path: Path) -> dict[str, Crate]:
    """The crates of a crates.txt, by name."""
    return parse_crates(read_text(path))


def proof_of(folder: Path, path: str) -> Path:
    """The folder with the proof of the function with this path, in the crate in the folder."""
    return folder / "proofs" / path.replace("::", "/")


def files_below(folder: Path, suffix: str) -> list[str]:
    """The paths of the files with this suffix below a folder, in the order of their names, folder by folder."""
    found = []
    for at, _, names in sorted(os.walk(folder)):
        found += [os.path.relpath(f"{at}/{name}", folder) for name in sorted(names) if name.endswith(suffix)]
    return found


def read_text(path: Path) -> str:
    """The text of a file."""
    return path.read_text(encoding="utf-8")


def write_text(path: Path, text: str) -> None:
    """Puts the text into a file, in the place of its old text."""
    path.write_text(text, encoding="utf-8")
