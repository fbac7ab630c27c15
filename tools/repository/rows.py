"""The stored rows in tests/runs. A row has the input of a program, and the output that it must write. The head of
tests/runs/run says what the files of a row mean."""
import os
import shlex
from dataclasses import dataclass
from pathlib import Path

from .tree import TOP, BadInput

RUNS = TOP / "tests/runs"


@dataclass(frozen=True)
class Row:
    """A row. It is a folder below the folder of its group, and some of its files may be missing."""

    folder: Path

    @property
    def name(self) -> str:
        """The group and the name."""
        return f"{self.folder.parent.name}/{self.folder.name}"

    def stored(self, file: str) -> bytes:
        """The bytes of a file, or of the pieces that represent it. A file that is missing has none."""
        path = self.folder / file
        if path.is_file():
            return path.read_bytes()
        pieces = self.folder / f"{file}.pieces"
        return from_pieces(pieces.read_bytes(), str(pieces)) if pieces.is_file() else b""

    def named(self, file: str, otherwise: str) -> str:
        """The text of a file without blanks around it, or the other text if the file is missing. Bytes that aren't
        UTF-8 are kept as the system's words keep them."""
        path = self.folder / file
        return os.fsdecode(path.read_bytes()).strip() if path.is_file() else otherwise

    @property
    def words(self) -> list[str]:
        """The words of the command line."""
        return shlex.split(self.named("args", ""))

    @property
    def each(self) -> list[str]:
        """The words of which the row is run with one after the other, or none."""
        return self.stored("each").decode().split()

    @property
    def status(self) -> int:
        """The status with which the program must end."""
        return int(self.named("status", "0"))


def rows_in(group: str) -> list[Row]:
    """The rows of a group, in the order of their names."""
    return [Row(folder) for folder in sorted((RUNS / group).iterdir()) if folder.is_dir()]


def from_pieces(pieces: bytes, place: str) -> bytes:
    """The text that pieces come to. A line is a piece, after two numbers. It is repeated for each number from the first
    to the last. A `#` in it is that number, and `\\n` is a line feed. BadInput if a line is of another form."""
    text = []
    for number, line in enumerate(pieces.splitlines(), 1):
        parts = line.split(b" ", 2)
        if len(parts) < 3 or not parts[0].isdigit() or not parts[1].isdigit():
            raise BadInput(f"{place}:{number}: a line is 'FIRST LAST PIECE', with two numbers")
        piece = parts[2].replace(b"\\n", b"\n")
        text += [piece.replace(b"#", str(it).encode()) for it in range(int(parts[0]), int(parts[1]) + 1)]
    return b"".join(text)
