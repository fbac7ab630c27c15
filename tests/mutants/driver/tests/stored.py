"""The data of the tests. They are outputs of the checker as it wrote them, a crate of one file, and a check with a
prescribed output."""
import tempfile
import unittest
from dataclasses import replace
from pathlib import Path
from unittest.mock import patch

from repository.tree import Tree, read_text, write_text

from .. import due
from ..check import Report, report_of
from ..mutant import CONTROLS, Edit, Mutant

LIB = """/// Twice a number.
pub fn twice(number: u64) -> u64
    requires fits { number < 1 << 63 }
    ensures sum { result ≡ number + number }
    ensures even { result % 2 ≡ 0 }
{
    number + number
}

/// The number itself.
fn same(number: u64) -> u64
    ensures { result ≡ number }
{
    number
}
"""
ANSWERS = """use Rattle.small.proofs.twice.Goals as goal
use Rattle.small.proofs.twice.Goals.{one-path, other-path}

pub returns-clause-sum : goal.returns-clause-sum
returns-clause-sum c = one-path

pub returns-clause-even : goal.returns-clause-even
returns-clause-even c = other-path
"""
LEMMAS = "double : (n : ℕ) → n + n ≡ 2 * n\ndouble n = by arith\n"


def said(name: str) -> Report:
    """The report in the stored output of a check. Each of its lines came a processor second after the line
    before."""
    lines = read_text(CONTROLS / f"said/{name}.txt").splitlines(keepends=True)
    return report_of((line, float(seconds)) for seconds, line in enumerate(lines, 1))


def mutant_with(new: str = "number * 3", old: str = "number + number", **fields: object) -> Mutant:
    """A mutant of `twice` of the crate of one file, which its clause `even` has to refuse, with these fields."""
    edits = (Edit("src/lib.rt", f"    {old}\n}}", f"    {new}\n}}", 1),)
    mutant = Mutant("name", "small", Path("name.edit"), "a user suffers", edits, function="twice", clauses=("even",))
    return replace(mutant, **fields)


class InARoom(unittest.TestCase):
    """Tests that write into a folder of their own."""

    def setUp(self) -> None:
        room = tempfile.TemporaryDirectory(prefix="mutants-")
        self.addCleanup(room.cleanup)
        self.top = Path(room.name)

    def put(self, texts: dict[str, str]) -> None:
        """Writes these texts, by their paths below the folder."""
        for file, text in texts.items():
            path = self.top / file
            path.parent.mkdir(parents=True, exist_ok=True)
            write_text(path, text)


class OfASmallCrate(InARoom):
    """Tests with a tree of one crate, and a check that says for each function what is to be said."""

    def setUp(self) -> None:
        super().setUp()
        patched = patch.object(due, "version_once", lambda: "the toolchain")
        self.addCleanup(patched.stop)
        patched.start()
        files = {"src/lib.rt": LIB, "proofs/twice/Answers.antt": ANSWERS, "proofs/Lemmas.antt": LEMMAS}
        self.put({f"crates/small/{file}": text for file, text in files.items()})
        self.put({"crates.txt": "small: # no library\n"})
        self.tree = Tree(self.top)
        # the output of each check in turn, when its first lines came, and the functions and files that were checked
        self.says: list[str] = []
        self.seconds: list[float] = []
        self.asked: list[tuple[list[str], dict[str, str]]] = []

    def check(self, _crate: str, folder: Path, functions: list[str]) -> Report:
        """What is to be said of these functions: `{0}` represents the first, and `{1}` the second."""
        files = [path for path in folder.rglob("*") if path.is_file()]
        self.asked.append((functions, {str(path.relative_to(folder)): read_text(path) for path in files}))
        output = self.says.pop(0).format(*functions)
        lines = output.splitlines(keepends=True)
        times = [*self.seconds, *[self.seconds[-1] if self.seconds else 0.0] * len(lines)]
        return report_of(zip(lines, times))
