"""Which mutants are due: those whose verdict rests on files that have changed since it was as expected.

The files on which a verdict rests have one sum. The sums of the verdicts that were as expected are kept beside the
toolchain, on this machine alone. Nothing is kept in the tree. So all mutants are due on a new machine."""
import hashlib
from collections.abc import Iterable
from functools import lru_cache
from pathlib import Path

from repository.kit import home, version
from repository.tree import Tree, files_below, read_text

from .answers import OF_FUNCTION
from .mutant import Mutant
from .scratch import copy_of
from .source import functions_of, without_bodies


class Kept:
    """The sums that are kept, each as an empty file of a folder. If that can't be written, nothing is kept."""

    def __init__(self, folder: Path | None = None):
        self.folder = folder or home().parent / "kovshenul-mutants"

    def due(self, tree: Tree, mutants: Iterable[Mutant]) -> list[Mutant]:
        """The mutants that have no verdict on the files as they are."""
        return [mutant for mutant in mutants if not (self.folder / sum_of(tree, mutant)).exists()]

    def keep(self, tree: Tree, mutant: Mutant) -> None:
        """Keeps that the verdict on the mutant was as expected, with the files as they are."""
        try:
            self.folder.mkdir(parents=True, exist_ok=True)
            (self.folder / sum_of(tree, mutant)).touch()
        except OSError:
            pass


def sum_of(tree: Tree, mutant: Mutant) -> str:
    """A sum of the files on which the verdict on a mutant rests. This is the toolchain and this driver, the mutant,
    and its function with the proof. It is also the lemmas of its crate, and what this crate and the crates below
    state. Bodies of other functions don't count."""
    folder, copy = tree.folder(mutant.crate), copy_of(tree, mutant) if mutant.function else None
    parts = [version_once(), texts_below(Path(__file__).parent, ".py"), read_text(mutant.path)]
    parts += [stated_in(tree, crate) for crate in (*tree.below(mutant.crate), mutant.crate)]
    if copy:
        proof = tree.proof(mutant.crate, copy.function.path)
        parts += [texts_below(folder / "proofs", ".antt", OF_FUNCTION), texts_below(proof, ".antt"), *copy.right]
    else:
        parts += [texts_below(folder / "proofs", ".antt"), texts_below(folder / "src", ".rt")]
    return sum_over(parts)


def drawn(mutants: Iterable[Mutant], commit: str) -> list[Mutant]:
    """The mutants in an order that the hash of a commit draws."""
    return sorted(mutants, key=lambda mutant: sum_over([commit, mutant.name]))


@lru_cache(maxsize=None)
def version_once() -> str:
    """The identity of the toolchain."""
    return version()


@lru_cache(maxsize=None)
def stated_in(tree: Tree, crate: str) -> str:
    """A sum of what a crate states: its specs, and its sources without the bodies of functions."""
    source = tree.source(crate)
    parts = [texts_below(tree.folder(crate) / "specs", ".antt")]
    for file in files_below(source, ".rt"):
        there = [function for function in functions_of(source) if function.file == file]
        parts += [file, without_bodies(read_text(source / file), there)]
    return sum_over(parts)


@lru_cache(maxsize=None)
def texts_below(folder: Path, suffix: str, but: tuple[str, ...] = ()) -> str:
    """A sum of the files with this suffix below a folder, with their paths, but for files with some names."""
    files = [file for file in files_below(folder, suffix) if Path(file).name not in but]
    return sum_over(part for file in files for part in (file, read_text(folder / file)))


def sum_over(texts: Iterable[str]) -> str:
    """A sum of texts in this order."""
    return hashlib.sha256("\0".join(texts).encode()).hexdigest()
