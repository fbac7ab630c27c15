"""A scratch copy of a crate in which mutants are planted, each in a copy of its function if it can be beside it."""
import re
import shutil
from dataclasses import dataclass
from functools import lru_cache
from pathlib import Path

from repository.tree import Tree, files_below, proof_of, read_text, write_text

from .answers import ANSWERS, INVARIANTS, OF_FUNCTION, PROOF, answered_clauses, for_function, hole_for
from .answers import named_ensures, names_unfolded, stated, with_answers
from .mutant import Mutant
from .source import UNNAMED, Function, functions_of, is_end_of, with_clauses, without_body

# The attribute of a function whose goals aren't searched for.
NO_SEARCH = "#[tactic(none)]\n"


@dataclass(frozen=True)
class Trial:
    """A mutant as it is tried without some of the answers of its function, alone or beside its right function. It may
    also be the right function, tried in the same way. If it isn't searched, only its answers are checked."""

    mutant: Mutant
    # the goals of these answers
    aside: frozenset[str] = frozenset()
    is_right: bool = False
    is_searched: bool = True
    is_beside: bool = False


@dataclass(frozen=True)
class Standing:
    """The place of a trial in a scratch copy. It has the path of its function there, and the clauses that have to
    refuse it, as its goals name them."""

    trial: Trial
    function: str
    clauses: tuple[str, ...]


@dataclass(frozen=True)
class Copy:
    """The function of a mutant, its lines as they are, and its lines with the mutant."""

    function: Function
    right: tuple[str, ...]
    wrong: tuple[str, ...]


@lru_cache(maxsize=None)
def copy_of(tree: Tree, mutant: Mutant) -> Copy | None:
    """The parts that a copy of the function needs, if the function is all that the mutant changes, and doesn't call
    itself. A function of a trait's `impl` has no copy."""
    files = {edit.file for edit in mutant.edits}
    there = functions_of(tree.source(mutant.crate))
    found = [one for one in there if is_end_of(mutant.function, one.path)]
    if len(found) != 1 or files != {f"src/{found[0].file}"} or found[0].calls_itself:
        return None
    function, text = found[0], tree.text(mutant.crate, *files)
    lines, planted = text.split("\n"), mutant.planted(lambda _: text)[files.pop()].split("\n")
    before, after = lines[: function.first], lines[function.end :]
    if planted[: len(before)] != before or planted[len(planted) - len(after) :] != after:
        return None
    wrong = planted[len(before) : len(planted) - len(after)]
    return Copy(function, tuple(lines[function.first : function.end]), tuple(wrong))


def has_answers(tree: Tree, mutant: Mutant) -> bool:
    """Whether the function of a mutant that has a copy has answers."""
    copy = copy_of(tree, mutant)
    proof = tree.proof(mutant.crate, copy.function.path) if copy else None
    return proof is not None and any((proof / file).exists() for file in (ANSWERS, INVARIANTS))


def plant(tree: Tree, room: Path, trials: list[Trial]) -> tuple[Path, list[Standing]]:
    """Copies the crate of these trials into the room, each in a copy of its function, or one alone in the place of its
    function. Returns the folder and where they are. All that isn't checked is taken as it is stated."""
    mutant = trials[0].mutant
    folder = tree.copy_crate(mutant.crate, room)
    standing, copies = [], {}
    for number, trial in enumerate(trials, 2):
        copy = copy_of(tree, trial.mutant)
        if copy is None:
            plant_in_place(tree, folder, trial)
            standing.append(Standing(trial, mutant.function, mutant.clauses))
        else:
            lines, stands = with_proof(tree, folder, trial, copy, number)
            copies.setdefault(copy.function.path, []).append(lines)
            standing.append(stands)
    take_by_contract(folder, mutant.crate, [stands.function for stands in standing], copies)
    take_by_statement(folder / "proofs")
    return folder, standing


def plant_in_place(tree: Tree, folder: Path, trial: Trial) -> None:
    """Puts the mutant of the trial into the crate in the folder, and takes answers of its function away."""
    mutant = trial.mutant
    if not trial.is_right:
        for file, text in mutant.planted(lambda file: tree.text(mutant.crate, file)).items():
            write_text(folder / file, text)
    for file in files_below(folder / "proofs", ".antt"):
        if is_end_of(mutant.function, file.rpartition("/")[0].replace("/", "::")):
            keep_answers(folder / "proofs" / file, trial.aside, set())


def keep_answers(path: Path, aside: frozenset[str], left_out: set[str]) -> None:
    """Takes answers away from a file of a function's proof. They are answers that were set aside, and answers to
    clauses that are left out."""
    if path.name != PROOF:
        kept = with_answers(read_text(path), lambda goal: goal not in aside and named_ensures(goal) not in left_out)
        write_text(path, kept)


def with_proof(tree: Tree, folder: Path, trial: Trial, copy: Copy, number: int) -> tuple[list[str], Standing]:
    """The lines of a copy of a function, and where it is. Its proof is put into the folder. The copy has only the
    clauses that have to refuse the mutant. The others aren't searched for."""
    mutant, function = trial.mutant, copy.function
    name = f"{function.name}_{number}"
    path = "::".join([*function.path.split("::")[:-1], name])
    lines, left_out, clauses = list(copy.right if trial.is_right else copy.wrong), set(), mutant.clauses
    proof = tree.proof(mutant.crate, function.path)
    answered = answered_clauses(read_text(proof / ANSWERS)) if (proof / ANSWERS).exists() else set()
    if clauses and "" not in answered:
        lines, left_out, sole = with_clauses(lines, clauses, answered)
        clauses = tuple(UNNAMED if clause == sole else clause for clause in clauses)
    if proof.is_dir():
        for file in shutil.copytree(proof, proof_of(folder, path)).glob("*.antt"):
            write_text(file, for_function(read_text(file), mutant.crate, function.path, path))
            keep_answers(file, trial.aside, left_out)
    renamed = re.sub(rf"\bfn {function.name}\b", f"fn {name}", "\n".join(lines), count=1)
    text = renamed if trial.is_searched else NO_SEARCH + re.sub(r"^ *#\[tactic\(.*\n", "", renamed, flags=re.M)
    return ["", *text.split("\n")], Standing(trial, path, clauses)


def take_by_contract(folder: Path, crate: str, checked: list[str], copies: dict[str, list[list[str]]]) -> None:
    """Leaves the contract of each function of the crate in the folder that isn't checked. A hole is in the place of its
    proof. The reason is that `--only` also proves the functions that a function calls, and nothing that runs in its
    body. A function of a trait's `impl`, and one that calls itself, keeps both. Puts the copies of a function after
    it."""
    there = functions_of(folder / "src")
    for function in sorted(there, key=lambda function: function.first, reverse=True):
        file = folder / "src" / function.file
        lines = read_text(file).split("\n")
        lines[function.end : function.end] = [line for copy in copies.get(function.path, ()) for line in copy]
        if not function.calls_itself and not any(is_end_of(name, function.path) for name in checked):
            lines[function.first : function.end] = without_body(lines[function.first : function.end])
            proof = proof_of(folder, function.path)
            proof.mkdir(parents=True, exist_ok=True)
            for name in OF_FUNCTION:
                (proof / name).unlink(missing_ok=True)
            write_text(proof / PROOF, hole_for(crate, function))
        write_text(file, "\n".join(lines))


def take_by_statement(proofs: Path) -> None:
    """Puts a hole in the place of the proof of each lemma below a folder, except for lemmas that a proof unfolds. The
    answers to a function's goals stay."""
    texts = {file: read_text(proofs / file) for file in files_below(proofs, ".antt")}
    unfolded = {name for text in texts.values() for name in names_unfolded(text)}
    for file, text in texts.items():
        if Path(file).name not in OF_FUNCTION:
            write_text(proofs / file, stated(text, unfolded))
