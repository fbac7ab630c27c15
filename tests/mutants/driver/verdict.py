"""What becomes of mutants: they are checked together, again without the answers that don't fit, and beside the right
functions."""
import tempfile
from collections.abc import Callable, Iterable
from dataclasses import dataclass, replace
from enum import Enum
from pathlib import Path

from repository.tree import Tree

from .answers import clause_of
from .check import LIMIT, FunctionReport, Report
from .mutant import Mutant
from .scratch import Trial, copy_of, has_answers, plant

# The word that a mutant may name in the place of the answers that don't fit it, for any of them.
ANY = ("any",)

# How often a mutant is checked, each time without the answers that didn't fit the last time.
ROUNDS = 4

# A function that checks functions of a crate in a folder. It is `check.check` over libraries of a tree, or a test's
# output.
Check = Callable[[str, Path, list[str]], Report]


class Outcome(Enum):
    """The verdict on a mutant."""

    REFUSED = "refused"
    FOUND = "found"
    PROVED = "proved"
    ELSEWHERE = "refused elsewhere"
    NOT_FOUND = "not found"
    NOT_JUDGED = "not judged"


@dataclass(frozen=True)
class Verdict:
    """The verdict on a mutant, and its reason."""

    mutant: Mutant
    outcome: Outcome
    said: str

    @property
    def is_as_wanted(self) -> bool:
        """Whether the mutant was refused, or found by its run."""
        return self.outcome in (Outcome.REFUSED, Outcome.FOUND)


def groups_of(tree: Tree, mutants: Iterable[Mutant], most: int) -> list[list[Mutant]]:
    """The mutants by crate, at most so many in a group. One that a run has to find, or without a copy, is alone."""
    groups: list[list[Mutant]] = []
    is_open: dict[str, list[Mutant]] = {}
    for mutant in mutants:
        group = is_open.get(mutant.crate, [])
        if mutant.found or copy_of(tree, mutant) is None:
            groups.append([mutant])
        elif group and len(group) < most:
            group.append(mutant)
        else:
            is_open[mutant.crate] = [mutant]
            groups.append(is_open[mutant.crate])
    return groups


def try_group(tree: Tree, check: Check, mutants: list[Mutant]) -> list[Verdict]:
    """The verdicts on mutants of one crate. First the answers of functions are checked. Then a mutant is searched
    without the answers that don't fit, beside its right function without the same answers. That the search finds no
    proof says something only if it finds that of the right function."""
    verdicts: list[Verdict] = []
    trials = [Trial(mutant, is_searched=not has_answers(tree, mutant)) for mutant in mutants]
    for rounds_left in reversed(range(ROUNDS)):
        rights = {key_of(trial): replace(trial, is_right=True) for trial in trials if trial.is_beside}
        said = checked_apart(tree, check, [*trials, *rights.values()])
        again = []
        for trial in trials:
            report, right = said[trial], said.get(rights.get(key_of(trial)))
            aside = trial.aside | report.misfits
            is_beside = bool(aside or report.seconds > LIMIT) and not trial.mutant.breaks
            is_settled = trial.is_searched and aside == trial.aside and (right or report.holds or not is_beside)
            if rounds_left and not report.error and not is_settled:
                again.append(replace(trial, aside=aside, is_searched=True, is_beside=is_beside))
            else:
                verdicts.append(Verdict(trial.mutant, *judged(trial, report, right)))
        trials = again
    return verdicts


def key_of(trial: Trial) -> tuple[object, ...]:
    """The key that two trials share if their right functions are one."""
    return trial.mutant.function, trial.mutant.clauses, trial.aside


def checked_apart(tree: Tree, check: Check, trials: list[Trial]) -> dict[Trial, FunctionReport]:
    """What is said of each of these trials: of those in copies of functions together, of the others one by one."""
    together = [trial for trial in trials if copy_of(tree, trial.mutant)]
    said = checked(tree, check, together) if together else {}
    for trial in trials:
        if trial not in said:
            said.update(checked(tree, check, [trial]))
    return said


def checked(tree: Tree, check: Check, trials: list[Trial]) -> dict[Trial, FunctionReport]:
    """The report of a check on each of these trials. If it doesn't reach its end, the halves are tried."""
    with tempfile.TemporaryDirectory(prefix="mutants-") as room:
        folder, standing = plant(tree, Path(room), trials)
        report = check(trials[0].mutant.crate, folder, [stands.function for stands in standing])
    if report.is_whole or len(trials) == 1:
        return {stands.trial: report.of(stands.function, stands.clauses) for stands in standing}
    half = len(trials) // 2
    return {**checked(tree, check, trials[:half]), **checked(tree, check, trials[half:])}


def judged(trial: Trial, report: FunctionReport, right: FunctionReport | None) -> tuple[Outcome, str]:
    """The verdict on a mutant, and its reason, by the reports on it and on the right function."""
    if report.error or report.misfits - trial.aside:
        return Outcome.NOT_JUDGED, report.error or f"more and more of its answers don't fit: {report.said[:200]}"
    if report.holds:
        return Outcome.PROVED, "the search finds a proof"
    refusing = {clause_of(goal) for goal in report.open_goals}
    said, goals = f"{', '.join(sorted(refusing))}, {report.seconds:.0f} s", ", ".join(sorted(trial.aside))
    if not set(report.clauses) <= refusing:
        return (Outcome.ELSEWHERE, said) if refusing else (Outcome.NOT_JUDGED, f"no goal is open: {report.said[:200]}")
    if not trial.aside and report.seconds <= LIMIT:
        return Outcome.REFUSED, said
    if trial.mutant.breaks not in ((), ANY) and not trial.aside <= set(trial.mutant.breaks):
        return Outcome.NOT_JUDGED, f"other answers don't fit: its line has to be 'breaks: {goals}'"
    if trial.mutant.breaks or right and right.holds and right.seconds <= LIMIT / 3:
        return Outcome.REFUSED, f"{said}, without {goals or 'a limit'}"
    return Outcome.NOT_JUDGED, (
        f"the search doesn't find the right function's proof in {LIMIT // 3} s either: name a test, a row or a held "
        f"script after 'found:'; or 'breaks: {goals}'"
    )
