"""A run: which mutants it tries, within which time, and what it reports."""
import subprocess
from collections import Counter
from concurrent.futures import ThreadPoolExecutor
from dataclasses import dataclass, field
from math import inf
from pathlib import Path

from repository.processor import seconds_of_children
from repository.tree import Tree

from .by_run import try_by_run
from .check import Report, check
from .due import Kept, drawn
from .mutant import Mutant
from .verdict import Outcome, Verdict, groups_of, try_group

# The processor seconds of a run that is limited, and how many mutants it checks together.
LIMIT, MOST = 600, 16
# The verdicts that fail a run, the worst first.
UNWANTED = (Outcome.PROVED, Outcome.ELSEWHERE, Outcome.NOT_FOUND, Outcome.NOT_JUDGED)


@dataclass
class Run:
    """A run over a tree, whose built libraries are in a folder, with so many checks at a time. If it is limited, it
    tries the mutants that are due. It begins a group only if as many processor seconds are left as the dearest
    group took."""

    tree: Tree
    libraries: Path
    jobs: int = 1
    is_limited: bool = False
    dearest: float = 0
    began: float = field(default_factory=seconds_of_children)

    @property
    def used(self) -> float:
        """The processor seconds of the checks that have ended."""
        return seconds_of_children() - self.began

    def check(self, crate: str, folder: Path, functions: list[str]) -> Report:
        """The prover's report on these functions of the crate in the folder."""
        return check(self.tree, self.libraries, crate, folder, functions)

    def try_mutants(self, kept: Kept, mutants: list[Mutant]) -> bool:
        """Tries these mutants, and reports what became of them. Returns whether all came out as expected."""
        words = ["git", "-C", str(self.tree.top), "rev-parse", "HEAD"]
        commit = subprocess.run(words, capture_output=True, text=True, check=False).stdout.strip()
        due = drawn(kept.due(self.tree, mutants), commit) if self.is_limited else mutants
        groups = groups_of(self.tree, due, MOST if self.is_limited else len(due))
        with ThreadPoolExecutor(self.jobs) as pool:
            verdicts = [verdict for tried in pool.map(self.try_group, groups) for verdict in tried]
        for verdict in verdicts:
            if verdict.is_as_wanted:
                kept.keep(self.tree, verdict.mutant)
        sample = f"; a sample drawn by {commit[:8]}, --all tries all" if len(verdicts) < len(due) else ""
        print(f"mutants: {len(mutants)} in all, {len(due)} due, {len(verdicts)} tried{sample}")
        print(f"mutants: {self.used / 60:.1f} minutes of processor time")
        return report(verdicts)

    def try_group(self, group: list[Mutant]) -> list[Verdict]:
        """The verdicts on a group, each of which is reported. There is none if the time is up."""
        began = self.used
        if began + self.dearest > (LIMIT if self.is_limited else inf):
            return []
        is_by_run = bool(group[0].found)
        verdicts = [try_by_run(self.tree, group[0])] if is_by_run else try_group(self.tree, self.check, group)
        self.dearest = max(self.dearest, seconds := self.used - began)
        told = "".join(f"\n  {verdict.mutant.name}: {verdict.outcome.value} ({verdict.said})" for verdict in verdicts)
        print(f"mutants: {group[0].crate}: {len(group)} tried, {seconds:.0f} s{told}", flush=True)
        return verdicts


def report(verdicts: list[Verdict]) -> bool:
    """Reports what isn't as expected, and how many are. Returns whether all are."""
    counts = Counter(verdict.outcome for verdict in verdicts)
    bad = [verdict for outcome in UNWANTED for verdict in verdicts if verdict.outcome == outcome]
    for verdict in bad:
        print(f"mutants: {verdict.mutant.path}: {verdict.outcome.value}: {verdict.said}")
    print(f"{counts[Outcome.REFUSED]} refused, {counts[Outcome.FOUND]} found by tests, {len(bad)} not")
    return not bad
