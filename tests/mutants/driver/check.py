"""A check of some functions of a crate: how it is asked of the toolchain, and what is read of its output. No other
module knows the words of that output."""
import re
import subprocess
from collections.abc import Iterable
from dataclasses import dataclass, field, replace
from pathlib import Path

from repository.kit import home, last_of, library_options
from repository.processor import seconds_of
from repository.tree import Tree
from repository.unproved import QUIETLY

from .answers import ANSWERS, INVARIANTS
from .source import is_end_of

# The processor seconds that a search may take, and the seconds that a check may take beside its searches.
LIMIT, BESIDE = 60, 240

# A function that was checked. A line that was read before the first isn't its own.
CHECKED = re.compile(r"checked \w+::(\S+), (?!1 of)")

# The line on a function, and its text if all goals of the function hold. It may call what isn't proved.
FUNCTION = re.compile(r"^fn \w+::(\S+): (.*)$", re.M)
PROVED = re.compile(
    r"(?:no holes|proved)$|no proof: it calls `[^;]*$|depends on a hole in (?:`|the same \d+ declarations as `)"
)

# An answer that doesn't fit, by its file and its goal, and answers that use what is gone.
MISFIT = re.compile(r"^\./proofs/(\S+)/([\w.]+):\d+:\d+: error: (?:`([^`]+)`: |.* was not checked: (.*)$)", re.M)


@dataclass
class FunctionReport:
    """What a check says of a function: the goals that it left open, and the goals of answers that don't fit."""

    path: str
    is_proved: bool
    said: str
    seconds: float = 0
    open_goals: list[str] = field(default_factory=list)
    misfits: set[str] = field(default_factory=set)
    # why nothing is said of it, and the clauses that have to refuse a mutant there, as goals name them
    error: str = ""
    clauses: tuple[str, ...] = ()

    @property
    def holds(self) -> bool:
        """Whether each goal is proved, by the answers that there are."""
        return self.is_proved and not (self.open_goals or self.misfits)


@dataclass
class Report:
    """The report of a check. One that isn't whole ended with an error, before it had checked the functions."""

    is_whole: bool
    error: str
    functions: list[FunctionReport]
    seconds: float

    def of(self, name: str, clauses: tuple[str, ...] = ()) -> FunctionReport:
        """The report on the function with this name, which may be the end of a path, and has these clauses."""
        found = next((function for function in self.functions if is_end_of(name, function.path)), None)
        error = f"the check says nothing of {name}: 'check:' has to name a function" if self.is_whole else self.error
        report = found if found and self.is_whole else FunctionReport(name, False, "", error=error)
        return replace(report, clauses=clauses)


def check(tree: Tree, libraries: Path, crate: str, folder: Path, functions: list[str]) -> Report:
    """Checks these functions of the crate in the folder, over libraries that are built. A check is ended after its
    processor time, so that none can go on for ever."""
    root = "src/main.rt" if (folder / "src/main.rt").exists() else "src/lib.rt"
    words = ["prlimit", f"--cpu={BESIDE + LIMIT * len(functions)}", f"{home()}/bin/rattle", "check"]
    words += ["--crate-name", crate, root, *library_options(tree, libraries, crate), "--allow-holes", "--progress"]
    for name in functions:
        words += ["--only", name]
    with subprocess.Popen(words, cwd=folder, stdout=subprocess.PIPE, stderr=subprocess.STDOUT, **QUIETLY) as ran:
        return report_of((line, seconds_of(ran.pid)) for line in ran.stdout)


def report_of(lines: Iterable[tuple[str, float]]) -> Report:
    """The report in the lines of a check, each with the processor seconds until it came."""
    output, seconds, last = [], {}, 0.0
    for line, now in lines:
        if checked := CHECKED.match(line):
            seconds[checked[1]] = round(now - last, 1)
        output.append(line)
        last = now
    said = "".join(output)
    functions = [function_report(path, line, said, seconds) for path, line in dict(FUNCTION.findall(said)).items()]
    return Report(last_of(said) is not None, first_error(said), functions, last)


def function_report(path: str, line: str, said: str, seconds: dict[str, float]) -> FunctionReport:
    """The report in the line on a function, with the answers to its goals that don't fit."""
    report = FunctionReport(path, bool(PROVED.match(line)), line, seconds.get(path, 0))
    unproved = line.partition("`search` did not prove ")[2].partition(";")[0]
    report.open_goals += dict.fromkeys(re.findall(r"`([^`]+)`", unproved))
    for at, file, goal, others in MISFIT.findall(said):
        if at == path.replace("::", "/") and file in (ANSWERS, INVARIANTS):
            report.misfits |= {name for name in (goal, *others.split(", ")) if name}
    return report


def first_error(said: str) -> str:
    """The first line with an error, or else the end of the output. A library has `thiserror` in its name."""
    errors = (line for line in said.split("\n") if "error" in line and "thiserror" not in line)
    return next(errors, said[-200:])[:200]
