"""What a test, a stored script, a count of instructions or `tools/check_allocation` has to find, since no contract can
refuse it."""
import re
import shutil
import subprocess
import tempfile
from pathlib import Path

from repository.tree import Tree, write_text
from repository.unproved import QUIETLY, build_program, fails_test

from .mutant import Mutant
from .verdict import Outcome, Verdict

# A line that reports a failure.
FAILURE = r"^\w+: (\S+ .*FAILED.*|.*, [1-9]\d* failed|.*, [1-9]\d* faults)$"


def try_by_run(tree: Tree, mutant: Mutant) -> Verdict:
    """Builds what has to find a mutant, unproved, with the mutant in place, and runs it."""
    with tempfile.TemporaryDirectory() as name:
        made = plant_tree(tree, mutant, Path(name))
        match mutant.found:
            case ("test", crate, test):
                failed, said = fails_test(made.folder(crate), test)
                outcome, said = Outcome.FOUND if failed else Outcome.NOT_FOUND, on_one_line(said)
            case ("held", script):
                command = [f"{tree.top}/tests/held/run", "--only", script, f"{name}/tgstore"]
                outcome, said = try_script(made, "tgstore", command)
            case ("row", program, row):
                outcome, said = try_script(made, program, [f"{tree.top}/tests/runs/run", "--only", row, name])
            case ("counted", script, *names):
                only = [word for name in names for word in ("--only", name)]
                command = [f"{tree.top}/tests/costs/{script}.py", *only, f"{name}/tgstore"]
                outcome, said = try_script(made, "tgstore", command, is_counted=True)
            case ("allocation",):
                shutil.copytree(tree.top / "tools", Path(name) / "tools")
                outcome, said = run_script([f"{name}/tools/check_allocation"])
    return Verdict(mutant, outcome, f"{' '.join(mutant.found)}: {said}")


def plant_tree(tree: Tree, mutant: Mutant, room: Path) -> Tree:
    """Copies the tree's crates into the room, with the mutant in place."""
    shutil.copytree(tree.top / "crates", room / "crates", ignore=shutil.ignore_patterns("out", "mutants"))
    for file in ("crates.txt", "HANDLES"):
        shutil.copy(tree.top / file, room)
    subprocess.run(["git", "init", "-q", str(room)], check=True)
    for file, text in mutant.planted(lambda file: tree.text(mutant.crate, file)).items():
        write_text(room / "crates" / mutant.crate / file, text)
    return Tree(room)


def try_script(tree: Tree, program: str, command: list[str], is_counted: bool = False) -> tuple[Outcome, str]:
    """The faults that a run of stored scripts finds in the program of the tree, which is built first."""
    errors = build_program(tree, program, tree.top, is_counted)
    if errors is not None:
        return Outcome.NOT_JUDGED, f"{program} isn't built: {on_one_line(errors)}"
    return run_script(command)


def run_script(command: list[str]) -> tuple[Outcome, str]:
    """The findings of a run that ends in a failure if it finds something."""
    ran = subprocess.run(command, capture_output=True, **QUIETLY)
    said = ran.stdout + ran.stderr
    failed = re.search(FAILURE, said, re.M)
    if failed and ran.returncode != 0:
        return Outcome.FOUND, failed[1]
    return Outcome.NOT_FOUND if ran.returncode == 0 else Outcome.NOT_JUDGED, on_one_line(said)


def on_one_line(said: str) -> str:
    """The end of the output, on one line."""
    return said[-200:].replace("\n", " ")
