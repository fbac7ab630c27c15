"""How many instructions a program executes, under valgrind. Other work on the machine doesn't change the count."""
import argparse
import re
import shutil
import subprocess
import sys
import tempfile
from argparse import Namespace
from collections.abc import Callable, Iterable, Mapping, Sequence
from dataclasses import dataclass
from pathlib import Path

from .tree import Tree

COUNTER = ("valgrind", "--tool=cachegrind", "--cache-sim=no", "--cachegrind-out-file=/dev/null")
INSTRUCTIONS = re.compile(r"I\s+refs:\s+([\d,]+)")


class CountFailed(SystemExit):
    """A run ended with another status than 0, or valgrind counted nothing. The message has the status and the errors. A
    script that doesn't catch it ends with the message and status 1."""


@dataclass(frozen=True)
class Counted:
    """How many instructions a run executed, and its standard output."""

    instructions: int
    output: bytes


def can_count() -> bool:
    """Whether valgrind is here."""
    return shutil.which("valgrind") is not None


def counted(command: Sequence[str | Path], given: bytes = b"", environment: Mapping[str, str] | None = None) -> Counted:
    """Runs the command under valgrind, with these bytes on its standard input. CountFailed if the run fails."""
    # (a file, since a program reads a pipe in more parts on a machine with much to do)
    with tempfile.TemporaryFile() as script:
        script.write(given)
        script.seek(0)
        ran = subprocess.run([*COUNTER, *command], stdin=script, capture_output=True, env=environment, check=False)
    told = ran.stderr.decode(errors="replace")
    found = INSTRUCTIONS.search(told)
    if ran.returncode != 0 or not found:
        raise CountFailed(f"{command[0]} ended with status {ran.returncode} under valgrind:\n{told[-2000:]}")
    return Counted(int(found[1].replace(",", "")), ran.stdout)


def instructions(program: str | Path, options: Iterable[str], lines: Iterable[str]) -> int:
    """How many instructions the program executes with these options on a script of these lines."""
    return counted([program, *options], "".join(f"{line}\n" for line in lines).encode()).instructions


# A script that counts: what it does with the command line that was read, and the status that it ends with.
Check = Callable[[Namespace], int]


def run_check(usage: str, check: Check, options: Mapping[str, dict] | None = None, program: str = "tgstore") -> int:
    """Reads the command line, runs the check, and returns its status. The command line may name the program, else it is
    the built one with this name. `options` has what argparse gets for each further option. Without valgrind nothing is
    run, and the status is 0."""
    name = Path(sys.argv[0]).name
    parser = argparse.ArgumentParser(usage=usage)
    parser.add_argument("program", nargs="?", default=str(Tree().program(program)))
    for option, how in (options or {}).items():
        parser.add_argument(option, **how)
    asked = parser.parse_args()
    if not can_count():
        print(f"{name}: valgrind isn't here: left out")
        return 0
    return check(asked)
