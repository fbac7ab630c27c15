"""The toolchain: where it is, which options name the libraries of a crate, and the last line that it writes."""
import re
import subprocess
from dataclasses import dataclass
from functools import lru_cache
from pathlib import Path

from .tree import BadInput, Tree

# The last line of a check that ran to its end. It is of some functions, or of a crate as a whole.
LAST = re.compile(r"^(?:only|logic)=.*$", re.M)
FIELD = re.compile(r"([\w-]+)=(\S+)")


@dataclass(frozen=True)
class Last:
    """The fields of a check's last line, as `only=5 holes=21` or `logic=proved functions=295 may-wait=2`."""

    fields: dict[str, str]

    def number(self, name: str) -> int:
        """The number in this field, or 0 if the line hasn't the field."""
        return int(self.fields.get(name, "0"))

    @property
    def is_proved(self) -> bool:
        """Whether the crate as a whole was proved."""
        return self.fields.get("logic") == "proved"


def last_of(said: str) -> Last | None:
    """The last line of a check, or None if the check ended before it was done."""
    lines = LAST.findall(said)
    return Last(dict(FIELD.findall(lines[-1]))) if lines else None


@lru_cache(maxsize=None)
def home() -> Path:
    """The folder of the toolchain. BadInput if there is none."""
    try:
        page = subprocess.run(["rt", "doc"], capture_output=True, text=True, check=True).stdout.strip()
    except FileNotFoundError as error:
        raise BadInput("rt isn't in the PATH: it is the program of the toolchain") from error
    return Path(page).parent


def version() -> str:
    """The version that the toolchain prints."""
    return subprocess.run(["rt", "version"], capture_output=True, text=True, check=True).stdout.strip()


def library(tree: Tree, libraries: Path, name: str) -> Path:
    """The library with this name: the toolchain's, or one of the tree that `rt ci` or `rt all check` left below the
    folder `libraries`. BadInput if it isn't built."""
    if name not in tree.crates:
        return home() / "rlibs" / f"{name}.rlib"
    path = libraries / name / "out/rlib" / f"{name}.rlib"
    if not path.is_dir():
        raise BadInput(f"{path} isn't there: 'rt ci' and 'rt all check' build it")
    return path


def library_options(tree: Tree, libraries: Path, crate: str) -> list[str]:
    """The options of the checker that name the libraries below a crate, and the toolchain's logic."""
    of = tree.crate(crate)
    options = []
    for name in ("std", *of.uses):
        options += ["--extern", f"{name}={library(tree, libraries, name)}"]
    options += ["-L", f"dependency={home()}/rlibs"]
    for name in tree.below(crate):
        options += ["-L", f"dependency={library(tree, libraries, name).parent}"]
    options += ["--antt-project", f"{home()}/rattle/logic/antt-project.json"]
    options += ["--logic-built", f"{home()}/logic_built", "--links", f"{crate}=", "--jobs", "1"]
    return options + ["--crate-type", "staticlib"] * of.is_static
