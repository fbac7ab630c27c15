"""The functions of a crate in its files, and the parts of a function's text. A function is named by the path that the
checker has for it and for the folder of its proofs."""
import re
from collections.abc import Iterator
from dataclasses import dataclass
from functools import lru_cache
from pathlib import Path

from repository.tree import files_below, read_text

PUBLIC = r"(?:pub(?:\(\w+\))? )?"
FUNCTION = re.compile(rf'{PUBLIC}(?:const )?(?:unsafe )?(?:extern "C" )?fn (\w+)')
TYPE = re.compile(rf"^{PUBLIC}(?:struct|enum) (\w+)", re.M)
BLOCK = re.compile(r"(?:impl|trait|pub trait|mod|pub mod|macro_rules)\b.*\{")
OWN_IMPL = re.compile(r"impl(?:<.*?>)? (\w+)(?:<.*>)? \{$")
# The head of a clause: its indent, its kind, and its name if it has one.
CLAUSE = re.compile(r"^(\s*)(requires|ensures|ghost)\*?(?:\s+(\w+))?\s*\{")
# The name of an `ensures` that has none.
UNNAMED = "ensures"


@dataclass(frozen=True)
class Function:
    """A function that is alone, or in an `impl` of a type of its own, and not in one of a trait."""

    path: str
    file: str
    # its first line, with its attributes, and the line after its last one
    first: int
    end: int
    calls_itself: bool

    @property
    def name(self) -> str:
        """The name at the end of its path."""
        return self.path.rpartition("::")[2]


def is_end_of(word: str, path: str) -> bool:
    """Whether the word is the path, or the names at its end."""
    return path == word or path.endswith(f"::{word}")


@lru_cache(maxsize=None)
def functions_of(source: Path) -> list[Function]:
    """The functions in the files below a folder, as they are when this is first asked."""
    texts = {file: read_text(source / file) for file in files_below(source, ".rt")}
    modules = {file: re.sub(r"(?:^|/)(?:lib|main|mod)$", "", file[:-3]).replace("/", "::") for file in texts}
    types = {name: modules[file] for file, text in texts.items() for name in TYPE.findall(text)}
    found = []
    for file, text in texts.items():
        lines = text.split("\n")
        for owner, name, first, end in standing_in(lines):
            if not owner or owner in types:
                path = "::".join(word for word in (types[owner] if owner else modules[file], owner, name) if word)
                found.append(Function(path, file, first, end, calls_itself(owner, name, lines[first:end])))
    return found


def standing_in(lines: list[str]) -> Iterator[tuple[str, str, int, int]]:
    """Of each function in these lines the type in whose `impl` it is, the name, and its lines."""
    owner: str | None = ""
    for number, line in enumerate(lines):
        owner = owner_at(line, owner)
        if owner is None:
            continue
        indent = "    " if owner else ""
        head = FUNCTION.match(line[len(indent) :]) if line.startswith(indent) else None
        if head:
            ends = (end for end in range(number, len(lines)) if lines[end] in (indent + "}", indent + "{}"))
            end = number if line.endswith("}") else next(ends, number)
            first = number
            while lines[first - 1].startswith(indent + "#["):
                first -= 1
            yield owner, head[1], first, end + 1


def owner_at(line: str, owner: str | None) -> str | None:
    """The type whose `impl` is open after this line. Outside of an `impl` it is '', and None in a block without
    functions of its own, as an `impl` of a trait."""
    if BLOCK.match(line):
        of = OWN_IMPL.match(line)
        return of[1] if of else None
    if line.startswith("impl"):
        return None
    return "" if line.startswith("}") else owner


def calls_itself(owner: str, name: str, lines: list[str]) -> bool:
    """Whether the function with these lines calls its own name in the lines after its head."""
    code = "\n".join(line.partition("//")[0] for line in lines[head_in(lines)[0] + 1 :])
    call = rf"\b(?:self|Self|{owner})(?:\.|::){name}\(" if owner else rf"(?<![\w.:]){name}\("
    return bool(re.search(call, code))


def head_in(lines: list[str]) -> tuple[int, str]:
    """Where the head of a function is in its lines, and its indent."""
    first = next(number for number, line in enumerate(lines) if re.search(r"\bfn \w+", line))
    return first, re.match(" *", lines[first])[0]


def with_clauses(lines: list[str], wanted: tuple[str, ...], answered: set[str]) -> tuple[list[str], set[str], str]:
    """The lines of a function with the requested `ensures`, and the names of the others. With them comes the clause
    that is left, if it is the only one. The goals of an only clause don't name it. So that its answers still name it,
    another clause is kept with it."""
    first, indent = head_in(lines)
    end = next((number for number in range(first, len(lines)) if lines[number] == indent + "{"), first + 1)
    # the parts of the contract, each with the name of its clause if it is an `ensures`
    parts: list[tuple[str, list[str]]] = [("", lines[: first + 1])]
    for line in lines[first + 1 : end]:
        begins = CLAUSE.match(line)
        if begins and begins[1] == indent + "    ":
            parts.append(((begins[3] or UNNAMED) if begins[2] == "ensures" else "", []))
        parts[-1][1].append(line)
    clauses = [clause for clause, _ in parts if clause]
    there = [clause for clause in clauses if clause in wanted]
    others = [clause for clause in clauses if clause not in wanted]
    if len(there) == 1 and there[0] in answered and others:
        there.append(next((clause for clause in reversed(others) if clause not in answered), others[-1]))
    kept = [line for clause, part in parts if not clause or clause in there for line in part]
    return kept + lines[end:], set(clauses) - set(there), there[0] if len(there) == 1 else ""


def without_body(lines: list[str]) -> list[str]:
    """A function's lines with `unreachable!()` for its body. A constant, and a function that gives an `impl`, keep
    theirs."""
    first, indent = head_in(lines)
    begins = re.compile(rf"{indent}(?! ).*\{{$")
    start = next((number for number in range(first, len(lines)) if begins.match(lines[number])), None)
    head = "\n".join(lines[:start])
    if start is None or "const fn" in head or "-> impl" in head:
        return lines
    return [*lines[: start + 1], f"{indent}    unreachable!()", f"{indent}}}"]


def without_bodies(text: str, functions: list[Function]) -> str:
    """The text of a file without the bodies of these functions of it."""
    lines = text.split("\n")
    for function in sorted(functions, key=lambda function: function.first, reverse=True):
        lines[function.first : function.end] = without_body(lines[function.first : function.end])
    return "\n".join(lines)
