"""The table of all public clauses, with the mutants that break each, and of the common kinds of mutants."""
import re
from collections.abc import Iterable, Iterator

from repository.tree import Tree, files_below, read_text

from .mutant import Mutant
from .source import CLAUSE, FUNCTION, UNNAMED

BLOCK = re.compile(r"(?:pub )?(?:impl|trait)\b(?:<[^>]*>)?\s*(?:(?:\w+(?:<[^{]*>)?) for )?(\w+)")
HEAD = re.compile(rf"(\s*)(?:#\[[^\]]*\]\s*)?{FUNCTION.pattern}")


def public_clauses(text: str) -> Iterator[tuple[str, str]]:
    """Each public function of a file, by its type, with the name of each of its clauses."""
    owner, is_trait, function, indent = "", False, "", ""
    for line in text.split("\n"):
        block, head, clause = BLOCK.match(line), HEAD.match(line), CLAUSE.match(line)
        if block:
            owner, is_trait = block[1], line.startswith("pub trait")
        elif line.startswith("}"):
            owner = ""
        if head:
            indent = head[1]
            is_public = bool(re.match(r"\s*pub (?!\()", line)) or bool(owner and indent and is_trait)
            function = (f"{owner}::{head[2]}" if owner and indent else head[2]) if is_public else ""
        elif function and clause and clause[2] == "ensures":
            yield function, clause[3] or UNNAMED
        elif line.startswith(indent + "{"):
            function = ""


# The mutants that break a clause, by crate, the last name of the function, and the clause. Each comes with the function
# as it is named, and the mutant.
Broken = dict[tuple[str, str, str], list[tuple[str, str]]]


def broken_by(mutants: Iterable[Mutant]) -> Broken:
    """The mutants by the clauses that refuse them, and by the public clauses that are proved from these clauses."""
    broken: Broken = {}
    for mutant in mutants:
        clauses = [(mutant.crate, mutant.function, clause, "") for clause in mutant.clauses]
        if public := mutant.public:
            clauses += [(public.crate, public.function, *words.partition(".")[::2]) for words in public.clauses]
        for crate, function, clause, part in clauses:
            name = f"{mutant.name} ({part})" if part else mutant.name
            broken.setdefault((crate, function.rpartition("::")[2], clause), []).append((function, name))
    return broken


def table_of(tree: Tree, mutants: Iterable[Mutant]) -> str:
    """The text of the table. A clause without a mutant isn't weak for that reason, because a clause above may be proved
    from it."""
    mutants = list(mutants)
    broken, lines = broken_by(mutants), []
    for crate in tree.crates:
        if rows := [row_of(crate, *named, broken) for named in clauses_of(tree, crate)]:
            lines += [f"## `{crate}`", "", "| Function | Clause | Mutants |", "|---|---|---|", *rows, ""]
    kinds = sorted((mutant.kind, f"`{mutant.crate}`", mutant.name) for mutant in mutants if mutant.kind)
    lines += ["## Common kinds", "", "| Kind | Crate | Mutant |", "|---|---|---|"]
    return "\n".join([*lines, *(f"| {' | '.join(row)} |" for row in kinds)])


def clauses_of(tree: Tree, crate: str) -> Iterator[tuple[str, str]]:
    """The clauses of the public functions of a crate, each once. Laws are left out, because no mutant can break a
    law."""
    source = tree.source(crate)
    for file in files_below(source, ".rt"):
        if file.rpartition("/")[2] != "laws.rt":
            yield from dict.fromkeys(public_clauses(read_text(source / file)))


def row_of(crate: str, function: str, clause: str, broken: Broken) -> str:
    """The row of a clause, with the mutants that break it."""
    by = broken.get((crate, function.rpartition("::")[2], clause), ())
    names = {name for named, name in by if named == function or "::" not in named or "::" not in function}
    return f"| `{function}` | `{clause}` | {', '.join(sorted(names)) or '-'} |"
