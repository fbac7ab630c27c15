"""The form of the files below a crate's proofs/. They have answers, each after its goal, and lemmas, or holes in their
place."""
import re
from collections.abc import Callable
from textwrap import dedent, indent

from .source import Function

# The file of a function's answers, that of the invariants of its loops, and that of a proof that is written by hand.
OF_FUNCTION = ANSWERS, INVARIANTS, PROOF = "Answers.antt", "Invariants.antt", "Proof.antt"

# A proof with a hole in its place. The checker then takes the function by its contract.
HOLE = """use {module}.Statement.{{statement}}

pub {name}_spec : {{M : Type 1}} → statement M
{name}_spec = ?
"""


def hole_for(crate: str, function: Function) -> str:
    """The text of a proof of the function that is a hole."""
    return HOLE.format(module=module_of(crate, function.path), name=function.name)


def module_of(crate: str, path: str) -> str:
    """The module of the proof of a function of a crate."""
    return f"Rattle.{crate}.proofs.{path.replace('::', '.')}"


def clause_of(goal: str) -> str:
    """The clause of a goal: `returns-in-Ok-clause-fresh` is of `fresh`, and `returns-in-Ok` of the unnamed one."""
    if "requires" in goal:
        return "requires"
    if "invariant" in goal or goal.startswith("loop-"):
        return "invariant"
    if "-clause-" in goal:
        return goal.rpartition("-clause-")[2]
    return "ensures" if goal.startswith("returns") else goal


def named_ensures(goal: str) -> str:
    """The `ensures` with a name of a goal, or ''."""
    return goal.rpartition("-clause-")[2] if goal.startswith("returns") and "-clause-" in goal else ""


def answered_clauses(text: str) -> set[str]:
    """The clauses of its function to which there are answers in the text. An answer to all clauses has the name ''."""
    return {named_ensures(goal) for goal in re.findall(r"^pub (returns\S*)", text, re.M)}


def with_answers(text: str, is_kept: Callable[[str], bool]) -> str:
    """The answers of the text to goals that are kept. A lemma that isn't kept goes with all that uses it. An import
    from the goals of the function that isn't used any more goes too, because without a clause its paths are gone."""
    head, *parts = re.split(r"^(?=pub |abbrev |module |[^\s]+ : )", text, flags=re.M)
    gone = [part for part in parts if not all(map(is_kept, names_of(part)))]
    # what is gone grows as it is gone over
    for lost in gone:
        lemmas = [] if lost.startswith("pub ") else names_of(lost)
        gone += [part for part in parts if part not in gone and any(has(part, lemma) for lemma in lemmas)]
    kept = head + "".join(part for part in parts if part not in gone)
    lines = []
    for line in kept.split("\n"):
        taken = re.fullmatch(r"(use \S+\.Goals\.)\{(.*)\}", line)
        rest = kept.replace(line, "")
        names = taken[2].split(", ") if taken else ()
        used = [name for name in names if has(rest, name)]
        if used:
            lines.append(f"{taken[1]}{{{', '.join(used)}}}")
        elif not taken:
            lines.append(line)
    return "\n".join(lines)


def names_of(part: str) -> list[str]:
    """The names of an answer, of a lemma, or of the lemmas of a module, by its text."""
    if part.startswith("module "):
        return re.findall(r"^ +(?:pub )?([^\s]+) : ", part, re.M)
    return [re.sub(r"^(?:abbrev |pub )+", "", part).split()[0]]


def has(text: str, name: str) -> bool:
    """Whether a text has this name."""
    return bool(re.search(rf"(?<![\w+.-]){re.escape(name)}(?![\w+-])", text))


def for_function(text: str, crate: str, path: str, to: str) -> str:
    """A file of a function's proof as one of a function with another path, whose goals it then names."""
    return re.sub(rf"\b{re.escape(module_of(crate, path))}\b", module_of(crate, to), text)


def stated(text: str, unfolded: set[str]) -> str:
    """The text of a file with a hole in the place of each proof, except for proofs of lemmas that are unfolded."""
    kept: list[str] = []
    # the lemma whose proof is left out, while its clauses come
    lemma = None
    for part in re.split(r"^(?=[^\s)\]}])", text, flags=re.M):
        if part.startswith("module "):
            first, _, inner = part.partition("\n")
            part = f"{first}\n{indent(stated(dedent(inner), unfolded), '  ')}"
        if lemma and re.match(rf"{re.escape(lemma)}[\s{{]|unfolding ", part):
            continue
        kept.append(part)
        head = re.match(r"(?:pub )?([^\s◌]+) :\s", part)
        if head and head[1] not in unfolded:
            lemma = head[1]
            kept.append(f"{lemma} = ?\n")
        elif not part.startswith("--"):
            lemma = None
    return "".join(kept)


def names_unfolded(text: str) -> set[str]:
    """The lemmas that the proofs in a text unfold."""
    return {name for line in re.findall(r"\bunfolding (.+)$", text, re.M) for name in line.split()}
