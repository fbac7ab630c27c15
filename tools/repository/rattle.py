"""A reader of Rattle sources without a compiler. It reads functions, types and clauses of a .rt file, and definitions
of a .antt file. Everything is found by its text, so a form that this repository doesn't use may be missed."""
import itertools
import re
from collections.abc import Iterator
from dataclasses import dataclass, field

# A string, whose text may look like a comment, or a comment.
STRING_OR_COMMENT = re.compile(r'"(?:\\.|[^"\\])*"|//[^\n]*')
FUNCTION = re.compile(r"\bfn (\w+)(?=[<(])")
TYPE = re.compile(r"^\s*(?:pub(?:\(\w+\))? )?(?:struct|enum) (\w+)", re.M)
CLAUSE = re.compile(r"^(\s*)(requires|ensures|ghost)\*?(?:\s+(\w+))?\s*\{", re.M)
OPEN, SHUT = "([{", ")]}"


@dataclass(frozen=True)
class Function:
    """A function, and how many parameters it has, `self` among them."""

    name: str
    parameters: int


@dataclass(frozen=True)
class Clause:
    """A `requires` or `ensures`. It has the text between its braces, with each run of blanks as one. It also says
    whether it is the last one of a function of a trait, after which a semicolon is."""

    text: str
    is_last_of_trait: bool

    @property
    def key(self) -> str:
        """A text that two clauses share if they say the same."""
        return "".join(self.text.split()) + (";" if self.is_last_of_trait else "")


def code_of(source: str) -> str:
    """The source without comments, and with empty strings."""
    return STRING_OR_COMMENT.sub(lambda it: "" if it[0].startswith("//") else '""', source)


def head_of(source: str) -> str:
    """The comment at the beginning of a source that says what its module is, as Markdown."""
    lines = itertools.takewhile(lambda line: line.startswith("//!"), source.splitlines())
    return "\n".join(line.removeprefix("//!").removeprefix(" ") for line in lines)


def functions(source: str) -> Iterator[Function]:
    """The functions of a source, in order. Types of functions aren't among them."""
    code = code_of(source)
    for head in FUNCTION.finditer(code):
        yield Function(head[1], parameters_at(code, past_generics(code, head.end())))


def past_generics(code: str, at: int) -> int:
    """The place after the generic parameters that begin here, or this place if there are none."""
    depth = 0
    while code[at] == "<" or depth > 0:
        depth += (code[at] == "<") - (code[at] == ">" and code[at - 1] != "-")
        at += 1
    return at


def parameters_at(code: str, opened: int) -> int:
    """How many parameters are between the bracket that is opened here and its end."""
    depth, commas, is_last_empty = 0, 0, True
    for at in range(opened, len(code)):
        word = code[at]
        depth += (word in OPEN or word == "<") - (word in SHUT or word == ">" and code[at - 1] not in "-=")
        if depth == 0:
            break
        if depth == 1 and word == ",":
            commas, is_last_empty = commas + 1, True
        elif at > opened and not word.isspace():
            is_last_empty = False
    return commas + (not is_last_empty)


def types(source: str) -> list[str]:
    """The names of the structs and enums that a source defines."""
    return TYPE.findall(code_of(source))


def clauses(source: str) -> Iterator[Clause]:
    """The clauses of a source, in order."""
    for head in CLAUSE.finditer(source):
        if head[2] != "ghost":
            end = end_of_braces(source, head.end())
            yield Clause(" ".join(source[head.end() : end - 1].split()), source.startswith(";", end))


def end_of_braces(text: str, at: int) -> int:
    """The place after the brace that shuts the brace that was opened before this place."""
    depth = 1
    while depth > 0:
        depth += {"{": 1, "}": -1}.get(text[at], 0)
        at += 1
    return at


HEAD = re.compile(r"(?:(?:abbrev|unfoldable) )?(?:pub )?(?:record |data )?(?P<name>[^\s(){}:=]+)")
USE = re.compile(r"(?:pub )?use Rattle\.(?P<crate>tg_\w+)\.specs\.(?P<file>[\w.]+)\.\{(?P<words>[^}]*)\}", re.S)
NO_DEFINITION = (" ", "use ", "pub use ", "pub mod ", "mod ")


@dataclass
class Definitions:
    """The definitions of a .antt file. They are lines of code by their names, without comments. For each word that
    the file imports from specs it has the crate, the file and the name there."""

    bodies: dict[str, list[str]] = field(default_factory=dict)
    imports: dict[str, tuple[str, str, str]] = field(default_factory=dict)


def definitions(text: str) -> Definitions:
    """The definitions of a .antt file."""
    found = Definitions()
    lines = [line for line in text.splitlines() if line.strip() and not line.lstrip().startswith("--")]
    code = "\n".join(lines)
    for use in USE.finditer(code):
        for word in use["words"].split(","):
            name, _, alias = word.strip().partition(" as ")
            found.imports[alias or name] = (use["crate"], use["file"], name)
    name = ""
    for line in USE.sub("", code).splitlines():
        head = HEAD.match(line)
        if head and not line.startswith(NO_DEFINITION):
            name = head["name"]
        if name and line and not line.startswith(NO_DEFINITION[1:]):
            found.bodies.setdefault(name, []).append(line)
    return found
