"""What tools/check_allocation and amounts.py read: the tokens of a source that are code, and what is in which
bracket."""
import re
from collections.abc import Iterable, Iterator

TOKEN = re.compile(r"""\s+|//[^\n]*|"(?:\\.|[^"\\])*"|'(?:\\.[^']*|[^'\\])'|\w+|::|=>|->|==|!=|\.\.=?|.""", re.S)
OPEN, SHUT = "([{", ")]}"

# A token, and the line that it is in.
Token = tuple[str, int]
# Where something begins, and where it ends.
Span = tuple[int, int]


class Source:
    """The tokens of a file that are code: without comments, contracts and what represents proofs alone."""

    def __init__(self, place: str, text: str):
        self.place, self.crate = place, place.split("/")[0]
        self.words: list[str] = []
        self.lines: list[int] = []
        past: list[Token] = []
        line = 1
        for match in TOKEN.finditer(text):
            token = match.group()
            if not token.isspace() and not token.startswith("//"):
                past.append((token, line))
            line += token.count("\n")
        at = 0
        while at < len(past):
            at = self.take(past, at)
        self.shut = self.pairs()

    def take(self, past: list[Token], at: int) -> int:
        """Takes a token, or passes over a clause."""
        token, line = past[at]
        if token == "ghost":
            return past_ghost(past, at)
        if token in ("requires", "ensures") and is_clause(past, at):
            return past_group(past, next(i for i in range(at, len(past)) if past[i][0] == "{"))
        self.words.append(token)
        self.lines.append(line)
        return at + 1

    def pairs(self) -> dict[int, int]:
        """Where each bracket that is opened is shut."""
        shut, held = {}, []
        for at, word in enumerate(self.words):
            if word in OPEN:
                held.append(at)
            elif word in SHUT and held:
                shut[held.pop()] = at
        return shut

    def around(self, at: int) -> list[int]:
        """The brackets around a place, the innermost first."""
        return sorted((start for start, end in self.shut.items() if start < at < end), reverse=True)


def is_clause(past: list[Token], at: int) -> bool:
    """Whether a contract's clause is here: a name at most, then braces."""
    rest = [token for token, _ in past[at + 1:at + 4]]
    rest = rest[1:] if rest[:1] == ["*"] else rest
    return rest[:1] == ["{"] or rest[1:2] == ["{"] and rest[0].isidentifier()


def past_group(past: list[Token], at: int) -> int:
    """Past the group that is opened here."""
    depth = 0
    while True:
        depth += (past[at][0] in OPEN) - (past[at][0] in SHUT)
        at += 1
        if depth == 0 or at == len(past):
            return at


def past_ghost(past: list[Token], at: int) -> int:
    """Past `ghost use ..;`, `ghost NAME = {..};`, `ghost NAME: {..}`."""
    while at < len(past) and past[at][0] not in ("{", ";"):
        at += 1
    if at == len(past) or past[at][0] == ";":
        return at + 1
    at = past_group(past, at)
    return at + 1 if at < len(past) and past[at][0] == ";" else at


def start_of_path(words: list[str], at: int) -> int:
    """Where the path begins whose last name is here."""
    while words[at - 1] == "::":
        at -= 2
    return at


def head(source: Source, start: int) -> list[str]:
    """The text before a bracket, back to the end of the text before it. Groups are left out."""
    said, at, opens = [], start - 1, {shut: start for start, shut in source.shut.items()}
    while at >= 0 and source.words[at] not in (";", "=>", "{", "}", "="):
        if at in opens:
            at = opens[at]
        elif source.words[at] in OPEN:
            break
        said.append(source.words[at])
        at -= 1
    return said[::-1]


def arms(source: Source, start: int) -> Iterator[tuple[int, int, int]]:
    """The arms of a match: where the pattern begins, its `=>`, and the end."""
    words, at, end = source.words, start + 1, source.shut[start]
    while at < end:
        arrow = next((i for i in level(source, at, end) if words[i] == "=>"), None)
        if arrow is None:
            return
        if words[arrow + 1] == "{":
            last = source.shut[arrow + 1] + 1
        else:
            last = next((i for i in level(source, arrow + 1, end) if words[i] == ","), end)
        yield at, arrow, last
        at = last + 1 if last < end and words[last] == "," else last


def level(source: Source, at: int, end: int) -> Iterator[int]:
    """The places from one to another that are in no bracket between them."""
    while at < end:
        yield at
        if at in source.shut:
            at = source.shut[at]
        elif source.words[at:at + 2] == ["::", "<"]:
            at = past_angles(source.words, at + 1) - 1
        at += 1


def past_angles(words: list[str], at: int) -> int:
    """Past the angle brackets that are opened here."""
    depth = 0
    while at < len(words):
        depth += (words[at] == "<") - (words[at] == ">")
        at += 1
        if depth == 0:
            break
    return at


def before_angles(words: list[str], at: int) -> int | None:
    """Where the angle is opened that is shut here, or nothing where none is."""
    depth = 0
    while at > 0 and words[at] not in (";", "{", "}"):
        depth += (words[at] == ">") - (words[at] == "<")
        if depth == 0:
            return at
        at -= 1
    return None


def owner_of(said: list[str]) -> str:
    """The type whose functions are in an `impl`, or the trait's name."""
    said = said[said.index("impl") + 1:] if "impl" in said else said[said.index("trait") + 1:]
    if said[:1] == ["<"]:
        said = said[past_angles(said, 0):]
    if "for" in said:
        said = said[said.index("for") + 1:]
    return next((word for word in said if word.isidentifier()), "")


def function(source: Source, at: int) -> str:
    """The function around a place."""
    words = source.words
    return next((words[i + 1] for i in range(at, -1, -1) if words[i] == "fn" and words[i + 1] != "("), "")


def compact(words: Iterable[str]) -> str:
    """Words as they are in a line."""
    said = ""
    for word in words:
        is_apart = said and (said[-1].isalnum() or said[-1] in "_,") and (word[0].isalnum() or word[0] == "_")
        said += f" {word}" if is_apart else word
    return said
