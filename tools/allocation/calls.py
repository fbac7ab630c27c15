"""The functions of a source, their calls, their loops, and the values to which their names are bound. All are found by the
words alone."""
from collections.abc import Iterator
from dataclasses import dataclass

from .sources import Source, Span, before_angles, head, level, owner_of, past_angles

# The types of which a range is one.
RANGES = {"Range", "RangeInclusive", "RangeFrom", "Iterator", "IntoIterator", "impl", "dyn"}

KEYWORDS = {"if", "while", "match", "return", "in", "for", "let", "move", "as", "else", "fn", "break", "loop"}
KEYWORDS |= {"Some", "Ok", "Err"}
# An operator: where it is, which it is, and how many words it has.
Operator = tuple[int, str, int]
# The operators, those that are done last before those that are done first.
RANKS = (("|",), ("^",), ("&",), ("<<", ">>"), ("+", "-"), ("*", "/", "%"))


@dataclass(eq=False)
class Function:
    """A function: the names of its parameters but `self`, and where its body begins and ends."""

    source: Source
    name: str
    owner: str
    is_method: bool
    parameters: list[str]
    start: int
    end: int
    hands_range: bool
    is_of_trait: bool

    @property
    def crate(self) -> str:
        """The crate in which it is."""
        return self.source.crate


@dataclass(eq=False)
class Call:
    """A call: what is before its name ('.', a type, a module or nothing), and where each argument begins and
    ends."""

    function: Function
    name: str
    before: str
    at: int
    arguments: list[Span]
    is_of_self: bool
    has_closure: bool


def functions_of(source: Source) -> Iterator[Function]:
    """The functions of a source that have a body."""
    words = source.words
    for at, word in enumerate(words):
        if word != "fn" or not words[at + 1].isidentifier():
            continue
        opened = at + 2 if words[at + 2] == "(" else past_angles(words, at + 2)
        shut = source.shut[opened]
        body = next((i for i in level(source, shut + 1, len(words)) if words[i] in ("{", ";")), None)
        if body is None or words[body] == ";":
            continue
        names = [parameter(words, *part) for part in parameters(source, opened + 1, shut)]
        is_method = names[:1] == ["self"]
        around = (head(source, start) for start in source.around(at))
        said = next((said for said in around if {"impl", "trait"} & set(said)), [])
        owner, is_of_trait = owner_of(said) if said else "", "for" in said or "trait" in said
        hands_range = bool(RANGES & set(words[shut:body]))
        own = names[is_method:]
        end = source.shut[body]
        yield Function(source, words[at + 1], owner, is_method, own, body, end, hands_range, is_of_trait)


def parameters(source: Source, start: int, end: int) -> Iterator[Span]:
    """The parameters between brackets: a comma in angle brackets ends none."""
    first, depth = start, 0
    for at in level(source, start, end):
        depth += (source.words[at] == "<") - (source.words[at] == ">")
        if source.words[at] == "," and depth == 0:
            yield first, at
            first = at + 1
    if first < end:
        yield first, end


def parameter(words: list[str], start: int, end: int) -> str:
    """The name of a parameter, or nothing where it is a pattern."""
    colon = words.index(":", start, end) if ":" in words[start:end] else end
    names = [word for word in words[start:colon] if word.isidentifier() and word != "mut"]
    return "self" if "self" in names else names[0] if len(names) == 1 else ""


def parts(source: Source, start: int, end: int, between: str = ",") -> Iterator[Span]:
    """The parts of a list: where each begins and ends."""
    first = start
    for at in level(source, start, end):
        if source.words[at] == between:
            yield first, at
            first = at + 1
    if first < end:
        yield first, end


def calls_in(function: Function) -> Iterator[Call]:
    """The calls in a function's body."""
    source, words = function.source, function.source.words
    for at in range(function.start, function.end):
        if words[at] != "(":
            continue
        name = at - 1
        if words[name] == ">" and (opened := before_angles(words, name)) is not None and words[opened - 1] == "::":
            name = opened - 2
        if words[name].isidentifier() and words[name] not in KEYWORDS:
            arguments = list(parts(source, at + 1, source.shut[at]))
            is_of_self = words[name - 2:name] == ["self", "."]
            has_closure = "|" in words[at:source.shut[at]]
            yield Call(function, words[name], before(words, name), at, arguments, is_of_self, has_closure)


def before(words: list[str], name: int) -> str:
    """What is before the name of a call: '.', or the last name of its path."""
    if words[name - 1] != "::":
        return "." if words[name - 1] == "." else ""
    at = name - 2
    if words[at] == ">" and (opened := before_angles(words, at)) is not None:
        at = opened - 1 - (words[opened - 1] == "::")
    return words[at]


def trimmed(source: Source, start: int, end: int) -> Span:
    """An expression without what is around it: brackets, `as`, `?`, `&`, `*`."""
    words = source.words
    while end - start > 1:
        if words[start] == "(" and source.shut[start] == end - 1 and not is_list(source, start):
            start, end = start + 1, end - 1
        elif words[end - 2] == "as":
            end -= 2
        elif words[end - 1] == "?":
            end -= 1
        elif words[start] in ("&", "*") and operator(source, start, end) is None:
            start += 1
        else:
            break
    return start, end


def is_list(source: Source, start: int) -> bool:
    """Whether the brackets that are opened here hold a tuple."""
    return any(source.words[at] == "," for at in level(source, start + 1, source.shut[start]))


def operator(source: Source, start: int, end: int) -> Operator | None:
    """The operator that is done last, where there is one."""
    words, found = source.words, []
    for at in level(source, start, end):
        last = words[at - 1]
        is_name = last.isidentifier() and last not in KEYWORDS
        is_behind = at > start and (is_name or last[0].isdigit() or last in (")", "]", "?"))
        if is_behind and words[at] in ("<", ">") and words[at + 1] == words[at]:
            found.append((at, words[at] * 2, 2))
        elif is_behind and words[at] in tuple("|^&+-*/%"):
            found.append((at, words[at], 1))
    ranked = ([one for one in found if one[1] in rank] for rank in RANKS)
    return next((rank[-1] for rank in ranked if rank), None)


def bound_to(function: Function, name: str) -> tuple[list[Span], bool]:
    """The expressions to which a name is bound in a function, and whether it is bound or changed otherwise."""
    source, words = function.source, function.source.words
    simple, is_otherwise = [], False
    for at in range(function.start, function.end):
        if words[at] == "let":
            equal = next(i for i in level(source, at, function.end) if words[i] in ("=", ";"))
            pattern = words[at + 1:equal]
            pattern = pattern[:pattern.index(":")] if ":" in pattern else pattern
            if [word for word in pattern if word != "mut"] == [name]:
                simple += [(equal + 1, end_of(source, equal, function.end))] if words[equal] == "=" else []
            else:
                is_otherwise |= name in pattern
        elif words[at] == "for":
            loop = for_loop(function, at)
            if loop and name in words[at + 1:loop[0]]:
                dots = [i for i in level(source, *loop) if words[i] in ("..", "..=")]
                is_otherwise |= words[at + 1:loop[0]] != [name] or not dots
                simple += [(dots[0] + 1, loop[1])] if dots else []
        elif words[at] == name and words[at - 1] not in (".", "::"):
            if words[at + 1] == "=":
                simple.append((at + 2, end_of(source, at, function.end)))
            is_otherwise |= words[at + 2:at + 3] == ["="] and words[at + 1] in tuple("+*|^")
            is_otherwise |= words[at + 1:at + 4] == ["<", "<", "="]
            is_otherwise |= words[at - 2:at] == ["&", "mut"]
        elif words[at] == "(" and words[source.shut[at] + 1:source.shut[at] + 2] == ["="]:
            is_otherwise |= name in words[at:source.shut[at]]
        is_otherwise |= words[at] == "|" and name in closure(words, at)
        is_otherwise |= words[at] == "=>" and name in pattern_of(function, at)
    return simple, is_otherwise


def end_of(source: Source, at: int, end: int) -> int:
    """Where the statement ends that is here."""
    return next((i for i in level(source, at, end) if source.words[i] == ";"), end)


def for_loop(function: Function, at: int) -> Span | None:
    """Where the `in` of a loop is, and where its body is opened, or nothing where `for` begins no loop."""
    words, source = function.source.words, function.source
    place = next((i for i in level(source, at, function.end) if words[i] in ("in", "{", ";")), None)
    if place is None or words[place] != "in":
        return None
    return place, next(i for i in level(source, place, function.end) if words[i] == "{")


def loops_in(function: Function) -> Iterator[tuple[int, int, int]]:
    """Where each loop begins, and where its body is opened and shut. A closure with a parameter counts as one, since a
    chain calls it each time."""
    source, words = function.source, function.source.words
    for at, word in words_of(function):
        if word in ("while", "loop") or word == "for" and for_loop(function, at):
            opened = next(i for i in level(source, at, function.end) if words[i] == "{")
            yield at, opened, source.shut[opened]
        elif word == "|" and words[at - 1] in ("(", ",", "=", "move") and words[at + 1] != "|":
            opened = next((i for i in range(at + 1, function.end) if words[i] in ("|", ";", "{")), at)
            shut = source.shut[source.around(at)[0]]
            yield at, opened, next((i for i in level(source, opened + 1, shut) if words[i] in (",", ";")), shut)


def closure(words: list[str], at: int) -> list[str]:
    """The words between the bars of a closure that begins here."""
    if words[at - 1] not in ("(", ",", "=", "move"):
        return []
    shut = next((i for i in range(at + 1, len(words)) if words[i] in ("|", ";", "{")), at)
    return words[at + 1:shut]


def pattern_of(function: Function, arrow: int) -> list[str]:
    """The words of the pattern before an arrow that are in brackets, where names are bound."""
    words, at, opens = function.source.words, arrow - 1, {shut: start for start, shut in function.source.shut.items()}
    said = []
    while words[at] not in (",", "{", ";") and words[at] != "=>":
        start = opens.get(at, at)
        said += words[start:at + 1]
        at = start - 1
    return said[:said.index("if")] if "if" in said else said


def lists_made(function: Function) -> Iterator[Span]:
    """The amount of each `vec![in alloc; value; amount]`."""
    source, words = function.source, function.source.words
    for at, word in words_of(function):
        if words[at:at + 3] == ["vec", "!", "["]:
            found = list(parts(source, at + 3, source.shut[at + 2], ";"))
            yield from found[2:3]


def words_of(function: Function) -> Iterator[tuple[int, str]]:
    """Where each word of a body is, and the word."""
    return ((at, function.source.words[at]) for at in range(function.start, function.end))
