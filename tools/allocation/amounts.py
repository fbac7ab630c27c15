"""The amounts for which a growth is asked. A body may not ask for more than there is, so as to be refused. This module finds
such a body. tools/check_allocation runs it, and its head has the rule.

An amount is allowed if it is
  - a number or a constant of at most MOST
  - the length of a list that is there (LENGTHS), or one of the tree's own sizes (SIZES)
  - a parameter. Then each call of the function is asked for an amount there, in all crates
  - a local. Then it is the value to which the local is bound
  - a sum, a difference, a quotient, the least or the greatest of these, or one of two branches
Anything else is a fault. So a product, a shift, a field, the answer of a call and a name of a pattern are faults. Such an
amount may be in a named place (NAMED), word by word as it is there. An amount is asked for
  - by a growth of the kit that takes an amount (AMOUNT_AT), by `vec![in alloc; value; amount]`, and by an array's type or
    value
  - by the end of a range, because a loop or a chain over it may grow something each time
  - by a `while` that compares by `<`, if something grows in it and no `len()` does. The amount is the other side of `<`.
    Another `while` and a `loop` in which something grows are in a named place
So that nothing is multiplied, a growth in a loop asks for one. A function in which something grows by more than one is
called only from the places in allocation/repeated. There it takes a part of the value that the loop goes through, as an
entry's text or a row's edges. Or it gives back what it took. No loop in which something grows is in another such loop, and
a closure with a parameter counts as a loop. No list is asked for room by its own length. Functions that make elements of
nothing (MAKERS) aren't called, and no type is an iterator or an allocator. No function that takes an amount is handed on
as a value. A function in which something grows doesn't call itself.

The words of a call say which function it calls (growths.py). If they leave several functions, each of them is held. No
rule says how often a loop that is in NAMED goes round, and how much a call in allocation/repeated takes each time."""
import re
from copy import copy
from pathlib import Path

from .calls import Call, Function, Operator
from .calls import bound_to, calls_in, lists_made, loops_in, operator, parts, trimmed, words_of
from .growths import AMOUNT_AT, BY_MORE, BY_ONE, CONSTANT, KIT_NUMBERS, CallsOfTree, is_growth
from .places import NAMED, Place
from .sources import Source, Span, arms, compact, level

# A number up to this limit represents itself. The limit is a buffer of 64 KiB, and no more than a run can have.
MOST = 1 << 16

# Functions that make elements of nothing, and functions that ask for memory otherwise.
MAKERS = {"repeat", "repeat_n", "repeat_with", "from_fn", "successors", "cycle", "flat_map", "stack_size"}

# Calls that take a range and look at a list that is there.
OF_SLICES = {"range", "get", "get_mut", "drain", "copy_within"}

LENGTHS = {"len", "count"}
# The tree's own sizes, each proved by a clause, with the types that have them.
SIZES = {
    "made": {"Graph", "Picture", "Trial"},
    "cells": {"Spaces", "Spot"},
    "workers": {"Opening"},
    "number": {"Helpers", "Kept", "Mirror", "Mirrored"},
}


class Amounts:
    """The rule, over a tree. `found` has the faults. `repeated` has the file, the function and the call of each call
    that grows something by more than one in a loop. The calls in `may` may do so."""

    def __init__(self, sources: list[Source], below: dict[str, set[str]], may: set[Place]):
        self.tree, self.may = CallsOfTree(below), may
        self.repeated: set[Place] = set()
        # the parameters that are amounts, and those whose calls are still to be held
        self.amounts: set[tuple[Function, int]] = set()
        self.waiting: list[tuple[Function, int]] = []
        # the functions of one expression that are held as a call's answer, with their parameters that are amounts there
        self.answering: list[tuple[Function, set[int]]] = []
        self.found: list[str] = []
        self.met: set[Place] = set()
        self.add(sources)

    def with_source(self, source: Source) -> "Amounts":
        """The same tree with one source more, and only its faults."""
        other = copy(self)
        other.tree, other.found = self.tree.copied(), []
        other.amounts, other.met, other.repeated = set(self.amounts), set(self.met), set(self.repeated)
        other.add([source])
        return other

    def add(self, sources: list[Source]) -> None:
        """Takes sources in, and holds them to the rule."""
        fresh, calls = self.tree.take_in(sources)
        for source in sources:
            self.hold_arrays(source)
            self.hold_types(source)
            self.hold_texts(source)
        for call in calls:
            self.hold_call_of_kit(call)
            self.hold_recursion(call)
            taken = {(callee, i) for callee in self.tree.callees(call) for i in range(len(callee.parameters))}
            for callee, index in self.amounts & taken:
                self.hold_argument(call, callee, index)
        for function in fresh:
            self.hold_ranges(function)
            self.hold_loops(function)
            self.hold_method(function)
        self.follow()
        for function in fresh:
            self.hold_values(function)

    def follow(self) -> None:
        """Holds each call of a function whose parameter turned out to be an amount."""
        while self.waiting:
            function, index = self.waiting.pop()
            for call in self.tree.calls.get(function.name, []):
                if self.tree.is_of(call, function):
                    self.hold_argument(call, function, index)

    def fault(self, function: Function, start: int, end: int, what: str) -> None:
        """Notes a fault, unless its words are in a named place."""
        said = compact(function.source.words[start:end])
        place = (function.source.place, function.name, said)
        if place in NAMED:
            self.met.add(place)
        else:
            self.found.append(f"crates/{place[0]}:{function.source.lines[start]}: {what} {said}, in {place[1]}")

    def is_named(self, function: Function, start: int, end: int) -> bool:
        """Whether these words are in a named place."""
        place = (function.source.place, function.name, compact(function.source.words[start:end]))
        self.met |= {place} & set(NAMED)
        return place in NAMED

    def hold(self, function: Function, start: int, end: int, seen: tuple[str, ...] = ()) -> None:
        """Holds an expression to be an amount that is allowed."""
        source, words = function.source, function.source.words
        start, end = trimmed(source, start, end)
        if self.is_named(function, start, end):
            return
        value, last = self.tree.value(source, start, end), operator(source, start, end)
        if value is not None:
            if value > MOST:
                self.fault(function, start, end, "a number past any use is asked for:")
        elif words[start] in ("if", "{"):
            self.hold_branches(function, start, end, seen)
        elif words[start] == "match":
            opened = next(i for i in level(source, start, end) if words[i] == "{")
            for _, arrow, shut in arms(source, opened):
                self.hold(function, arrow + 1, shut, seen)
        elif last is not None:
            self.hold_parts(function, start, end, last, seen)
        elif end - start == 1 and words[start].isidentifier() and not CONSTANT.fullmatch(words[start]):
            self.hold_name(function, start, seen)
        elif words[end - 1] == ")":
            self.hold_call(function, start, end, seen)
        else:
            self.fault(function, start, end, "no length or number of what is there is asked for:")

    def hold_branches(self, function: Function, start: int, end: int, seen: tuple[str, ...]) -> None:
        """Holds the last expression of each branch of an `if`, or that of a block."""
        source, words = function.source, function.source.words
        while start < end:
            opened = next(i for i in level(source, start, end) if words[i] == "{")
            self.hold(function, *list(parts(source, opened + 1, source.shut[opened], ";"))[-1], seen)
            start = source.shut[opened] + 1
            start += start < end and words[start] == "else"

    def hold_parts(self, function: Function, start: int, end: int, last: Operator, seen: tuple[str, ...]) -> None:
        """Holds what is at an operator: of a difference and of a quotient what is before it."""
        at, which, width = last
        if which in ("*", "<<"):
            self.fault(function, start, end, "a product is asked for:")
            return
        self.hold(function, start, at, seen)
        if which in ("+", "|", "^"):
            self.hold(function, at + width, end, seen)

    def hold_name(self, function: Function, at: int, seen: tuple[str, ...]) -> None:
        """Keeps the value to which a name is bound. The value of a parameter is kept at each call."""
        name = function.source.words[at]
        simple, is_otherwise = bound_to(function, name)
        is_parameter = name in function.parameters
        if is_otherwise or name in seen or not (simple or is_parameter):
            self.fault(function, at, at + 1, "what is asked for can't be told:")
            return
        if is_parameter:
            self.need(function, function.parameters.index(name))
        for part in simple:
            self.hold(function, *part, (*seen, name))

    def need(self, function: Function, index: int) -> None:
        """Notes that a parameter is an amount."""
        answering = next((needed for one, needed in self.answering if one is function), None)
        if answering is not None:
            answering.add(index)
        elif (function, index) not in self.amounts:
            self.amounts.add((function, index))
            self.waiting.append((function, index))

    def hold_call(self, function: Function, start: int, end: int, seen: tuple[str, ...]) -> None:
        """Holds what a call answers."""
        source, words = function.source, function.source.words
        opened = next(i for i, shut in source.shut.items() if shut == end - 1)
        name, arguments = words[opened - 1], list(parts(source, opened + 1, end - 1))
        receiver = (start, opened - 2)
        if words[opened - 2] == "." and not arguments and (name in LENGTHS or name in SIZES):
            return
        if words[opened - 2] == "." and name in ("saturating_sub", "div_ceil"):
            self.hold(function, *receiver, seen)
        elif words[opened - 2] == "." and name in ("max", "saturating_add"):
            self.hold(function, *receiver, seen)
            self.hold(function, *arguments[0], seen)
        elif words[opened - 2] == "." and name == "min":
            self.hold_least(function, receiver, arguments[0], seen)
        elif words[opened - 2] == "::" and name == "from" and words[opened - 3] in KIT_NUMBERS:
            self.hold(function, *arguments[0], seen)
        elif (answer := self.answer(function, opened)) is not None:
            self.answering.append((answer[0], set()))
            self.hold(*answer)
            for index in self.answering.pop()[1]:
                self.hold(function, *arguments[index], seen)
        else:
            self.fault(function, start, end, "what a call answers is asked for:")

    def answer(self, function: Function, opened: int) -> tuple[Function, int, int] | None:
        """The expression that a call answers, where its function is one expression. Its parameters are held as this
        call's arguments."""
        named = [callee for call in calls_in(function) if call.at == opened for callee in self.tree.callees(call)]
        found = [(one, *part) for one in named for part in parts(one.source, one.start + 1, one.end, ";")]
        is_met = any(one in named for one, _ in self.answering)
        return found[0] if len(named) == len(found) == 1 and not is_met else None

    def hold_least(self, function: Function, one: Span, other: Span, seen: tuple[str, ...]) -> None:
        """Holds one of two to be allowed."""
        kept, told = self.found, []
        for part in (one, other):
            self.found = []
            self.hold(function, *part, seen)
            told.append(self.found)
        self.found = kept + (told[0] if all(told) else [])

    def hold_argument(self, call: Call, function: Function, index: int) -> None:
        """Holds what a call hands over for a parameter of the function."""
        at = index + (function.is_method and call.before != ".")
        if at < len(call.arguments):
            self.hold(call.function, *call.arguments[at])

    def hold_call_of_kit(self, call: Call) -> None:
        """Holds what a call of the kit asks for, if it is one that asks for an amount."""
        if call.name in MAKERS or (call.before, call.name) == (".", "allocate"):
            self.fault(call.function, call.at - 1, call.at, "what makes elements of nothing is called:")
        at = self.tree.amount_at(call)
        if at is not None:
            self.hold(call.function, *call.arguments[at])
            self.hold_other(call, at)

    def hold_other(self, call: Call, at: int) -> None:
        """No list is asked for room by its own length, which would double it."""
        words, first = call.function.source.words, call.at - 2
        while call.before == "." and (words[first - 1].isidentifier() or words[first - 1] == "."):
            first -= 1
        start, end = call.arguments[at]
        own = [*words[first:call.at - 2], ".", "len"]
        if call.before == "." and any(words[i:i + len(own)] == own for i in range(start, end)):
            self.fault(call.function, start, end, "a list is asked for room by its own length:")

    def hold_recursion(self, call: Call) -> None:
        """A function in which something grows doesn't call itself."""
        is_near = call.before != "." or call.is_of_self
        if is_near and call.function in self.tree.callees(call) and call.function in self.tree.growing:
            self.fault(call.function, call.at - 1, call.at, "a function in which something grows calls itself:")

    def hold_values(self, function: Function) -> None:
        """A function that takes an amount isn't handed on as a value."""
        words = function.source.words
        names = {taking.name for taking, _ in self.amounts}
        for at, word in words_of(function):
            is_path = words[at - 1] == "::" and words[at + 1] not in ("(", "::", "{")
            is_alone = words[at - 1] in ("(", ",") and words[at + 1] in (")", ",") and word not in function.parameters
            is_bound = is_alone and bound_to(function, word) != ([], False)
            if word in AMOUNT_AT and is_path or word in names and (is_path or is_alone and not is_bound):
                self.fault(function, at, at + 1, "a function that takes an amount is handed on:")

    def hold_arrays(self, source: Source) -> None:
        """The length of an array is a small number, also where it has no bytes."""
        for start, shut in source.shut.items():
            if source.words[start] != "[" or source.words[start - 1] == "!":
                continue
            found = list(parts(source, start + 1, shut, ";"))
            length = self.tree.value(source, *found[1]) if len(found) == 2 else 0
            if length is None or length > MOST:
                said = compact(source.words[start:shut + 1])
                self.found.append(f"crates/{source.place}:{source.lines[start]}: an array is past any use: {said}")

    def hold_types(self, source: Source) -> None:
        """No type of the tree is an iterator, whose elements could come from nowhere, nor an allocator, which could
        refuse."""
        for at, word in enumerate(source.words):
            if (word.endswith("Iterator") or word == "Allocator") and source.words[at + 1] == "for":
                where = f"crates/{source.place}:{source.lines[at]}"
                self.found.append(f"{where}: {source.words[at + 2]} is an iterator or an allocator")

    def hold_texts(self, source: Source) -> None:
        """What is written into a text has no width that is an argument, or that is long."""
        for at, word in enumerate(source.words):
            widths = re.findall(r"\{[^{}]*:[^{}]*?(\w*\$|\d+)", word) if word[0] == '"' else []
            if any("$" in width or int(width) > MOST for width in widths):
                self.found.append(f"crates/{source.place}:{source.lines[at]}: a text has a width: {word}")

    def hold_ranges(self, function: Function) -> None:
        """Holds the length of each list that is made, and where something grows or a range is handed out, the end of
        each range."""
        source, words = function.source, function.source.words
        for part in lists_made(function):
            self.hold(function, *part)
        if not (function in self.tree.growing or function.hands_range):
            return
        for at, word in words_of(function):
            if word not in ("..", "..=") or words[at - 1] in (",", "{"):
                continue
            opened = source.around(at)[0]
            if words[opened] == "[" or words[opened] == "(" and words[opened - 1] in OF_SLICES:
                continue
            shut = source.shut[opened]
            end = next((i for i in level(source, at + 1, shut) if words[i] in ("{", ",", ";", "=>")), shut)
            if end > at + 1:
                self.hold(function, at + 1, end)
            else:
                self.fault(function, at - 1, at + 1, "a range has no end:")

    def hold_loops(self, function: Function) -> None:
        """A loop in which something grows goes on no further than what is there, and grows it by one each time."""
        words, loops = function.source.words, list(loops_in(function))
        grown = [call for call in calls_in(function) if self.tree.grows(call)]
        for at, opened, shut in loops:
            inside = [call for call in grown if opened < call.at < shut]
            if inside and words[at] not in ("for", "|"):
                self.hold_condition(function, at, opened)
            if inside and any(outer < at < end for _, outer, end in loops):
                self.fault(function, at, opened, "something grows in a loop within a loop,")
            for call in inside:
                if call.name in BY_MORE and is_growth(call) or self.tree.grown_by(call, self.tree.growing_much):
                    self.hold_repeated(call)

    def hold_repeated(self, call: Call) -> None:
        """What grows by more than one in a loop is noted."""
        function = call.function
        self.repeated.add((function.source.place, function.name, call.name))
        if (function.source.place, function.name, call.name) not in self.may:
            where = f"crates/{function.source.place}:{function.source.lines[call.at]}"
            self.found.append(f"{where}: more than one is asked for in a loop: {call.name}, in {function.name}")

    def hold_condition(self, function: Function, at: int, opened: int) -> None:
        """Holds what a loop that isn't a `for` goes up to."""
        source, words = function.source, function.source.words
        less = next((i for i in level(source, at, opened) if words[i] == "<" and words[i + 1] not in ("<", "=")), None)
        is_sum = any(words[i] in ("&", "|") for i in level(source, at, opened))
        if less is None or is_sum or words[opened - 3:opened] == ["len", "(", ")"]:
            self.fault(function, at, opened, "something grows in")
        else:
            self.hold(function, less + 1, opened)

    def hold_method(self, function: Function) -> None:
        """A size of the tree is a size of a type that is known to have it. A call with the name of a growth of the kit
        by one grows by one."""
        head = (function.start - 1, function.start)
        is_size = function.is_method and not function.parameters
        if is_size and function.owner not in SIZES.get(function.name, {function.owner}):
            self.fault(function, *head, f"{function.owner} isn't known to have the size {function.name}:")
        if function.is_method and function.name in BY_ONE - BY_MORE and function in self.tree.growing_much:
            self.fault(function, *head, f"{function.name} grows something by more than one:")

    def unmet(self) -> list[str]:
        """The named places that aren't there."""
        gone = [*(named for named in NAMED if named not in self.met), *sorted(self.may - self.repeated)]
        return [f"crates/{place}: {name} has no more: {said}" for place, name, said in gone]


def read_repeated(path: Path) -> set[Place]:
    """The file, the function and the call of each line of allocation/repeated."""
    found: set[Place] = set()
    for line in path.read_text().splitlines():
        where, _, calls = line.partition(":")
        found |= {(*where.split(), call) for call in calls.split()}
    return found


def write_repeated(path: Path, repeated: set[Place]) -> None:
    """Writes these calls into the file, those of one function in a line."""
    calls: dict[str, list[str]] = {}
    for place, name, call in sorted(repeated):
        calls.setdefault(f"{place} {name}", []).append(call)
    path.write_text("".join(f"{where}: {' '.join(names)}\n" for where, names in calls.items()))
