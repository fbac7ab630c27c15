"""Which call may be one of which function of the tree, and in which functions something grows, by one or by more."""
import re
from copy import copy

from .calls import Call, Function, calls_in, end_of, functions_of, lists_made, loops_in, operator, trimmed, words_of
from .sources import Source, level

# The calls of the kit that take an amount, with the place of the amount. They are functions of a type, and methods.
MADE_WITH = {"with_capacity": 1, "with_capacity_and_hasher": 1, "from_elem": 2, "vacant": 2}
RESERVED_BY = ("reserve", "reserve_exact", "try_reserve", "try_reserve_exact")
GROWN_BY = {name: 0 for name in (*RESERVED_BY, "resize", "resize_with", "try_resize_with")}
AMOUNT_AT = MADE_WITH | GROWN_BY

# What grows by one, or by what is there.
BY_ONE = {"push", "push_str", "push_back", "push_front", "insert", "insert_mut", "shift_insert", "entry", "append"}
BY_ONE |= {"split_off", "clone", "extend", "extend_from_slice", "collect", "try_collect", "to_vec", "to_string"}
# What grows by more than one at once.
BY_MORE = set(AMOUNT_AT) | {"append", "extend", "extend_from_slice", "collect", "try_collect", "to_vec", "clone"}
GROWING_MACROS = {"vec", "format"}

KIT_NUMBERS = {"u8", "u16", "u32", "u64", "usize", "i64"}
CONSTANT = re.compile(r"[A-Z][A-Z0-9_]*")
NUMBER = re.compile(r"(0x[0-9a-fA-F_]+|0b[01_]+|[0-9][0-9_]*?)(?:_?[iu](?:8|16|32|64|128|size))?")


class CallsOfTree:
    """The functions of a tree's sources and their calls. `below` has the crates on which each crate depends.

    Functions are distinguished by their names, the types before them, how many arguments there are, and which crates a
    crate depends on. If this leaves several, a call may be any of these. A method with a name of the kit's is taken
    for the kit's."""

    def __init__(self, below: dict[str, set[str]]):
        self.below = below
        self.functions: list[Function] = []
        # the functions, the calls, and the expressions of constants, by name
        self.by_name: dict[str, list[Function]] = {}
        self.calls: dict[str, list[Call]] = {}
        self.constants: dict[str, list[tuple[Source, int, int]]] = {}
        # the functions in which something grows, and those in which it grows by more than one
        self.growing: set[Function] = set()
        self.growing_much: set[Function] = set()

    def copied(self) -> "CallsOfTree":
        """The same tree, to which sources may be added."""
        other = copy(self)
        other.functions = list(self.functions)
        other.growing, other.growing_much = set(self.growing), set(self.growing_much)
        other.by_name, other.calls, other.constants = (
            {name: list(listed) for name, listed in kept.items()} for kept in (self.by_name, self.calls, self.constants)
        )
        return other

    def take_in(self, sources: list[Source]) -> tuple[list[Function], list[Call]]:
        """Takes sources in, and answers their functions and calls."""
        fresh = [function for source in sources for function in functions_of(source)]
        calls = [call for function in fresh for call in calls_in(function)]
        for source in sources:
            self.note_constants(source)
        for function in fresh:
            self.by_name.setdefault(function.name, []).append(function)
        for call in calls:
            self.calls.setdefault(call.name, []).append(call)
        self.functions += fresh
        self.note_growing(fresh, calls)
        return fresh, calls

    def is_of(self, call: Call, function: Function) -> bool:
        """Whether a call may be one of this function."""
        is_seen = function.is_of_trait or function.crate in self.below[call.function.crate] | {call.function.crate}
        handed = len(function.parameters) + (function.is_method and call.before != ".")
        if not is_seen or len(call.arguments) != handed and not call.has_closure:
            return False
        named = self.by_name[function.name]
        if call.before == ".":
            is_near = call.is_of_self and any(one.owner == call.function.owner for one in named)
            return function.is_method and (not is_near or function.owner == call.function.owner)
        if call.before == "Self":
            return function.owner == call.function.owner
        if call.before == "" or call.before[0].islower():
            near = [one for one in named if not one.owner and one.crate == call.function.crate]
            return function in near if near else not function.owner
        # (a letter is a type that is a parameter)
        return function.owner == call.before or len(call.before) == 1

    def callees(self, call: Call) -> list[Function]:
        """The functions of which a call may be one."""
        return [function for function in self.by_name.get(call.name, []) if self.is_of(call, function)]

    def note_constants(self, source: Source) -> None:
        """Notes the expressions of a source's constants."""
        words = source.words
        for at, word in enumerate(words):
            if word in ("const", "static") and CONSTANT.fullmatch(words[at + 1]) and words[at + 2] == ":":
                end = end_of(source, at, len(words))
                equal = next((i for i in level(source, at, end) if words[i] == "="), end)
                self.constants.setdefault(words[at + 1], []).append((source, equal + 1, end))

    def note_growing(self, fresh: list[Function], calls: list[Call]) -> None:
        """Notes in which functions something grows, and in which by more than one. It grows by the kit, in a loop, or
        by a call of such a function."""
        grown = {call.function for call in calls if is_growth(call) or self.grown_by(call, self.growing)}
        grown |= {function for function in fresh if has_growing_macro(function)}
        self.spread(self.growing, grown)
        much = {call.function for call in calls if self.grows_much(call)}
        for function in fresh:
            if any(self.value(function.source, *part) is None for part in lists_made(function)):
                much.add(function)
        self.spread(self.growing_much, much)

    def spread(self, noted: set[Function], found: set[Function]) -> None:
        """Notes these functions, and those that call them."""
        waiting = list(found - noted)
        noted |= found
        while waiting:
            function = waiting.pop()
            for call in self.calls.get(function.name, []):
                if call.function not in noted and self.grown_by(call, {function}):
                    noted.add(call.function)
                    waiting.append(call.function)

    def grown_by(self, call: Call, functions: set[Function]) -> bool:
        """Whether a call is a call of these functions. A method with a name of the kit's is the kit's."""
        is_of_kit = call.before == "." and (call.name in BY_ONE or call.name in GROWN_BY and call.arguments)
        return not is_of_kit and any(function in functions for function in self.callees(call))

    def grows_much(self, call: Call) -> bool:
        """Whether a call makes its function one in which something grows by more than one."""
        if self.grown_by(call, self.growing_much) or (self.grows(call) and is_repeated(call)):
            return True
        if not is_growth(call) or call.name not in BY_MORE:
            return False
        at = self.amount_at(call)
        return at is None or self.value(call.function.source, *call.arguments[at]) is None

    def amount_at(self, call: Call) -> int | None:
        """Which argument of a call of the kit is an amount, or nothing."""
        if call.name not in AMOUNT_AT or not call.before or call.before[0].islower():
            return None
        at = AMOUNT_AT[call.name] + (call.before != "." and call.name in GROWN_BY)
        return at if at < len(call.arguments) else None

    def grows(self, call: Call) -> bool:
        """Whether something grows in a call."""
        return is_growth(call) or self.grown_by(call, self.growing)

    def value(self, source: Source, start: int, end: int) -> int | None:
        """The number that an expression of constants is, or nothing."""
        words = source.words
        start, end = trimmed(source, start, end)
        if (last := operator(source, start, end)) is not None:
            at, which, width = last
            left, right = self.value(source, start, at), self.value(source, at + width, end)
            return None if left is None or right is None else calculated(which, left, right)
        if end - start == 1 and words[start][0] == "'":
            return 0
        if end - start == 1 and (number := NUMBER.fullmatch(words[start])):
            return int(number[1].replace("_", ""), 0)
        if end > start and CONSTANT.fullmatch(words[end - 1]) and not KIT_NUMBERS & set(words[start:end]):
            named = self.constants.get(words[end - 1], [])
            near = [constant for constant in named if constant[0].crate == source.crate]
            values = [self.value(*constant) for constant in near or named]
            return None if None in values else max(values, default=None)
        return None


def has_growing_macro(function: Function) -> bool:
    """Whether a macro is called in a function by which something grows."""
    words = function.source.words
    return any(word in GROWING_MACROS and words[at + 1] == "!" for at, word in words_of(function))


def is_growth(call: Call) -> bool:
    """Whether a call is one of the kit's by which something grows."""
    if (call.before, call.name) == ("Box", "new"):
        return True
    is_own = call.name == "collect" and len(call.arguments) != 1
    return bool(call.before) and not is_own and (call.name in BY_ONE or call.name in AMOUNT_AT)


def is_repeated(call: Call) -> bool:
    """Whether a call is in a loop."""
    return any(opened < call.at < shut for _, opened, shut in loops_in(call.function))


def calculated(which: str, left: int, right: int) -> int:
    """What an operator makes of two numbers, or a number that is no less."""
    match which:
        case "+":
            return left + right
        case "-":
            return left - right
        case "*":
            return left * right
        case "<<":
            return left << min(right, 64)
        case ">>":
            return left >> right
        case "/" | "%":
            return left
        case _:
            return max(left, right)
