"""Where a source reports that memory or a thread is lacking, and whether it may. tools/check_allocation runs this, and
its head says the rule. Only the words are looked at."""
from collections.abc import Iterator

from .places import HANDED_ALONE, NOTED, NOTED_OTHERWISE, PINNED, PLACES
from .sources import Source, Span, arms, compact, function, head, level, owner_of, past_angles, start_of_path

# The errors of the kit, the variants, and the refusals that hand something back for lack of memory alone.
KIT = {"AllocError", "AllocFailed"}
VARIANTS = {"OutOfMemory", "NoThread"}
OF_TYPES = {"Memory": {"Refusal"}, "Threads": {"Refusal"}, "Failed": {"Put", "Next"}}
HANDED_BACK = {"DraftRefused", "InsertRefused", "SharedRefused"}
TEXTS = {"out of memory": "OutOfMemory", "no thread": "NoThread"}

# The calls of the kit that fail for lack of memory alone.
GROWTHS = {"Vec::with_capacity", "BufReader::with_capacity", "BufWriter::with_capacity"}
GROWTHS |= {".push", ".push_str", ".insert", ".reserve", ".extend_from_slice", ".split_off", ".collect"}


def names_want(source: Source, at: int) -> bool:
    """Whether a variant for lack of memory is here, with the type before it or imported."""
    word = source.words[at]
    return word in VARIANTS or source.words[at - 1] == "::" and source.words[at - 2] in OF_TYPES.get(word, set())


def is_matched(source: Source, at: int) -> bool:
    """Whether it is in a pattern: of an arm, of a `let`, of a `matches!`."""
    for start in source.around(at):
        if source.words[start] == "{" and "match" in head(source, start):
            arm = next((arm for arm in arms(source, start) if arm[0] <= at < arm[2]), None)
            if arm is not None:
                first, arrow, _ = arm
                return at < next((i for i in level(source, first, arrow) if source.words[i] == "if"), arrow)
        if source.words[start - 2:start] == ["matches", "!"]:
            return any(source.words[i] == "," for i in level(source, start + 1, at))
        if source.words[start] == "{" and not source.words[start - 1].isidentifier():
            break
    return is_let(source, at)


def is_let(source: Source, at: int) -> bool:
    """Whether it is in the pattern of a `let`."""
    opens = {shut: start for start, shut in source.shut.items()}
    while at > 0:
        at = opens.get(at - 1, at - 1)
        if source.words[at] in ("=", ";", "=>", "->", "return", "match", "if", "fn", "break", "else"):
            return False
        if source.words[at] == "let":
            return True
    return False


def is_compared(source: Source, at: int) -> bool:
    """Whether it is compared with something."""
    at = start_of_path(source.words, at)
    while source.words[at - 1] == "(" and source.words[at - 2].isidentifier():
        at = start_of_path(source.words, at - 2)
    return source.words[at - 1] in ("==", "!=")


def is_handed_on(source: Source, at: int) -> bool:
    """Whether it is in an arm for lack of memory."""
    for start in source.around(at):
        if source.words[start] == "{" and "match" in head(source, start) and (arm := arm_around(source, start, at)):
            wants = sum(names_want(source, i) for i in range(*arm))
            if wants > source.words[slice(*arm)].count("|"):
                return True
    return False


def arm_around(source: Source, start: int, at: int) -> Span | None:
    """Where the pattern of an arm begins and its `=>` is, of those of a match opened here, after which a place is,
    or None."""
    return next(((first, arrow) for first, arrow, last in arms(source, start) if arrow < at < last), None)


def is_converted(source: Source, at: int) -> bool:
    """Whether it is in a `From` of what is refused for lack of memory alone."""
    for start in source.around(at):
        said = head(source, start)
        if "impl" in said and "From" in said:
            return said[said.index("From") + 2] in KIT | HANDED_BACK
    return False


class Calls:
    """Which calls fail for lack of memory or of a thread alone, by what their signatures say."""

    def __init__(self, sources: list[Source]):
        # by the name of a function and its crate: the errors that it answers
        self.fails: dict[str, dict[str, set[str]]] = {}
        for source in sources:
            for at, word in enumerate(source.words):
                if word == "fn" and source.words[at + 1].isidentifier():
                    self.add(source, at)

    def add(self, source: Source, at: int) -> None:
        """Notes the error of a function: a method under its name, another function of a type under both names."""
        name, words = source.words[at + 1], source.words
        opened = next(i for i in range(at, len(words)) if words[i] == "(")
        told = words[source.shut[opened] + 1:source.shut[opened] + 40]
        is_method = "self" in words[opened + 1:opened + 6]
        heads = (head(source, start) for start in source.around(at))
        owner = next((owner_of(said) for said in heads if {"impl", "trait"} & set(said)), "")
        keys = [f".{name}"] if is_method else []
        keys.append(f"{owner}::{name}" if owner else name)
        error, crate = error_of(told), source.place.split("/")[0]
        for key in keys if error else []:
            self.fails.setdefault(key, {}).setdefault(crate, set()).add(error)

    def only_want(self, source: Source, key: str) -> bool:
        """Whether each function of this name fails for lack of memory alone. They are the functions of the crate, or
        else of the tree and the kit."""
        of_tree = self.fails.get(key, {})
        errors = of_tree.get(source.place.split("/")[0]) or set().union(*of_tree.values())
        return errors <= KIT | HANDED_BACK and bool(errors or key in GROWTHS)


def error_of(told: list[str]) -> str:
    """The name of the error of a function with this type of result."""
    if told[:3] != ["->", "Result", "<"]:
        return ""
    inside, depth, last = told[3:past_angles(told, 2) - 1], 0, 0
    for i, word in enumerate(inside):
        depth += (word in "<([") - (word in ">)]")
        last = i + 1 if word == "," and depth == 0 else last
    return next((word for word in inside[last:] if word.isidentifier()), "")


def call_before(source: Source, start: int, end: int) -> str:
    """The last call of an expression, as `.name`, `Type::name` or `name`. `.ok()` hands on the call before it."""
    words, key = source.words, ""
    for at in level(source, start, end):
        if words[at] != "(" or at == start:
            continue
        name = at - 1
        if words[name] == ">" and "::" in words[start:name]:
            name = max(i for i in range(start, name) if words[i] == "::" and words[i + 1] == "<") - 1
        if words[name] in ("ok", "is_err") and words[name - 1] == ".":
            continue
        if words[name - 1] == "." and words[name].isidentifier():
            key = f".{words[name]}"
        elif words[name - 1] == "::":
            before = name - 2
            if words[before] == ">":
                before = max(i for i in range(start, before) if words[i] == "<") - 1
                before -= words[before] == "::"
            key = f"{words[before]}::{words[name]}"
        elif words[name].isidentifier():
            key = words[name]
    return key


def refused_call(source: Source, at: int) -> str:
    """The call in whose error arm a place is, or nothing. The arm comes after `else` of a `let`, or of `is_err()`, or
    is an arm `Err(..)`."""
    words = source.words
    for start in source.around(at):
        if words[start] != "{":
            continue
        if words[start - 1] == "else" and (let := start_of_let(source, start)) is not None:
            return call_before(source, let, start - 1)
        said = head(source, start)
        if said[-2:] == ["is_err", "("] and said[0] == "if" and "|" not in said:
            first = max(i for i in range(start) if words[i] == "if")
            return call_before(source, first + 1, start)
        if "match" in said and (call := matched_call(source, start, at)) is not None:
            return call
        if "fn" in said:
            break
    return ""


def matched_call(source: Source, start: int, at: int) -> str | None:
    """The call of the match whose arms are opened here, if a place is in the arm of any of its errors. It is nothing,
    '', if the place is in another arm, and None if it is in no arm."""
    words = source.words
    arm = arm_around(source, start, at)
    if arm is None:
        return None
    said = words[slice(*arm)]
    is_of_any = said[:2] == ["Err", "("] and said[2].isidentifier() and said[3] == ")"
    if not is_of_any or {"|", "if"} & set(said):
        return ""
    first = max(i for i in range(start) if words[i] == "match" and opened_behind(source, i) == start)
    return call_before(source, first + 1, start)


def opened_behind(source: Source, at: int) -> int:
    """Where the block is opened of the word that is here."""
    return next(i for i in level(source, at + 1, len(source.words)) if source.words[i] == "{")


def start_of_let(source: Source, at: int) -> int | None:
    """Where the expression of a `let .. else` begins whose block is opened here."""
    opens, place = {shut: start for start, shut in source.shut.items()}, at - 1
    while place > 0:
        place = opens.get(place - 1, place - 1)
        if source.words[place] == "=":
            return place + 1
        if source.words[place] in (";", "{", "}", "=>"):
            return None
    return None


def is_declared(source: Source, at: int) -> bool:
    """Whether it is declared here, as a variant."""
    return any("enum" in head(source, start) for start in source.around(at)[:1])


def is_type(source: Source, at: int) -> bool:
    """Whether the kit's error is here as a type, or as the path of its own `from`."""
    words = source.words
    before, behind = words[at - 1], words[at + 1]
    if words[at] == "AllocFailed" and behind == "<":
        behind = words[past_angles(words, at + 1)]
        return behind != "{" or before == "for"
    in_from = before == ":" and words[at - 5:at - 2] == ["fn", "from", "("]
    return behind == ">" or before == "]" or in_from or words[at + 1:at + 3] == ["::", "from"]


def imports(source: Source) -> Iterator[Span]:
    """Where each `use` begins and ends."""
    for at, word in enumerate(source.words):
        if word == "use":
            yield at, source.words.index(";", at)


def written(source: Source, calls: Calls) -> Iterator[tuple[int, str]]:
    """Each place at which a lack of memory is reported, and the fault there."""
    in_use = {}
    for start, end in imports(source):
        in_use.update({at: end for at in range(start, end)})
    for at, word in enumerate(source.words):
        is_variant = names_want(source, at) or source.words[at:at + 4] == HANDED_ALONE.get(source.place)
        if not is_variant and word not in KIT | HANDED_BACK:
            continue
        if at in in_use:
            if is_variant or source.words[at + 1] == "as":
                yield at, f"{word} is imported, or has another name"
        elif word in HANDED_BACK and (source.words[at + 1] != "{" or source.words[at - 1] in ("struct", "for")):
            continue
        elif word in KIT and is_type(source, at):
            continue
        elif not any(fits(source, at) for fits in (is_matched, is_compared, is_handed_on, is_converted, is_declared)):
            if not calls.only_want(source, refused_call(source, at)):
                yield at, f"{word} is written"


def named_otherwise(source: Source) -> Iterator[tuple[int, str]]:
    """The variants with the text of a lack of memory under another name."""
    for at, word in enumerate(source.words):
        name = TEXTS.get(word.strip('"')) if word.startswith('"') else None
        if name and source.words[at - 2:at] == ["error", "("] and source.words[at + 3] != name:
            yield at, f"{source.words[at + 3]} has the text of {name}"


def condition(source: Source, at: int) -> str:
    """The words under which a place is, up to the brace of its block. For a `let .. else` they are its call. For a
    `match` they are its call and the patterns up to the pattern of the arm."""
    words = source.words
    opened = next(start for start in source.around(at) if words[start] == "{" and words[start - 1] != "=>")
    if words[opened - 1] == "else":
        start = start_of_let(source, opened)
        return compact(words[start:words.index("(", start)])
    start = max(i for i in range(opened) if words[i] in ("if", "match", "fn"))
    if words[start] != "match":
        return compact(words[start:opened])
    patterns = [compact(words[first:arrow]) for first, arrow, _ in arms(source, opened) if first < at]
    return " ".join([compact(words[start:min(opened, words.index("(", start))]), *patterns])


def noted(source: Source, calls: Calls) -> Iterator[tuple[int, str]]:
    """Each place where a refused growth is noted, and what is noted there but no growth was refused."""
    words = source.words
    for at, word in enumerate(words):
        is_made = word in NOTED and words[at - 1] in (".", "{", ",")
        if not is_made or words[at + 1:at + 3] != ["|", "="] and words[at + 1] not in ("=", ":"):
            continue
        first = at + 2 + (words[at + 1] == "|")
        end = next(i for i in level(source, first, len(words)) if words[i] in (";", ",", "}"))
        said = compact(words[first:end])
        call = refused_call(source, at) if said == "true" else ""
        if said.endswith(".is_err()"):
            call = call_before(source, first, end)
        is_none = words[at + 1] == ":" and said in ("false", "bool")
        if not is_none and not calls.only_want(source, call) and (source.place, said) not in NOTED_OTHERWISE:
            yield at, f"{word} is made of {said}"


def pinned(source: Source) -> Iterator[str]:
    """What a named place rests on, and has other words."""
    for (place, name), said in PINNED.items():
        if place != source.place:
            continue
        words = source.words
        at = next((i for i, word in enumerate(words) if word == name and words[i - 1] in ("const", "fn")), None)
        start = None if at is None else next(i for i in level(source, at, len(words)) if words[i] in ("=", "{"))
        end = None if at is None else source.shut.get(start) or words.index(";", start)
        if at is None or compact(words[start + 1:end]) != said:
            yield f"crates/{place}: {name} isn't {said}, as PINNED says"


def faults(source: Source, calls: Calls) -> Iterator[str]:
    """The faults of a source, and the named places in which it reports a lack of memory under the words that are
    there."""
    left = {place: list(conditions) for place, (conditions, _) in PLACES.items() if place[0] == source.place}
    for at, what in [*written(source, calls), *named_otherwise(source), *noted(source, calls)]:
        place = (source.place, function(source, at))
        if what.endswith("is written") and left.get(place) and condition(source, at) in left[place]:
            left[place].remove(condition(source, at))
        else:
            yield f"crates/{source.place}:{source.lines[at]}: {what}, in {place[1]}"
    for place, conditions in left.items():
        for said in conditions:
            yield f"crates/{place[0]}: {place[1]} writes no want under {said}, which stands in PLACES"
    yield from pinned(source)
