"""plain.py: the plain rules over the text of a history. It writes a history of random deeds, and judges a text. It says which line of the
text is the first at fault, and why. The rules are the rules of the model in Python's package. They need no library for C."""
import random
import re
import sys
from pathlib import Path
from typing import List, Optional, Tuple

sys.path.append(str(Path(__file__).resolve().parents[3] / "bindings" / "python" / "kovshenul"))
from _rules import LETTERS, Denial, Full, Graph, Stored  # noqa: E402

MOST_SUBJECTS = 64
MOST_VERTICES = 2**48
MOST_BEFORE_REPLY = 256
LAWS = {"c": "cell", "s": "sum", "m": "max", "l": "log"}
VERSION = "kovshenul entries 1\n"
NUMBER = r"(?:0|[1-9][0-9]*)"
RIGHTS = "(?=[a-z])" + "".join(f"{letter}?" for letter in LETTERS)
VALUE = rf"[csm]{NUMBER}|l{NUMBER}(?::{NUMBER}(?:,{NUMBER})*)?"
DEEDS = {
    "take": rf"{NUMBER} {NUMBER} {RIGHTS}",
    "grant": rf"{NUMBER} {NUMBER} {RIGHTS}",
    "remove": rf"{NUMBER} {RIGHTS}",
    "read": NUMBER,
    "write": rf"{NUMBER} {NUMBER}",
    "append": rf"{NUMBER} {NUMBER}",
    "inspect": NUMBER,
    "list": "",
    "retire": "",
    "create": rf"{RIGHTS} (?:{VALUE})",
    "spawn": rf"{RIGHTS} (?:{VALUE})",
}


class Bad(Exception):
    """The first line at fault, by its number, and the message of tgaudit on it."""

    def __init__(self, line: int, why: str):
        super().__init__(f"line {line}: {why}")


def in_order(letters) -> str:
    return "".join(letter for letter in LETTERS if letter in letters)


def letters_of(rights: int) -> str:
    return "".join(letter for bit, letter in enumerate(LETTERS) if rights >> bit & 1)


def rights_of(letters: str) -> int:
    return sum(1 << LETTERS.index(letter) for letter in letters)


def are_numbers(words) -> bool:
    return all(int(word) < 2**64 for word in words)


def text_of(value: Stored) -> str:
    numbers = ",".join(map(str, value.state))
    return f"l{value.most}" + (f":{numbers}" if numbers else "") if value.law == "log" else value.law[0] + numbers


def read_value(text: str) -> Optional[Stored]:
    if not re.fullmatch(VALUE, text):
        return None
    most, _, logged = text[1:].partition(":")
    numbers = [int(it) for it in (logged.split(",") if logged else [])] if text[0] == "l" else [int(most)]
    most = int(most) if text[0] == "l" else 0
    return Stored(LAWS[text[0]], tuple(numbers), most) if are_numbers(numbers) and most < 2**32 else None


def denial_of(why: Denial) -> str:
    if why.edge is None:
        return f"denied {why.rule} {'law' if why.cause == 'not log' else 'distinct'}"
    return f"denied {why.rule} {why.edge[0]}->{why.edge[1]} {letters_of(why.rights)}"


def answer(graph: Graph, x: int, rule: str, words: List[str]) -> str:
    """The answer of the rules. The graph becomes the next one."""
    asked = [int(it) if it.isdigit() else read_value(it) or rights_of(it) for it in words]
    try:
        answered = getattr(graph, rule)(x, *asked)
    except Denial as why:
        return denial_of(why)
    except Full as full:
        return f"refused {full.limit}"
    if rule in ("list", "inspect"):
        answered = [f"{y}:{letters_of(rights)}" for y, rights in answered]
    elif answered is None or isinstance(answered, int):
        answered = [] if answered is None else [answered]
    return " ".join(["ok", *map(str, answered)])


def read_deed(text: str) -> Optional[Tuple[int, str, List[str]]]:
    words = text.split(" ")
    if len(text) > MOST_BEFORE_REPLY or len(words) < 2 or not re.fullmatch(NUMBER, words[0]) or words[1] not in DEEDS:
        return None
    if not re.fullmatch(DEEDS[words[1]], " ".join(words[2:])) or not are_numbers(it for it in words if it.isdigit()):
        return None
    if words[1] in ("create", "spawn") and read_value(words[3]) is None:
        return None
    return int(words[0]), words[1], words[2:]


class Audit:
    """The text of a history, line by line."""

    def __init__(self):
        self.number, self.count, self.workers, self.limit = 0, 0, None, 0
        self.values: List[Stored] = []
        self.edges: List[Tuple[int, int, str]] = []
        self.graph: Optional[Graph] = None
        self.ended = False

    def bad(self, why: str = "bad line") -> Bad:
        return Bad(self.number, why)

    def line(self, line: str) -> None:
        self.number += 1
        if not line.endswith("\n"):
            raise self.bad("the end is cut off")
        if self.number == 1:
            if line != VERSION:
                raise self.bad("not 'kovshenul entries 1' or 'kovshenul picture 1', the forms that are read")
        elif self.number == 2:
            self.limits(line[:-1])
        elif self.graph is None and line.startswith(("worker ", "edge ")):
            self.opening(line[:-1])
        else:
            self.entry(line[:-1])

    def limits(self, text: str) -> None:
        said = re.fullmatch(rf"opening ({NUMBER}) ({NUMBER})", text)
        if not said or not 1 <= int(said[1]) <= MOST_SUBJECTS or not int(said[1]) <= int(said[2]) <= MOST_VERTICES:
            raise self.bad()
        self.workers, self.limit = int(said[1]), int(said[2])

    def opening(self, text: str) -> None:
        word, _, rest = text.partition(" ")
        value = read_value(rest) if word == "worker" else None
        edge = re.fullmatch(rf"({NUMBER}) ({NUMBER}) ({RIGHTS})", rest) if word == "edge" else None
        if value and value.fits() and not self.edges and len(self.values) < self.workers:
            self.values.append(value)
        elif edge and len(self.values) == self.workers and int(edge[1]) != int(edge[2]) and max(int(edge[1]), int(edge[2])) < self.workers:
            self.edges.append((int(edge[1]), int(edge[2]), edge[3]))
        else:
            raise self.bad()

    def open(self) -> None:
        if len(self.values) != self.workers:
            raise self.bad()
        self.graph = Graph(self.values, [(x, y, rights_of(rights)) for x, y, rights in self.edges], self.limit)

    def entry(self, text: str) -> None:
        if self.graph is None:
            self.open()
        self.ended = False
        if text == f"entries {self.count}":
            self.ended = True
            return
        before, answered, reply = text.partition(" = ")
        deed = read_deed(before)
        if not answered or deed is None:
            raise self.bad()
        x, rule, words = deed
        if x not in self.graph.subjects or rule in ("create", "spawn") and not read_value(words[1]).fits():
            raise self.bad(f"bad entry {self.count}")
        if answer(self.graph, x, rule, words) != reply:
            raise self.bad(f"bad entry {self.count}")
        self.count += 1

    def end(self) -> None:
        if not self.ended:
            self.number += 1
            raise self.bad("the end is cut off")


def judge(text: str) -> str:
    """The message that tgaudit has to print on the text."""
    audit = Audit()
    try:
        for line in re.findall(r"[^\n]*\n|[^\n]+", text):
            audit.line(line)
        audit.end()
    except Bad as bad:
        return f"tgaudit: {bad}\n"
    return f"audit ok, {audit.count} entries\n"


def rights_at_random(draw: random.Random) -> str:
    return in_order(draw.sample(LETTERS, draw.randint(1, 4)))


def value_at_random(draw: random.Random) -> str:
    law = LAWS[draw.choice("csml")]
    number = draw.choice([0, 1, 7, 2**64 - 1])
    most = draw.randint(1, 4)
    return text_of(Stored(law, tuple(draw.randint(0, 9) for _ in range(draw.randint(0, most))) if law == "log" else (number,), most))


def deed_at_random(draw: random.Random, graph: Graph) -> Tuple[int, str, List[str]]:
    x = draw.choice(graph.subjects)
    near = [y for y, held in graph.rows.get(x, {}).items() if held] or [0]
    y = draw.choice(near) if draw.random() < 0.8 else draw.randint(0, graph.made + 1)
    z = draw.choice(near) if draw.random() < 0.7 else draw.choice(list(graph.rows.get(y, {0: 0})) or [0])
    rights = draw.choice([letters_of(graph.label(x, y)) or "r", draw.choice(LETTERS), rights_at_random(draw)])
    rule = draw.choice(["create", "create", "spawn", "take", "take", "grant", "grant", "remove", "read", "read", "write", "append", "inspect", "list"])
    if draw.random() < 0.02 and len(graph.subjects) > 1:
        rule = "retire"
    words = {
        "create": [draw.choice(["rwtgal", rights_at_random(draw)]), value_at_random(draw)],
        "spawn": [draw.choice(["rwtgal", rights_at_random(draw)]), value_at_random(draw)],
        "take": [str(y), str(z), rights],
        "grant": [str(y), str(z), rights],
        "remove": [str(y), rights],
        "write": [str(y), str(draw.choice([0, 3, 2**64 - 1]))],
        "append": [str(y), str(draw.randint(0, 9))],
    }
    return x, rule, words.get(rule, [] if rule in ("list", "retire") else [str(y)])


def history_at_random(draw: random.Random, entries: int) -> str:
    """The text of a random legal history. Some have count lines between their entries."""
    workers = draw.randint(1, 4)
    limit = draw.choice([workers + draw.randint(0, entries), 1_000_000, MOST_VERTICES])
    values = [value_at_random(draw) for _ in range(workers)]
    edges = [(x, y, rights_at_random(draw)) for x in range(workers) for y in range(workers) if x != y and draw.random() < 0.5]
    graph = Graph([read_value(it) for it in values], [(x, y, rights_of(rights)) for x, y, rights in edges], limit)
    text = [VERSION, f"opening {workers} {limit}\n", *(f"worker {it}\n" for it in values), *(f"edge {x} {y} {rights}\n" for x, y, rights in edges)]
    counted = draw.choice([0, 0, 0.2])
    for number in range(entries):
        while draw.random() < counted:
            text.append(f"entries {number}\n")
        x, rule, words = deed_at_random(draw, graph)
        text.append(" ".join([str(x), rule, *words, "=", answer(graph, x, rule, words)]) + "\n")
    return "".join([*text, f"entries {entries}\n"])
