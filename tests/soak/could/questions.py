#!/usr/bin/env python3
"""Asks tgcould about random scripts, and holds its answers against a plain program: questions.py [SEED [SCRIPTS]]

A script has 2 to 4 workers and up to 14 lines. Some twenty questions are asked of the graph that it leaves, with random silent
subjects, and edges that are only supposed. Up to 130 names are left, and some questions are about names that aren't made yet. The
plain program makes objects and a subject for each subject that acts. Then it does all takes and grants to the end, by the rules
written out here. Whoever holds a right then could hold it, and nobody else ever does. Each witness is run after its script by these
rules, and by tgstore, which has to list the right if x is an active subject. A witness may need more names only if names are short.
The answers about the history that tgstore writes of the script have to be the answers about the script, but for the lines of a
witness. Other lines may need another number of names more, or none. The programs are the programs that 'rt run' built."""

import argparse
import random
import subprocess
import sys
from collections import Counter
from pathlib import Path

sys.dont_write_bytecode = True
sys.path.insert(0, str(Path(__file__).resolve().parents[3] / "tools"))
from repository.tree import Tree

TGCOULD, TGSTORE = (Tree().program(name) for name in ("tgcould", "tgstore"))
LETTERS = "rwtgaluv"
MOST_SUBJECTS = 64


class Graph:
    """A protection graph, by the rules alone: for each pair the letters that the one holds over the other."""

    def __init__(self, workers, limit):
        self.subjects, self.made, self.limit, self.labels = set(range(workers)), workers, limit, {}

    def copy(self):
        other = Graph(0, self.limit)
        other.subjects, other.made, other.labels = set(self.subjects), self.made, dict(self.labels)
        return other

    def label(self, x, y):
        return self.labels.get((x, y), frozenset())

    def add(self, x, y, rights):
        self.labels[x, y] = self.label(x, y) | set(rights)

    def make(self, x, rights, is_subject):
        name = self.made
        self.made += 1
        self.add(x, name, rights)
        if is_subject:
            self.subjects.add(name)
        return name

    def run(self, line):
        """Runs a line. Whether it was served."""
        words = line.split(" ")
        if words[0] == "edge":
            self.add(int(words[1]), int(words[2]), words[3])
            return True
        x, deed = int(words[0]), words[1]
        if x not in self.subjects:
            return False
        if deed in ("create", "spawn"):
            if self.made >= self.limit or deed == "spawn" and len(self.subjects) >= MOST_SUBJECTS:
                return False
            self.make(x, words[2], deed == "spawn")
        elif deed == "retire":
            self.subjects.remove(x)
        elif deed == "remove":
            y, rights = int(words[2]), set(words[3])
            if x == y or not rights <= self.label(x, y):
                return False
            self.labels[x, y] = self.label(x, y) - rights
        else:
            via, target, rights = int(words[2]), int(words[3]), set(words[4])
            giver, taker = (via, x) if deed == "take" else (x, via)
            needed = "t" if deed == "take" else "g"
            if len({x, via, target}) < 3 or needed not in self.label(x, via) or not rights <= self.label(giver, target):
                return False
            self.add(taker, target, rights)
        return True

    def closed(self, silent):
        """The graph after all takes and grants of the subjects that act, with one object of each, and another object of each. `made`
        is the number of the first graph."""
        graph = self.copy()
        actors, objects, others = self.subjects - silent, [], []
        moving = set(actors)
        for p in sorted(actors):
            objects.append(graph.make(p, LETTERS, False))
            others.append(graph.make(p, LETTERS, False))
            graph.make(p, LETTERS, False)
            spawned = graph.make(p, LETTERS, True)
            moving.add(spawned)
            graph.make(spawned, LETTERS, False)
            graph.make(spawned, LETTERS, False)
        rows = {x: {} for x in range(graph.made)}
        for (x, y), rights in graph.labels.items():
            if rights:
                rows[x][y] = set(rights)
        while move_all(rows, moving):
            pass
        return rows, objects, others


def move_all(rows, moving):
    """All takes and grants once. Whether a right came."""
    changed = False
    for x in moving:
        for y, rights in list(rows[x].items()):
            pairs = [(y, x)] * ("t" in rights) + [(x, y)] * ("g" in rights)
            for giver, taker in pairs:
                for z, more in list(rows[giver].items()):
                    if z != taker and not more <= rows[taker].get(z, set()):
                        rows[taker][z] = rows[taker].get(z, set()) | more
                        changed = True
    return changed


def could(graph, closed, x, right, y):
    rows, objects, others = closed
    if x == y or max(x, y) >= graph.limit:
        return False
    holders = [x]
    if x >= graph.made:
        holders = others if y >= graph.made else objects
    targets = objects if y >= graph.made else [y]
    return any(right in rows[v].get(z, ()) for v in holders for z in targets)


def random_rights(rnd):
    letters = [c for c in "rtg" if rnd.random() < 0.5] or [rnd.choice("rtgw")]
    return "".join(c for c in LETTERS if c in letters)


def random_script(rnd):
    """The lines that are served, the number of workers, and the graph that they leave."""
    workers = rnd.randint(2, 4)
    graph, lines = Graph(workers, 1_000_000), []
    for _ in range(rnd.randint(0, 4)):
        x, y = rnd.sample(range(workers), 2)
        lines.append(f"edge {x} {y} {random_rights(rnd)}")
    for line in lines:
        graph.run(line)
    for _ in range(rnd.randint(0, 10) * 8):
        if len(lines) > 13:
            break
        x, a, b = (rnd.randrange(graph.made) for _ in range(3))
        rights = random_rights(rnd)
        line = rnd.choice([f"{x} create {rights}", f"{x} take {a} {b} {rights}", f"{x} grant {a} {b} {rights}", f"{x} remove {a} {rights}"] * 4 + [
            f"{x} spawn {rights}", f"{x} retire"])
        if graph.run(line):
            lines.append(line)
    return lines, workers, graph


def random_questions(rnd, graph):
    names = [str(name) for name in range(graph.made)]
    asked = [f"{rnd.choice(names)} {rnd.choice('rtgw')} {rnd.choice(names)}" for _ in range(9)]
    asked += [f"new {rnd.choice('rtg')} {rnd.choice(names)}", f"{rnd.choice(names)} {rnd.choice('rv')} new", f"{rnd.choice(names)} r {graph.made}"]
    asked += [f"* {rnd.choice('rt')} {rnd.choice(names)}", f"{rnd.choice(names)} * *", "* r new", "new * *"]
    next_names = graph.made + rnd.randrange(3)
    asked += [f"* {rnd.choice('rtw')} {next_names}", f"{next_names} * *"]
    later = [str(name) for name in range(graph.made, graph.limit + 1)]
    asked += [f"{rnd.choice(later)} {rnd.choice('rtg')} {rnd.choice(names)}" for _ in range(3)]
    asked += [f"{rnd.choice(names)} {rnd.choice('rtg')} {rnd.choice(later)}", f"{rnd.choice(later)} r {rnd.choice(later)}"]
    asked += [f"{later[max(0, len(later) - 2)]} {rnd.choice('rtg')} {rnd.choice(names)}"]
    return asked


def is_short(graph, x, y):
    """Whether the answer to a question may need more names. Then y was made, and fewer than 64 names are left, or 64 with x."""
    left = graph.limit - graph.made
    return y < graph.made and (left < 64 or graph.made <= x < graph.limit and left < 65)


def without_names(word):
    """The word of an answer without the number of names more that its lines need. The graph doesn't decide this number. The entries
    of a history are read from the last to the first, so its edges are found in another order than those of the script."""
    return "could" if word.startswith("could, with ") else word


class Checker:
    """One script with its questions."""

    def __init__(self, rnd):
        self.lines, self.workers, self.graph = random_script(rnd)
        self.graph.limit = self.graph.made + rnd.choice([0, 1, 2, 3, 5, 9, 63, 64, 65, 66, 70, 130])
        self.silent = {x for x in range(self.graph.made) if rnd.random() < 0.15}
        self.supposed = []
        for _ in range(rnd.choice([0, 0, 0, 1, 2])):
            x, y = rnd.sample(range(self.graph.made), 2)
            self.supposed.append(f"{x} {y} {random_rights(rnd)}")
        self.behind = self.graph.copy()
        for edge in self.supposed:
            self.behind.run(f"edge {edge}")
        self.asked = random_questions(rnd, self.graph)
        self.closed = self.behind.closed(self.silent)
        self.boxes = sum(line.split(" ")[1] in ("create", "spawn") for line in self.lines)

    def words(self, program, limit, boxes):
        words = [program, "--workers", str(self.workers), "--vertices", str(limit)]
        return words + (["--stock", f"c{boxes}"] if boxes else [])

    def answers(self):
        """Each answer, with its question, its word, and the lines after it."""
        asked = [word for name in sorted(self.silent) for word in ("--silent", str(name))]
        asked += [word for edge in self.supposed for word in ("--as-if", edge)] + [word for text in self.asked for word in ("--ask", text)]
        words = self.words(TGCOULD, self.graph.limit, self.boxes) + asked
        ran = subprocess.run(words, input=self.text([]), capture_output=True, text=True, check=False)
        assert ran.returncode == 0, (words, ran.stderr, self.text([]))
        answers = self.parts(ran.stdout)
        self.check_history(asked, answers)
        return answers

    def parts(self, output):
        """Each answer of an output, with its question, its word, and the lines after it."""
        parts = []
        for text, answer in zip(self.asked, output.split("\n\n"), strict=False):
            head, _, rest = answer.partition("\n")
            assert head.startswith(text + ": "), (head, text)
            parts.append((text, head[len(text) + 2:], rest.splitlines()))
        return parts

    def check_history(self, asked, answers):
        """Asks the same about the history that tgstore writes of the script. Each answer has the same word, but for the number of
        names more. An answer with other lines or another number has to give the right too."""
        words = [*self.words(TGSTORE, self.graph.limit, self.boxes), "--entries"]
        history = subprocess.run(words, input=self.text([]), capture_output=True, text=True, check=True).stdout
        words = self.words(TGCOULD, self.graph.limit, 0) + asked
        ran = subprocess.run(words, input=history, capture_output=True, text=True, check=False)
        assert ran.returncode == 0, (words, ran.stderr, history)
        for (text, word, lines), (_, other, others) in zip(answers, self.parts(ran.stdout), strict=True):
            assert without_names(other) == without_names(word), (text, word, other, words, history)
            if (other, others) != (word, lines):
                self.check_one(text, other, others, Counter())

    def text(self, more):
        return "".join(line + "\n" for line in [*self.lines, *more])

    def name(self, word):
        return self.graph.made if word == "new" else int(word)

    def holds(self, x, right, y):
        return could(self.behind, self.closed, x, right, y)

    def check(self, count):
        told = 0
        for text, word, lines in self.answers():
            told += 1
            x, right, y = text.split(" ")
            if x == "*":
                self.check_who(word, right, self.name(y))
            elif right == "*":
                self.check_what(word, self.name(x))
            else:
                self.check_one(text, word, lines, count)
            count["questions"] += 1
        assert told == len(self.asked), (told, self.asked)

    def listed(self, asked):
        """The names that a star may represent, beside how each is written. They are the names that were made, and `new` for a name
        that is made later and isn't asked about."""
        made = self.graph.made
        return [*((name, str(name)) for name in range(made)), (made + 1 if asked == made else made, "new")]

    def check_who(self, word, right, y):
        want = " ".join(written for x, written in self.listed(y) if self.holds(x, right, y)) or "nobody"
        assert word == want, (word, want, y, self.text([]), self.silent, self.supposed, self.graph.limit)

    def check_what(self, word, x):
        parts = []
        for y, written in self.listed(x):
            rights = "".join(c for c in LETTERS if self.holds(x, c, y))
            if rights:
                parts.append(f"{written}:{rights}")
        want = " ".join(parts) or "nothing"
        assert word == want, (word, want, x, self.text([]), self.silent, self.supposed, self.graph.limit)

    def check_one(self, text, word, lines, count):
        x, right, y = text.split(" ")
        x, y = self.name(x), self.name(y)
        here = (text, word, lines, self.text([]), self.silent, self.supposed, self.graph.limit)
        want = self.holds(x, right, y)
        if word == "never":
            assert not want, here
            count["never"] += 1
            return
        assert want, here
        names = 0
        if word.startswith("could, with "):
            names = int(word.split(" ")[2])
            assert is_short(self.graph, x, y), here
        else:
            assert word == ("could" if lines else "now"), here
        count[word.split(" ")[0].strip(",")] += 1
        count["names more"] += names > 0
        graph = self.behind.copy()
        graph.limit += names
        for line in lines:
            actor = int(line.split(" ")[0])
            assert actor not in self.silent and graph.run(line), (line, here)
        assert right in graph.label(x, y), here
        if not self.supposed and x in graph.subjects:
            self.list_by_store(x, right, y, lines, graph.limit, here)
            count["listed by tgstore"] += 1

    def list_by_store(self, x, right, y, lines, limit, here):
        boxes = self.boxes + sum(line.split(" ")[1] in ("create", "spawn") for line in lines)
        script = self.text([*lines, f"{x} list"])
        ran = subprocess.run(self.words(TGSTORE, limit, boxes), input=script, capture_output=True, text=True, check=False)
        listed = dict(edge.split(":") for edge in ran.stdout.splitlines()[-1].split(" ")[1:])
        assert ran.returncode == 0 and right in listed.get(str(y), ""), (ran.stdout, here)


def main():
    words = argparse.ArgumentParser(usage=__doc__)
    words.add_argument("seed", nargs="?", type=int, default=1)
    words.add_argument("scripts", nargs="?", type=int, default=3000)
    asked = words.parse_args()
    rnd = random.Random(asked.seed)
    count = dict.fromkeys(("questions", "never", "now", "could", "names more", "listed by tgstore"), 0)
    for _ in range(asked.scripts):
        Checker(rnd).check(count)
    print(f"{asked.scripts} scripts: " + ", ".join(f"{number} {word}" for word, number in count.items()))


if __name__ == "__main__":
    main()
