#!/usr/bin/env python3
"""measure.py whole [LOG]                      what each crate takes of an `rt ci` that proves everything from nothing
measure.py everyday                         how long a changed body is on its way to green
measure.py functions CRATE                  which functions the last check of a crate from nothing took longest for
measure.py goals CRATE                      which goals and lemmas its checks took longest for

All run at the top of the repository that the script is in, and print Markdown.

`whole` runs `rt ci` once, from nothing, and writes what it says to LOG (out.txt in a temporary folder unless it is given). It gives `rt ci`
the option `--anew` if the toolchain has that option. A toolchain without the option proves everything from nothing each time. The total is
the processor time of the gate and of all that it started, as the kernel counts it once they have ended. The shares of the crates are
sampled ten times a second, so a little is missing from each. It lists each edit that took more than 15 seconds of processor time, and its
status is that of the gate.

`everyday` puts a statement that does nothing in front of one body of `tg_model`, of `tg_graph` and of `tg_store`, one after the other. It
runs `rt check` in that crate, and then in `tg_store`, which depends on the other two. Then it puts the file back. A round before these
isn't counted. It proves all that is below `tg_store`.

`functions` checks nothing. It reads when each module of `out/incremental` was written. The time of a module, by the clock, is the time
since the module before it. The part `Lts` of a function has the places that it owns and borrows at each of its points. A folder that more
than one check wrote to has no times.

`goals` checks nothing either. It reads the notes of the checker on each goal and each lemma in `out/incremental`, which other work hardly
moves. A goal that got an answer after the folder was begun is still listed.

Other work on the machine moves all figures, so the load is printed beside them."""
import json
import os
import re
import subprocess
import sys
import tempfile
import threading
import time
from pathlib import Path

sys.dont_write_bytecode = True
sys.path.insert(0, str(Path(__file__).resolve().parents[2] / "tools"))
from repository.processor import seconds_in, seconds_of_children, words_of
from repository.tree import TOP, Tree

STAGES = ("proofs", "tests", "edits")
SLOW = 15
SEEN_FROM = "tg_store"
CHANGED = (("tg_model", "src/denial.rt", "denial_on"), ("tg_graph", "src/heap.rt", "find_edge"), ("tg_store", "src/store.rt", "census"))


def edits_of(crate):
    folder = f"{TOP}/crates/{crate}/must-fail"
    return sorted(it[:-5] for it in os.listdir(folder) if it.endswith(".edit")) if os.path.isdir(folder) else []


def tests_of(crate):
    count = 0
    for at, _, files in os.walk(f"{TOP}/crates/{crate}/src"):
        for name in files:
            with open(f"{at}/{name}", encoding="utf-8") as it:
                count += it.read().count("#[test]")
    return count


def said(*words):
    return subprocess.run(words, cwd=TOP, capture_output=True, text=True, check=False).stdout.strip()


def where():
    """One sentence on what was measured, and on what."""
    changed = " with changes" if said("git", "status", "--porcelain") else ""
    commit = said("git", "rev-parse", "--short", "HEAD") or "no commit"
    processors = len(os.sched_getaffinity(0))
    return f"{commit}{changed}, {processors} processors, a load of {os.getloadavg()[0]:.1f} before it"


class Sampler:
    """Adds up the processor time of all that a process has started, by crate and stage, while it runs."""

    def __init__(self, root):
        self.root, self.kinds, self.used, self.rooms, self.over = root, {}, {}, {}, threading.Event()
        self.thread = threading.Thread(target=self.run)
        self.thread.start()

    def run(self):
        while not self.over.wait(0.1):
            self.sample()

    def stop(self):
        self.over.set()
        self.thread.join()

    def sample(self):
        parents, times = {}, {}
        for name in os.listdir("/proc"):
            if name.isdigit():
                read_process(int(name), parents, times)
        for pid in times:
            chain = [pid]
            while chain[-1] != self.root and chain[-1] in parents:
                chain.append(parents[chain[-1]])
            if chain[-1] == self.root:
                self.note(pid, chain, times)

    def note(self, pid, chain, times):
        key = pid, times[pid][0]
        # (a process takes the kind of the nearest one above it that has one, and may change its own when it starts another program)
        kinds = [kind_of(it) for it in chain]
        kind = next((it for it in kinds if it), self.kinds.get(key))
        self.kinds[key], self.used[key] = kind or self.kinds.get(key), times[pid][1]
        if kind and kind[1] == "edits":
            self.rooms.setdefault(kind[2], len(self.rooms))

    def by_stage(self):
        sums = {}
        for key, used in self.used.items():
            crate, stage = (self.kinds[key] or ("", "", ""))[:2]
            sums[crate, stage] = sums.get((crate, stage), 0) + used
        return sums

    def slow_edits(self):
        """The edits over the limit. A crate's edits are tried in the order of their names, each in a folder of its own."""
        rooms = {}
        for key, used in self.used.items():
            kind = self.kinds[key]
            if kind and kind[1] == "edits":
                rooms[kind] = rooms.get(kind, 0) + used
        slow, tried = [], {}
        for kind in sorted(rooms, key=lambda it: self.rooms[it[2]]):
            crate, names = kind[0], edits_of(kind[0])
            at = tried[crate] = tried.get(crate, -1) + 1
            if rooms[kind] > SLOW and at < len(names):
                slow.append((rooms[kind], crate, names[at], at == 0))
        return sorted(slow, reverse=True)


def read_process(pid, parents, times):
    """Notes the parent of a process, and when it began and what it has used, unless it has just ended."""
    try:
        fields = words_of(pid)
    except OSError:
        return
    parents[pid] = int(fields[1])
    times[pid] = int(fields[19]), seconds_in(fields)


def kind_of(pid):
    """The crate and the stage that a process works for, and the folder of its edit, where the process itself shows them."""
    try:
        with open(f"/proc/{pid}/cmdline", encoding="utf-8", errors="replace") as it:
            words = it.read().split("\0")
        folder = os.readlink(f"/proc/{pid}/cwd")
    except OSError:
        return None
    ran = re.search(r"/rt-run-[^/]+/bin/(.+?)(_tests)?$", next((it for it in words if "/rt-run-" in it), ""))
    if ran:
        return ran[1], "runs", ""
    if "--crate-name" not in words:
        inside = os.path.relpath(folder, f"{TOP}/crates")
        is_link = words[0].endswith("rattle-link") and not inside.startswith("..")
        stage = "tests" if any(it.endswith("_tests") for it in words) else "proofs"
        return (inside.split("/")[0], stage, "") if is_link else None
    crate = words[words.index("--crate-name") + 1]
    if os.path.basename(folder).startswith("rt-edit-"):
        return crate, "edits", folder
    return crate, "tests" if "--test" in words else "proofs", ""


def gate_from_nothing():
    """The command that proves everything from nothing. A toolchain that can keep what it proved has an option for it."""
    ran = subprocess.run(["rt", "help"], capture_output=True, text=True, check=False)
    return ["rt", "ci", *["--anew"] * bool(re.search(r"--anew\b", ran.stdout + ran.stderr))]


def whole(log):
    words, place, began, before = gate_from_nothing(), where(), time.time(), seconds_of_children()
    with open(log, "w", encoding="utf-8") as out:
        gate = subprocess.Popen(words, cwd=TOP, stdin=subprocess.DEVNULL, stdout=out, stderr=subprocess.STDOUT)
        sampler = Sampler(gate.pid)
        status = gate.wait()
        sampler.stop()
    took, total = time.time() - began, seconds_of_children() - before
    with open(log, encoding="utf-8") as it:
        last = it.read().rstrip().rpartition("\n")[2]
    print(f"{last}. {place}: {total / 60:.1f} minutes of processor time in {took / 60:.1f} minutes.\n")
    print_table(sampler.by_stage(), total)
    print_slow(sampler.slow_edits())
    return status


def print_table(sums, total):
    minutes = lambda key: sums.get(key, 0) / 60
    rows = {name: [minutes((name, stage)) for stage in STAGES] for name in Tree(TOP).crates}
    print("| Crate | Proofs | Its tests | Its edits | In all |\n|---|---|---|---|---|")
    for name in sorted(rows, key=lambda it: -sum(rows[it])):
        proofs, tests, edits = rows[name]
        counts = tests_of(name), len(edits_of(name))
        cells = [f"{it:.1f} ({count})" if count else "-" for it, count in zip((tests, edits), counts)]
        print(f"| `{name}` | {proofs:.1f} | {cells[0]} | {cells[1]} | {sum(rows[name]):.1f} |")
    sampled = [sum(it) for it in zip(*rows.values())]
    print(f"| all | {sampled[0]:.1f} | {sampled[1]:.1f} | {sampled[2]:.1f} | {sum(sampled):.1f} |")
    runs = sum(used for (_, stage), used in sums.items() if stage == "runs") / 60
    rest = total / 60 - sum(sampled) - runs
    print(f"\nRunning programs and tests took {runs:.1f} minutes; {rest:.1f} are `rt` itself and what the sampling missed.")


def print_slow(slow):
    print(f"\nEdits that took more than {SLOW} seconds of processor time:{'' if slow else ' none.'}")
    for used, crate, name, is_first in slow:
        print(f"- {used:.0f} s: `{crate}`, `{name}`{' (its first: the whole crate is proved with it)' if is_first else ''}")


def check(crate):
    """Checks a crate as a developer would, and answers the seconds that passed and those of the processors."""
    began, before = time.time(), seconds_of_children()
    words = ["rt", "check", *["--test"] * bool(tests_of(crate))]
    ran = subprocess.run(words, cwd=f"{TOP}/crates/{crate}", stdin=subprocess.DEVNULL, capture_output=True, text=True, check=False)
    if ran.returncode:
        sys.exit(f"{crate} is not proved:\n{ran.stdout[-2000:]}{ran.stderr[-500:]}")
    return time.time() - began, seconds_of_children() - before


def with_statement(text, function):
    """The text with a statement that does nothing in front of the function's body."""
    start = re.search(rf"\bfn {function}\b", text)
    opening = start and re.compile(r"^( *)\{\n", re.M).search(text, start.end())
    if not opening:
        sys.exit(f"no function {function} whose body begins on a line of its own")
    return f"{text[: opening.end()]}{opening[1]}    let _ = ();\n{text[opening.end() :]}"


def everyday():
    print(f"One body changed, {where()}. Seconds passed, and of processor time:\n")
    check(SEEN_FROM)
    print(f"| Body | `rt check` there: passed | processor | then in `{SEEN_FROM}`: passed | processor |\n|---|---|---|---|---|")
    for crate, file, function in CHANGED:
        check(crate)
        took = check_changed(crate, f"{TOP}/crates/{crate}/{file}", function)
        print(f"| `{function}` of `{crate}` | {' | '.join(f'{it:.0f}' for it in took)} |", flush=True)
        check(SEEN_FROM)
    return 0


def check_changed(crate, path, function):
    """What both checks take while one body is changed."""
    with open(path, encoding="utf-8") as it:
        text = it.read()
    try:
        with open(path, "w", encoding="utf-8") as it:
            it.write(with_statement(text, function))
        return [*check(crate), *check(SEEN_FROM)]
    finally:
        with open(path, "w", encoding="utf-8") as it:
            it.write(text)


def functions(crate):
    """Prints the dearest functions of a crate, each with its dearest module."""
    written = []
    for at, _, files in os.walk(f"{TOP}/crates/{crate}/out/incremental"):
        if os.path.basename(at) != "records":
            written += [(os.stat(f"{at}/{it}").st_mtime, it[:-6]) for it in files if it.endswith(".oantt")]
    written.sort()
    spent = {}
    for (before, _), (after, module) in zip(written, written[1:]):
        path = module.removeprefix(f"Rattle-{crate}-proofs.")
        function, _, part = path.rpartition(".")
        spent.setdefault(function or "(what stands in no function)", []).append((after - before, part))
    if not spent:
        sys.exit(f"{crate} has no kept work: rt check writes it")
    print("| Function | seconds | its dearest part |\n|---|---|---|")
    for function, parts in sorted(spent.items(), key=lambda it: -sum(seconds for seconds, _ in it[1]))[:20]:
        seconds, part = max(parts)
        print(f"| `{function}` | {sum(it for it, _ in parts):.1f} | {part} {seconds:.1f} |")
    return 0


def goals(crate):
    """Prints the dearest goals and lemmas of a crate, by the seconds that the checker noted for each."""
    noted = []
    for at, _, files in os.walk(f"{TOP}/crates/{crate}/out/incremental"):
        for name in files if os.path.basename(at) == "records" else ():
            with open(f"{at}/{name}", "rb") as record:
                text = record.read().decode("utf-8", "replace")
            module = name.removesuffix(".decls.oantt").removeprefix(f"Rattle-{crate}-proofs.")
            for told in re.findall(r'\{"aux":.*?"toil":\[[\d,]*\]\}', text):
                goal = json.loads(told)
                noted.append((sum(goal["phases"]) / 1e6, module, goal["name"]))
    if not noted:
        sys.exit(f"{crate} has no kept work: rt check writes it")
    print("| Module | goal or lemma | seconds |\n|---|---|---|")
    for seconds, module, goal in sorted(noted, reverse=True)[:20]:
        print(f"| `{module}` | `{goal}` | {seconds:.1f} |")
    return 0


def main(words):
    if "--help" in words or "-h" in words:
        print(__doc__)
        return 0
    if words[:1] == ["whole"] and len(words) <= 2:
        return whole(words[1] if len(words) == 2 else os.path.join(tempfile.mkdtemp(), "out.txt"))
    if words == ["everyday"]:
        return everyday()
    if words[:1] == ["functions"] and len(words) == 2:
        return functions(words[1])
    if words[:1] == ["goals"] and len(words) == 2:
        return goals(words[1])
    print(__doc__, file=sys.stderr)
    return 2


if __name__ == "__main__":
    sys.exit(main(sys.argv[1:]))
