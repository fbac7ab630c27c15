#!/usr/bin/env python3
"""hostile.py [PROGRAM] [--only WORD] [-- WORD ..]

Runs the store on scripts of 1 MiB that are made to be slow, one after the other. For each it prints how many lines it has, how many bytes
are written for it, and the processor time of the whole program. No script has a `list`, whose replies may come to gigabytes, or an
`inspect` of a long row. Only scripts that say so have a collection. Exit status 1 if a script took over a second, or didn't end as it has
to. PROGRAM is crates/tgstore/out/tgstore unless it is given. With --only it runs only the scripts whose name has the word. The words after
-- are handed to the program too, as --race."""
import collections
import itertools
import os
import sys
import tempfile
from pathlib import Path

sys.dont_write_bytecode = True
sys.path.insert(0, str(Path(__file__).resolve().parents[2] / "tools"))
from repository.tree import Tree

BUILT = str(Tree().program("tgstore"))
MOST_BYTES = 1_048_576
MOST_SECONDS = 1.0
GREATEST = 18_446_744_073_709_551_615


def creates(count, rights="r", worker=0):
    return [f"{worker} create {rights}"] * count


def over_and_over(lines):
    return itertools.cycle(lines)


def count_on(form, start=0, modulus=1 << 62):
    """The form with one number after the other, from the start on, below the modulus."""
    return (form.format(i % modulus) for i in itertools.count(start))


# ---- the names that collide in an index, whose hasher has one seed for all. So a writer of a script may know them

def index_hash(name):
    """Four names that follow one another have one group, and the last two bits go to the tag, which no group is chosen by."""
    low = (1 << 64) - 1
    product = (0x243F_6A88_85A3_08D3 ^ name // 4) * (0x9E37_79B9_7F4A_7C15 ^ 16)
    folded = (product & low) ^ (product >> 64) ^ name % 4 << 24
    return (folded ^ folded >> 32) & ((1 << 32) - 1)


def colliding(names, groups, most):
    """Names of which the index, with so many groups, looks at the same group first."""
    return list(itertools.islice((name for name in names if index_hash(name) % groups == 0), most))


# ---- the cases, with their words, the lines in front, and lines without end for the rest

Case = collections.namedtuple("Case", "words front rest status", defaults=(0,))


def one_row():
    return Case("--workers 1 --stock c100000", [], creates(1))


def sixty_four_rows():
    return Case("--workers 64 --stock c100000", [], [f"{worker} create r" for worker in range(64)])


def no_stock():
    return Case("--workers 1", [], creates(1))


def no_more_vertices():
    return Case("--workers 1 --vertices 1 --stock l100000", [], creates(1))


def no_room():
    return Case("--workers 1 --blocks 1 --stock l100000", creates(54), creates(1))


def no_room_for_grants():
    front = ["edge 0 1 g"] + creates(70) + [f"0 grant 1 {2 + i} r" for i in range(57)]
    return Case("--workers 2 --blocks 4 --stock c1000", front, [f"0 grant 1 {59 + i} r" for i in range(13)])


def takes_from_a_long_row():
    size = 19_000
    front = [f"edge {k} 0 t" for k in range(1, 64)] + ["0 create tg"] + creates(size)
    front += [f"0 grant 64 {65 + i} r" for i in range(size)] + [f"{k} take 0 64 t" for k in range(1, 64)]
    return Case("--workers 64 --stock c100000", front, (f"{1 + i % 63} take 64 {65 + i * 7 % size} r" for i in itertools.count()))


def takes_of_one_worker():
    size = 25_000
    front = ["edge 1 0 t"] + creates(size)
    return Case("--workers 2 --stock c100000", front, (f"1 take 0 {2 + i * 7919 % size} r" for i in itertools.count()))


def takes_of_what_is_missing():
    front = ["edge 1 0 t"] + creates(40_000)
    return Case("--workers 2 --stock c100000", front, count_on("1 take 0 {} rwtg", 2, 40_000))


def grants_to_one_row():
    size = 37_000
    return Case("--workers 2 --stock c100000", ["edge 0 1 g"] + creates(size), count_on("0 grant 1 {} r", 2, size))


def grants_to_many_rows():
    """Rows of 15 edges, which are walked: a grant to one of 16 finds four cells, and makes an index."""
    front = ["0 create g"] * 400 + creates(15)
    pairs = ((1 + vertex, 401 + edge) for edge in range(15) for vertex in range(400))
    front += [f"0 grant {via} {target} r" for via, target in pairs]
    return Case("--workers 1 --stock c1000", front, (f"0 grant {1 + i * 7 % 400} {415 - i % 2} r" for i in itertools.count()))


def rows_come_to_have_an_index():
    """Rows of 17 edges, each of which gets an index with the last."""
    front = ["0 create g"] * 1_900 + creates(17)
    return Case("--workers 1 --stock c2000", front, (f"0 grant {1 + i % 1900} {1901 + i // 1900 % 17} r" for i in itertools.count()))


def removes_from_the_front():
    size = 38_000
    return Case("--workers 1 --stock c100000", creates(size), count_on("0 remove {} r", 1, size + 1))


def holes_filled_from_the_front():
    front = creates(25_000) + [f"0 remove {25_000 - i} r" for i in range(25_000)]
    return Case("--workers 1 --stock c100000", front, creates(1))


def one_hole_at_the_end():
    size = 40_000
    rest = (f"0 remove {size + i // 2} r" if i % 2 == 0 else "0 create r" for i in itertools.count())
    return Case("--workers 1 --stock c100000", creates(size), rest)


def one_hole_at_the_front():
    size = 40_000
    rest = (f"0 remove {1 + i // 2} r" if i % 2 == 0 else "0 create r" for i in itertools.count())
    return Case("--workers 1 --stock c100000", creates(size), rest)


def given_up_and_granted_again():
    size = 20_000
    front = ["edge 0 1 g"] + creates(size)
    pair = lambda i: f"0 grant 1 {2 + i} r", lambda i: f"1 remove {2 + i} r"
    return Case("--workers 2 --stock c100000", front, (pair[i % 2](i // 2 * 17 % size) for i in itertools.count()))


def reads_of_logs():
    front = ["0 create rw"] * 8 + [f"0 write {1 + i % 8} {GREATEST}" for i in range(32)]
    return Case("--workers 1 --stock l8", front, count_on("0 read {}", 1, 9))


def reads_of_a_long_row():
    size = 45_000
    return Case("--workers 1 --stock c100000", creates(size), (f"0 read {1 + i * 7919 % size}" for i in itertools.count()))


def writes_to_logs():
    return Case("--workers 1 --stock l8", ["0 create w"] * 8, count_on("0 write {} 0", 1, 9))


def writes_of_the_greatest_number():
    return Case("--workers 1 --stock s8", ["0 create w"] * 8, (f"0 write {1 + i % 8} {GREATEST}" for i in itertools.count()))


def appends_to_logs():
    return Case("--workers 1 --stock l8", ["0 create a"] * 8, count_on("0 append {} 0", 1, 9))


def appends_to_what_is_no_log():
    size = 45_000
    return Case("--workers 1 --stock c100000", creates(size, "a"), (f"0 append {1 + i * 7919 % size} 1" for i in itertools.count()))


def inspections_of_a_long_row():
    """The inspected vertex has a place in a long row, and no edges."""
    size = 45_000
    return Case("--workers 1 --stock c100000", creates(size, "l"), (f"0 inspect {1 + i * 7919 % size}" for i in itertools.count()))


def denied_reads():
    return Case("--workers 1", [], ["0 read 1"])


def names_never_made():
    return Case("--workers 1", [], (f"0 read {GREATEST - i}" for i in itertools.count()))


def names_never_made_in_a_long_row():
    return Case("--workers 1 --stock c100000", creates(45_000), count_on("0 read {}", 1_000_000))


def names_that_collide():
    size, groups = 60_000, 64
    row = colliding(range(2, 2 + size), groups, 9 * groups)
    front = ["edge 0 1 g"] + creates(size) + [f"0 grant 1 {name} r" for name in row]
    return Case("--workers 2 --stock c100000", front, (f"1 read {name}" for name in over_and_over(row[-100:])))


def unknown_workers():
    return Case("--workers 1", [], ["9 read 1"])


def one_vertex_twice():
    return Case("--workers 1", [], ["0 take 1 1 r"])


def edge_lines_of_one_pair():
    return Case("--workers 2", [], ["edge 0 1 r"])


def edge_lines_of_all_pairs():
    return Case("--workers 64", [], [f"edge {x} {y} rwtg" for x in range(64) for y in range(64) if x != y])


def a_bad_line_at_the_end():
    return Case("--workers 1", [], ["0 read 1"], 1)


def a_line_without_an_end():
    return Case("--workers 1", [], ["x" * 1_000], 1)


def one_collection_and_old_rows():
    """Half of the script makes a row, which a full collection moves to Old. The vertices after it are young and remembered."""
    size = 40_000
    rest = (f"0 remove {1 + i // 2} r" if i % 2 == 0 else "0 create r" for i in itertools.count())
    return Case("--workers 1 --stock c100000", creates(size) + ["full"], rest)


def minors_of_nothing_by_helpers():
    """Nothing is young, so there is nothing to share."""
    return Case("--workers 1 --helpers 8", ["minor"], ["minor"])


def minors_beside_old_rows_by_helpers():
    size = 40_000
    return Case("--workers 1 --helpers 8 --stock c100000", creates(size) + ["full"], ["minor"])


def a_mixture():
    """Commands drawn from all kinds, over 2,000 vertices and names near them."""
    def lines(seed=1):
        forms = ["{} create rwtgaluv", "{} take {} {} r", "{} grant {} {} wv", "{} remove {} t", "{} read {}"]
        forms += ["{} append {} {}", "{} inspect {}", "{} write {} {}"]
        while True:
            drawn = []
            for _ in range(4):
                seed = seed * 6_364_136_223_846_793_005 % (1 << 64) + 1_442_695_040_888_963_407 & GREATEST
                drawn.append(seed >> 33)
            form = forms[min(drawn[0] % 20, 7)] if drawn[0] % 3 else forms[drawn[0] // 3 % 8]
            numbers = [drawn[1] % 8] + [number % 3_000 for number in drawn[2:]] + [drawn[0]]
            yield form.format(*numbers)
    front = [f"edge {x} {y} tg" for x in range(8) for y in range(8) if x != y] + [f"{i % 8} create rwtgaluv" for i in range(2_000)]
    return Case("--workers 8 --stock " + "csml" * 2_500, front, lines())


CASES = [
    one_row, sixty_four_rows, no_stock, no_more_vertices, no_room, no_room_for_grants, takes_from_a_long_row, takes_of_one_worker,
    takes_of_what_is_missing, grants_to_one_row, grants_to_many_rows, rows_come_to_have_an_index, removes_from_the_front,
    holes_filled_from_the_front, one_hole_at_the_end, one_hole_at_the_front, given_up_and_granted_again, reads_of_logs,
    reads_of_a_long_row, writes_to_logs, writes_of_the_greatest_number, denied_reads, names_never_made,
    appends_to_logs, appends_to_what_is_no_log, inspections_of_a_long_row, names_never_made_in_a_long_row, names_that_collide, unknown_workers, one_vertex_twice, edge_lines_of_one_pair,
    edge_lines_of_all_pairs, a_bad_line_at_the_end, a_line_without_an_end, one_collection_and_old_rows,
    minors_of_nothing_by_helpers, minors_beside_old_rows_by_helpers, a_mixture,
]


def script_of(case):
    """The lines in front, and as many of the rest as fit. A script that is to end badly ends in the middle of a line."""
    rest = case.rest if hasattr(case.rest, "__next__") else over_and_over(case.rest)
    whole, length = [], 0
    for line in itertools.chain(case.front, rest):
        if length + len(line) + 1 > MOST_BYTES:
            break
        whole.append(line)
        length += len(line) + 1
    text = "".join(line + "\n" for line in whole)
    return (text if case.status == 0 else text[:-1]).encode(), len(whole)


def run(program, words, script, written):
    """The processor time of the program on the script, in seconds, and its exit status."""
    source, sink = os.open(script, os.O_RDONLY), os.open(written, os.O_WRONLY | os.O_CREAT | os.O_TRUNC)
    moves = [(os.POSIX_SPAWN_DUP2, source, 0), (os.POSIX_SPAWN_DUP2, sink, 1), (os.POSIX_SPAWN_OPEN, 2, os.devnull, os.O_WRONLY, 0)]
    child = os.posix_spawn(program, [program] + words, os.environ, file_actions=moves)
    _, status, used = os.wait4(child, 0)
    os.close(source)
    os.close(sink)
    return used.ru_utime + used.ru_stime, os.waitstatus_to_exitcode(status)


def measure(case, program, more, folder):
    """Runs a case, prints its row, and answers whether it is as it is to be."""
    made = case()
    text, lines = script_of(made)
    script, written = os.path.join(folder, "script"), os.path.join(folder, "written")
    with open(script, "wb") as file:
        file.write(text)
    seconds, status = run(program, made.words.split() + more, script, written)
    good = seconds <= MOST_SECONDS and status == made.status
    name = case.__name__.replace("_", " ")
    print(f"{name:34} {lines:8} {len(text):9} {os.path.getsize(written):9} {seconds:8.3f} {status:7} {'' if good else ' NO'}", flush=True)
    return good, seconds


def main():
    words = sys.argv[1:]
    if "--help" in words or "-h" in words:
        print(__doc__)
        return
    only = ""
    more = []
    if "--" in words:
        at = words.index("--")
        words, more = words[:at], words[at + 1:]
    if "--only" in words:
        at = words.index("--only")
        only = "".join(words[at + 1:at + 2])
        del words[at:at + 2]
    if len(words) > 1 or any(it.startswith("-") for it in words) or not (only or "--only" not in sys.argv):
        print(__doc__, file=sys.stderr)
        sys.exit(2)
    program = os.path.abspath(words[0] if words else BUILT)
    if not os.path.exists(program):
        sys.exit(f"{program} isn't there: build it by `rt run` in crates/tgstore, or name a program")
    print(f"{'script':34} {'lines':>8} {'bytes':>9} {'written':>9} {'seconds':>8} {'status':>7}")
    with tempfile.TemporaryDirectory() as folder:
        ran = [measure(case, program, more, folder) for case in CASES if only in case.__name__]
    print(f"{len(ran)} scripts, the slowest {max(seconds for _, seconds in ran):.3f} s")
    sys.exit(0 if all(good for good, _ in ran) else 1)


if __name__ == "__main__":
    main()
