"""The scripts of tests/held: each is a list of lines, with the words and the numbers of helpers that it is run with."""
import itertools
from dataclasses import dataclass

# A script is no longer, since the program reads no more.
MOST_BYTES = 1_048_576


@dataclass
class Script:
    words: str
    lines: list
    helpers: tuple = (1,)
    status: int = 0
    # the number of the request for memory that is refused, or 0
    refused: int = 0
    # the number of the read of the script that fails, and of the write of replies, or 0
    failed_read: int = 0
    failed_write: int = 0

    @property
    def has_rivals(self):
        """Whether workers run side by side, so that the order isn't the same twice."""
        return "--race" in self.words and not self.words.startswith("--workers 1 ")

    def text(self):
        made = "".join(f"{line}\n" for line in self.lines).encode()
        assert len(made) <= MOST_BYTES, len(made)
        return made


def creates(count, rights="r", worker=0):
    return [f"{worker} create {rights}"] * count


def alone_in_blocks(count):
    """Objects of which each comes to be alone in a block of old cells."""
    return ["0 create rg", "minor"] * count + ["minor"]


def edges_lost_and_got_again():
    """A row of 2,000 that loses an edge and gets it again, as often as there is room for in 65,536 entries."""
    size, times = 2_000, 31_000
    pairs = ([f"1 remove {2 + i * 17 % size} r", f"0 grant 1 {2 + i * 17 % size} r"] for i in range(times))
    front = ["edge 0 1 g", *creates(size), *(f"0 grant 1 {2 + i} r" for i in range(size))]
    return Script("--workers 2 --stock c2000", [*front, *itertools.islice(itertools.chain(*pairs), 61_000)])


def long_rows_that_die():
    """Rows with an index each, which are given up and collected, old ones and young ones."""
    lines, name = creates(40), 41
    for turn in range(60):
        lines += ["0 create g", *(f"0 grant {name} {1 + i} r" for i in range(40))]
        lines += ["minor"] * (turn % 3) + [f"0 remove {name} g"]
        lines.append("full" if turn % 2 else "minor")
        name += 1
    return Script("--workers 1 --stock c200", lines + ["full", "0 list"], (1, 2, 8))


def spawns_and_retires():
    """Subjects that are made and retire in a chain, with objects of their own, and collections between."""
    lines = []
    for turn in range(2_000):
        name = 2 + 2 * turn
        lines += ["0 spawn tg", f"{name} create rw", f"{name} list", f"{name} retire", f"0 remove {name} tg"]
        lines += ["minor"] * (turn % 10 == 3) + ["full"] * (turn % 100 == 7)
    return Script("--workers 2 --stock c4000", lines + ["full", "0 list"], (1, 2))


def sixty_four_subjects():
    """All 64 subjects at once, of which each has a row, again and again."""
    lines, name = [], 1
    for _ in range(12):
        spawned = range(name, name + 63)
        lines += ["0 spawn tg"] * 64 + [f"{it} create r" for it in spawned for _ in range(6)] + ["full", "minor"]
        lines += [f"{it} retire" for it in spawned] + [f"0 remove {it} tg" for it in spawned] + ["full"]
        name += 63 * 7
    return Script("--workers 1 --stock l10000", lines, (1, 8))


def minors():
    """Objects that die young, and some that come to be old, with a collection of the nurseries for every fourth."""
    lines = []
    for turn in range(8_000):
        lines += ["0 create rwtg", "1 create r"] + [f"0 remove {2 + 2 * turn} rwtg"] * (turn % 3 > 0)
        lines += ["minor"] * (turn % 4 == 3)
    return Script("--workers 2 --stock c16000", lines + ["full"])


def minors_by_helpers():
    lines = []
    for turn in range(400):
        lines += creates(8) + [f"0 remove {2 + turn * 8} r", "1 create r", "minor"]
    return Script("--workers 2 --stock c4000", lines + ["full"], (1, 2, 8))


def minors_of_nothing():
    """Nothing is young: no thread is started for it."""
    return Script("--workers 4 --stock c20", creates(20) + ["full", "full"] + ["minor"] * 20_000, (1, 2, 8))


def fulls():
    """3,000 objects that stay, moved again and again, some of which die on the way."""
    lines = creates(3_000, "rwtg")
    for turn in range(200):
        lines += [f"0 remove {1 + turn} rwtg", "0 create rwtg", "full"]
    return Script("--workers 1 --stock c3200", lines, (1, 2, 8))


def fulls_of_a_heap_that_grows():
    lines = []
    for turn in range(40):
        given_up = range(100 * turn + 1, 100 * turn + 101)
        lines += creates(100 * (turn % 20), "rg") + ["full"] + [f"0 remove {name} rg" for name in given_up]
    return Script("--workers 1 --stock c40000", lines + ["full", "minor", "0 list"], (1, 2, 8))


def a_heap_that_shrinks():
    """A worker retires who alone reached 20,000 objects. The memory that stays is small again."""
    front = ["edge 0 1 r", *creates(20_000, "rg", worker=1), "full", "full", "1 retire"]
    rest = ["full", "full", "minor", *creates(100), "full", "full"]
    return Script("--workers 2 --stock c21000", front + rest, (1, 2, 8))


def boxes_that_die():
    """Boxes of all four laws, whose objects die in collections of both kinds."""
    lines, name = [], 1
    for turn in range(300):
        for at in range(name, name + 8):
            lines += ["0 create rw", f"0 write {at} 3", f"0 read {at}", f"0 remove {at} rw"]
        lines.append("full" if turn % 3 else "minor")
        name += 8
    return Script(f"--workers 1 --stock {'csml' * 600}", lines, (1, 2))


def hundreds_of_long_rows():
    """300 rows at once that have an index each."""
    lines, size, count = creates(40), 40, 300
    for name in range(size + 1, size + 1 + count):
        lines += ["0 create g", *(f"0 grant {name} {1 + i} r" for i in range(size))]
    return Script("--workers 1 --stock c400", lines + ["minor", "minor", "full", "0 list"], (1, 2))


def old_cells_that_are_remembered():
    """20,000 old rows of which each comes to name a young object. They are roots of the next collection of the
    nurseries."""
    size = 20_000
    lines = creates(size, "g") + ["full", "full"] + creates(50)
    lines += [f"0 grant {1 + i} {1 + size + i % 50} r" for i in range(size)] + ["minor", "minor", "0 list"]
    return Script("--workers 1 --stock c21000", lines, (1, 2, 8))


def commands_on_a_small_graph():
    """100,000 commands leave at most 32 entries, because answered entries are given up."""
    forms = ["0 read 2", "1 read 2", "0 write 2 7", "0 list", "0 read 9", "0 read 3", "1 list", "9 list"]
    lines = itertools.islice(itertools.cycle(forms), 100_000)
    return Script("--workers 2 --stock sm", ["0 create rw", "0 create rw", *lines])


def lists_of_a_row_of_2000():
    """2,000 lists of 2,000 edges take no more than one list. 64 MB of entries are given up as they are answered."""
    return Script("--workers 1 --stock c2000", creates(2_000) + ["0 list"] * 2_000)


def lists_of_a_row_of_70000():
    """A row with more places than 2 ^ 16, listed and collected."""
    size = 70_000
    lines = creates(size, "r") + ["0 list", "full"] + [f"0 remove {1 + 700 * i} r" for i in range(100)]
    return Script("--workers 1 --stock c70000", lines + ["minor", "full", "0 list"], (1, 2, 8))


def takes_of_a_row_of_70000():
    size = 69_000
    takes = [f"1 take 0 {2 + 23 * i} r" for i in range(3_000)]
    lines = ["edge 1 0 tl", *creates(size), "1 inspect 0", *takes, "full", "1 list"]
    return Script("--workers 2 --stock c70000", lines)


def a_heap_of_5000_blocks():
    count = 5_000
    rest = ["0 create rg", f"0 grant {count} 1 r", "minor", "full", "0 list", "0 create r", "full"]
    lines = alone_in_blocks(count) + rest
    return Script("--workers 1 --stock c6000 --blocks 65536", lines, (1, 2))


def old_cells_of_1100000_places():
    count = 21_000
    lines = alone_in_blocks(count) + ["0 create r", "minor", "full", "0 read 5"]
    return Script("--workers 1 --stock c24000 --blocks 65536", lines, (1, 2))


def sixty_four_blocks():
    """Objects until the heap has all the blocks that it may have, and collections for which it is too full."""
    lines = creates(3_600, "rg") + ["minor", "full", *creates(200, "rg"), "minor", "full"]
    lines += [f"0 remove {2 * i} rg" for i in range(1, 1_500)]
    lines += ["full", *creates(1_600, "rg"), "minor", "full", "0 list"]
    return Script("--workers 1 --stock c10000 --blocks 64", lines, (1, 2, 8))


def five_thousand_vertices():
    return Script("--workers 2 --vertices 5000 --stock c6000", creates(5_010) + ["0 spawn r", "full", "0 list"])


def a_long_command_line():
    lines = creates(200) + ["0 list", "minor", "full"]
    return Script(f"--workers 2 --stock {'c1s1m1l1' * 30} --vertices 5000 --blocks 128", lines, (1, 2))


def a_line_too_long():
    """The lines after the line that ends the run aren't run, and their boxes are given back."""
    return Script("--workers 1 --stock l100", creates(40) + ["full", "0 list " + "x" * 300, *creates(40)], status=1)


def a_read_fails_once():
    """The lines that were read before it are answered, and the lines after it aren't read."""
    return Script("--workers 1", ["0 list", "0 read 0"] * 20_000, status=1, failed_read=3)


def a_write_fails_once():
    """The output before it is written as the run ends, and nothing is run after it."""
    return Script("--workers 1", ["0 list", "0 read 0"] * 20_000, status=1, failed_write=3)


def one_request_is_refused():
    """One line is refused for lack of memory, and all after it are served."""
    lines = [line for turn in range(100) for line in ("0 create rw", f"0 write {1 + turn} 7", "0 list", "full")]
    return Script("--workers 1 --stock l200", lines, refused=1_013)


def a_collection_of_the_nurseries_is_refused():
    """The first collection makes 378 requests, of which one in the middle is refused, and the next one is made."""
    lines = creates(20_000, "rwtg") + ["minor", "minor", "full"]
    return Script("--workers 1 --stock c20000", lines, refused=727)


def a_collection_by_helpers_is_refused():
    """The first collection makes 399 requests, of which one in the middle is refused, and the next one is made."""
    lines = creates(20_000, "rwtg") + ["full", "full", "minor", "0 remove 7 rwtg", "full"]
    return Script("--workers 1 --stock c20000", lines, (2,), refused=748)


def a_session_of_25_calls():
    """A worker whose session has made its 25 calls when it spawns, and a worker that spawns first."""
    lines = ["0 read 1", "1 list"] * 25 + ["0 spawn rw", "0 list", "1 spawn r", "1 create r", "1 list"]
    return Script("--workers 2 --stock c8 --race", ["edge 0 1 r", *lines], (1, 2))


def a_race_of_12000_lines():
    """Four workers, each with rows of its own, denials, and collections between."""
    lines = []
    for turn in range(1_200):
        for worker in range(4):
            lines += [f"{worker} create rw", f"{worker} read {(worker + 1) % 4}"]
        lines += ["0 read 999999", "7 read 1"] + ["minor"] * (turn % 60 == 30) + ["full"] * (turn % 200 == 100)
    ring = [f"edge {it} {(it + 1) % 4} r" for it in range(4)]
    return Script("--workers 4 --stock c6000 --race", ring + lines, (1, 2))


def a_race_of_nobodys_boxes():
    """Lines of workers that there are not, after retires too, with a box for each, and more boxes than lines."""
    lines = ["9 create r", "0 create r", "8 spawn r"] * 200 + ["0 retire", *creates(100)]
    return Script("--workers 2 --stock l5000 --race", lines)


def a_race_for_a_row_of_70000():
    """One worker lists a long row, which its session keeps beside the journal."""
    return Script("--workers 1 --stock c70000 --race", creates(70_000) + ["0 list"] * 3)


def a_race_that_is_denied():
    """2,000 refused commands of each of four workers, beside objects that nobody moves."""
    lines = creates(500) + [f"{worker} read 999999" for worker in range(4)] * 2_000
    return Script("--workers 4 --stock c500 --race", lines)


SCRIPTS = {
    it.__name__: it
    for it in (
        edges_lost_and_got_again, long_rows_that_die, hundreds_of_long_rows, spawns_and_retires, sixty_four_subjects,
        minors, minors_by_helpers, minors_of_nothing, fulls, fulls_of_a_heap_that_grows, a_heap_that_shrinks,
        boxes_that_die, old_cells_that_are_remembered, commands_on_a_small_graph, lists_of_a_row_of_2000,
        lists_of_a_row_of_70000, takes_of_a_row_of_70000, a_heap_of_5000_blocks, old_cells_of_1100000_places,
        sixty_four_blocks,
        five_thousand_vertices, a_long_command_line, a_line_too_long, a_read_fails_once, a_write_fails_once,
        one_request_is_refused,
        a_collection_of_the_nurseries_is_refused, a_collection_by_helpers_is_refused, a_session_of_25_calls,
        a_race_of_12000_lines, a_race_of_nobodys_boxes, a_race_for_a_row_of_70000, a_race_that_is_denied,
    )
}
