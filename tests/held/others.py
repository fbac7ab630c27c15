"""Each request for memory that tgaudit, tgcould and tgdot make is refused in turn. tests/held/run tries them."""
import hashlib
import os
import re
import subprocess
from dataclasses import dataclass

SCRIPT = b"edge 0 1 tg\n0 create rw\n0 grant 1 2 r\n0 list\n1 read 2\n0 create l\n"
TEXT = b"kovshenul entries 1\nopening 1 9\nworker l4:1,2\n0 create rl c0 = ok 1\n0 list = ok 1:rl\n0 read 1 = ok 0\nentries 3\n"
PART = (
    b"kovshenul picture 1\nmade 9 99 7\nworker 2\nvertex 2 c1\nvertex 7 l4:1,2\nedge 2 7 rl\npicture 3\n"
    b"2 append 7 3 = ok\n2 create r c0 = ok 9\nentries 2\n"
)
SUMMED = PART.replace(b"picture 3\n", b"picture 3\nsha256 %s\n" % hashlib.sha256(b"").hexdigest().encode())
LISTED = 400
LISTING = b"".join([
    b"kovshenul entries 1\nopening 1 900\nworker c0\n",
    *(b"0 create r c0 = ok %d\n" % name for name in range(1, LISTED + 1)),
    b"0 list = ok", *(b" %d:r" % name for name in range(1, LISTED + 1)), b"\n",
    b"entries %d\n" % (LISTED + 1),
])
KEPT = (
    b"kovshenul kept 1 @c4b942f6\nopening 2 1000000 @72a0c024\nworker c0 #044730d7\nworker c0 #dd214e14\n"
    b"edge 0 1 rw #756659ca\n0 create r c0 = ok 2 @4f5fd2d9\n0 write 1 7 = ok @f453dae2\n0 read 1 = ok 7 #cfa24b32\n"
)
OPTIONS = ["--workers", "2", "--vertices", "50", "--stock", "c9"]


@dataclass
class Runs:
    """A program, its words and its input, of which each request is refused in turn."""
    program: str
    words: list
    text: bytes


RUNS = [
    Runs("tgaudit", [], TEXT),
    Runs("tgaudit", [], LISTING),
    Runs("tgaudit", [], TEXT.replace(b"ok 0", b"ok 1")),
    Runs("tgaudit", ["--snapshot"], TEXT),
    Runs("tgaudit", ["--snapshot"], PART),
    Runs("tgaudit", ["--after", "/dev/null"], SUMMED),
    Runs("tgaudit", [], PART.replace(b"vertex 7", b"vertex 9")),
    Runs("tgaudit", ["/dev/stdin"], KEPT),
    Runs("tgaudit", ["/dev/stdin"], KEPT.replace(b"ok 2", b"ok 3")),
    Runs("tgaudit", ["--front", "/dev/stdin"], KEPT[:-4]),
    Runs("tgaudit", ["--help"], b""),
    Runs("tgaudit", ["--unknown"], b""),
    Runs("tgcould", [*OPTIONS, "--ask", "1 r 3", "--ask", "* r 2", "--never", "new w 2"], SCRIPT),
    Runs("tgcould", [*OPTIONS, "--as-if", "1 3 l", "--silent", "0", "--never", "1 * *"], SCRIPT),
    Runs("tgcould", [*OPTIONS, "--ask", "1 r 3"], SCRIPT + b"0 retired\n"),
    Runs("tgcould", [*OPTIONS, "--never", "1 w 2"], SCRIPT + b"1 write 2 5\n7 list\n"),
    Runs("tgcould", ["--ask", "0 w 1"], TEXT),
    Runs("tgcould", ["--as-if", "9 7 w", "--ask", "2 w 7"], PART),
    Runs("tgcould", ["--kept", "/dev/stdin", "--ask", "1 r 2"], KEPT),
    Runs("tgcould", ["--kept", "/dev/stdin", "--ask", "1 r 2"], KEPT.replace(b"ok 2", b"ok 3")),
    Runs("tgcould", ["--help"], b""),
    Runs("tgcould", ["--ask"], b""),
    Runs("tgdot", OPTIONS, SCRIPT),
    Runs("tgdot", [*OPTIONS, "--steps", "--from", "2"], SCRIPT),
    Runs("tgdot", [], PART),
    Runs("tgdot", ["--kept", "/dev/stdin"], KEPT),
    Runs("tgdot", ["--unknown"], b""),
]


def run(runs, path, environment, seconds):
    """The status of a run, and its output."""
    ran = subprocess.run([path, *runs.words], input=runs.text, env=environment, capture_output=True, timeout=seconds, check=False)
    return ran.returncode, ran.stdout, ran.stderr


def is_right(runs, whole, ran):
    """Whether a run with a refused request is as a run without, or out of memory. If memory ran out, tgaudit names the line
    too. A front of the output may be there, and before it the report of tgcould on denied lines."""
    status, output, errors = ran
    if ran == whole:
        return True
    told = re.fullmatch(rf"(tgcould: (line \d+: '|--never: ).*\n)*{runs.program}: (/dev/stdin: )?(line \d+(, at byte \d+)?: )?out of memory\n".encode(), errors)
    return status == 1 and told is not None and whole[1].startswith(output)


def check(counter, folder, seconds):
    """Refuses each request of each of the runs, and returns how many runs there were, and the faults of the wrong ones."""
    count, wrong = 0, []
    for runs in RUNS:
        path = os.path.join(folder, runs.program, "out", runs.program)
        if not os.access(path, os.X_OK):
            wrong.append(f"{runs.program} isn't built")
            continue
        whole, number = run(runs, path, counter.environment(0), seconds), 0
        requests = counter.told()[0]
        while number < requests:
            number += 1
            ran = run(runs, path, counter.environment(number), seconds)
            count += 1
            if not is_right(runs, whole, ran):
                words = " ".join([runs.program, *runs.words])
                wrong.append(f"{words}, request {number} of {requests} refused: status {ran[0]}, {ran[2][:200]}")
    return count, wrong
