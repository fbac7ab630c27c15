#!/usr/bin/env python3
"""streams.py [PROGRAM]

Runs the program on streams that fail, and asserts its output and how it ends. The runs are of these kinds:

  - reads and writes that fail with EIO, are interrupted, or take nothing, each in turn. This needs strace, and else is left out
  - reads and writes of one byte a call. The writes need strace too
  - a standard input, output or error that is closed, outputs that are full, and an output whose reader is gone
  - a client that writes a part of a line, or a line, and waits, while the program is stopped and goes on

It prints how many runs there were of each, and stops at the first that is wrong. A right run is a run on files, whose replies tests/runs
has. It leaves out slow calls other than by a stop, descriptors that don't wait, and terminals. PROGRAM is crates/tgstore/out/tgstore unless
it is given."""
import argparse
import itertools
import os
import re
import shutil
import signal
import subprocess
import sys
import tempfile
import threading
import time
from pathlib import Path

sys.dont_write_bytecode = True
sys.path.insert(0, str(Path(__file__).resolve().parents[2] / "tools"))
from repository.tree import Tree

BUILT = str(Tree().program("tgstore"))
MOST_SECONDS = 60
WAYS = [[], ["--helpers", "2"], ["--race"]]
SMALL = ["0 write 3 7", "0 read 3", "0 append 3 7", "0 append 12 7", "0 inspect 3"]
READ_FAILED, WRITE_FAILED = b"tgstore: read failed\n", b"tgstore: write failed\n"


class Script:
    """Lines of one worker, each of which has a reply, and the output of the program."""

    def __init__(self, program, room, name, lines, stock):
        self.text = "".join(line + "\n" for line in lines).encode()
        self.words = [program, "--workers", "1", "--stock", stock]
        self.path, self.output = os.path.join(room, name), os.path.join(room, name + ".output")
        with open(self.path, "wb") as out:
            out.write(self.text)
        self.wanted = {" ".join(way): self.whole(way) for way in WAYS}

    def whole(self, way):
        end = self.run(way)
        want(end[0] == 0 and end[2] == b"" and end[1].count(b"\n") == self.text.count(b"\n") + ("--race" in way), way, end)
        return end[1]

    def run(self, way, before=(), **more):
        """The status, what it wrote and what it said, from a file to a file."""
        with open(self.path, "rb") as source, open(self.output, "w+b") as sink:
            streams = {"stdin": source, "stdout": sink, "stderr": subprocess.PIPE, **more}
            done = subprocess.run([*before, *self.words, *way], timeout=MOST_SECONDS, check=False, **streams)
            sink.seek(0)
            return done.returncode, sink.read(), done.stderr

    def replies(self, way, taken):
        """The output that is due once so many bytes were read and no more can be."""
        if "--race" in way:
            return b""
        count = self.text[:taken].count(b"\n")
        return b"".join(self.wanted[" ".join(way)].splitlines(keepends=True)[:count])


def want(is_so, *told):
    if not is_so:
        sys.exit(f"streams.py: wrong: {told}"[:2000])


def tell(what, runs):
    print(f"{what}: {runs} runs", flush=True)


# ---- calls that fail, by strace

def traced(script, way, call, what):
    """A run in which strace does this to its calls on the script or on the output, and the outcome of each of these calls."""
    path = script.path if call == "read" else script.output
    log = script.output + ".log"
    before = ["strace", "-qq", "-o", log, "-s", "1", "-xx", "-P", path, "-e", f"trace={call}", "-e", f"inject={call}:{what}"]
    end = script.run(way, before)
    with open(log, encoding="ascii") as lines:
        return end, re.findall(r'^%s\(\d, (?:"([^"]*)"|\S+).*= (-?\d+)' % call, lines.read(), re.M)


def taken_by(calls):
    return sum(max(0, int(count)) for _, count in calls)


def each_read(script, way, what):
    """Does this to each read in turn: what was read before is answered, and no more."""
    for number in itertools.count(1):
        end, calls = traced(script, way, "read", f"{what}:when={number}")
        if len(calls) < number:
            want(end == (0, script.wanted[" ".join(way)], b""), way, what, number, end)
            return number - 1
        want(end == (1, script.replies(way, taken_by(calls)), READ_FAILED), way, what, number, end)


def each_write(script, way, what, is_made_again):
    """Does this to each write in turn: what was written before is, and no more, or all, where the write is made again."""
    for number in itertools.count(1):
        end, calls = traced(script, way, "write", f"{what}:when={number}")
        whole = script.wanted[" ".join(way)]
        if is_made_again or len(calls) < number:
            want(end == (0, whole, b""), way, what, number, end)
        else:
            want(end == (1, whole[:taken_by(calls)], WRITE_FAILED), way, what, number, end)
        if len(calls) < number:
            return number - 1


def one_byte_a_write(script, way):
    """Each write says that it took one byte. The bytes are the bytes of the log."""
    end, calls = traced(script, way, "write", "retval=1")
    bytes_taken = bytes(int(shown[2:], 16) for shown, _ in calls)
    want(end == (0, b"", b"") and bytes_taken == script.wanted[" ".join(way)], way, end, bytes_taken)


def calls_that_fail(long, short):
    if not shutil.which("strace"):
        print("strace isn't here: calls that fail left out")
        return
    for what in ("error=EIO", "error=EINTR"):
        tell(f"a read with {what}", sum(each_read(long, way, what) for way in WAYS))
    for what in ("error=EIO", "error=ENOSPC", "retval=0", "error=EINTR"):
        tell(f"a write with {what}", sum(each_write(long, way, what, what == "error=EINTR") for way in WAYS))
    for way in WAYS:
        one_byte_a_write(short, way)
    tell("one byte a write", len(WAYS))


# ---- one byte a read, by a pipe of packets

def one_byte_a_read(script, way):
    ours, theirs = os.pipe2(os.O_DIRECT)
    feeder = threading.Thread(target=feed, args=(theirs, script.text))
    feeder.start()
    end = script.run(way, stdin=ours)
    feeder.join()
    os.close(ours)
    want(end == (0, script.wanted[" ".join(way)], b""), way, end)


def feed(pipe, text):
    for byte in text:
        os.write(pipe, bytes([byte]))
    os.close(pipe)


# ---- streams that are closed, full or left

def closed(script, way):
    """Each of the three streams closed. Who has no standard error gets its replies and its status."""
    whole = script.wanted[" ".join(way)]
    for stream, wanted in ((0, (1, b"", READ_FAILED)), (1, (1, b"", WRITE_FAILED)), (2, (0, whole, b""))):
        end = script.run(way, preexec_fn=lambda: os.close(stream))
        want(end == wanted, way, f"{stream} closed", end)
    end = script.run(way + ["--workers=0"], preexec_fn=lambda: os.close(2))
    want(end == (2, b"", b""), way, "2 closed, and bad words", end)
    return 4


def full(script, way):
    with open("/dev/full", "wb") as sink:
        end = script.run(way, stdout=sink)
        want(end == (1, b"", WRITE_FAILED), way, "full output", end)
        end = script.run(way + ["--workers=0"], stderr=sink)
        want(end == (2, b"", None), way, "full standard error", end)
    return 2


def left(script, way):
    """Nobody reads what is written: an error where the signal is passed over, and else the signal ends it."""
    for is_passed_over in (True, False):
        ours, theirs = os.pipe()
        os.close(ours)
        end = script.run(way, stdout=theirs, restore_signals=not is_passed_over)
        os.close(theirs)
        is_told = end == (1, b"", WRITE_FAILED)
        want(is_told or not is_passed_over and end == (-signal.SIGPIPE, b"", b""), way, "left", is_passed_over, end)
    return 2


# ---- stopped and continued

def stop_and_continue(process):
    process.send_signal(signal.SIGSTOP)
    process.send_signal(signal.SIGCONT)


def stopped_while_it_runs(script, way):
    """Stopped and continued all the time, while it runs from a file to a file."""
    with open(script.path, "rb") as source, open(script.output, "w+b") as sink:
        process = subprocess.Popen([*script.words, *way], stdin=source, stdout=sink, stderr=subprocess.PIPE)
        while process.poll() is None:
            stop_and_continue(process)
            time.sleep(0.0005)
        sink.seek(0)
        end = process.returncode, sink.read(), process.stderr.read()
        process.stderr.close()
    want(end == (0, script.wanted[" ".join(way)], b""), way, end)


def stopped_while_a_client_waits(script, way):
    """Each line in two parts, with a stop before each of them or after it. Then its reply is waited for."""
    process = subprocess.Popen([*script.words, *way], stdin=subprocess.PIPE, stdout=subprocess.PIPE, bufsize=0)
    lines = zip(script.text.splitlines(keepends=True), script.wanted[" ".join(way)].splitlines(keepends=True))
    for number, (line, reply) in enumerate(lines):
        middle = number % len(line)
        for part in (line[:middle], line[middle:]):
            process.send_signal(signal.SIGSTOP)
            process.stdin.write(part)
            process.send_signal(signal.SIGCONT)
            stop_and_continue(process)
        said = b""
        while not said.endswith(b"\n"):
            said += process.stdout.read(1) or b"\n"
        want(said == reply, way, line, said)
    process.stdin.close()
    want(process.stdout.read() == b"" and process.wait(MOST_SECONDS) == 0, way)
    process.stdout.close()


def main():
    words = argparse.ArgumentParser(usage=__doc__)
    words.add_argument("program", nargs="?", default=BUILT)
    program = words.parse_args().program
    with tempfile.TemporaryDirectory() as room:
        creates = ["0 create rwtgaluv"] * 12_000
        long = Script(program, room, "long", [*creates, "0 list", "full", "0 list"], "c12000")
        short = Script(program, room, "short", [*creates[:12], "minor", *SMALL, "full", "0 list"], "c11l")
        calls_that_fail(long, short)
        for script in (short, long):
            for way in WAYS:
                one_byte_a_read(script, way)
        tell("one byte a read", 2 * len(WAYS))
        for what, runs in (("closed streams", closed), ("full outputs", full), ("outputs that nobody reads", left)):
            tell(what, sum(runs(script, way) for script in (short, long) for way in WAYS))
        for way in WAYS:
            stopped_while_it_runs(long, way)
        for way in WAYS[:2]:
            stopped_while_a_client_waits(short, way)
        tell("stopped and continued", len(WAYS) + 2)


if __name__ == "__main__":
    main()
