"""keeper.py FILE: a plain program that keeps what it answers in FILE.

It answers each line of standard input with `ok`. It writes a line into FILE for each, in the form of a kept file, and syncs the lines
that came at once before it answers them. With a FILE that is there it goes on after the last whole line. It is the right program of
tests/soak/kept/run. Wrong programs are made from its text (wrong.py)."""
import errno
import os
import sys
import zlib

PAGE, AHEAD = 4096, 4
FIRST = b"kovshenul kept 1"


def is_whole(before, line):
    return 0 not in line and line[-10:-8] in (b" @", b" #") and line[-8:] == b"%08x" % zlib.crc32(before + line[:-10])


class Kept:
    def __init__(self, path, flags=0):
        self.file = os.open(path, os.O_RDWR | flags, 0o644)
        self.end, self.length, self.sum = 0, 0, b"00000000"

    def sync(self):
        os.fdatasync(self.file)

    def write(self, at, data):
        while data:
            done = os.pwrite(self.file, data, at)
            at, data = at + done, data[done:]

    def lay_zeros(self, count):
        pages = count // PAGE + AHEAD
        self.write(self.length, bytes(PAGE * pages))
        self.length += PAGE * pages
        # The zeros are on the disk from here on.
        self.sync()

    def batch_of(self, texts):
        lines = b""
        for place, text in enumerate(texts):
            self.sum = b"%08x" % zlib.crc32(self.sum + text)
            lines += text + b" " + (b"#" if place else b"@") + self.sum + b"\n"
        return lines

    def put(self, texts):
        lines = self.batch_of(texts)
        if len(lines) >= self.length - self.end:
            self.lay_zeros(len(lines))
        self.write(self.end, lines)
        # The lines are on the disk from here on.
        self.sync()
        self.end += len(lines)

    def go_on(self):
        data = os.pread(self.file, os.fstat(self.file).st_size, 0)
        for line in data.split(b"\n")[:-1]:
            if not is_whole(self.sum, line):
                break
            self.end, self.sum = self.end + len(line) + 1, line[-8:]
        if not data.startswith(FIRST + b" @"):
            sys.exit("keeper: this is no kept file")
        self.refuse_damage(data[self.end :])
        self.end_lines()

    def refuse_damage(self, rest):
        lines = rest.split(b"\n")[:-1]
        if any(is_whole(one[-8:], other) and other[-10:-8] == b" @" for one, other in zip(lines, lines[1:])):
            sys.exit("keeper: the file is damaged")

    def end_lines(self):
        self.write(self.end, b"\0")
        self.sync()
        os.ftruncate(self.file, self.end + 1)
        self.sync()
        self.length = self.end + 1


def sync_folder(path):
    folder = os.open(os.path.dirname(os.path.abspath(path)), os.O_RDONLY)
    os.fsync(folder)
    os.close(folder)


def begin(path):
    kept = Kept(f"{path}.new", os.O_CREAT | os.O_EXCL)
    kept.lay_zeros(0)
    kept.put([FIRST])
    os.rename(f"{path}.new", path)
    sync_folder(path)
    return kept


def opened(path):
    if not os.path.exists(path):
        return begin(path)
    kept = Kept(path)
    kept.go_on()
    return kept


def lines_that_came():
    rest = b""
    while came := os.read(0, 65536):
        *lines, rest = (rest + came).split(b"\n")
        if lines:
            yield lines


def main():
    kept = opened(sys.argv[1])
    for lines in lines_that_came():
        answers = b"ok\n" * len(lines)
        kept.put([line + b" = ok" for line in lines])
        os.write(1, answers)


if __name__ == "__main__":
    try:
        main()
    except OSError as error:
        sys.exit(f"keeper: {errno.errorcode.get(error.errno, error)}")
