"""What a crash of the machine may leave of a run that was recorded.

Since the last sync of a file, each sector of each write may be on the disk or not, and so may each change of length. Of a sector that
was being written each byte may be the old or the new one. From the length on that the last sync left, a crash may leave any bytes. They
may even be a line that nobody wrote, with the right sum. After a sync that failed, what was written before may be lost, also if a later
sync succeeds. A new name may be lost until the folder is synced. This is the model of the toolchain's library `sqlite_disk`, with its
reading of a torn write as old or new bytes."""
import os
import random
import zlib
from dataclasses import dataclass, field
from typing import NamedTuple

SECTOR = 512
FORGED = b"0 write 1 666 = ok"


class Call(NamedTuple):
    letter: str
    number: int
    data: bytes
    path: str


def calls_of(record: bytes) -> list[Call]:
    """The calls of a record, in their order. A last call that was cut off is left out."""
    calls, at = [], 0
    while (end := record.find(b"\n", at)) >= 0:
        letter, number, count, path = record[at:end].split(b" ", 3)
        data = record[end + 1 : end + 1 + int(count)]
        if len(data) < int(count):
            break
        calls.append(Call(letter.decode(), int(number), data, path.decode()))
        at = end + 1 + int(count)
    return calls


@dataclass
class File:
    """The bytes that are on the disk for certain, and the calls since."""

    synced: bytearray = field(default_factory=bytearray)
    calls: list[Call] = field(default_factory=list)


def put(content: bytearray, at: int, piece: bytes) -> None:
    content.extend(bytes(max(0, at - len(content))))
    content[at : at + len(piece)] = piece


def resize(content: bytearray, length: int) -> None:
    del content[length:]
    content.extend(bytes(length - len(content)))


def sectors(at: int, data: bytes):
    """The pieces of a write, by sector."""
    start = at
    while start < at + len(data):
        end = min(at + len(data), start // SECTOR * SECTOR + SECTOR)
        yield start, data[start - at : end - at]
        start = end


class Machine:
    """A machine that made some calls, and what of them is on its disk. It starts with the files that are given."""

    def __init__(self, rng: random.Random, start: dict[str, bytes]):
        self.rng, self.older, self.answers = rng, [], bytearray()
        self.files = [File(bytearray(content)) for content in start.values()]
        self.names = {path: at for at, path in enumerate(start)}

    def make_until(self, calls: list[Call], count: int) -> None:
        """Makes so many calls. If the next one changes a file, the machine crashes amid it."""
        for call in calls[:count]:
            self.make(call)
        if count < len(calls) and calls[count].letter in "WT":
            self.make(calls[count])

    def make(self, call: Call) -> None:
        letter, number, data, path = call
        if letter == "A":
            self.answers += data
        elif letter == "O" and path not in self.names:
            self.names[path] = len(self.files)
            self.files.append(File())
        elif letter == "R":
            self.older.append(dict(self.names))
            self.names[data.decode()] = self.names.pop(path)
        elif letter == "U":
            self.names.pop(path, None)
        elif letter == "S" and path not in self.names:
            self.older = []
        elif path in self.names:
            self.change(self.files[self.names[path]], call)

    def change(self, file: File, call: Call) -> None:
        if call.letter == "F" and self.rng.random() < 0.5:
            file.calls = []
        elif call.letter == "S":
            for made in file.calls:
                if made.letter == "W":
                    put(file.synced, made.number, made.data)
                else:
                    resize(file.synced, made.number)
            file.calls = []
        elif call.letter in "WT":
            file.calls.append(call)
        elif call.letter == "O" and call.number:
            file.calls.append(Call("T", 0, b"", call.path))

    def crash(self) -> dict[str, bytes]:
        """The files that a crash leaves now, by their paths."""
        names = self.names
        if self.older and self.rng.random() < 0.5:
            names = self.rng.choice(self.older)
        return {path: self.left_of(self.files[at]) for path, at in names.items()}

    def left_of(self, file: File) -> bytes:
        content, share = bytearray(file.synced), self.rng.choice((0, 0.5, 0.9, 1))
        for call in file.calls:
            if call.letter == "T":
                if self.rng.random() < share:
                    resize(content, call.number)
                continue
            for at, piece in sectors(call.number, call.data):
                self.tear(content, at, piece, share)
        if file.calls:
            self.spoil(content, len(file.synced), most_bytes(file))
        return bytes(content)

    def tear(self, content: bytearray, at: int, piece: bytes, share: float) -> None:
        if self.rng.random() < share:
            put(content, at, piece)
        elif self.rng.random() < 0.2:
            old = bytes(content[at : at + len(piece)]).ljust(len(piece), b"\0")
            put(content, at, bytes(self.rng.choice(both) for both in zip(old, piece)))

    def spoil(self, content: bytearray, length: int, most: int) -> None:
        """Has the content end anywhere from a length on, or has other bytes from there on. It is never longer than the file was."""
        kind = self.rng.randrange(6) if len(content) > length else 6
        if kind == 0:
            del content[self.rng.randrange(length, len(content) + 1) :]
        elif kind == 1:
            content[length:] = self.rng.randbytes(len(content) - length)
        elif kind < 5:
            forge(content, length, most)


def most_bytes(file: File) -> int:
    """How long the file was at most since its last sync."""
    most = length = len(file.synced)
    for call in file.calls:
        length = call.number if call.letter == "T" else max(length, call.number + len(call.data))
        most = max(most, length)
    return most


def forge(content: bytearray, length: int, most: int) -> None:
    """Puts a line after the whole lines, if the bytes from there on aren't synced, and the file was long enough."""
    end, before = 0, b"00000000"
    for line in bytes(content).split(b"\n")[:-1]:
        if line[-8:] != b"%08x" % zlib.crc32(before + line[:-10]):
            break
        end, before = end + len(line) + 1, line[-8:]
    line = FORGED + b" @%08x\n" % zlib.crc32(before + FORGED)
    if length <= end <= most - len(line):
        put(content, end, line)


def is_change(call: Call) -> bool:
    return call.letter in "WTSRF"


def write_files(files: dict[str, bytes], folder: str) -> None:
    for path, content in files.items():
        with open(os.path.join(folder, os.path.basename(path)), "wb") as out:
            out.write(content)
