"""Wrong programs: each is the text of keeper.py with some text replaced.

A run of the harness has to find each. `kill` says that it is found when the program is killed, and `crash` that it is found when the
machine crashes. `fault` is found when a sync fails, and `flip` when a bit of the file was flipped. Three of them differ from the right
program by one line that was moved."""
from pathlib import Path
from typing import NamedTuple

RIGHT = Path(__file__).resolve().parent / "keeper.py"


class Wrong(NamedTuple):
    name: str
    found_by: str
    old: str
    new: str


PUT = '        kept.put([line + b" = ok" for line in lines])\n'
ANSWER = "        os.write(1, answers)\n"
SYNC_LINES = "        # The lines are on the disk from here on.\n        self.sync()\n"
SYNC_ZEROS = "        # The zeros are on the disk from here on.\n        self.sync()\n"
FIRST_PUT = "    kept.put([FIRST])\n"
RENAME = '    os.rename(f"{path}.new", path)\n'
SYNC_FOLDER = "    sync_folder(path)\n"

WRONG = (
    Wrong("a batch isn't synced", "crash", SYNC_LINES, ""),
    Wrong("answers before the write", "kill", PUT + ANSWER, ANSWER + PUT),
    Wrong("the lines aren't written whole", "kill", "        self.write(self.end, lines)\n", "        self.write(self.end, lines[:-1])\n"),
    Wrong("zeros aren't synced", "crash", SYNC_ZEROS, ""),
    Wrong("the name comes before the first line", "crash", FIRST_PUT + RENAME, RENAME + FIRST_PUT),
    Wrong("the folder is synced before the name", "crash", RENAME + SYNC_FOLDER, SYNC_FOLDER + RENAME),
    Wrong("a batch is in another order", "kill", "in enumerate(texts)", "in enumerate(texts[::-1])"),
    Wrong(
        "a failed sync is tried again",
        "fault",
        "    def sync(self):\n        os.fdatasync(self.file)\n",
        "    def sync(self):\n        try:\n            os.fdatasync(self.file)\n        except OSError:\n            os.fdatasync(self.file)\n",
    ),
    Wrong("a batch is put twice", "kill", PUT, PUT + PUT),
    Wrong("sums aren't compared", "flip", ' and line[-8:] == b"%08x" % zlib.crc32(before + line[:-10])', ""),
)


def text_of(wrong: Wrong) -> str:
    """The text of a wrong program."""
    text = RIGHT.read_text(encoding="utf-8")
    if text.count(wrong.old) != 1:
        raise ValueError(f"{wrong.name}: its old text stands {text.count(wrong.old)} times in {RIGHT.name}")
    return text.replace(wrong.old, wrong.new)
