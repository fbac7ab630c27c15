"""Where a run has its scratch copies. They are removed with it, also if it is ended by a signal."""
import os
import re
import shutil
import signal
import tempfile
from collections.abc import Callable
from pathlib import Path

# The name of a run's folder among the temporary files, with the process that it is of.
ROOM = re.compile(r"mutants-(\d+)-\w+")


def in_a_room(work: Callable[[], int]) -> int:
    """Does the work with a folder of its own for all temporary files, and returns what it returns."""
    sweep(Path(tempfile.gettempdir()))
    room = tempfile.mkdtemp(prefix=f"mutants-{os.getpid()}-")
    tempfile.tempdir = room

    def leave(number: int, _frame: object) -> None:
        """Removes the folder, and ends the process. Its checks end with it."""
        shutil.rmtree(room, ignore_errors=True)
        os._exit(128 + number)

    for ended_by in (signal.SIGTERM, signal.SIGINT, signal.SIGHUP):
        signal.signal(ended_by, leave)
    try:
        return work()
    finally:
        tempfile.tempdir = None
        shutil.rmtree(room, ignore_errors=True)


def sweep(folder: Path) -> None:
    """Removes what runs left that were killed before they could."""
    for path in folder.iterdir():
        of = ROOM.fullmatch(path.name)
        if of and not Path(f"/proc/{of[1]}").exists():
            shutil.rmtree(path, ignore_errors=True)
