"""Processor time, as the kernel counts it."""
import os
import resource
from pathlib import Path

TICKS = os.sysconf("SC_CLK_TCK")


def seconds_of_children() -> float:
    """The processor seconds of the children that have ended, and of their own children."""
    used = resource.getrusage(resource.RUSAGE_CHILDREN)
    return used.ru_utime + used.ru_stime


def seconds_of(process: int) -> float:
    """The processor seconds that a process has used so far. OSError if it has ended."""
    return seconds_in(words_of(process))


def words_of(process: int) -> list[str]:
    """The fields of /proc/PROCESS/stat after the name. The first is the state, and the second the parent. OSError
    if the process has ended."""
    stat = Path(f"/proc/{process}/stat").read_text(encoding="utf-8", errors="replace")
    return stat.rpartition(")")[2].split()


def seconds_in(words: list[str]) -> float:
    """The processor seconds in the fields of a process."""
    return (int(words[11]) + int(words[12])) / TICKS
