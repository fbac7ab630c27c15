#!/usr/bin/env python3
"""tests/runs/kept.py [--check]

Writes the kept files of the rows of tests/runs/audit, tests/runs/could and tests/runs/dot whose names begin with kept_,
and of rows of tests/runs/kept: for each row the folder files. Each is made from one of two small histories, by zlib's
CRC-32 and with no code of the store. The texts that the programs have to write beside them are stored by hand. With
--check it compares the stored files with those that it makes, and writes nothing. The last line is 'kept: N files'."""
import sys
import zlib
from collections.abc import Iterable
from pathlib import Path

HERE = Path(__file__).resolve().parent

FIRST = b"kovshenul kept 1"
OPENING = (b"opening 2 1000000", b"worker c0", b"worker c0", b"edge 0 1 rw")
# The batches of a run of three entries, and the two marks by which a close ends it.
BATCHES = ((FIRST,), OPENING, (b"0 create r c0 = ok 2",), (b"0 write 1 7 = ok", b"0 read 1 = ok 7"))
MARKS = ((b"entries 3",), (b"entries 3",))
# The batches of a run whose last entry hands a right on. Two more batches end it, which are marks.
GRANTING = (b"opening 2 1000000", b"worker c0", b"worker c0", b"edge 0 1 g")
GRANTS = ((FIRST,), GRANTING, (b"0 create rw c0 = ok 2",), (b"0 grant 1 2 r = ok",))
GRANT_MARKS = ((b"entries 2",), (b"entries 2",))


def kept(batches: Iterable[Iterable[bytes]]) -> bytes:
    """The bytes of a kept file that has these batches of texts."""
    file, before = b"", b"00000000"
    for batch in batches:
        for place, text in enumerate(batch):
            before = b"%08x" % zlib.crc32(before + text)
            file += text + b" " + (b"#" if place else b"@") + before + b"\n"
    return file


OPEN, CLOSED = kept(BATCHES), kept(BATCHES + MARKS)
GRANTED, GRANTED_CLOSED = kept(GRANTS), kept(GRANTS + GRANT_MARKS)


def line(number: int, file: bytes = CLOSED) -> int:
    """Where the line of this number begins, which is counted from 1."""
    return sum(len(it) for it in file.splitlines(keepends=True)[: number - 1])


def altered(place: int, bytes_there: bytes) -> bytes:
    """The closed file with these bytes at the place."""
    return CLOSED[:place] + bytes_there + CLOSED[place + len(bytes_there) :]


def reordered(*numbers: int) -> bytes:
    """The lines of the closed file with these numbers."""
    lines = CLOSED.splitlines(keepends=True)
    return b"".join(lines[number - 1] for number in numbers)


def flipped(place: int, file: bytes = CLOSED) -> bytes:
    """The file with the lowest bit of one byte flipped."""
    return file[:place] + bytes([file[place] ^ 1]) + file[place + 1 :]


AUDITED = {
    "kept_closed": {"store": CLOSED},
    "kept_in_use": {"store": OPEN + bytes(4096)},
    "kept_cut_at_the_end_of_a_batch": {"store": OPEN},
    "kept_ends_that_are_cut_off": {
        "one_byte": OPEN[: line(8) + 1],
        "in_the_text": OPEN[: line(8) + 7],
        "in_the_sum": OPEN[:-4],
        "no_line_feed": OPEN[:-1],
        "no_line_feed_and_zeros": OPEN[:-1] + bytes(100),
        "a_zero_in_the_line": OPEN[: line(8) + 7] + bytes(1) + OPEN[line(8) + 8 :] + bytes(100),
        "both_lines": OPEN[: line(7) + 3],
        "a_mark": CLOSED[:-3],
    },
    "kept_a_flipped_bit": {
        "in_a_text": flipped(line(6) + 4),
        "in_a_sum": flipped(line(7) - 3),
        "in_a_mark": flipped(line(7) - 11),
        "in_a_line_feed": flipped(line(7) - 1),
        "in_an_opening": flipped(line(3)),
    },
    "kept_a_bit_of_the_last_mark": {"store": flipped(line(10) + 2)},
    "kept_a_line_gone": {"store": reordered(1, 2, 3, 4, 5, 7, 8, 9, 10)},
    "kept_a_line_twice": {"store": reordered(1, 2, 3, 4, 5, 6, 7, 7, 8, 9, 10)},
    "kept_two_lines_swapped": {"store": reordered(1, 2, 3, 4, 5, 7, 6, 8, 9, 10)},
    "kept_zeros_in_the_middle": {"store": altered(line(5), bytes(30))},
    "kept_another_version": {"store": kept(((b"kovshenul kept 2",),) + BATCHES[1:])},
    "kept_a_later_version": {"store": kept(((b"kovshenul kept 10",),) + BATCHES[1:])},
    "kept_another_programs_file": {"store": b"SQLite format 3\0" + bytes(range(256))},
    "kept_a_text": {"store": b"kovshenul entries 1\nopening 1 9\nworker c0\nentries 0\n"},
    "kept_an_empty_file": {"store": b""},
    "kept_zeros_alone": {"store": bytes(4096)},
    "kept_the_first_line_is_damaged": {"store": flipped(line(2) - 3)},
    "kept_the_first_line_is_cut_off": {"store": CLOSED[: line(2) - 1]},
    "kept_a_reply_that_is_none": {"store": kept((*BATCHES[:3], (b"0 write 1 7 = ok", b"0 read 1 = ok 8")))},
    "kept_a_line_that_is_none": {"store": kept((*BATCHES[:3], (b"0 write 1 7 = ok", b"0 reads 1 = ok 7")))},
    "kept_a_mark_with_another_number": {"store": kept(BATCHES + ((b"entries 2",), (b"entries 2",)))},
    "kept_no_opening": {"store": kept(BATCHES[:1])},
    "kept_an_opening_that_is_cut_off": {"store": kept(BATCHES[:1] + (OPENING[:2],))},
    "kept_no_entry": {"store": kept(BATCHES[:2] + ((b"entries 0",), (b"entries 0",)))},
    "kept_marks_between_entries": {"store": kept(BATCHES[:3] + ((b"entries 1",), (b"entries 1",)) + BATCHES[3:] + MARKS)},
    "kept_several_files": {"first": CLOSED, "second": flipped(line(6) + 4), "third": OPEN},
    "kept_front_of_a_closed_file": {"store": CLOSED},
    "kept_front_of_a_damaged_file": {"store": flipped(line(6) + 4)},
    "kept_front_of_an_end_that_is_cut_off": {"store": OPEN[:-4] + bytes(50)},
    "kept_front_of_another_version": {"store": kept(((b"kovshenul kept 2",),) + BATCHES[1:])},
    "kept_an_option_after_a_file": {"store": CLOSED},
    "kept_a_file_after_a_front": {"store": CLOSED},
}
ASKED = {
    "kept_closed": {"store": GRANTED_CLOSED},
    "kept_in_use": {"store": GRANTED + bytes(4096)},
    "kept_an_end_that_is_cut_off": {"store": GRANTED[:-1] + bytes(100)},
    "kept_an_end_that_is_cut_off_has_a_policy": {"store": GRANTED[:-4]},
    "kept_marks_between_entries": {"store": kept(GRANTS[:3] + ((b"entries 1",), (b"entries 1",)) + GRANTS[3:] + GRANT_MARKS)},
    "kept_a_policy_that_is_broken": {"store": GRANTED_CLOSED},
    "kept_and_a_script_on_standard_input": {"store": GRANTED_CLOSED},
    "kept_with_its_own_numbers": {"store": GRANTED_CLOSED},
    "kept_with_other_workers": {"store": GRANTED_CLOSED},
    "kept_with_a_stock": {"store": GRANTED_CLOSED},
    "kept_damage_in_the_middle": {"store": flipped(line(6, GRANTED_CLOSED) + 4, GRANTED_CLOSED)},
    "kept_a_wrong_sum": {"store": flipped(line(8, GRANTED_CLOSED) - 3, GRANTED_CLOSED)},
    "kept_a_reply_that_is_none": {"store": kept((*GRANTS[:3], (b"0 grant 1 2 a = ok",)))},
    "kept_a_line_that_is_none": {"store": kept((*GRANTS[:3], (b"0 grants 1 2 r = ok",)))},
    "kept_a_mark_with_another_number": {"store": kept(GRANTS + ((b"entries 1",), (b"entries 1",)))},
    "kept_an_opening_that_is_cut_off": {"store": kept(GRANTS[:1] + (GRANTING[:2],))},
    "kept_another_version": {"store": kept(((b"kovshenul kept 2",),) + GRANTS[1:])},
    "kept_another_programs_file": {"store": b"SQLite format 3\0" + bytes(range(256))},
    "kept_a_text": {"store": b"kovshenul entries 1\nopening 1 9\nworker c0\nentries 0\n"},
    "kept_an_empty_file": {"store": b""},
    "kept_a_bad_question": {"store": GRANTED_CLOSED},
}
DRAWN = {
    "kept_closed": {"store": GRANTED_CLOSED},
    "kept_an_end_that_is_cut_off": {"store": GRANTED[:-4]},
    "kept_damage_in_the_middle": {"store": flipped(line(6, GRANTED_CLOSED) + 4, GRANTED_CLOSED)},
    "kept_another_version": {"store": kept(((b"kovshenul kept 2",),) + GRANTS[1:])},
    "kept_steps": {"store": GRANTED_CLOSED},
    "kept_with_a_stock": {"store": GRANTED_CLOSED},
}
# The rows of tests/runs/kept that go on from a file, or can't.
GONE_ON = {
    "goes_on_from_a_closed_file": {"a.kept": CLOSED},
    "goes_on_from_a_file_in_use_at_a_crash": {"a.kept": OPEN + bytes(4096)},
    "goes_on_from_an_end_that_is_cut_off": {"a.kept": OPEN[:-4] + bytes(100)},
    "goes_on_strictly": {"a.kept": CLOSED},
    "the_numbers_of_the_file_are_given": {"a.kept": CLOSED},
    "another_number_of_workers": {"a.kept": CLOSED},
    "another_limit_of_vertices": {"a.kept": CLOSED},
    "an_edge_line": {"a.kept": CLOSED},
    "a_damaged_file": {"a.kept": flipped(line(6) + 4)},
    "a_reply_that_is_none": {"a.kept": kept((*BATCHES[:3], (b"0 write 1 7 = ok", b"0 read 1 = ok 8")))},
    "another_programs_file": {"a.kept": b"SQLite format 3\0" + bytes(range(256))},
    "a_text_of_a_history": {"a.kept": b"kovshenul entries 1\nopening 1 9\nworker c0\nentries 0\n"},
    "an_empty_file": {"a.kept": b""},
    "fewer_blocks_than_workers": {"a.kept": CLOSED},
}
GROUPS = (("audit", AUDITED), ("could", ASKED), ("dot", DRAWN), ("kept", GONE_ON))
FILES = {f"{group}/{row}": files for group, rows in GROUPS for row, files in rows.items()}


def main() -> int:
    """Writes the files, or compares them. Returns the status."""
    if sys.argv[1:] in (["--help"], ["-h"]):
        print(__doc__)
        return 0
    if sys.argv[1:] not in ([], ["--check"]):
        print(f"kept: unexpected argument '{sys.argv[-1]}': --help has the manual", file=sys.stderr)
        return 2
    wrong = count = 0
    for row, files in FILES.items():
        folder = HERE / row / "files"
        for name, file in files.items():
            count += 1
            if sys.argv[1:]:
                if not (folder / name).is_file() or (folder / name).read_bytes() != file:
                    print(f"kept: {folder / name} isn't what this script makes", file=sys.stderr)
                    wrong += 1
            else:
                folder.mkdir(parents=True, exist_ok=True)
                (folder / name).write_bytes(file)
    print(f"kept: {count} files")
    return 1 if wrong else 0


if __name__ == "__main__":
    sys.exit(main())
