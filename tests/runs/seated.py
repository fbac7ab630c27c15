"""The scripts and races that have a collection, and the tests of store_tests, on a copy of the tree that `rt try` builds
without a proof. In the copy `Store::collect` has a seated helper collect (`collect_seated`) in place of a walk without
a table (`collect_one`). What is written must be the same."""
import shutil
import subprocess
import tempfile
from collections.abc import Sequence
from dataclasses import replace
from pathlib import Path

from repository.rows import Row
from repository.tree import TOP, BadInput, Tree, read_text, write_text

COLLECTS = {
    "use tg_evac::collect_one;": "use tg_parallel::collect_seated;",
    " = collect_one(": " = collect_seated(",
}
TESTED = ("store_tests",)


def try_seated(rows: Sequence[Row]) -> int:
    """Runs the tests, and those of the rows that collect. Returns the status of the first that fails, or 0."""
    with tempfile.TemporaryDirectory(prefix="seated-") as name:
        room = Path(name)
        tree, cases = seated_tree(room / "tree"), room / "cases"
        cases.mkdir()
        for row in rows:
            if {b"full", b"minor"} & set(row.stored("stdin").splitlines()):
                put_case(row, cases / row.name.replace("/", "-"))
        runs = [(crate, ["rt", "try", "--test"]) for crate in TESTED]
        runs.append(("tgstore", ["rt", "try", "--cases", str(cases)]))
        for crate, command in runs:
            status = subprocess.run(command, cwd=tree.folder(crate), check=False).returncode
            if status != 0:
                return status
    return 0


def put_case(row: Row, case: Path) -> None:
    """Writes a row as `rt try` takes a case: NAME, NAME.args with a word a line, and NAME.stdout."""
    case.write_bytes(row.stored("stdin"))
    write_text(case.with_name(f"{case.name}.args"), "".join(f"{word}\n" for word in row.words))
    case.with_name(f"{case.name}.stdout").write_bytes(row.stored("stdout"))


def seated_tree(top: Path) -> Tree:
    """Copies the tree, and has Store::collect of the copy call collect_seated. BadInput if it calls something else than
    collect_one."""
    shutil.copytree(TOP / "crates", top / "crates", ignore=shutil.ignore_patterns("out"))
    shutil.copy(TOP / "HANDLES", top)
    subprocess.run(["git", "init", "-q", str(top)], check=True)
    crates = dict(Tree().crates)
    crates["tg_store"] = replace(crates["tg_store"], uses=("tg_parallel", *crates["tg_store"].uses))
    write_text(top / "crates.txt", "".join(f"{crate.line}\n" for crate in crates.values()))
    store = top / "crates/tg_store/src/store.rt"
    text = read_text(store)
    for old, new in COLLECTS.items():
        if text.count(old) != 1:
            raise BadInput(f"crates/tg_store/src/store.rt has '{old}' {text.count(old)} times, and once is wanted")
        text = text.replace(old, new)
    write_text(store, text)
    return Tree(top)
