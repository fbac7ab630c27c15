#!/usr/bin/env python3
"""run.py [LIVE] [COMMANDS] [--instructions]

The cost of a mixture of commands (mixture.py). It is run through the library for C that bindings/check has built, and in the plain
program ../boxed.rs (with rival.rs after it). The mixture has 500,000 vertices and 1,000,000 commands unless they are given. It
prints the lines of both programs, for the whole and for the making of the vertices alone. Their sums over all answers have to be the
same. With --instructions it prints the millions of instructions, under valgrind. It needs a C compiler and rustc. bench/run.py runs
mixtures as scripts."""
import argparse
import multiprocessing
import os
import re
import subprocess
import sys
import tempfile
from pathlib import Path

sys.dont_write_bytecode = True
sys.path.insert(0, str(Path(__file__).resolve().parents[2] / "tools"))
from mixture import Mixture
from repository.counted import counted

HERE = Path(__file__).resolve().parent
BINDINGS = HERE.parent.parent / "bindings"


def built(folder):
    program = folder / "mixture"
    words = [os.environ.get("CC", "cc"), "-O2", "-I", BINDINGS, "-o", program, HERE / "mixture.c", BINDINGS / "out" / "libkovshenul.a"]
    subprocess.run(words, check=True)
    return program


def rival(folder):
    """The plain program, whose own main isn't called."""
    program, text = folder / "rival", folder / "rival.rs"
    plain = (HERE.parent / "boxed.rs").read_text().replace("\nfn main(", "\nfn run_script(")
    text.write_text(plain + (HERE / "rival.rs").read_text())
    subprocess.run(["rustc", "-O", "--edition", "2021", "-A", "dead_code", "-o", program, text], check=True)
    return program


def told(words, is_counted):
    """What a run prints, or its millions of instructions, and the sum."""
    if is_counted:
        run = counted(words)
        return f"{re.match('sum [0-9a-f]+', run.output.decode())[0]}, {run.instructions / 1e6:.1f} million instructions"
    run = subprocess.run(words, capture_output=True, text=True)
    if run.returncode:
        sys.exit(f"mixture: status {run.returncode}: {run.stderr[-500:]}")
    return run.stdout.strip()


def write_steps(path, live, commands):
    path.write_bytes(Mixture(live, commands).bytes())


def make_steps(path, live, commands):
    """Writes a mixture in a process of its own, whose memory is then given back."""
    maker = multiprocessing.Process(target=write_steps, args=(path, live, commands))
    maker.start()
    maker.join()
    if maker.exitcode:
        sys.exit(f"mixture: the steps weren't made: status {maker.exitcode}")


def main():
    words = argparse.ArgumentParser(usage=__doc__)
    words.add_argument("live", type=int, nargs="?", default=500_000)
    words.add_argument("commands", type=int, nargs="?", default=1_000_000)
    words.add_argument("--instructions", action="store_true")
    asked = words.parse_args()
    with tempfile.TemporaryDirectory() as folder:
        programs, steps = [built(Path(folder)), rival(Path(folder))], Path(folder) / "steps"
        make_steps(steps, asked.live, asked.commands)
        for name, more in (("the vertices alone", ["setup"]), ("all", [])):
            texts = [told([program, steps, *more], asked.instructions) for program in programs]
            print(f"{name}: {texts[0]}; plain: {texts[1]}", flush=True)
            if texts[0].split(",")[0] != texts[1].split(",")[0]:
                sys.exit("mixture: the two gave different answers")


if __name__ == "__main__":
    main()
