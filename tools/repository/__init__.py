"""What the scripts of this repository share. A script puts `tools` into its path and imports the module that it needs:

    sys.path.insert(0, str(TOP / "tools"))
    from repository.tree import Tree

Module      | What it has
------------|------------------------------------------------------------------------------------------------------
`tree`      | `TOP`, `Tree` and `Crate`: the crates of crates.txt, in which order they are built, their files, the
            | programs that were built; `read_text`, `write_text`, `files_below`; `BadInput`
`kit`       | `home` and `version` of the toolchain, the options that name a crate's libraries, and the last line that
            | the checker or the gate writes (`Last`)
`unproved`  | `build_program` and `fails_test`: builds a program of a tree without its proof, or runs a test so
`verdicts`  | what a proof rests on: the checker's last lines and the axioms in a log, unsafe code, proofs by hand, and sums
`counted`   | `counted` and `instructions`: how many instructions a program executes, under valgrind; `run_check` for a
            | script that does nothing else
`prose`     | `Prose`: the sentences of a page, and whether they keep the limits
`processor` | processor seconds of a process and of children, as the kernel counts them

`tools/crates` prints what `tree` knows, for scripts of the shell. The tests are in `tests`. They take less than a
second and ask nothing of the toolchain: `cd tools && python3 -B -m unittest repository.tests`."""
