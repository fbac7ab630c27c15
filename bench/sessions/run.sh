#!/bin/sh
# run.sh: proves and builds the program beside it (`*.in`), with the crates that it needs, in a temporary folder. Then rates.py
# measures how many commands a second 1, 2, 4 and 8 sessions on threads have answered. Beside them comes a plain program
# (plain.rs) with a journal in a mutex. It needs rustc and python3.
set -eu
here=$(cd "$(dirname "$0")" && pwd)
top=$(cd "$here/../.." && pwd)
. "$top/tools/temporary.sh"
look_at_words 0 "$@"
take_crates sessions tg_rights tg_model tg_word tg_block tg_closed tg_space tg_remember tg_nursery tg_payload tg_index tg_rows tg_graph tg_rules tg_evac tg_journal tg_store tg_race tg_parallel tg_helpers tg_shared
mkdir -p "$program/proofs/run_sessions"
cp "$here/Invariants.antt.in" "$program/proofs/run_sessions/Invariants.antt"
rustc -O --edition 2021 -o "$build/plain" "$here/plain.rs"
(cd "$program" && rt run) > "$build/built" 2>&1 || { cat "$build/built"; exit 1; }
"$here/rates.py" "$program/out/sessions" "$build/plain"
