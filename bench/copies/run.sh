#!/bin/sh
# run.sh: bytes a second that full collections copy of a live heap of 35,008 cells, tree-like and random. Beside them come a bare
# copier in C (copier.c) and memcpy. It proves, builds and runs the program and proofs beside it (`*.in`), with the crates that it
# needs, in a temporary folder. The two take turns, and a number is the best of five. It needs cc and awk.
set -eu
here=$(cd "$(dirname "$0")" && pwd)
top=$(cd "$here/../.." && pwd)
. "$top/tools/temporary.sh"
look_at_words 0 "$@"
take_crates copies tg_rights tg_model tg_word tg_block tg_closed tg_space tg_remember tg_evac
for proof in "$here"/*.antt.in; do
    it=$(basename "$proof" .antt.in)
    mkdir -p "$program/proofs/${it%.*}"
    cp "$proof" "$program/proofs/${it%.*}/${it#*.}.antt"
done
cc -O2 -o "$build/copier" "$here/copier.c"
(cd "$program" && rt run) > "$build/built" 2>&1 || { cat "$build/built"; exit 1; }
for round in 1 2 3 4 5; do
    "$build/copier" | sed 's/^/C /'
    "$program/out/copies" | sed 's/^/ours /'
done | awk '
    { at = $1 " " $2; if (!(at in best) || $4 < best[at]) best[at] = $4; cells = $3 }
    function rate(at) { return best[at] ? cells * 64 / best[at] * 1000 : 0 }
    END {
        printf "%-8s %12s %12s %12s %10s %10s\n", "shape", "ours", "C", "memcpy", "ours/C", "ours/memcpy"
        split("tree random", shapes, " ")
        for (i = 1; i <= 2; i++) {
            s = shapes[i]
            printf "%-8s %7.0f MB/s %7.0f MB/s %7.0f MB/s %10.2f %10.2f\n", s, rate("ours " s), rate("C " s), rate("C memcpy"), rate("ours " s) / rate("C " s), rate("ours " s) / rate("C memcpy")
        }
    }'
