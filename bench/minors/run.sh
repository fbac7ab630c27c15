#!/bin/sh
# run.sh: how long a nursery collection takes beside 5,000 old vertices, beside 50,000, and beside a row of 10,000 edges in Old.
# The time has the making and giving up of a vertex before it. It prints microseconds, and the ratios to the first. It proves,
# builds and runs the program beside it, with the crates that it needs, in a temporary folder. A number is the best of five. It
# needs awk.
set -eu
here=$(cd "$(dirname "$0")" && pwd)
top=$(cd "$here/../.." && pwd)
. "$top/tools/temporary.sh"
look_at_words 0 "$@"
take_crates minors tg_rights tg_model tg_word tg_block tg_closed tg_space tg_remember tg_nursery tg_payload tg_index tg_rows tg_graph tg_rules tg_evac tg_journal tg_store
(cd "$program" && rt run) > "$build/built" 2>&1 || { cat "$build/built"; exit 1; }
for round in 1 2 3 4 5; do
    "$program/out/minors"
done | awk '
    NF != 6 { print; exit }
    {
        name = $1 " " $2
        if (!(name in cells)) order[++sizes] = name
        cells[name] = 64 * $3
        for (i = 5; i <= 6; i++) {
            micros = $i / $4 / 1000
            if (!((name, i) in best) || micros < best[name, i]) best[name, i] = micros
        }
    }
    END {
        if (sizes == 0) exit 1
        printf "%7s %12s %8s %16s %12s %16s\n", "row", "old vertices", "cells", "make, give up", "collection", "of the first"
        few = order[1]
        for (k = 1; k <= sizes; k++) {
            s = order[k]
            split(s, part, " ")
            printf "%7s %12s %8s %16.2f %12.2f %8.2f %7.2f\n", part[1], part[2], cells[s], best[s, 5], best[s, 6], best[s, 5] / best[few, 5], best[s, 6] / best[few, 6]
        }
    }'
