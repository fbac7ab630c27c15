#!/bin/sh
# run.sh: how long collections hold the lock of a shared store, and how long a client's calls take beside them, in microseconds.
# There are 100,000 and 1,000,000 vertices in Old. The collections are full and nursery collections, by one thread and by two,
# three and four helpers. For a second one worker makes a thousand vertices, gives them up and collects, again and again. The
# other worker reads on a thread of its own. A collection's time is the time of its call, with the wait for one read to end. It
# proves, builds and runs the program beside it (`*.in`), with the crates that it needs, in a temporary folder. The longest of
# three runs is in the table, and for the calls' 99th percentile the middle one. It needs awk.
set -eu
here=$(cd "$(dirname "$0")" && pwd)
top=$(cd "$here/../.." && pwd)
. "$top/tools/temporary.sh"
look_at_words 0 "$@"
take_crates pauses tg_rights tg_model tg_word tg_block tg_closed tg_space tg_remember tg_nursery tg_payload tg_index tg_rows tg_graph tg_rules tg_evac tg_journal tg_store tg_race tg_parallel tg_helpers tg_shared
mkdir -p "$program/proofs/run_asked"
cp "$here/Invariants.antt.in" "$program/proofs/run_asked/Invariants.antt"
(cd "$program" && rt run) > "$build/built" 2>&1 || { cat "$build/built"; exit 1; }
for round in 1 2 3; do
    "$program/out/pauses"
done | awk '
    NF != 8 { print; exit }
    {
        name = $1 " " $2 " " $3
        if (!(name in runs)) order[++count] = name
        runs[name]++
        if ($5 > held[name]) held[name] = $5
        late[name, runs[name]] = $7
        if ($8 > longest[name]) longest[name] = $8
    }
    function middle(name,    low, high, sum, i) {
        low = late[name, 1]; high = low
        for (i = 1; i <= 3; i++) { sum += late[name, i]; if (late[name, i] < low) low = late[name, i]; if (late[name, i] > high) high = late[name, i] }
        return sum - low - high
    }
    END {
        if (count == 0) exit 1
        printf "%9s %6s %8s %20s %18s %15s\n", "vertices", "kind", "helpers", "longest collection", "call, 99 percent", "longest call"
        for (k = 1; k <= count; k++) {
            split(order[k], part, " ")
            printf "%9s %6s %8s %20.1f %18.1f %15.1f\n", part[1], part[2], part[3], held[order[k]] / 1000, middle(order[k]) / 1000, longest[order[k]] / 1000
        }
    }'
