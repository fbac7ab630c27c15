#!/bin/sh
# run.sh: how long full collections of live heaps take by one thread, by one seated helper, and by 2 and 4 helpers. Beside them comes a
# bare copier in C (copier.c). It works alone, with blocks that exist ('bare') or with blocks that it takes anew as a collection does
# ('anew'). Or it claims its cells by a compare-and-exchange with 1, 2 and 4 threads. The heaps have 35,008 and 1,000,000 cells. They
# are rows of 64 workers, a tree, and a tree whose cells are shuffled. It proves, builds and runs the program and proofs beside it
# (`main.rt.in`, FUNCTION.FILE.antt.in), with the crates that it needs, in a temporary folder. The two take turns, and a number is the
# best of three medians. It prints two tables. The first is with malloc as it comes, which gives freed memory back to the system, and
# the second with malloc that keeps it. With --instructions it counts instructions for a cell of the smaller heaps, by valgrind. They
# are of one thread and of one seated helper. It needs cc and awk. If ghc is found, GHC's own collector with one thread and with two
# comes below (GcBench.hs).
set -eu
here=$(cd "$(dirname "$0")" && pwd)
top=$(cd "$here/../.." && pwd)
. "$top/tools/temporary.sh"
test "$*" = --instructions || look_at_words 0 "$@"
take_crates helpers tg_rights tg_model tg_word tg_block tg_space tg_remember tg_evac tg_race tg_parallel
for proof in "$here"/*.antt.in; do
    it=$(basename "$proof" .antt.in)
    mkdir -p "$program/proofs/${it%.*}"
    cp "$proof" "$program/proofs/${it%.*}/${it#*.}.antt"
done
cc -O2 -pthread -o "$build/copier" "$here/copier.c"
(cd "$program" && rt run) > "$build/built" 2>&1 || { cat "$build/built"; exit 1; }

# How many instructions so many collections take, of a heap of this shape by this way, with all before them.
instructions() {
    "$top/tools/instructions" "$program/out/helpers" "$@" < /dev/null
}

if test "${1-}" = --instructions; then
    for way in one seated; do
        for shape in rows tree random; do
            echo "$way $shape $(instructions $shape $way 25) $(instructions $shape $way 5)"
        done
    done | awk '{ printf "%s, %s: %.1f instructions a cell\n", $1, $2, ($3 - $4) / 20 / 35008 }'
    exit
fi

# Three rounds of both, in turn, as lines 'WHO SHAPE CELLS WAY NANOSECONDS'. A word is set for the two, as for env.
rounds() {
    for round in 1 2 3; do
        env "$@" "$build/copier" | sed 's/^/C /'
        env "$@" "$program/out/helpers" | sed 's/^/ours /'
    done
}

table() {
    awk '
    { at = $1 " " $2 " " $3 " " $4; if (!(at in best) || $5 < best[at]) best[at] = $5 }
    function ratio(a, b) { return (a in best) && (b in best) && best[b] ? sprintf("%.2f", best[a] / best[b]) : "-" }
    function slower(a, b) { return sprintf("%.0f", (best[a] - best[b]) / 1000) }
    END {
        print "| Heap | Cells | One thread, million cells a second | One, of bare C | One, of C anew | Seated, of bare C | Seated, of C anew | Seated, of C with a claiming thread | 2 helpers, of seated | C: 2 threads, of 1 | 4 helpers, of seated | C: 4 threads, of 1 | 2 helpers less seated, µs | 4 less seated, µs |"
        print "|---|---|---|---|---|---|---|---|---|---|---|---|---|---|"
        split("35008 1000000", sizes, " ")
        split("rows tree random", shapes, " ")
        for (i = 1; i <= 2; i++) for (j = 1; j <= 3; j++) {
            s = shapes[j] " " sizes[i]; o = "ours " s; c = "C " s
            printf "| %s | %d | %s |", shapes[j], sizes[i], best[o " one"] ? sprintf("%.1f", sizes[i] / best[o " one"] * 1000) : "-"
            printf " %s | %s | %s | %s | %s |", ratio(c " bare", o " one"), ratio(c " anew", o " one"), ratio(c " bare", o " seated"), ratio(c " anew", o " seated"), ratio(c " 1", o " seated")
            printf " %s | %s | %s | %s |", ratio(o " seated", o " 2"), ratio(c " 1", c " 2"), ratio(o " seated", o " 4"), ratio(c " 1", c " 4")
            printf " %s | %s |\n", slower(o " 2", o " seated"), slower(o " 4", o " seated")
        }
    }'
}

echo "malloc as it comes:"
echo
rounds LC_ALL=C | table
echo
echo "malloc keeps what is freed:"
echo
rounds MALLOC_TRIM_THRESHOLD_=4000000000 MALLOC_MMAP_THRESHOLD_=1000000000 | table

if command -v ghc > /dev/null; then
    echo
    ghc -O -threaded -rtsopts -outputdir "$build" -o "$build/gc" "$here/GcBench.hs" > "$build/ghc" 2>&1 || { cat "$build/ghc"; exit 1; }
    for cells in 35008 1000000; do
        for shape in tree random; do
            for threads in 1 2; do
                echo "GHC -N$threads, $shape, $cells objects, bytes a second (median, best) and objects: $("$build/gc" "$cells" 15 "$shape" +RTS -N$threads -T -A64m)"
            done
        done
    done
fi
