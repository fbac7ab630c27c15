#!/bin/sh
# run.sh [SEED]: how long a question of what could come about takes on large pictures, in plain Rust too (rival.rs), and a view of
# them. It proves, builds and runs the program of tests/soak/could in a temporary folder. It needs rustc.
set -eu
here=$(cd "$(dirname "$0")" && pwd)
seed=${1:-1}
top=$(cd "$here/../.." && pwd)
. "$top/tools/temporary.sh"
look_at_words 1 "$@"
source=$top/tests/soak/could/main.rt.in
take_crates could anyhow tg_rights tg_model tg_could
rustc -O -o "$build/rival" "$here/rival.rs"
cd "$program"
for size in "100000 300000" "1000000 3000000"; do
    echo "big $size $seed 16" | rt run
    "$build/rival" $size "$seed" 16
    echo "view $size $seed 1000000" | rt run
done
