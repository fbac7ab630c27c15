#!/bin/sh
# run.sh [SEED [GRAPHS]]: compares could_hold with a closure written apart, and replays each witness by rules written
# apart. The graphs are random, with 2 to 6 vertices and silent sets, and there are 200,000 of them with twelve
# questions each. If a turn of a witness can be left out alone, the script fails. It also fails if up to three takes
# and grants of one right each do the same as a witness with more turns. The functions who_could, what_could and
# needs, and a View, have to answer as could_hold does. It proves, builds and runs the program beside it in a
# temporary folder.
set -eu
here=$(cd "$(dirname "$0")" && pwd)
seed=${1:-1}
graphs=${2:-200000}
top=$(cd "$here/../../.." && pwd)
. "$top/tools/temporary.sh"
look_at_words 2 "$@"
take_crates could anyhow tg_rights tg_model tg_could
rustc -O -o "$build/closure" "$here/closure.rs"
"$build/closure" "$seed" "$graphs" > "$build/questions"
cd "$program"
rt run < "$build/questions" > "$build/answers"
"$build/closure" "$seed" "$graphs" "$build/answers"
