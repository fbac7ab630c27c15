#!/bin/sh
# run.sh: how many words a second are read from a heap, and from a plain vector of as many words.
# It proves, builds and runs the program beside it, with the crates that it needs, in a temporary folder.
set -eu
here=$(cd "$(dirname "$0")" && pwd)
top=$(cd "$here/../.." && pwd)
. "$top/tools/temporary.sh"
look_at_words 0 "$@"
take_crates words tg_rights tg_model tg_word tg_block tg_closed tg_space
cd "$program"
rt run
