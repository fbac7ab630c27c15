#!/bin/sh
# run.sh: a race for 1,000,000 deeds. Eight clients on threads ask for 125,000 each. Seven of them ask for a vertex, with a share of
# 40,000, and the eighth keeps below its own share. Three of the seven ask by batches of 125 drafts, and the others one by one. The
# script builds and runs the program beside it (`main.rt.in`), which isn't proved, with the crates that it needs, in a temporary
# folder. It prints the outcome of each client's calls.
set -eu
here=$(cd "$(dirname "$0")" && pwd)
top=$(cd "$here/../.." && pwd)
. "$top/tools/temporary.sh"
look_at_words 0 "$@"
take_crates shares tg_rights tg_model tg_payload tg_journal tg_store tg_shared tg_shares
(cd "$program" && rt try --steps 1000 --seconds 900)
