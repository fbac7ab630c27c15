#!/bin/sh
# tests.sh FILE: proves, builds and runs the tests beside it, with the crates that they need, in a temporary folder. It leaves them as the
# program FILE, for refused.py. Without FILE it leaves nothing. The files of the tests have `.in` after their names, so that the gate passes
# over them. If `rt check` has kept the proofs of the crates, it takes some minutes, and else as long as their proofs.
set -eu
here=$(cd "$(dirname "$0")" && pwd)
top=$(cd "$here/../../.." && pwd)
. "$top/tools/temporary.sh"
look_at_words 1 "$@"
take_tests memory_tests tg_rights tg_model tg_payload tg_journal tg_store tg_helpers tg_shared tg_text tg_script tg_threads
(cd "$program" && rt test)
if test $# -gt 0; then
    cp "$program/out/memory_tests_tests" "$1"
fi
