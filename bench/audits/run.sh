#!/bin/sh
# run.sh: how long the audit of a journal takes beside the commands that made it, in each order that audits.c knows. It calls the library
# for C that bindings/check has built. Of three runs of each order it prints the line with the ratio in the middle. It needs a C compiler,
# sort and sed.
set -eu
here=$(cd "$(dirname "$0")" && pwd)
top=$(cd "$here/../.." && pwd)
. "$top/tools/temporary.sh"
look_at_words 0 "$@"
built=$(mktemp -d)
trap 'rm -rf "$built"' EXIT
"${CC:-cc}" -O2 -Wall -Wextra -I"$top/bindings" -o "$built/audits" "$here/audits.c" "$top/bindings/out/libkovshenul.a"
for order in up down random front back lists; do
    for round in 1 2 3; do
        "$built/audits" "$order"
    done | sed 's/^\(.*ratio \)\(.*\)$/\2 \1\2/' | sort -n | sed -n '2s/^[^ ]* //p'
done
