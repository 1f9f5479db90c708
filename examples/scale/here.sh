#!/bin/sh
# Checks the fonts of a list on this machine, several at once. Called again, it goes on where it was stopped.
# Usage: here.sh LIST ANSWERS [PROCESSES]
# LIST has the names, each with a NUL after it, as `find -print0` writes them. ANSWERS is a folder: each of the processes of each call has a file of its
# own there, so that no line is written into another one. PROCESSES is as many as the machine has, unless it is given.
# Exit status 0: every font of the list has its line, and none has two. The limits are those of check-each.sh.
[ $# -ge 2 ] || { echo "usage: here.sh LIST ANSWERS [PROCESSES]" >&2; exit 2; }
folder=$(dirname -- "$(readlink -f -- "$0")")
list=$1 ANSWERS=$2 CALL=$$
export ANSWERS CALL
mkdir -p "$ANSWERS" || exit 2
# shellcheck disable=SC2016  # each shell of xargs expands its own words
"$folder/together.sh" --missing "$list" "$ANSWERS" |
    xargs -0 -r -n 20 -P "${3:-$(nproc)}" --process-slot-var=SLOT \
        sh -c '"$0" "$@" >>"$ANSWERS/here-$CALL-$SLOT.jsonl"' "$folder/check-each.sh"
"$folder/together.sh" "$list" "$ANSWERS" >/dev/null
