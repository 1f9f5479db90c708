#!/bin/sh
# Puts the answers of a list of fonts together, and says whether each font has its line, and none has two.
# Usage: together.sh LIST ANSWERS, or together.sh --missing LIST ANSWERS
# LIST has the names, each with a NUL after it; ANSWERS is the folder of here.sh or hosts.sh. It prints an object of JSON with the counts, and the names
# that have no line (lost), that have two (twice), or that aren't in the list (strange). Exit status 0: there are none of these. A broken line is one
# whose writer was stopped; its font is lost, unless another line tells it.
# With --missing it prints the names that have no line, each with a NUL after it, and no object.
[ $# -ge 2 ] || { echo "usage: together.sh [--missing] LIST ANSWERS" >&2; exit 2; }
folder=$(dirname -- "$(readlink -f -- "$0")")
what=.
if [ "$1" = --missing ]; then
    shift
    what='.lost[] + "\u0000"'
fi
# Each file's last line gets its end, which `cat` wouldn't give it.
together=$(find "$2" -name '*.jsonl' -exec awk 1 {} + | jq -cnR --rawfile list "$1" -f "$folder/together.jq") || exit 2
printf '%s\n' "$together" | jq -cj "$what"
[ "$what" != . ] || echo
printf '%s\n' "$together" | jq -e '.lost == [] and .twice == [] and .strange == []' >/dev/null
