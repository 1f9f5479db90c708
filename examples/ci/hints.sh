#!/bin/sh
# Checks the fonts below some folders by several processes at once, which share a file of known refusals, and collects what they refuse.
# Usage: hints.sh KNOWN NEW FOLDER..
# It prints what the processes print. NEW gets the refused programs of all fonts, in the order of fonts and programs, so that it can take the place of
# KNOWN. It is written where each font has a verdict: the refusals of another one would be missing.
# Exit status: the greatest one of the processes, as that of hintcheck: 0 where each refused program is a known one. It is 2 where there is no font.
# HINTCHECK names the program. PROCESSES is how many there are: as many as the machine has processors, where it isn't given. OPTIONS has further words
# for each, as --fail-on possible.
[ $# -ge 3 ] || { echo "usage: hints.sh KNOWN NEW FOLDER.." >&2; exit 2; }
known=$1 new=$2
shift 2
room=$(mktemp -d) || exit 2
processes=
trap 'rm -rf "$room"' EXIT
# shellcheck disable=SC2086  # the processes are words
trap 'kill $processes; exit 2' INT TERM

# Each process gets its share of the names, each with a NUL after it.
find "$@" -type f -name '*.tt[cf]' -print0 >"$room/names" || exit 2
LC_ALL=C sort -z "$room/names" | split -e -t '\0' -n "r/${PROCESSES:-$(nproc)}" - "$room/fonts." || exit 2
set -- "$room"/fonts.*
[ -e "$1" ] || { echo "hints.sh: there is no font" >&2; exit 2; }

for share do
    # shellcheck disable=SC2086  # the options are words
    "${HINTCHECK:-hintcheck}" scan ${OPTIONS-} --expect "$known" --write-expect "$share.new" --files-from0 "$share" >"$share.out" 2>"$share.err" &
    processes="$processes $!"
done
status=0
for process in $processes; do
    wait "$process" || { ended=$?; [ "$ended" -le "$status" ] || status=$ended; }
done
cat "$room"/*.out
cat "$room"/*.err >&2
[ "$status" -gt 1 ] || cat "$room"/*.new | LC_ALL=C sort -t ' ' -k 3 -k 2,2V -k 1,1n >"$new" || status=2
exit "$status"
