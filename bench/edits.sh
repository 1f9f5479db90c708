#!/bin/sh
# edits.sh [CRATE..]: tries the edits of bench/edits/CRATE that the prover must refuse, as `rt ci` tries those of crates/CRATE/must-fail.
# Without a name it takes each crate that has some. It works on a copy of the repository, as it is in the work tree. Its last line names the bad edits,
# which can't be applied or compiled or read, so that they show nothing; its status is 0 only if there is none and each edit is refused.
top=$(CDPATH='' cd -- "$(dirname -- "$0")/.." && pwd) || exit 2
room=$(mktemp -d) || exit 2
trap 'rm -rf "$room"' EXIT
# Some shells leave that trap out where a signal ends them.
trap 'exit 2' HUP INT TERM
[ $# -gt 0 ] || set -- $(ls "$top/bench/edits")
cp -a "$top/crates" "$top/crates.txt" "$top/HANDLES" "$room/" || exit 2
git -C "$room" init -q || exit 2
for name in "$@"; do
    rm -rf "$room/crates/$name/must-fail"
    cp -a "$top/bench/edits/$name" "$room/crates/$name/must-fail" || exit 2
done
cd "$room" || exit 2
{ rt must-fail "$@"; echo $? >status; } 2>&1 | tee told
bad=$(sed -n 's/.*must-fail \([^ ]*\): BAD EDIT.*/\1/p' told | sort -u | tr '\n' ' ')
if [ -n "$bad" ]; then
    echo "bad edits: $bad"
    exit 1
fi
exit "$(cat status)"
