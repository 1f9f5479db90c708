#!/bin/sh
# Checks each font in a process of its own, within limits, and prints the answers, all at the end: a line of JSON for each, of a collection one for each
# of its faces.
# Usage: check-each.sh FONT..
# Exit status 0: every font has its line, whatever the line says. Any other status: nothing was printed, and the call has to be made again.
#
# The lines are those of `hintcheck scan --json`. Where hintcheck was ended before it could answer, the line is this script's:
# {"file":FONT,"status":124,"ended":"time"}, or "killed" for 137, or "signal N" for 128 + N.
#
# HINTCHECK names the program, PROFILE may be --strict or --symbolic. BOUND, SECONDS_EACH and KILOBYTES_EACH bound the work, the time and the memory of
# a font.
case ${PROFILE-} in
    --strict) usual=20000000 ;; # more than three times what real fonts need
    *) usual=1000000000 ;;      # what the symbolic profile has by itself
esac
bound="--max-steps ${BOUND:-$usual}" # the one place where this option is named
program=${HINTCHECK:-hintcheck}
seconds=${SECONDS_EACH:-60}
kilobytes=${KILOBYTES_EACH:-1000000}

# Prints that hintcheck was ended, and how.
tell_end() {
    case $2 in
        124) ended='time' ;;
        137) ended=killed ;;
        129 | 13[0-9] | 14[0-9] | 15[0-9]) ended="signal $(($2 - 128))" ;;
        *) ended="no line" ;;
    esac
    jq -cn --arg file "$1" --argjson status "$2" --arg ended "$ended" '{$file, $status, $ended}'
}

# Prints the answer of one font: the lines that hintcheck printed, and another one where it was ended or printed none.
tell_font() {
    # shellcheck disable=SC2086  # the bound and the profile are words
    lines=$(timeout --foreground "$seconds" "$program" scan --json $bound ${PROFILE-} -- "$1")
    status=$?
    case $status in 125 | 126 | 127) exit "$status" ;; esac
    [ -z "$lines" ] || printf '%s\n' "$lines"
    if [ -z "$lines" ] || [ "$status" -gt 3 ]; then tell_end "$1" "$status"; fi
}

# shellcheck disable=SC3045  # all shells of Linux have it
ulimit -v "$kilobytes" || exit 125
[ $# -gt 0 ] || exit 0
answers=$(for font do tell_font "$font"; done) || exit
printf '%s\n' "$answers"
