#!/bin/sh
# Checks the fonts of a list on several hosts by GNU parallel. Called again, it goes on where it was stopped, and repeats what failed.
# Usage: hosts.sh LIST ANSWERS HOSTS
# LIST has the names, each with a NUL after it, as `find -print0` writes them. The fonts have these names on every host, from this folder where they
# are relative. ANSWERS is a folder: it gets the log of the jobs, and a file for each job of FONTS_EACH fonts (20), which a repeated job writes anew.
# HOSTS has a line for each host: how many jobs at once, a slash, and the name that ssh takes, as in 4/build7, or a colon for this machine. A line that
# is added or removed counts from the next job on. Call it with the same LIST each time: a job is known by its number.
# Exit status 0: every job has answered for each of its fonts. SSH_CONFIG may name a file for ssh -F. The limits are those of check-each.sh.
[ $# -eq 3 ] || { echo "usage: hosts.sh LIST ANSWERS HOSTS" >&2; exit 2; }
folder=$(dirname -- "$(readlink -f -- "$0")")
list=$1 answers=$2 hosts=$3
export BOUND HINTCHECK KILOBYTES_EACH PROFILE SECONDS_EACH
# ssh gives up a host that doesn't answer for some six seconds.
ssh="ssh -o BatchMode=yes -o ConnectTimeout=5 -o ServerAliveInterval=2 -o ServerAliveCountMax=3${SSH_CONFIG:+ -F $SSH_CONFIG}"
mkdir -p "$answers" || exit 2
exec parallel --null --arg-file "$list" --max-args "${FONTS_EACH:-20}" --retries 5 \
    --sshloginfile "$hosts" --ssh "$ssh" --env BOUND,HINTCHECK,KILOBYTES_EACH,PROFILE,SECONDS_EACH \
    --workdir "$PWD" --joblog "$answers/jobs.log" --resume-failed --results "$answers/{#}.jsonl" \
    "$folder/check-each.sh" >/dev/null
