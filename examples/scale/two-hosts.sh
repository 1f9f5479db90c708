#!/bin/sh
# Tries hosts.sh on two hosts, one of which is taken away in the middle: no font is lost, none is told twice, and each is told as on this machine.
# Usage: two-hosts.sh HINTCHECK FONT..
# The hosts are network namespaces of this machine, each with an sshd, and a third one, the desk, is where GNU parallel runs. They are joined by pairs
# of virtual interfaces, and nothing leads out of them. Keys are made for the trial. At the end, after some minutes at most, all of it is removed:
# processes, namespaces, keys and answers.
# It needs root, and Debian's iproute2, openssh-server, openssh-client, parallel and jq. HINTCHECK is a built program. The fonts are copied under names
# with spaces, quotes and line feeds, until there are some 120.
# Exit status 0: all is as it should be. 1: something isn't, and the last line says what. 2: it can't be tried here.

[ -n "$TRIAL_IS_BOUNDED" ] || TRIAL_IS_BOUNDED=1 exec timeout --foreground -k 30 600 "$0" "$@"

folder=$(dirname -- "$(readlink -f -- "$0")")
tag=hintcheck-$$
fonts_wanted=120

give_up() {
    echo "$1" >&2
    exit "$2"
}

say() {
    echo "$(($(date +%s) - since)) s: $1"
}

# Ends what runs in a namespace of the trial, and removes it.
remove_host() {
    for pid in $(ip netns pids "$tag-$1" 2>/dev/null); do
        kill -KILL "$pid" 2>/dev/null
    done
    ip netns del "$tag-$1" 2>/dev/null
}

remove_all() {
    trap - EXIT INT TERM
    for host in desk one two; do remove_host "$host"; done
    cd / && rm -rf "$work"
    [ -z "$made_run" ] || rmdir /run/sshd
}

# Waits until a command succeeds, a minute at most.
wait_until() {
    tries=600
    until "$@"; do
        tries=$((tries - 1))
        [ "$tries" -gt 0 ] || give_up "waited in vain for: $*" 1
        sleep 0.1
    done
}

# Makes a host: its namespace, the interfaces between it and the desk, its key and its sshd.
make_host() {
    name=$1 net=$2
    ip netns add "$tag-$name" || give_up "no network namespaces here" 2
    ip link add "$name" netns "$tag-desk" type veth peer name desk netns "$tag-$name" || give_up "no virtual interfaces here" 2
    ip -n "$tag-desk" address add "$net.1/30" dev "$name" && ip -n "$tag-desk" link set "$name" up || exit 2
    ip -n "$tag-$name" address add "$net.2/30" dev desk && ip -n "$tag-$name" link set desk up && ip -n "$tag-$name" link set lo up || exit 2
    ssh-keygen -q -t ed25519 -N '' -C "$name" -f "$work/host-$name" || exit 2
    echo "$net.2 $(cut -d ' ' -f 1,2 "$work/host-$name.pub")" >>"$work/known-hosts"
    printf 'Host %s\n    HostName %s\n' "$name" "$net.2" >>"$work/ssh.conf"
    cat >"$work/sshd-$name.conf" <<END
ListenAddress $net.2
HostKey $work/host-$name
AuthorizedKeysFile $work/key.pub
PidFile none
PermitRootLogin prohibit-password
PasswordAuthentication no
KbdInteractiveAuthentication no
UsePAM no
UseDNS no
StrictModes no
PrintMotd no
LogLevel ERROR
ClientAliveInterval 2
ClientAliveCountMax 3
END
    ip netns exec "$tag-$name" "$(command -v sshd)" -D -e -f "$work/sshd-$name.conf" 2>>"$work/sshd.log" &
}

# Whether ssh gets to a host.
answers_ssh() {
    ip netns exec "$tag-desk" ssh -F "$work/ssh.conf" -o BatchMode=yes -o ConnectTimeout=2 "$1" true 2>>"$work/ssh.log"
}

# Copies the fonts under odd names until there are enough, and lists them.
make_fonts() {
    mkdir "$work/fonts"
    count=0
    while [ "$count" -lt "$fonts_wanted" ]; do
        for font do
            count=$((count + 1))
            case $((count % 4)) in
                0) odd="line
feed" ;;
                1) odd="it's" ;;
                2) odd='"two words"' ;;
                3) odd='back\slash;&' ;;
            esac
            [ "$count" -le "$fonts_wanted" ] || break
            (cd "$from" && cp -- "$font" "$work/fonts/$count $odd $(basename -- "$font")") || exit 2
        done
    done
    count=$(find "$work/fonts" -type f -print0 | tr -dc '\0' | wc -c)
    find fonts -type f -print0 | sort -z >fonts.list
}

# How many jobs have ended, on one host or on all.
jobs_of() {
    awk -v host="$2" 'NR > 1 && (host == "" || $2 == host) { count++ } END { print count + 0 }' "$work/$1/jobs.log"
}

# Whether so many jobs have ended on a host.
has_jobs() {
    [ -r "$work/$1/jobs.log" ] && [ "$(jobs_of "$1" "$2")" -ge "$3" ]
}

# Whether a job is at work on a host.
is_at_work() {
    for pid in $(ip netns pids "$tag-$1"); do
        read -r word <"/proc/$pid/comm" && [ "$word" = check-each.sh ] && return
    done 2>/dev/null
    return 1
}

# Whether nothing runs on the desk.
is_idle() {
    [ -z "$(ip netns pids "$tag-desk")" ]
}

# Calls hosts.sh on the desk, for answers of this name, over the hosts of this file. What runs is this process from then on.
call_hosts() {
    HOME=$work SSH_CONFIG=$work/ssh.conf HINTCHECK=$work/slowed FONTS_EACH=2 \
        exec ip netns exec "$tag-desk" "$folder/hosts.sh" fonts.list "$work/$1" "$work/$2"
}

# Compares the answers of this name with those of this machine alone.
compare() {
    "$folder/together.sh" fonts.list "$work/$1" || give_up "NOT so: each font is told once" 1
    find "$work/$1" -name '*.jsonl' -exec cat {} + | sort | cmp - "$work/alone.sorted" || give_up "NOT so: each font is told as on this machine" 1
    awk 'NR > 1 { ended[$1]++; if ($7) failed++ } END { for (job in ended) if (ended[job] > 1) twice++; exit failed || twice }' \
        "$work/$1/jobs.log" || give_up "NOT so: each job has ended once" 1
}

[ $# -ge 2 ] || give_up "usage: two-hosts.sh HINTCHECK FONT.." 2
[ "$(id -u)" = 0 ] || give_up "it needs root" 2
PATH=$PATH:/usr/sbin:/sbin
for word in ip sshd ssh ssh-keygen parallel jq; do
    command -v "$word" >/dev/null || give_up "it needs $word" 2
done
program=$(readlink -f -- "$1")
[ -x "$program" ] || give_up "$1 isn't a program" 2
shift
from=$PWD

since=$(date +%s)
work=$(mktemp -d) made_run=
trap remove_all EXIT
trap 'exit 1' INT TERM
# sshd asks for this folder, which Debian makes where the service is started.
[ -d /run/sshd ] || { mkdir -m 755 /run/sshd && made_run=1; } || exit 2
cd "$work" || exit 2
make_fonts "$@"
HINTCHECK=$program timeout 180 "$folder/here.sh" fonts.list "$work/alone" 2 || give_up "NOT so: each font is told on this machine" 1
find "$work/alone" -name '*.jsonl' -exec cat {} + | sort >"$work/alone.sorted"
say "this machine alone has told $(wc -l <"$work/alone.sorted") of $count fonts"

# Jobs that take half a second at least are at work when the host is taken away.
printf '#!/bin/sh\nsleep 0.25\nexec "%s" "$@"\n' "$program" >"$work/slowed" && chmod +x "$work/slowed" || exit 2

ssh-keygen -q -t ed25519 -N '' -C trial -f "$work/key" || exit 2
cat >"$work/ssh.conf" <<END
User root
IdentityFile $work/key
IdentitiesOnly yes
UserKnownHostsFile $work/known-hosts
GlobalKnownHostsFile /dev/null
StrictHostKeyChecking yes
END
ip netns add "$tag-desk" || give_up "no network namespaces here" 2
make_host one 10.86.1
make_host two 10.86.2
wait_until answers_ssh one
wait_until answers_ssh two
say "two hosts answer"

printf '2/one\n2/two\n' >"$work/both"
call_hosts both-hosts both &
calling=$!
wait_until has_jobs both-hosts two 4
wait_until is_at_work two
ended=$(jobs_of both-hosts two)
ip -n "$tag-desk" link del two
remove_host two
say "host two is taken away at work, after $ended jobs of its own"
wait "$calling" || give_up "NOT so: hosts.sh ends with status 0" 1
say "$(jobs_of both-hosts "") jobs have ended: $(jobs_of both-hosts one) on host one, $(jobs_of both-hosts two) on host two"
compare both-hosts
say "no font is lost, none is told twice"

printf '2/one\n' >"$work/one-host"
call_hosts stopped one-host &
calling=$!
wait_until has_jobs stopped one 10
kill -KILL "$calling"
wait "$calling" 2>/dev/null
wait_until is_idle
say "the call itself is killed after $(jobs_of stopped "") jobs"
"$folder/together.sh" fonts.list "$work/stopped" >/dev/null && give_up "NOT so: the call was killed in the middle" 1
call_hosts stopped one-host &
wait $! || give_up "NOT so: the second call ends with status 0" 1
compare stopped
say "the second call has told the others: no font is lost, none is told twice"
