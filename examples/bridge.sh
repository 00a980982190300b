#!/bin/bash
# A bridge between a server and a device such as a relay. Once a second it POSTs to a resource, so
# that the program reads its sensors. The bridge runs a command with the state in the response,
# unless the last successful run of the command had the same state.
#
# Use: examples/bridge.sh [-s STATE] [-t SECONDS] PORT PATH COMMAND..
#      examples/bridge.sh -l [-s STATE] [-t SECONDS] URI COMMAND..
#
# The first form uses the client FCREQ. By default that is the built one of the repository, if the
# bridge runs at its top, or else fcreq on the path. The second form uses libcoap's client, of
# Debian's package libcoap3-bin.
#
# -s STATE    the safe state. The command runs with it if there is no successful response for SECONDS,
#             and when the bridge ends by SIGTERM or SIGINT
# -t SECONDS  10 if not given. A command that takes longer is ended, and counts as failed
#
# A response is successful if its code is 2.04; with libcoap's client, if it has a payload. A command
# that fails runs again a second later. Standard error reports when responses stop and start again,
# each code other than 2.04, and that a command failed.
set -m # the loop is a job with a group of its own, which ends as one
safe='' has_safe='' limit=10 client=fcreq
while getopts ls:t: word; do
    case $word in
    l) client=libcoap ;;
    s) safe=$OPTARG has_safe=yes ;;
    t) limit=$OPTARG ;;
    *) exit 2 ;;
    esac
done
shift $((OPTIND - 1))
[ "$client" = libcoap ] || { port=$1 && shift; }
target=$1
shift
if [ $# = 0 ] || ! [ "$limit" -gt 0 ]; then
    sed -n 's/^# \(Use: .*\)/\1/p' "$0" >&2
    exit 2
fi

say() {
    echo "bridge: $target: $*" >&2
}

if [ "$client" = fcreq ]; then
    fcreq=${FCREQ:-crates/fcreq/out/fcreq}
    [ "$FCREQ" ] || [ -x "$fcreq" ] || fcreq=fcreq
    if ! command -v "$fcreq" >/dev/null; then
        say "no client $fcreq: set FCREQ, or put fcreq on the path"
        exit 2
    fi
fi

# Sets `now`, in seconds, by a clock that isn't adjusted.
look_at_clock() {
    read -r now _ </proc/uptime
    now=${now%.*}
}

# POSTs, for at most $1 seconds. Sets `code`, empty without a response, and `state`.
ask() {
    code='' state=''
    if [ "$client" = libcoap ]; then
        state=$(timeout --foreground "$1" coap-client-notls -v 2 -B "$1" -m post "$target" 2>/dev/null)
        [ -z "$state" ] || code=2.04
    else
        { read -r code && read -r state; } < <(timeout --foreground "$1" "$fcreq" --port "$port" --text -f /dev/null post "$target" 2>/dev/null)
    fi
}

# Runs the command with state $1, unless its last successful run had that state.
act() {
    [ "$is_set" ] && [ "$1" = "$last" ] && return
    if timeout --foreground "$limit" "${command[@]}" "$1" </dev/null; then
        is_set=yes last=$1
    else
        is_set=''
        say "the command failed with $1"
    fi
}

follow() {
    local is_set='' last='' code='' seen=2.04 is_lost='' left state now heard parent
    look_at_clock
    heard=$now
    while sleep 1; do
        read -r _ _ _ parent _ <"/proc/$BASHPID/stat"
        if [ "$parent" != $$ ]; then # the script was killed, and this loop remains
            say "the bridge was killed"
            [ -z "$has_safe" ] || act "$safe"
            exit 1
        fi
        look_at_clock
        left=$((heard + limit - now))
        ask $((left < 1 ? 1 : left < 5 ? left : 5))
        look_at_clock
        [ "$code" = "$seen" ] || [ -z "$code" ] || say "$code"
        seen=${code:-$seen}
        if [ "$code" = 2.04 ]; then
            [ -z "$is_lost" ] || say "successful responses again"
            heard=$now is_lost=''
            act "$state"
        elif [ $((now - heard)) -ge "$limit" ]; then
            [ "$is_lost" ] || say "no successful response for $limit seconds${has_safe:+: the state is set to $safe}"
            is_lost=yes
            [ -z "$has_safe" ] || act "$safe"
        fi
    done
}

# Ends the loop and the processes that it has started, and sets the safe state.
end() {
    trap '' INT TERM
    kill %1 2>/dev/null
    wait %1 2>/dev/null
    [ -z "$has_safe" ] || act "$safe"
    exit
}

command=("$@")
trap end INT TERM
follow &
wait
