# What compare and freshness share: their words, the programs, the servers that they start, and a folder that goes at the end.
# shellcheck shell=bash disable=SC2034,SC2086

here=$(cd "$(dirname "${BASH_SOURCE[0]}")" && pwd)
top=$(cd "$here/.." && pwd)

# Whether a program without proofs is to be measured, and the numbers among the words.
unproved=
numbers=()

# take_words MOST WORD..: the words of a command that takes at most so many numbers. usage prints what it is for.
take_words() {
    local word
    for word in "${@:2}"; do
        case $word in
        -h | --help) usage && exit ;;
        --unproved) unproved=--unproved ;;
        '' | 0* | *[!0-9]*) complain "$word isn't --help, --unproved or a number from 1 on" ;;
        *) numbers+=("$word") ;;
        esac
    done
    [ "${#numbers[@]}" -le "$1" ] || complain "${numbers[$1]} is one number too many"
}

complain() {
    printf '%s: %s\n' "${0##*/}" "$*" >&2
    usage >&2
    exit 2
}

# The first of the ports that are used; the others follow it.
port=${BENCH_PORT:-23100}

# What the servers and the load generator are started with, such as "chrt -f 1 taskset -c 2".
as_cache=${BENCH_CACHE:-}
as_proxy=${BENCH_PROXY:-}
as_load=${BENCH_LOAD:-}

folder=
started=()

clean_up() {
    local pid
    for pid in "${started[@]}"; do
        kill -9 "$pid" 2>/dev/null
        wait "$pid" 2>/dev/null
    done
    rm -rf "$folder"
}

fail() { printf '%s: %s\n' "${0##*/}" "$*" >&2; exit 3; }

# Whether nutcracker (twemproxy) is there.
has_nutcracker() { command -v nutcracker >/dev/null; }

# Finds the program: the one that was named, or the one of these sources.
program=
find_program() {
    command -v memcached >/dev/null || fail "memcached isn't installed"
    if [ -n "$program" ]; then
        mcgate=$program
    elif [ -n "$unproved" ]; then
        mcgate=$("$top/mcgate" build --unproved) || exit 3
        printf '%s: mcgate is measured as it is built without proofs: %s\n' "${0##*/}" "$mcgate" >&2
    else
        mcgate=$("$top/mcgate" prove --done) ||
            fail "there is no proved mcgate of these sources: ./mcgate prove makes it, and with --unproved one without proofs is measured"
    fi
}

# Finds the programs, and makes the folder. The load generator is built without proofs where it isn't proved.
begin() {
    find_program
    mcload=$("$top/mcgate" build mcload) || exit 3
    folder=$(mktemp -d)
    trap clean_up EXIT
}

# Waits until somebody listens on a port.
wait_for() {
    for _ in $(seq 200); do
        (exec 3<>"/dev/tcp/127.0.0.1/$1") 2>/dev/null && return 0
        sleep 0.02
    done
    fail "nobody listens on port $1"
}

# start PORT WORD..: starts a server and waits for its port; its process is then $pid.
start() {
    local at=$1
    shift
    "$@" >>"$folder/log" 2>&1 &
    pid=$!
    started+=("$pid")
    wait_for "$at"
}

start_cache() {
    local user=()
    [ "$(id -u)" != 0 ] || user=(-u nobody)
    start "$1" $as_cache memcached "${user[@]}" -l 127.0.0.1 -p "$1" -U 0 -t 1 -m 1024 -I 2m -c 4096
}

# The value of NAME in a line of mcload.
figure() { sed -n "s/.*\b$1=\([0-9]*\).*/\1/p" <<<"$2"; }
