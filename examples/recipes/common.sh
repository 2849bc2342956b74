# shellcheck shell=bash disable=SC2154
# What the recipes' scripts share: servers on free ports of 127.0.0.1, mcgate before them, and what both are asked. A script sources
# it, and ends with `came_out` if all that its recipe says came out.

set -u
top=$(cd "$(dirname "${BASH_SOURCE[0]}")/../.." && pwd)
mcgate=${MCGATE:-$top/mcgate}
[ -n "${MCGATE:-}" ] || [ -x "$mcgate" ] || mcgate=mcgate
recipe=${0##*/}
say() { printf '%s: %s\n' "$recipe" "$*"; }

needs() {
    local tool
    for tool in "$@"; do
        if ! command -v "$tool" >/dev/null; then
            echo "skipped: no $tool"
            exit 0
        fi
    done
}
needs memcached timeout

# shipped NAME: where a file of packaging/ is, in the repository or where a release was unpacked.
shipped() {
    local file root=$top/../../..
    for file in "$top/packaging/$1" "$root/bin/$1" "$root/lib/systemd/system/$1" "$root/share/mcgate/$1"; do
        if [ -e "$file" ]; then
            readlink -f "$file"
            return
        fi
    done
    return 1
}

room=$(mktemp -d)
declare -A server_of=()
proxy=
end() {
    local id
    for id in "${server_of[@]}" $proxy; do kill -9 "$id" 2>/dev/null; done
    rm -rf "$room"
}
trap end EXIT

fail() {
    say "FAILED: $*"
    [ ! -s "$room/err" ] || sed "s/^/$recipe: standard error: /" "$room/err"
    exit 1
}

# expect WHAT WANTED GOT
expect() {
    [ "$2" = "$3" ] || fail "$1: wanted '$2', got '$3'"
    say "ok: $1"
}

is_gone() { ! kill -0 "$1" 2>/dev/null; }
listens() { (exec 3<>"/dev/tcp/127.0.0.1/$1") 2>/dev/null; }

# until SECONDS WORD..: whether the words come to hold within that time.
until_true() {
    local tenths=$(($1 * 20))
    shift
    while [ "$tenths" -gt 0 ]; do
        "$@" && return 0
        sleep 0.05
        tenths=$((tenths - 1))
    done
    return 1
}

# A port that nobody listens on, below those that the system picks by itself.
next_port=$((20000 + RANDOM % 9000))
free_port() {
    next_port=$((next_port + 1))
    while listens "$next_port"; do next_port=$((next_port + 1)); done
    port=$next_port
}

# start_server PORT: an empty memcached.
start_server() {
    local user=()
    [ "$(id -u)" != 0 ] || user=(-u nobody)
    memcached "${user[@]}" -l 127.0.0.1 -p "$1" -U 0 -t 1 -m 16 >/dev/null 2>&1 &
    server_of[$1]=$!
    disown
    until_true 3 listens "$1" || fail "memcached doesn't listen on port $1"
}

# servers NAME..: sets each name to the address of a new server.
servers() {
    local name
    for name in "$@"; do
        free_port
        start_server "$port"
        printf -v "$name" '127.0.0.1:%s' "$port"
    done
}

# stop_server ADDRESS: as if its machine had died.
stop_server() {
    local port=${1##*:}
    kill -9 "${server_of[$port]}"
    until_true 3 is_gone "${server_of[$port]}"
    unset "server_of[$port]"
}

# restart_server ADDRESS: it begins empty.
restart_server() {
    stop_server "$1"
    start_server "${1##*:}"
}

# ask PORT BYTES: what is answered until the other end closes after quit, a line's end as a bar.
ask() {
    timeout 5 bash -c 'exec 3<>"/dev/tcp/127.0.0.1/$0"; printf "%b" "$1" >&3; cat <&3' "$1" "$2quit\\r\\n" | tr -d '\r' | tr '\n' '|'
}

# serve FILE [FLAG..]: mcgate before the servers of FILE; `listen` is where.
serve() {
    : >"$room/out" && : >"$room/err"
    "$mcgate" serve --config "$1" --listen 127.0.0.1:0 --reload-ms 50 "${@:2}" >"$room/out" 2>"$room/err" &
    proxy=$!
    disown
    until_true 300 serves_or_ended
    listen=$(sed -n 's/^mcgate: serving .* on 127\.0\.0\.1:\([0-9]*\), .*/\1/p' "$room/err")
    [ -n "$listen" ] || fail "mcgate doesn't serve $1: $(cat "$room/out")"
}
serves_or_ended() { grep -q '^mcgate: serving .*, generation [0-9]' "$room/err" || ! kill -0 "$proxy" 2>/dev/null; }

# It ends at once; what it had sent has reached its servers a moment later.
stop_mcgate() {
    kill "$proxy"
    until_true 3 is_gone "$proxy"
    proxy=
    sleep 0.2
}

# restart_with FILE: mcgate is ended, and begins with the text of FILE.
restart_with() {
    stop_mcgate
    serve "$1"
}

# load FILE: becomes the text of the file that mcgate serves, whole; prints what mcgate says of it.
load() {
    local before
    before=$(wc -l <"$room/out")
    cp "$1" "$room/next" && mv "$room/next" "$served"
    until_true 5 told "$before" || fail "nothing is told of the new text"
    tail -n 1 "$room/out"
}
told() { [ "$(wc -l <"$room/out")" -gt "$1" ]; }

# verdict OLD NEW: what a mcgate that began with OLD will say of NEW, found without serving.
verdict() {
    { printf 'reload '; tr '\n' ' ' <"$2"; echo; } | "$mcgate" replay --config "$1" 2>/dev/null | head -n 1
}

# Sixty keys: how many of them are stored with this value, deleted, and shown with it.
keys=$(seq -f 'key%g' 60)
set_all() { ask "$listen" "$(printf "set %s 0 0 ${#1}\\\\r\\\\n$1\\\\r\\\\n" $keys)" | grep -o STORED | wc -l; }
delete_all() { ask "$listen" "$(printf 'delete %s\\r\\n' $keys)" | grep -o -e DELETED -e NOT_FOUND | wc -l; }
shown() { ask "$listen" "$(printf 'get %s\\r\\n' $keys)" | grep -o "|$1|" | wc -l; }

came_out() { say "came out"; }
