# shellcheck shell=bash disable=SC2034,SC2154
# What the leaks' scripts share: the recipes' common.sh, a path to a server that can be held, and
# mcgates with numbers.
# shellcheck source-path=SCRIPTDIR source=../../examples/recipes/common.sh
. "$(dirname "${BASH_SOURCE[0]}")/../../examples/recipes/common.sh"
needs python3

# How a script ends that couldn't be tried; 1 is left for what was shown.
fail() {
    say "FAILED: $*"
    [ ! -s "$room/err" ] || sed "s/^/$recipe: standard error: /" "$room/err"
    exit 3
}

# finish: with status 1 where `stale` names what deleted values were shown by.
stale=
finish() {
    [ -z "$stale" ] || { say "deleted values were shown:$stale" && exit 1; }
    came_out
}

# path_to ADDRESS: `path` is the address of a relay to that server. While it is held, what comes on
# established connections waits, and new ones pass.
path_to() {
    free_port
    python3 "$top/bench/relay" "$port" "${1##*:}" &
    server_of[relay]=$!
    disown
    until_true 20 listens "$port" || fail "the relay doesn't listen"
    path=127.0.0.1:$port
}
hold() { signals USR1; }
let_go() { signals USR2; }
# (it has taken the signal once a new connection is answered, or held back)
signals() {
    kill "-$1" "${server_of[relay]}"
    # shellcheck disable=SC2016
    timeout 2 bash -c 'exec 3<>"/dev/tcp/127.0.0.1/$0"; printf "version\r\nquit\r\n" >&3; cat <&3' "${path##*:}" >/dev/null
}

# at NUMBER: the mcgate of this number is meant from now on.
all=$room
listens_at=()
proxies=()
at() {
    room=$all/$1
    served=$room/mcgate.json
    listen=${listens_at[$1]:-}
    proxy=${proxies[$1]:-}
}
end() {
    local id
    for id in "${server_of[@]}" "${proxies[@]}"; do kill -9 "$id" 2>/dev/null; done
    wait "${proxies[@]}" 2>/dev/null
    rm -rf "$all"
}

# begin NUMBER FILE [FLAG..]: this mcgate begins with the text of FILE, and with its own history.
begin() {
    at "$1"
    mkdir -p "$room"
    cp "$2" "$served"
    : >"$room/out" && : >"$room/err"
    "$mcgate" serve --config "$served" --listen 127.0.0.1:0 --history "$room/history" --control "$room/control" --reload-ms 50 "${@:3}" \
        >"$room/out" 2>"$room/err" &
    proxy=$!
    proxies[$1]=$proxy
    until_true 300 serves_or_ended
    listen=$(sed -n 's/^mcgate: serving .* on 127\.0\.0\.1:\([0-9]*\), .*/\1/p' "$room/err")
    [ -n "$listen" ] || fail "mcgate $1 doesn't serve: $(cat "$room/out")"
    listens_at[$1]=$listen
    until_true 20 grep -q '^mcgate: control at ' "$room/err" || fail "mcgate $1 can't be told anything"
}
tell() { "$mcgate" tell "$room/control" "$@"; }

# ends HOW: the mcgate that is meant ends so; `status` is how it ended, and `told` what it said.
ends() {
    told=
    case $1 in
        drain) told=$(tell drain 2>&1) ;;
        kill) kill -9 "$proxy" ;;
        term) kill "$proxy" ;;
        *) fail "$1 is no way to end" ;;
    esac
    wait "$proxy" 2>/dev/null
    status=$?
}

# deletes KEY, shows KEY VALUE: whether that is acknowledged; whether the mcgate that is meant shows
# it.
deletes() { case $(ask "$listen" "delete $1\\r\\n") in 'DELETED|' | 'NOT_FOUND|') true ;; *) false ;; esac; }
shows() { ask "$listen" "get $1\\r\\n" | grep -q "|$2|"; }

# lands_behind_a_delete KEY: that key is deleted, what is held goes on, and then the value is shown
# that was held. It goes on once the delete was acknowledged, and soon where it isn't, as an mcgate
# may wait before it asks the server.
lands_behind_a_delete() {
    local deleter
    rm -f "$all/deleted"
    { until_true 30 deletes "$1" && : >"$all/deleted"; } &
    deleter=$!
    for _ in $(seq 10); do
        [ ! -e "$all/deleted" ] || break
        sleep 0.05
    done
    [ ! -e "$all/deleted" ] || say "a delete of $1 was acknowledged; get: $(ask "$listen" "get $1\\r\\n")"
    let_go
    wait "$deleter"
    [ -e "$all/deleted" ] || fail "no delete of $1 is acknowledged"
    until_true 2 shows "$1" old && say "STALE: once the network is well, get: $(ask "$listen" "get $1\\r\\n")"
}
