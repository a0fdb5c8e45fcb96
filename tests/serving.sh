#!/usr/bin/env bash
# Runs the program as a server: what it says, what it answers to clients of all kinds, and how it ends.
#   tests/serving.sh PROGRAM
program=$(realpath "$1")
cd "$(dirname "$0")/.."
. tests/rows.sh serving
room=$(mktemp -d)
log=$room/log
mkfifo "$room/control"
server=
cleanup() {
    kill $server 2>/dev/null
    rm -rf "$room"
}
evidence() { head -c 2000 "$log"; }

# The most seconds that a server may take, and that it may take for one answer.
whole=300
answer=60

# That wrong words are reported.
refuses() {
    local name=$1 pattern=$2 status=0
    shift 2
    "$program" serve "$@" </dev/null >/dev/null 2>"$log" || status=$?
    if [ "$status" != 2 ] || ! grep -q -x -- "$pattern" "$log"; then
        fail "$name: status $status"
    fi
    passed "$name"
}

# Starts a server with these options, on a port that the system gives it, which its first line says. A file descriptor
# of this shell, 9, is its standard input. It serves until it is asked to stop, unless the first option is `--sessions`.
start() {
    [ "${1-}" = --sessions ] || set -- --forever "$@"
    : >"$log"
    timeout "$whole" "$program" serve --listen 127.0.0.1:0 "$@" <"$room/control" 2>"$log" &
    server=$!
    exec 9>"$room/control"
    listens
}

# Waits until the server says where it listens.
listens() {
    for _ in $(seq 200); do
        port=$(sed -n 's/^dsheet: listening on 127\.0\.0\.1://p' "$log")
        if [ -n "$port" ]; then
            return 0
        fi
        sleep 0.05
    done
    fail "it does not listen"
}

# Waits for the server's end: it has to have this status.
ends_with() {
    local status=0
    wait "$server" || status=$?
    exec 9>&-
    if [ "$status" != "$1" ]; then
        fail "it ended with $status, and not $1"
    fi
}

# Asks the server to stop: it ends within half a minute.
stop() {
    echo stop >&9
    for _ in $(seq 300); do
        if ! kill -0 "$server" 2>/dev/null; then break; fi
        sleep 0.1
    done
    if kill -0 "$server" 2>/dev/null; then
        kill -9 "$server"
        fail "it was asked to stop, and has not ended"
    fi
    ends_with 0
}

# Connects to the server as this file descriptor.
connect() {
    eval "exec $1<>/dev/tcp/127.0.0.1/$port"
}

# Says a line, on this file descriptor.
say() {
    printf '%s\n' "$2" >&"$1"
}

# The next line on this file descriptor has to be this one.
hear() {
    local line
    if ! IFS= read -r -t "$answer" -u "$1" line; then
        fail "no answer where $2 is wanted"
    fi
    if [ "$line" != "$2" ]; then
        fail "answered $line, and not $2"
    fi
}

# The connection on this file descriptor has to be closed by the server.
closed() {
    local line
    if IFS= read -r -t "$answer" -u "$1" line; then
        fail "answered $line, and not closed"
    fi
    eval "exec $1>&-"
}

# The log has to have a line with this pattern.
logs() {
    for _ in $(seq 100); do
        if grep -q -- "$1" "$log"; then
            return 0
        fi
        sleep 0.05
    done
    fail "the log has no line with $1"
}

join0='{"op":"join","process":0}'
joined0='{"last":null,"ok":"join","process":0}'
join1='{"op":"join","process":1}'
joined1='{"last":null,"ok":"join","process":1}'

# ---- the words

refuses "an address that is none" "dsheet: --listen: .*" --listen nowhere
refuses "too many processes" "dsheet: --processes: from 1 to 8; .*" --listen 127.0.0.1:0 --processes 9
refuses "too many cells" "dsheet: --columns, --rows: .*" --listen 127.0.0.1:0 --columns 26 --rows 40
refuses "no process without a worker" "dsheet: --workers: .*" --listen 127.0.0.1:0 --workers 2
refuses "a number that is none" "error: invalid value 'many' .*" --listen 127.0.0.1:0 --columns many
refuses "no address at all" "dsheet: where it listens: .*"
refuses "an address for HTTP that is none" "dsheet: --http: .*" --http nowhere
refuses "no session at once" "dsheet: --at-once: .*" --listen 127.0.0.1:0 --at-once 0
refuses "no session at all" "dsheet: --sessions: .*" --listen 127.0.0.1:0 --sessions 0
refuses "an address of other machines, without a token" "dsheet: --listen: whoever reaches .*" --listen 0.0.0.0:0

# ---- sessions

start --sessions 3
status=0
"$program" serve --listen "127.0.0.1:$port" </dev/null 2>"$room/said" || status=$?
if [ "$status" != 3 ] || ! grep -q "^dsheet: 127.0.0.1:$port: " "$room/said"; then
    fail "an address that is taken: status $status"
fi
passed "an address that is taken"
connect 3
exec 3>&-
connect 3
exec 3>&-
connect 3
cat examples/serve/session >&3
while IFS= read -r line; do
    hear 3 "$line"
done <examples/serve/session.answers
exec 3>&-
ends_with 0
logs "served 3 connections, 0 of them refused as busy; 1 sessions joined; edits: 1 done, 0 overtaken; 0 calls refused; 1 reports"
passed "three connections, of which the last joins; then it ends"

start --columns 3 --rows 1
connect 3
say 3 "$join0"
hear 3 "$joined0"
say 3 '{"op":"report"}'
hear 3 '{"ok":"settled","rows":[["","",""]]}'
connect 4
say 4 "$join1"
hear 4 "$joined1"
connect 5
stop
hear_none() { closed "$1"; }
hear_none 3
hear_none 4
hear_none 5
logs "2 sessions joined"
passed "columns and rows; told to stop, with sessions that are silent"

start --sessions 3 --processes 3 --workers 1
talk() {
    connect 3
    cat "examples/serve/$1" >&3
    for _ in $(seq "$2"); do
        IFS= read -r -t "$answer" -u 3 line || fail "no answer to $1"
        printf '%s\n' "$line"
    done
    exec 3>&-
}
(talk first 3) >/dev/null &
first=$!
(talk second 3) >/dev/null
wait "$first"
talk last 2 | tail -n 1 | cmp - <(echo '{"ok":"settled","rows":[["42","41"],["83","166"]]}')
ends_with 0
passed "two clients and a worker"

# ---- tokens

printf 'open sesame\r\nsecond line\n' >"$room/token"
start --token-file "$room/token"
connect 3
say 3 '{"op":"set","cell":"A1","text":"1"}'
hear 3 '{"code":6,"error":"not-joined"}'
for wrong in '' ',"token":"open sesam"' ',"token":"open sesame\r"' ',"token":"open sesamE"' ',"token":"second line"' ',"token":["open sesame"]'; do
    say 3 "{\"op\":\"join\",\"process\":0$wrong}"
    hear 3 '{"code":20,"error":"denied"}'
    say 3 "{\"op\":\"join\",\"process\":9$wrong}"
    hear 3 '{"code":20,"error":"denied"}'
done
say 3 '{"op":"join","process":9,"token":"open sesame"}'
hear 3 '{"code":3,"error":"bad-field"}'
say 3 '{"op":"join","process":0,"token":"open sesame"}'
hear 3 "$joined0"
stop
exec 3>&-
passed "a join without the token is denied, and nothing else is told"

start --token-file "$room/token" --store "$room/guarded.db"
connect 3
say 3 "$join0"
hear 3 '{"code":20,"error":"denied"}'
say 3 '{"op":"join","process":0,"token":"open sesame"}'
hear 3 "$joined0"
stop
exec 3>&-
passed "the same of a server with a store"

for content in '' '\nopen sesame' '\377\376'; do
    printf "$content" >"$room/none"
    status=0
    "$program" serve --listen 127.0.0.1:0 --token-file "$room/none" </dev/null 2>"$room/said" || status=$?
    if [ "$status" != 1 ] || ! grep -q 'its first line is no token' "$room/said"; then
        fail "a file without a token: status $status"
    fi
done
status=0
"$program" serve --listen 127.0.0.1:0 --token-file "$room/nowhere" </dev/null 2>"$room/said" || status=$?
[ "$status" = 3 ] || fail "a token's file that is not there: status $status"
passed "a file without a token"

# ---- edits that are lost

start
connect 3
say 3 '{"op":"join","process":0,"told":0}'
hear 3 '{"last":null,"lost":true,"ok":"join","process":0}'
say 3 '{"op":"set","cell":"A1","text":"1"}'
hear 3 '{"number":0,"ok":"done"}'
exec 3>&-
sleep 0.5
connect 3
say 3 '{"op":"join","process":0,"told":"0"}'
hear 3 '{"code":3,"error":"bad-field"}'
say 3 '{"op":"join","process":0,"told":1}'
hear 3 '{"last":{"cell":"A1","number":0,"outcome":"done"},"lost":true,"ok":"join","process":0}'
exec 3>&-
sleep 0.5
connect 3
say 3 '{"op":"join","process":0,"told":0}'
hear 3 '{"last":{"cell":"A1","number":0,"outcome":"done"},"ok":"join","process":0}'
stop
exec 3>&-
passed "a join that says the number of its last edit hears whether it is lost"

# ---- clients of other kinds

start --at-once 1
connect 3
say 3 "$join0"
hear 3 "$joined0"
connect 4
hear 4 '{"code":16,"error":"busy"}'
closed 4
exec 3>&-
sleep 0.5
connect 3
say 3 '{"op":"join","process":1}'
hear 3 "$joined1"
stop
exec 3>&-
logs "served 3 connections, 1 of them refused as busy"
passed "a connection too many is told so"

start --idle 1
connect 3
say 3 "$join0"
hear 3 "$joined0"
hear 3 '{"code":18,"error":"idle"}'
closed 3
logs "session{number=1}: .*, process 0: idle"
connect 3
hear 3 '{"code":18,"error":"idle"}'
closed 3
connect 3
say 3 "$join0"
hear 3 "$joined0"
exec 3>&-
stop
passed "a client that is silent is told so, and its process is free"

start
for first in 'GET / HTTP/1.1' 'POST /a HTTP/1.1' $'\x16\x03\x01'; do
    connect 3
    say 3 "$first"
    hear 3 '{"code":19,"error":"this is dsheet, which speaks lines of JSON: dsheet serve --help"}'
    closed 3
done
stop
logs "no process: HTTP or TLS"
passed "HTTP and TLS"

start
{
    echo "$join0"
    for _ in $(seq 300); do
        printf '%s%4000s\n' '{"op":"last"}' ''
    done
} >"$room/long"
connect 3
cat "$room/long" >&3 &
long=$!
hear 3 "$joined0"
answered=0
while IFS= read -r -t "$answer" -u 3 line; do
    answered=$((answered + 1))
    last=$line
done
wait "$long" || true
exec 3>&-
if [ "$last" != '{"code":17,"error":"too-long"}' ] || [ "$answered" -lt 250 ]; then
    fail "a session that is too long: $answered answers behind the first, the last is $last"
fi
connect 3
say 3 "$join0"
hear 3 "$joined0"
exec 3>&-
stop
logs "process 0: too long"
passed "a session that is too long: all answers, and why it ends"

# ---- descriptors

# Room for one session alone, beside the listener and what waits for standard input. The next client waits until the first has ended, and is served then, however often no
# descriptor was free before.
: >"$log"
exec 9<>"$room/control"
(
    for descriptor in 3 4 5 6 7 8 9; do
        eval "exec $descriptor>&-"
    done
    ulimit -n 6
    exec timeout "$whole" "$program" serve --listen 127.0.0.1:0 --sessions 2 <"$room/control" 2>"$log"
) &
server=$!
listens
connect 3
say 3 "$join0"
hear 3 "$joined0"
connect 4
say 4 "$join1"
sleep 1
exec 3>&-
hear 4 "$joined1"
exec 4>&-
ends_with 0
logs "descriptors for 1 sessions at once"
logs "accept: "
passed "no descriptor for a second client"

# Many silent clients, and few descriptors.
: >"$log"
exec 9<>"$room/control"
(
    ulimit -n 30
    exec timeout "$whole" "$program" serve --listen 127.0.0.1:0 --forever <"$room/control" 2>"$log"
) &
server=$!
listens
for descriptor in $(seq 20 79); do
    connect "$descriptor"
done
sleep 1
for descriptor in $(seq 20 79); do
    eval "exec $descriptor>&-"
done
sleep 0.5
connect 3
say 3 "$join0"
hear 3 "$joined0"
exec 3>&-
stop
passed "many silent clients"

# Where standard error is closed, no client reads the log.
port=$((20000 + RANDOM % 12000))
timeout "$whole" "$program" serve --listen "127.0.0.1:$port" --sessions 2 </dev/null 2>&- &
server=$!
for _ in $(seq 200); do
    if { connect 3; } 2>/dev/null; then
        break
    fi
    sleep 0.05
done
connect 4
say 4 'GET / HTTP/1.1'
hear 4 '{"code":19,"error":"this is dsheet, which speaks lines of JSON: dsheet serve --help"}'
closed 4
say 3 "$join0"
hear 3 "$joined0"
exec 3>&-
ends_with 0
passed "standard error is closed"
