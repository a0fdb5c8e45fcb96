#!/usr/bin/env bash
# Speaks to a server by `dsheet connect`: what it shows is what a script is answered, also after a server that was killed
# and started again with its store.
#   tests/connect.sh PROGRAM
program=$(realpath "$1")
cd "$(dirname "$0")/.."
. tests/rows.sh connect
room=$(mktemp -d)
server=
cleanup() {
    kill -9 $server
    rm -rf "$room"
} 2>/dev/null
evidence() { head -c 2000 "$room"/log "$room"/said 2>/dev/null || true; }

# Starts a server at this port, with its store, and waits until it listens.
start() {
    : >"$room/log"
    "$program" serve --listen "127.0.0.1:$1" --forever --store "$room/sheet.db" </dev/null >/dev/null 2>"$room/log" 8>&- &
    server=$!
    for _ in $(seq 400); do
        port=$(sed -n 's/^dsheet: listening on 127\.0\.0\.1://p' "$room/log")
        if [ -n "$port" ]; then
            return 0
        fi
        sleep 0.05
    done
    fail "the server does not listen"
}

# Waits until there are this number of lines of answers.
lines() {
    for _ in $(seq 400); do
        if [ "$(wc -l <"$room/out")" -ge "$1" ]; then
            return 0
        fi
        sleep 0.05
    done
    fail "no answer $1: $(cat "$room/out")"
}

start 0

# The same calls, and the lines that a script is answered.
printf 'set A1 =1+2\n# a comment\n\nset B1 7\nset A2 =7.5\nset A2 =[.A1]*[.B1]\nlast\nreport\n' >"$room/calls"
"$program" connect "127.0.0.1:$port" --process 1 <"$room/calls" >"$room/out" 2>"$room/said" || fail "status $?"
printf 'recover 1\nset 1 A1 =1+2\nset 1 B1 7\nset 1 A2 =7.5\nset 1 A2 =[.A1]*[.B1]\nrecover 1\nsettle 1\nreport 1\n' |
    "$program" run | grep -v '^clean$' >"$room/wanted"
cmp "$room/out" "$room/wanted" || fail "other answers: $(cat "$room/out")"
passed "answers are those of a script"

status=0
printf 'set A1 1\nwork A1\nset A1 2\n' | "$program" connect "127.0.0.1:$port" --process 0 >"$room/out" 2>"$room/said" || status=$?
[ "$status" = 1 ] || fail "a line that is no call: status $status"
grep -q '^line 2: expected: set CELL TEXT, undo CELL, report, view, get CELL, history \[FROM\], outcome KEY or last$' "$room/said" || fail "a line that is no call"
[ "$(tail -n 1 "$room/out")" = "0 0 done" ] || fail "lines before a fault"
passed "a line that is no call"

# Without a process: what reads needs none, also where every process is taken but one; an edit joins any.
printf 'get A2\nget C9\nhistory 3\nget B2\n' >"$room/calls"
"$program" connect "127.0.0.1:$port" <"$room/calls" >"$room/out" 2>"$room/said" || fail "reading: status $?"
printf 'got A2 7 1 2 =[.A1]*[.B1]\nrefused bad-field\nedits 3 of 4\n0 0 A1 1\ngot B2 blank - -\n' >"$room/wanted"
cmp "$room/out" "$room/wanted" || fail "reading: $(cat "$room/out")"
printf 'undo A1\nget A1\nundo B2\n' | "$program" connect "127.0.0.1:$port" >"$room/out" 2>"$room/said" || fail "an undo: status $?"
printf '1 last 2 A2 done\n1 3 done\ngot A1 3 1 3 =1+2\n1 refused no-edit\n' >"$room/wanted"
cmp "$room/out" "$room/wanted" || fail "an undo: $(cat "$room/out")"
passed "without a process"

status=0
"$program" connect "127.0.0.1:$port" --process 7 </dev/null >"$room/out" 2>"$room/said" || status=$?
[ "$status" = 1 ] || fail "a process that is none of the sheet: status $status"
passed "a process that is none of the sheet"

# Formulas in A1 notation: what is sent is what a script in OpenFormula has, and a text that is none ends the lines.
printf 'set A1 =B1*2+A2\nset B2 =SUM($A$2:B1,2)\nset B2 =FOO(A1)\nset B2\nset A1 =[.B1]\nset A1 3\n' >"$room/calls"
status=0
"$program" connect "127.0.0.1:$port" --process 1 --a1 <"$room/calls" >"$room/out" 2>"$room/said" || status=$?
[ "$status" = 1 ] || fail "a bracket with --a1: status $status"
printf '1 last 3 A1 done\n1 4 done\n1 5 done\n1 refused 1 UnknownFunction 1\n1 6 done\n' >"$room/wanted"
cmp "$room/out" "$room/wanted" || fail "answers with --a1: $(cat "$room/out")"
grep -q -x '    set B2 =FOO(A1)' "$room/said" || fail "the line that is refused with --a1: $(cat "$room/said")"
grep -q -x ' *^ FOO is unknown; known are SUM, .* and IF' "$room/said" || fail "what is wrong in it: $(cat "$room/said")"
grep -q '^line 5: BadToken 1$' "$room/said" || fail "a bracket with --a1: $(cat "$room/said")"
passed "formulas in A1 notation"

printf 'set A1 1\nset A1 =B1\n' | "$program" connect "127.0.0.1:$port" --process 1 >"$room/out" 2>"$room/said" || fail "status $?"
[ "$(tail -n 1 "$room/out")" = "1 refused 1 UnknownFunction 1" ] || fail "a reference without brackets: $(cat "$room/out")"
grep -q 'references are written \[\.A1\]; --a1 reads A1$' "$room/said" || fail "a reference without brackets: $(cat "$room/said")"
passed "a reference without brackets"

# Servers that are none: what they say is not shown, and ends the client.
hostile() {
    : >"$room/at"
    python3 -c '
import socket, sys, time
listener = socket.create_server(("127.0.0.1", 0))
print(listener.getsockname()[1], flush=True)
client, _ = listener.accept()
stream = client.makefile("rw")
for answer in sys.argv[1:]:
    stream.readline()
    stream.write(answer + "\n")
    stream.flush()
stream.readline()
time.sleep(20)
' "${@:2}" >"$room/at" &
    local none=$! status=0
    for _ in $(seq 400); do
        [ -s "$room/at" ] && break
        sleep 0.05
    done
    printf 'report\nlast\n' | timeout 60 "$program" connect --timeout 1 "127.0.0.1:$(cat "$room/at")" >"$room/out" 2>"$room/said" || status=$?
    kill $none 2>/dev/null || true
    wait $none 2>/dev/null || true
    [ "$status" = 3 ] || fail "$1: status $status: $(cat "$room/out" "$room/said")"
    if grep -q '[^[:print:]]' "$room/out" || grep -q 'done done' "$room/out"; then fail "$1: $(cat "$room/out")"; fi
    passed "$1"
}
joined='{"last":null,"ok":"join","process":0}'
hostile "a cell that is two lines" '{"last":{"cell":"A1\u001b[31m\n0 0 done","number":0,"outcome":"done"},"ok":"join","process":0}'
hostile "a value with a control character" "$joined" '{"ok":"settled","rows":[["\u001b[31m"]]}'
hostile "an edit's answer to a report" "$joined" '{"number":0,"ok":"done"}'
hostile "a server that says nothing" "$joined"
grep -q 'no answer within 1 seconds' "$room/said" || fail "a server that says nothing: $(cat "$room/said")"

# The server is killed, and started again at its port: the client joins anew, and is shown its last edit.
mkfifo "$room/control"
"$program" connect "127.0.0.1:$port" --process 0 <"$room/control" >"$room/out" 2>"$room/said" &
client=$!
exec 8>"$room/control"
lines 1
echo 'set B2 40' >&8
lines 2
at=$port
{
    kill -9 "$server"
    wait "$server" || true
} 2>/dev/null
start "$at"
echo 'report' >&8
lines 6
exec 8>&-
wait "$client" || fail "the client: status $?"
printf '0 last 0 A1 done\n0 1 done\n0 last 1 B2 done\nsettled\n1,7\n7,40\n' >"$room/wanted"
cmp "$room/out" "$room/wanted" || fail "behind a kill: $(cat "$room/out")"
passed "a server that is killed and started again"

# The same, and its log is gone: the client says that an edit is lost that was answered done.
"$program" connect "127.0.0.1:$at" --process 0 <"$room/control" >"$room/out" 2>"$room/said" &
client=$!
exec 8>"$room/control"
lines 1
echo 'set B2 41' >&8
lines 2
{
    kill -9 "$server"
    wait "$server" || true
} 2>/dev/null
rm "$room/sheet.db-wal"
start "$at"
echo 'report' >&8
exec 8>&-
status=0
wait "$client" || status=$?
[ "$status" = 3 ] || fail "a log that is gone: status $status"
grep -q '^dsheet: the server has lost edits: it had answered that edit 2 is done$' "$room/said" || fail "a log that is gone: $(cat "$room/said")"
passed "a log that is gone"

# A server that breaks off after an edit: the client joins again and shows what its recovery reports; it sends no edit twice.
: >"$room/port"
python3 -c '
import json, socket, sys
listener = socket.create_server(("127.0.0.1", 0))
print(listener.getsockname()[1], flush=True)
listener.settimeout(20)
last = [None, {"cell": "A1", "number": 0, "outcome": "done"}]
for at in range(2):
    stream = listener.accept()[0]
    stream.settimeout(20)
    for line in stream.makefile("rb"):
        print(at, line.decode().strip(), file=sys.stderr, flush=True)
        if json.loads(line)["op"] != "join":
            break
        answer = {"last": last[at], "ok": "join", "process": 0}
        stream.sendall(json.dumps(answer, separators=(",", ":")).encode() + b"\n")
    stream.shutdown(socket.SHUT_RDWR)
    stream.close()
' >"$room/port" 2>"$room/asked" &
breaking=$!
for _ in $(seq 400); do
    [ -s "$room/port" ] && break
    sleep 0.05
done
printf 'set A1 7\n' | timeout 60 "$program" connect "127.0.0.1:$(cat "$room/port")" >"$room/out" 2>"$room/said" || true
kill "$breaking" 2>/dev/null || true
wait "$breaking" 2>/dev/null || true
[ "$(grep -c '"op":"set"' "$room/asked")" = 1 ] || fail "an edit was sent again: $(cat "$room/asked")"
[ "$(grep -c '^1 .*"op":"join"' "$room/asked")" = 1 ] || fail "it did not join again: $(cat "$room/asked")"
grep -q '^0 last 0 A1 done$' "$room/out" || fail "what its recovery reported: $(cat "$room/out")"
passed "a server that breaks off after an edit"

# With keys: the same input again edits nothing, also by another process; a set is refused where its key is of another edit.
printf 'set A1 5\nset A2 6\nget A1\noutcome k-1\n' >"$room/calls"
"$program" connect "127.0.0.1:$port" --process 1 --key k <"$room/calls" >"$room/out" 2>"$room/said" || fail "with keys: status $?"
number=$(sed -n 's/^1 \([0-9]*\) done$/\1/p' "$room/out" | head -n 1)
next=$((number + 1))
for process in 1 0; do
    "$program" connect "127.0.0.1:$port" --process $process --key k <"$room/calls" >"$room/out" 2>"$room/said" || fail "with keys again: status $?"
    printf "$process $number done\n$process $next done\ngot A1 5 1 $number 5\noutcome k-1 done 1 $next A2 6\n" >"$room/wanted"
    tail -n +2 "$room/out" | cmp - "$room/wanted" || fail "with keys again, by $process: $(cat "$room/out")"
done
printf 'outcome k-9\nset A1 9\n' | "$program" connect "127.0.0.1:$port" --process 0 --key k >"$room/out" 2>"$room/said" || fail "another text: status $?"
printf 'outcome k-9 never\n0 refused key-reused\n' >"$room/wanted"
tail -n +2 "$room/out" | cmp - "$room/wanted" || fail "another text: $(cat "$room/out")"
status=0
printf 'outcome k-0\noutcome a b\n' | "$program" connect "127.0.0.1:$port" >"$room/out" 2>"$room/said" || status=$?
[ "$status" = 1 ] || fail "two words after outcome: status $status"
[ "$(cat "$room/out")" = "outcome k-0 done 1 $number A1 5" ] || fail "without a process: $(cat "$room/out")"
for prefix in "a b" "$(printf 'k%.0s' $(seq 44))"; do
    status=0
    "$program" connect "127.0.0.1:$port" --key "$prefix" </dev/null >"$room/out" 2>"$room/said" || status=$?
    [ "$status" = 2 ] || fail "a prefix that is none: status $status"
    grep -q -e '--key: 1 to 43 visible ASCII characters' "$room/said" || fail "a prefix that is none: $(cat "$room/said")"
done
passed "edits with keys"

# A server that breaks off after an edit with a key, twice: the client joins again, and sends it again with that key.
: >"$room/port"
python3 -c '
import json, socket, sys
listener = socket.create_server(("127.0.0.1", 0))
print(listener.getsockname()[1], flush=True)
listener.settimeout(20)
for at in range(3):
    stream = listener.accept()[0]
    stream.settimeout(20)
    for line in stream.makefile("rb"):
        print(at, line.decode().strip(), file=sys.stderr, flush=True)
        answer = {"last": None, "ok": "join", "process": 0}
        if json.loads(line)["op"] != "join":
            if at < 2:
                break
            answer = {"number": 4, "ok": "done"}
        stream.sendall(json.dumps(answer, separators=(",", ":")).encode() + b"\n")
    stream.shutdown(socket.SHUT_RDWR)
    stream.close()
' >"$room/port" 2>"$room/asked" &
breaking=$!
for _ in $(seq 400); do
    [ -s "$room/port" ] && break
    sleep 0.05
done
printf 'set A1 7\n' | timeout 60 "$program" connect "127.0.0.1:$(cat "$room/port")" --key k >"$room/out" 2>"$room/said" || fail "an edit with a key: status $?"
wait "$breaking" 2>/dev/null || true
[ "$(grep -c '"key":"k-0","op":"set"' "$room/asked")" = 3 ] || fail "an edit with a key is sent again: $(cat "$room/asked")"
grep -q '"told"' "$room/asked" && fail "the number of an edit with a key is told: $(cat "$room/asked")"
[ "$(tail -n 1 "$room/out")" = "0 4 done" ] || fail "an edit with a key is answered: $(cat "$room/out")"
passed "a server that breaks off after an edit with a key"

# An answer of a million bytes, which comes in pieces of 500, is read whole.
: >"$room/port"
python3 -c '
import socket
listener = socket.create_server(("127.0.0.1", 0))
print(listener.getsockname()[1], flush=True)
listener.settimeout(20)
stream = listener.accept()[0]
stream.settimeout(20)
stream.setsockopt(socket.IPPROTO_TCP, socket.TCP_NODELAY, 1)
stream.recv(65536)
for _ in range(2000):
    stream.sendall(b" " * 500)
stream.sendall(b"{\"ok\":\"settled\",\"rows\":[[\"7\"]]}\n")
stream.recv(1)
' >"$room/port" &
long=$!
for _ in $(seq 400); do
    [ -s "$room/port" ] && break
    sleep 0.05
done
echo view | timeout 60 "$program" connect "127.0.0.1:$(cat "$room/port")" >"$room/out" 2>"$room/said" || fail "a long answer: status $?: $(cat "$room/said")"
wait "$long" 2>/dev/null || true
printf 'settled\n7\n' | cmp - "$room/out" || fail "a long answer: $(cat "$room/out")"
passed "an answer of a million bytes"

# A server that does not listen yet is waited for: both may be begun at once.
kill "$server"
wait "$server" 2>/dev/null || true
echo view | timeout 60 "$program" connect "127.0.0.1:$at" >"$room/out" 2>"$room/said" &
client=$!
sleep 1
start "$at"
wait "$client" || fail "a server that is begun later: status $?"
[ "$(head -n 1 "$room/out")" = settled ] || fail "a server that is begun later: $(cat "$room/out" "$room/said")"
passed "a server that is begun later"

kill "$server"
wait "$server" 2>/dev/null || true
status=0
"$program" connect "127.0.0.1:$port" </dev/null >"$room/out" 2>"$room/said" || status=$?
[ "$status" = 3 ] || fail "no server: status $status"
passed "no server"
server=
