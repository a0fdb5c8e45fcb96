#!/bin/sh
# Two clients edit a sheet at once while a worker recalculates it; a third one asks for the values.
#   examples/serve/two_clients.sh [PORT]
set -eu
here=$(CDPATH= cd -- "$(dirname -- "$0")" && pwd)
dsheet=$here/../../dsheet
port=${1:-8080}
"$dsheet" serve --listen "127.0.0.1:$port" --processes 3 --workers 1 --sessions 3 &

# Says lines as a process, once the server listens.
say() {
    process=$1
    shift
    printf '%s\n' "$@" | "$dsheet" connect "127.0.0.1:$port" --process "$process"
}

say 0 'set A1 =[.B1]+1' 'set A2 =SUM([.A1:.B1])' >/dev/null &
first=$!
say 1 'set B1 41' 'set B2 =[.A2]*2' >/dev/null
wait "$first"
say 0 report
wait
