#!/bin/sh
# Prints all that bench/README.md has tables of, a heading each, of one build and one run. On an idle machine it takes an
# hour. What is not built is left out, and said so.
# Run it after a build: ./dsheet build; (cd crates/bench_threads && rt run); (cd crates/pq_c && rt lib); bench/all.sh
set -eu
here=$(CDPATH= cd -- "$(dirname -- "$0")" && pwd)
top=$(dirname -- "$here")
program=$top/crates/ds_app/out/ds_app
work=$(mktemp -d)
trap 'rm -rf "$work"' EXIT

# Runs these words under this heading, where this file is built.
part() {
    printf '\n## %s\n\n' "$1"
    if [ ! -e "$2" ]; then
        echo "left out: ${2#"$top/"} is not built"
        return
    fi
    shift 2
    "$@"
}

# The states and orders of an exploration with these options, and the least seconds of three.
explore() {
    best=
    for _ in 1 2 3; do
        start=$(date +%s%N)
        "$program" explore --summary "$@" >"$work/summary"
        end=$(date +%s%N)
        time=$((end - start))
        if [ -z "$best" ] || [ "$time" -lt "$best" ]; then best=$time; fi
    done
    awk -v options="$*" -v seconds="$((best / 1000000))" '/^(states|orders) / { found[$1] = $2 }
        END { printf "%-70s %8d states, %.1e orders, %.2f s\n", options, found["states"], found["orders"], seconds / 1000 }' "$work/summary"
}

explorations() {
    printf 'begin 0 set A1 1\nbegin 1 set A1 2\n' >"$work/edits"
    printf 'sheet 2 2 3\nset 0 A1 1\nbegin 0 set A1 2\nbegin 1 work A1\nbegin 2 work A1\n' >"$work/works"
    cd "$work"
    explore edits
    explore --crashes edits
    explore --crashes --stops --evictions edits
    explore --crashes works
}

part "What do grids, scripts and calls cost?" "$program" "$here/run.sh" 31
part "What does a formula cost to read?" "$program" "$here/reading.sh"
part "What does a layout cost?" "$program" python3 "$here/layouts.py" "$program"
part "What does a session cost, beside a script?" "$program" "$here/sessions.sh" 15
part "What does a session cost?" "$program" "$here/store.sh" 15
part "What does the first report of a session cost?" "$program" python3 "$here/recalculation.py" "$program" 3
part "What do threads gain?" "$top/crates/bench_threads/out/bench_threads" "$here/shared.sh" 15
part "What does a queue cost?" "$top/crates/pq_c/out/libpq_c.a" "$here/structures.sh" 5
part "What does exploring cost?" "$program" explorations
