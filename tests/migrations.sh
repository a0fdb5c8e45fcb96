#!/usr/bin/env bash
# A crash after each step of a migration, by `dsheet run --stops`: from the last step of the edit before it on, the sheet
# and the last outcome have to be as they were. Of a program that is slow, --quick takes the first steps and the last ones.
#   tests/migrations.sh [--quick] PROGRAM
ranges="20-15385"
if [ "$1" = --quick ]; then
    ranges="20-320 15325-15385"
    shift
fi
program=$(realpath "$1")
cd "$(dirname "$0")/.."
. tests/rows.sh migrations
room=$(mktemp -d)
cleanup() { rm -rf "$room"; }

printf 'sheet 1 1 1\nlayout 1\nset 0 A1 7\ncrash\nmigrate 0\n' >"$room/script"
for range in $ranges; do
    first=${range%-*} last=${range#*-}
    "$program" run --stops --from "$first" --to "$last" <"$room/script" >"$room/reported"
    seq "$first" "$last" | sed 's/.*/stop &\n0 last 0 A1 done\nclean\nsettled\n7/' >"$room/wanted"
    diff "$room/wanted" "$room/reported" >"$room/differences" || {
        head "$room/differences" >&2
        fail "a crash after one of the steps $range leaves something else"
    }
    for step in $(seq "$first" "$last"); do rows=$((rows + 1)); done
    echo "migrations: steps $range ... ok"
done
