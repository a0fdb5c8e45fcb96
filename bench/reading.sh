#!/bin/sh
# The time to read formulas, by the byte, beside that of a plain scan of as many bytes: a script of 2,048 formulas of 116
# bytes, each refused at its end, where it is read whole and no edit has begun; and one of as many comment lines, whose
# bytes are only searched for their ends. The least of nine runs each, less the run of an empty script.
# Run it after a build: ./dsheet build; bench/reading.sh
set -eu
top=$(CDPATH= cd -- "$(dirname -- "$0")/.." && pwd)
program=$top/crates/ds_app/out/ds_app
scripts=$(mktemp -d)
trap 'rm -rf "$scripts"' EXIT
formula='=SUM([.A1:.B2];1+2*3-4<5;MIN(6;-7;[.A1]);IF([.B1]>=8;MOD(9;10);QUOTIENT(11;12));ABS(-13)*(14+15)*16+17*(18-19)+2001;'
: >"$scripts/empty"
awk -v text="$formula" 'BEGIN { print "sheet 2 2 8"; for (i = 0; i < 2048; i++) printf "set %d A1 %s\n", int(i / 256), text }' >"$scripts/formulas"
awk -v text="$formula" 'BEGIN { print "sheet 2 2 8"; for (i = 0; i < 2048; i++) printf "#et %d A1 %s\n", int(i / 256), text }' >"$scripts/comments"
if [ "$("$program" run <"$scripts/formulas" | grep -c "refused 1 Unfinished ${#formula}$")" != 2048 ]; then
    echo "the formulas are not read to their ends" >&2
    exit 1
fi
least() {
    best=
    for _ in 1 2 3 4 5 6 7 8 9; do
        start=$(date +%s%N)
        "$program" run <"$scripts/$1" >/dev/null
        end=$(date +%s%N)
        time=$((end - start))
        if [ -z "$best" ] || [ "$time" -lt "$best" ]; then best=$time; fi
    done
    echo "$best"
}
empty=$(least empty)
formulas=$(least formulas)
comments=$(least comments)
awk -v empty="$empty" -v formulas="$formulas" -v comments="$comments" -v size="${#formula}" 'BEGIN {
    bytes = 2048 * size; read = (formulas - empty) / bytes; scan = (comments - empty) / bytes
    printf "reading a formula of %d bytes: %.2f microseconds, %.1f ns a byte; a plain scan: %.1f ns a byte; ratio %.1f\n", \
        size, read * size / 1000, read, scan, read / scan }'
