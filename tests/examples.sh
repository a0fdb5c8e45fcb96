#!/usr/bin/env bash
# Runs the examples: each file of examples/ that has words beside it (NAME.args) is a standard input, whose answer is
# NAME.stdout, where that is there, and whose exit status is that of .ci/statuses, and 0 where it names none.
# Then the client of HTTP speaks to servers of its own, and a budget of an office goes through the report and back, and into a
# store, as .fods and as .ods.
#   tests/examples.sh PROGRAM
program=$(realpath "$1")
cd "$(dirname "$0")/.."
. tests/rows.sh examples
room=$(mktemp -d)
cleanup() { rm -rf "$room"; }
evidence() { head -c 300 "$room/said"; }

for words in examples/*.args; do
    example=${words%.args}
    name=${example##*/}
    wanted=$(awk -v name="$name" '$1 == name { print $2 }' .ci/statuses)
    status=0
    mapfile -t arguments <"$words"
    "$program" "${arguments[@]}" <"$example" >"$room/out" 2>"$room/said" || status=$?
    [ "$status" = "${wanted:-0}" ] || fail "$example: wanted status ${wanted:-0}, came $status"
    if [ -f "$example.stdout" ]; then
        diff "$example.stdout" "$room/out" >&2 || fail "$example: another answer than $example.stdout"
    fi
    passed "$name"
done

# An OpenDocument spreadsheet of one part, as the file of XML beside it.
package() {
    python3 -c 'import sys, zipfile
with zipfile.ZipFile(sys.argv[2], "w") as package:
    package.writestr("mimetype", "application/vnd.oasis.opendocument.spreadsheet")
    package.write(sys.argv[1], "content.xml", zipfile.ZIP_DEFLATED)' "$1" "$2"
}

documents=examples/python/documents.py
package examples/python/budget.fods "$room/budget.ods"
cp examples/python/budget.fods "$room/budget.fods"
DSHEET=$program python3 -m doctest examples/python/client.py >"$room/said" 2>&1 || fail "the client of HTTP"
passed "client.py"

for kind in fods ods; do
    python3 "$documents" grid "$room/budget.$kind" >"$room/grid" 2>"$room/said"
    "$program" report --labels <"$room/grid" >"$room/values" 2>"$room/said" || fail "budget.$kind: its report"
    diff examples/python/budget.stdout "$room/values" >&2 || fail "budget.$kind: another report"
    python3 "$documents" fill "$room/budget.$kind" "$room/values" "$room/new.$kind" 2>"$room/said"
    python3 "$documents" values "$room/new.$kind" | diff "$room/values" - >&2 || fail "budget.$kind: other values in it"
    python3 "$documents" grid "$room/new.$kind" | diff "$room/grid" - >&2 || fail "budget.$kind: other formulas in it"
    python3 "$documents" texts "$room/budget.$kind" >"$room/texts"
    "$program" import "$room/$kind.db" --csv <"$room/texts" >&2 || fail "budget.$kind: no store of it"
    "$program" report <"$room/texts" >"$room/values"
    "$program" export "$room/$kind.db" --values | diff "$room/values" - >&2 || fail "budget.$kind: other values in its store"
    passed "budget.$kind"
done
{
    sleep 0.2
    python3 "$documents" values examples/python/budget.fods 2>"$room/said"
} | true || true
[ ! -s "$room/said" ] || fail "values that nobody reads: it says something"
passed "values that nobody reads"

# The crash that README shows is examples/taken_back, and is answered so.
shown() { sed -n '/^## A crash$/,/^!/s/^    //p' README.md | cut -c "$1" | sed 's/ *$//'; }
grep -v '^#' examples/taken_back | diff - <(shown 1-24) >&2 || fail "README shows another script than examples/taken_back"
grep -v ',' examples/taken_back.stdout | diff - <(shown 25-46) >&2 || fail "README shows other answers than examples/taken_back has"
passed "the crash of README"
