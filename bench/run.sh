#!/bin/sh
# Times of whole runs of the program, as medians of interleaved runs (11, or as many as the first argument says):
# `dsheet report` on grids, beside a plain program that does the same (baseline.cpp); `dsheet run` on scripts that set the
# same sheets, settle and report, beside `dsheet report`, a plain program that makes the same steps (steps.cpp) and
# ssconvert, where that is installed; and whole edits and works of `dsheet run`, beside that plain program, by time and,
# where valgrind is installed, by instructions. Answers are compared first.
# Run it after a build: ./dsheet build; bench/run.sh
set -eu
here=$(CDPATH= cd -- "$(dirname -- "$0")" && pwd)
program=$here/../crates/ds_app/out/ds_app
runs=${1:-11}
work=$(mktemp -d)
trap 'rm -rf "$work"' EXIT
mkdir "$work/sheets"
for name in baseline steps; do
    ${CXX:-c++} -O2 -static-libstdc++ -static-libgcc -std=c++17 -o "$work/$name" "$here/$name.cpp"
done
export PYTHONDONTWRITEBYTECODE=1
python3 "$here/sheets.py" "$work/sheets"
python3 "$here/calls.py" "$work/sheets"
python3 "$here/times.py" plain "$program" "$work/baseline" "$work/sheets" "$runs"
echo
python3 "$here/times.py" scripts "$program" "$work/steps" "$work/sheets" "$runs"
echo
python3 "$here/times.py" calls "$program" "$work/steps" "$work/sheets" "$runs"
echo
python3 "$here/times.py" instructions "$program" "$work/steps" "$work/sheets" "$runs"
