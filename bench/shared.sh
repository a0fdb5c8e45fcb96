#!/bin/sh
# Calls of threads on a shared sheet, beside the same steps on plain C++ atomics (shared.cpp), with the words laid out in the
# same way and with each word on a line of a cache of its own, and a sheet behind a lock:
# edits of cells of their own and of one cell, edits with works, and reports beside these, by 1, 2, 4 and 8 threads; by the
# least of as many interleaved runs as the first argument says (7).
# Run it after a build: (cd crates/bench_threads && rt run); bench/shared.sh
set -eu
here=$(CDPATH= cd -- "$(dirname -- "$0")" && pwd)
program=$here/../crates/bench_threads/out/bench_threads
work=$(mktemp -d)
trap 'rm -rf "$work"' EXIT
for layout in SAME ALL_APART; do
    ${CXX:-c++} -O2 -static-libstdc++ -static-libgcc -std=c++17 -pthread -D$layout -o "$work/$layout" "$here/shared.cpp"
done
PYTHONDONTWRITEBYTECODE=1 python3 "$here/shared.py" "$program" "$work/SAME" "$work/ALL_APART" "${1:-7}"
