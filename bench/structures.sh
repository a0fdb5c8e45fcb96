#!/bin/sh
# Enqueues and dequeues by 1, 2, 4 and 8 threads on the proved queue, through the library for C, beside the same steps on
# plain C++ atomics with the same simulated flushes and a queue of Michael and Scott without persistence (structures.cpp);
# by the medians of as many runs as the first argument says (5). What the boundary to C costs is in it.
# Run it after a build: (cd crates/pq_c && rt lib); bench/structures.sh
set -eu
here=$(CDPATH= cd -- "$(dirname -- "$0")" && pwd)
top=$here/..
work=$(mktemp -d)
trap 'rm -rf "$work"' EXIT
make -s -C "$top/examples/c" queue
${CXX:-c++} -O2 -static-libstdc++ -static-libgcc -std=c++17 -Wall -Wextra -pthread -I"$top/crates/pq_c/include" \
    -o "$work/structures" "$here/structures.cpp" "$top/crates/pq_c/out/libpmq.a"
PYTHONDONTWRITEBYTECODE=1 python3 "$here/structures.py" "$work/structures" "${1:-5}"
