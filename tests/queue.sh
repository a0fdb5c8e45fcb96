#!/usr/bin/env bash
# The queue for C, where its archive was built of the sources as they stand (`rt lib` in crates/pq_c): builds the C programs,
# with warnings as errors; runs the one with threads several times, which has to say what examples/c/queue.stdout has; then
# examples/c/queue_calls.c, which makes every call, right and wrong. Where valgrind is there, they may lose no memory.
# Needs cc and make.
#   tests/queue.sh [--is-built]     --is-built plays nothing: its status is 0 where the archive is there
#   THREADS_RUNS   how often examples/c/queue is run; 20 where it is not set
cd "$(dirname "$0")/.."
out=crates/pq_c/out
. tests/built.sh
if [ "${1-}" = --is-built ]; then
    is_built "$out/libpq_c.a"
    exit
fi
. tests/rows.sh queue
work=$(mktemp -d)
cleanup() { rm -rf "$work"; }

is_built "$out/libpq_c.a" || fail "the queue for C is not built of the sources as they stand: (cd crates/pq_c && rt lib)"
make -s -C examples/c clean-queue queue
for _ in $(seq "${THREADS_RUNS:-20}"); do
    "$out/queue" >"$work/queue"
    diff -u examples/c/queue.stdout "$work/queue" >&2 || fail "examples/c/queue: not what it has to say"
done
passed "examples/c/queue, ${THREADS_RUNS:-20} times"
echo 'int main(void) { return 0; }' | cc -std=c99 -Wall -Wextra -Werror -pedantic -fsyntax-only -x c - \
    -include crates/pq_c/include/pmq.h
echo 'int main() { return 0; }' | cc -std=c++11 -Wall -Wextra -Werror -fsyntax-only -x c++ - \
    -include crates/pq_c/include/pmq.h
passed "the header as C99 and as C++11"
cc -std=c99 -Wall -Wextra -Werror -pedantic -O1 -Icrates/pq_c/include -Wl,--wrap=malloc -o "$work/calls" \
    examples/c/queue_calls.c "$out/libpmq.a"
"$work/calls"
passed "each function, with each argument that can be wrong"
if command -v valgrind >/dev/null; then
    valgrind -q --error-exitcode=1 --leak-check=full "$out/queue" >/dev/null
    valgrind -q --error-exitcode=1 --leak-check=full "$work/calls"
    passed "no memory is lost"
fi
