#!/usr/bin/env bash
# The library for other languages, where its archive was built of the sources as they stand (`rt lib` in crates/ds_c):
# builds the C programs, with warnings as errors, and the shared object; runs the crash in C and in Python, which have to
# say the same and what examples/c/crash.stdout has, the one with threads several times, which has to say what
# examples/c/threads.stdout has, and the doctest of the Python module; then examples/c/calls.c, which makes every call,
# right and wrong. Where valgrind is there, the C programs may lose no memory. Needs cc, make and python3.
#   tests/embedding.sh [--is-built]     --is-built plays nothing: its status is 0 where the archive is there
#   THREADS_RUNS   how often examples/c/threads is run; 20 where it is not set
cd "$(dirname "$0")/.."
out=crates/ds_c/out

. tests/built.sh
if [ "${1-}" = --is-built ]; then
    is_built "$out/libds_c.a"
    exit
fi
. tests/rows.sh embedding
work=$(mktemp -d)
cleanup() { rm -rf "$work"; }
export PYTHONDONTWRITEBYTECODE=1

# Says that two texts are the same, and what it compares.
same() {
    diff -u "$2" "$3" >&2 || fail "$1: not what it has to say"
    passed "$1"
}

is_built "$out/libds_c.a" || fail "the library for C is not built of the sources as they stand: (cd crates/ds_c && rt lib)"
make -s -C examples/c clean-sheet sheet
"$out/crash" >"$work/c"
same "examples/c/crash" examples/c/crash.stdout "$work/c"
python3 examples/python/dsheet.py >"$work/python"
same "examples/python/dsheet.py" "$work/c" "$work/python"
for _ in $(seq "${THREADS_RUNS:-20}"); do
    "$out/threads" >"$work/threads"
    cmp -s examples/c/threads.stdout "$work/threads" || same "examples/c/threads" examples/c/threads.stdout "$work/threads"
done
passed "examples/c/threads, ${THREADS_RUNS:-20} times"
python3 -m doctest examples/python/dsheet.py
passed "the doctest of examples/python/dsheet.py"
echo 'int main(void) { return 0; }' | cc -std=c99 -Wall -Wextra -Werror -pedantic -fsyntax-only -x c - \
    -include crates/ds_c/include/dsheet.h
echo 'int main() { return 0; }' | cc -std=c++11 -Wall -Wextra -Werror -fsyntax-only -x c++ - \
    -include crates/ds_c/include/dsheet.h
passed "the header as C99 and as C++11"
cc -std=c99 -Wall -Wextra -Werror -pedantic -O1 -Icrates/ds_c/include -Wl,--wrap=malloc -o "$work/calls" \
    examples/c/calls.c "$out/libdsheet.a"
"$work/calls"
passed "each function, with each argument that can be wrong"
if command -v valgrind >/dev/null; then
    valgrind -q --error-exitcode=1 --leak-check=full "$out/crash" >/dev/null
    valgrind -q --error-exitcode=1 --leak-check=full "$out/threads" >/dev/null
    valgrind -q --error-exitcode=1 --leak-check=full "$work/calls"
    passed "no memory is lost"
fi
