#!/bin/sh
# How many edits a second a server makes with a store in memory and in a file, beside a plain server over SQLite (needs its
# development files), with 1, 2, 4 and 8 clients: the medians of interleaved runs (5, or as many as the first argument says).
# The file lies in the system's folder for what is kept for a while.
# Run it after a build: ./dsheet build; bench/store.sh
set -eu
here=$(CDPATH= cd -- "$(dirname -- "$0")" && pwd)
work=$(mktemp -d)
trap 'rm -rf "$work"' EXIT
${CXX:-c++} -O2 -std=c++17 -pthread -o "$work/clients" "$here/clients.cpp"
${CXX:-c++} -O2 -std=c++17 -pthread -o "$work/plain_store" "$here/plain_store.cpp" -lsqlite3
python3 "$here/store.py" "$here/../crates/ds_app/out/ds_app" "$work/clients" "$work/plain_store" "${1:-5}"
