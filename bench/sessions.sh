#!/bin/sh
# What an edit costs over loopback, with 1, 2 and 4 clients and 0, 1 and 2 workers, beside the same edit in a script: the
# medians of interleaved runs (11, or as many as the first argument says).
# Run it after a build: ./dsheet build; bench/sessions.sh
set -eu
here=$(CDPATH= cd -- "$(dirname -- "$0")" && pwd)
work=$(mktemp -d)
trap 'rm -rf "$work"' EXIT
${CXX:-c++} -O2 -std=c++17 -pthread -o "$work/clients" "$here/clients.cpp"
python3 "$here/sessions.py" "$here/../crates/ds_app/out/ds_app" "$work/clients" "${1:-11}"
