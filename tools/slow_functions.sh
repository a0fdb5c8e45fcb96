#!/usr/bin/env bash
# Prints how many seconds each part of a crate's proof takes, the slowest first, and their sum: a check of the crate from
# nothing by one job, in a copy of the repository, over the libraries that are built here. It goes by the times of the
# files that the check keeps, one a module. Of a function F, F.Lts is what its borrows and drops cost, F.Proof its goals;
# a page of proofs/ or specs/ has its own name. Where rt says that it takes something from another copy's check, that is
# left out: remove that copy's out/ first.
#   tools/slow_functions.sh NAME [--test]
set -euo pipefail
cd "$(dirname "$0")/.."
room=$(mktemp -d)
trap 'rm -rf "$room"' EXIT
cp -a crates.txt HANDLES "$room"
mkdir "$room/.git" "$room/crates"
for crate in crates/*; do
    mkdir "$room/$crate"
    for part in src specs proofs; do
        [ -d "$crate/$part" ] && cp -a "$crate/$part" "$room/$crate/"
    done
    if [ -d "$crate/out/rlib" ]; then
        mkdir "$room/$crate/out"
        cp -a "$crate/out/rlib" "$room/$crate/out/"
    fi
done
cd "$room/crates/$1"
touch "$room/begun"
rt check --jobs 1 "${@:2}" >&2
find out/incremental -type f -name '*.oantt' -newer "$room/begun" -printf '%T@ %f\n' | sort -n \
    | awk 'NR > 1 { printf "%.2f %s\n", $1 - last, $2; sum += $1 - last } { last = $1 }
        END { printf "%.2f in all\n", sum }' \
    | sed -e 's/\.decls\.oantt$//' -e 's/\.oantt$//' | sort -rn
