#!/usr/bin/env bash
# Tries the edits of crates/NAME/more-edits, which the gate does not try, as it tries those of must-fail: the prover has to
# refuse each. In a copy of the repository they lie in must-fail. Where `rt ci` takes names and keeps what it has proved,
# `rt ci NAME ..` proves and tries there. Elsewhere tools/try_edits.py does, crate by crate, over what checks here have
# kept: `rt check` in a crate's folder keeps the libraries below it, and else they are proved anew for each run. Run it for
# a crate whenever its code or its definitions change. It notes of each edit that was refused of which text that is so, in
# crates/NAME/more-edits/tried: a trial that was cut short is not lost. The last line counts the crates; exit status 1
# where an edit of any is left.
#   tools/more_edits.sh [NAME ..]           the edits of these crates whose text is another one than that, or of all crates
#   tools/more_edits.sh --alone [NAME ..]   the same by tools/try_edits.py, whatever `rt ci` takes
#   tools/more_edits.sh --stale             lists these crates, and tries nothing
#   tools/more_edits.sh --stale-of NAME     lists the files of these edits of a crate
#   tools/more_edits.sh --is-beside         says by its status whether they are tried beside another `rt ci`, of what it keeps
#   tools/more_edits.sh --note LOG NAME ..  notes the edits of these crates by what an `rt ci` said, in whose must-fail they lay
# RT_JOBS says how many processors a check uses.
set -euo pipefail
cd "$(dirname "$0")/.."

# A sum of what a crate's edits turn: its code and its definitions, without comments and blank lines.
text_of() {
    find "crates/$1" -type f \( -path '*/src/*.rt' -o -path '*/specs/*.antt' \) ! -path '*/out/*' \
        | LC_ALL=C sort | xargs cat | grep -vE '^ *(//|--|$)' | sha256sum | cut -d ' ' -f 1
}

# The lines of a crate's notes where each of its edits was refused on this text: the edit, and sums of the text and of it.
marks_of() {
    local text
    text=$(text_of "$1")
    sha256sum "crates/$1/more-edits/"*.edit \
        | awk -v text="$text" '{ sub(/.*\//, "", $2); print $2, substr(text, 1, 32), substr($1, 1, 32) }'
}

# The crates that have such edits.
all() {
    for folder in crates/*/more-edits; do
        basename "$(dirname "$folder")"
    done
}

# The files of a crate's edits that were not refused on its text as it stands.
stale_of() {
    marks_of "$1" | { grep -vxF -f <(cat "crates/$1/more-edits/tried" 2>/dev/null) || true; } | sed "s/ .*//; s|^|crates/$1/more-edits/|"
}

# The crates that have any.
stale() {
    for name in "$@"; do
        if [ -n "$(stale_of "$name")" ]; then echo "$name"; fi
    done
}

# These crates and those below them, by crates.txt.
with_those_below() {
    local head libraries name unseen=("$@")
    local -A below taken
    while IFS=: read -r head libraries; do
        below[${head%% *}]=$libraries
    done < <(grep -v '^#' crates.txt)
    while [ "${#unseen[@]}" != 0 ]; do
        name=${unseen[-1]}
        unset 'unseen[-1]'
        if [ -n "${taken[$name]-}" ] || [ -z "${below[$name]+is}" ]; then continue; fi
        taken[$name]=yes
        # shellcheck disable=SC2206
        unseen+=(${below[$name]})
    done
    printf '%s\n' "${!taken[@]}"
}

# Copies what checks of these crates read, with their edits where `rt` tries them. No other crate is copied, so no other
# one is proved or tested there.
copy_repository() {
    local room=$1 name crate
    shift
    cp -a HANDLES "$room"
    mkdir "$room/.git" "$room/crates"
    while read -r name; do
        crate=crates/$name
        grep -E "^${name}[ :]" crates.txt >>"$room/crates.txt"
        mkdir "$room/$crate"
        find "$crate" -mindepth 1 -maxdepth 1 ! -name out ! -name must-fail ! -name more-edits -exec cp -a {} "$room/$crate/" \;
    done < <(with_those_below "$@")
    for name in "$@"; do
        mkdir "$room/crates/$name/must-fail"
        stale_of "$name" | xargs cp -t "$room/crates/$name/must-fail"
    done
}

# Gives the copy what checks have kept here: the libraries, which no check writes in place, and of these crates what a
# check has proved of them. A check takes of it what is of the text as it stands.
copy_kept() {
    local room=$1 name crate
    shift
    while read -r name; do
        crate=crates/$name
        if [ -f "$crate/out/rlib/stamp" ]; then
            mkdir "$room/$crate/out"
            cp -al "$crate/out/rlib" "$room/$crate/out/" 2>/dev/null || cp -a "$crate/out/rlib" "$room/$crate/out/"
        fi
    done < <(with_those_below "$@")
    for name in "$@"; do
        crate=crates/$name
        if [ -d "$crate/out/incremental" ]; then
            mkdir -p "$room/$crate/out"
            cp -a "$crate/out/incremental" "$room/$crate/out/"
        fi
    done
}

# Whether `rt ci` takes names of crates.
takes_names() {
    # (a grep that ends at its first match would break the pipe of what still prints)
    grep -qE '^ *rt ci .*NAME' <<<"$(rt help 2>&1)"
}

# Notes the edits of a crate that were refused, by what was said, beside those that were before, and says whether all are.
conclude() {
    local name=$1 said=$2 tried=crates/$1/more-edits/tried mark
    while IFS= read -r mark; do
        if grep -qxF -- "$mark" "$tried" 2>/dev/null || grep -qF "must-fail $name/${mark%% *}: refused, as it must be" "$said"; then
            echo "$mark"
        fi
    done <<<"${texts[$name]}" >"$tried.new"
    mv "$tried.new" "$tried"
    if [ "$(cat "$tried")" = "${texts[$name]}" ]; then
        echo "more_edits: $name: all refused"
        refused=$((refused + 1))
    else
        echo "more_edits: $name: not all refused"
    fi
}

if [ "${1-}" = --stale ]; then
    mapfile -t names < <(all)
    stale "${names[@]}"
    exit 0
fi
if [ "${1-}" = --stale-of ]; then
    stale_of "$2"
    exit 0
fi
if [ "${1-}" = --is-beside ]; then
    takes_names
    exit
fi
declare -A texts
refused=0
if [ "${1-}" = --note ]; then
    said=$2
    shift 2
    for name in "$@"; do
        texts[$name]=$(marks_of "$name")
        conclude "$name" "$said"
    done
    [ "$refused" = $# ]
    exit
fi
alone=
if [ "${1-}" = --alone ]; then
    alone=yes
    shift
fi
names=("$@")
if [ $# -eq 0 ]; then mapfile -t names < <(all); fi
mapfile -t names < <(stale "${names[@]}")
if [ "${#names[@]}" = 0 ]; then
    echo "more_edits: 0 crates with all edits refused, 0 left"
    exit 0
fi
room=$(mktemp -d)
trap 'rm -rf "$room"' EXIT
trap 'exit 130' INT
trap 'exit 143' TERM
for name in "${names[@]}"; do texts[$name]=$(marks_of "$name"); done
copy_repository "$room" "${names[@]}"
# A gate calls `rt ci` without names, over what was copied.
if [ "${CI-}" = true ]; then words=(); else words=("${names[@]}"); fi
if [ "${#words[@]}" != 0 ] && ! takes_names; then alone=yes; fi
if [ -n "$alone" ]; then
    copy_kept "$room" "${names[@]}"
    for name in "${names[@]}"; do
        mapfile -t edits < <(stale_of "$name")
        tools/try_edits.py "$room/crates/$name" "${edits[@]}" </dev/null 2>&1 | tee -a "$room/log" || true
        conclude "$name" "$room/log"
    done
else
    (cd "$room" && rt ci "${words[@]}") </dev/null 2>&1 | tee "$room/log" || true
    for name in "${names[@]}"; do conclude "$name" "$room/log"; done
fi
left=$((${#names[@]} - refused))
echo "more_edits: $refused crates with all edits refused, $left left"
[ "$left" = 0 ]
