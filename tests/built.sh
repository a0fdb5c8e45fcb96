# Whether an archive was built of the sources as they stand.
is_built() {
    [ -f "$1" ] && [ -z "$(find crates crates.txt -name out -prune -o -type f -newer "$1" \
        \( -name '*.rt' -o -name '*.antt' -o -name crates.txt \) -print -quit)" ]
}
