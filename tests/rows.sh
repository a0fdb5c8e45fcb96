# What the tests in shell share: `. tests/rows.sh NAME` at the top of the repository, then `passed WHAT` for a row that is
# as it has to be, and `fail WHY` for one that is not, which ends the test and names its line. However it ends, the last
# line counts the rows; a function `cleanup`, where there is one, is called before, and a function `evidence` prints what
# is known where a row fails.
part=$1
shift
set -Eeuo pipefail
rows=0
failed=0

# The line of the test, not of this file, that has called.
line_of_test() {
    local depth=$((${#BASH_LINENO[@]} - 2))
    echo "tests/$(basename "$0"):${BASH_LINENO[$depth]}"
}

passed() {
    rows=$((rows + 1))
    echo "$part: $1 ... ok"
}

fail() {
    failed=1
    echo "$(line_of_test): $1" >&2
    if [ "$(type -t evidence)" = function ]; then evidence >&2; fi
    exit 1
}

# A row that holds where its condition does: what it is, then the condition.
holds() {
    local what=$1
    shift
    "$@" || fail "$what: not so: $*"
    passed "$what"
}

count_rows() {
    local status=$?
    trap - ERR
    set +e
    if [ "$(type -t cleanup)" = function ]; then cleanup; fi
    if [ "$status" != 0 ]; then failed=1; fi
    echo "$part: $rows passed, $failed failed"
    exit "$status"
}
trap 'status=$?; [ "$failed" = 1 ] || [ "$BASH_SUBSHELL" != 0 ] || echo "$(line_of_test): ended with status $status: $BASH_COMMAND" >&2' ERR
trap count_rows EXIT
