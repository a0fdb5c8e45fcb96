#!/usr/bin/env bash
# Runs the program on inputs, streams and words that rows of transcripts cannot have, and compares its exit status and
# what it says on standard error.
#   tests/program.sh PROGRAM
program=$(realpath "$1")
cd "$(dirname "$0")/.."
. tests/rows.sh program
room=$(mktemp -d)
said=$room/said
cleanup() { rm -rf "$room"; }
evidence() { echo "it said: $(head -c 300 "$said")"; }

# Says that the case is as it has to be: its name, the status it ended with, the status wanted, a line wanted of standard
# error, as a pattern of a whole line (empty: nothing is said there).
expect() {
    local name=$1 status=$2 wanted=$3 pattern=$4
    [ "$status" = "$wanted" ] || fail "$name: status $status, and not $wanted"
    if [ -z "$pattern" ]; then
        [ ! -s "$said" ] || fail "$name: it says something, and should not"
    else
        grep -q -x -- "$pattern" "$said" || fail "$name: no line '$pattern'"
    fi
    passed "$name"
}

# Runs the program with these words, standard input from a file.
on() {
    local input=$1
    shift
    status=0
    "$program" "$@" <"$input" >/dev/null 2>"$said" || status=$?
}

# The same onto a device that is full.
onto_full() {
    local input=$1
    shift
    status=0
    "$program" "$@" <"$input" >/dev/full 2>"$said" || status=$?
}

# The same onto a pipe that nobody reads.
onto_closed() {
    local input=$1
    shift
    {
        sleep 0.2
        status=0
        "$program" "$@" <"$input" 2>"$said" || status=$?
        echo "$status" >"$room/status"
    } | true
    status=$(cat "$room/status")
}

on examples/sum run
expect "a script" "$status" 0 ""
on examples/fault run
expect "a fault in a line" "$status" 1 "line [0-9]*: .*"
on examples/grid_refused report
expect "a fault in a grid" "$status" 1 "cell [A-Z][0-9]*: [A-Za-z]* [0-9]*"
on /dev/null run --nothing
expect "an unknown option" "$status" 2 "error: unexpected argument '--nothing' found"
on /dev/null serve --listen 127.0.0.1:0 --columns=+2
expect "a number with a sign" "$status" 2 "dsheet: --columns, --rows: from 1 to 26 .*"
on /dev/null walk
expect "an unknown command" "$status" 2 "error: .*walk.*"
on /dev/null run $'\xff'
expect "an argument that is not UTF-8" "$status" 2 "dsheet: an argument is not UTF-8"
for words in --help --version "run --help" "report --help"; do
    # shellcheck disable=SC2086
    on /dev/null $words
    expect "$words" "$status" 0 ""
done
version=$("$program" --version)
[[ $version =~ ^dsheet\ [0-9]+\.[0-9]+\.[0-9]+$ ]] || fail "--version: it printed '$version'"
passed "the version"
for words in run "run --strict" "run --stops" report "report --json" "import --csv $room/none.db"; do
    # shellcheck disable=SC2086
    on / $words
    expect "$words: a read that fails" "$status" 3 "dsheet: .*"
done
onto_full examples/sum run
expect "run: a full device" "$status" 3 "dsheet: .*"
onto_full examples/sum run --stops
expect "run --stops: a full device" "$status" 3 "dsheet: .*"
onto_full /dev/null --help
expect "help: a full device" "$status" 3 "dsheet: standard output: .*"
onto_full examples/grid report
expect "report: a full device" "$status" 3 "dsheet: .*"
onto_full examples/grid report --json
expect "report --json: a full device" "$status" 3 "dsheet: .*"
onto_full examples/sum run --json
expect "run --json: a full device" "$status" 3 "dsheet: .*"
for words in run "run --json" "run --strict" "run --stops" explore trace; do
    # shellcheck disable=SC2086
    onto_closed examples/sum $words
    expect "$words: nobody reads the answers" "$status" 141 ""
done
printf 'set 0 A1 =B1\n' >"$room/a1"
onto_closed "$room/a1" run --a1
expect "run --a1: nobody reads the answers" "$status" 141 ""
for words in report "report --json" --help "run --help"; do
    # shellcheck disable=SC2086
    onto_closed examples/grid $words
    expect "$words: nobody reads it" "$status" 141 ""
done
head -c 1048577 /dev/zero | tr '\0' '\n' >"$room/long"
on "$room/long" run
expect "a script over its limit" "$status" 3 "dsheet: .*"
: >"$said"
status=0
"$program" run <examples/fault >/dev/null 2>&- || status=$?
expect "standard error is closed: a fault in a line" "$status" 1 ""
status=0
"$program" run --nothing </dev/null >/dev/null 2>&- || status=$?
expect "standard error is closed: an unknown option" "$status" 2 ""
status=0
"$program" run </ >/dev/null 2>&- || status=$?
expect "standard error is closed: a read that fails" "$status" 3 ""

# A script or a grid is read from a file that is named; `-` is standard input.
answers() {
    local name=$1 wanted=$2 input=$3
    shift 3
    "$program" "$@" <"$input" 2>"$said" | cmp - "$wanted" || fail "$name: another answer"
    [ ! -s "$said" ] || fail "$name: it says something, and should not"
    passed "$name"
}
answers "run of a file" examples/sum.stdout /dev/null run examples/sum
answers "run of standard input by its name" examples/sum.stdout examples/sum run -
answers "run --stops of a file" examples/stops.stdout /dev/null run --stops examples/stops
answers "report of a file" examples/grid.stdout /dev/null report examples/grid
answers "report of standard input by its name" examples/grid.stdout examples/grid report -
mkfifo "$room/pipe"
cat examples/grid >"$room/pipe" &
answers "report of a pipe" examples/grid.stdout /dev/null report "$room/pipe"
printf 'set 0 A1 =1+B1\npeek A1\n' >"$room/script"
printf '0 0 done\nA1 dirty blank =1+[.B1]\n' >"$room/answers"
answers "run --a1 of a file" "$room/answers" /dev/null run "$room/script" --a1
"$program" trace <examples/taken_back >"$room/drawn"
answers "trace of a file" "$room/drawn" /dev/null trace examples/taken_back
printf 'sheet 1 1 1\nbegin 0 set A1 1\n' >"$room/script"
"$program" explore <"$room/script" >"$room/explored"
answers "explore of a file" "$room/explored" /dev/null explore "$room/script"
answers "explore of standard input by its name" "$room/explored" "$room/script" explore -
for words in run "run --a1" "run --stops" report "report --a1" explore trace; do
    # shellcheck disable=SC2086
    on /dev/null $words "$room/nothing"
    expect "$words: no such file" "$status" 3 "dsheet: $room/nothing: No such file or directory (os error 2)"
    # shellcheck disable=SC2086
    on /dev/null $words "$room"
    expect "$words: a folder" "$status" 3 "dsheet: $room: it is a folder"
done
on /dev/null run examples/sum examples/sum
expect "two files" "$status" 2 "error: unexpected argument 'examples/sum' found"

# Below a fault stand the line, and a caret below the word that is wrong.
shows() {
    local script=$1 wanted=$2 words=${3:-run}
    # shellcheck disable=SC2086
    printf "$script" | "$program" $words >/dev/null 2>"$said" || true
    [ "$(cat "$said")" = "$(printf "$wanted")" ] || fail "what is shown of '$script': wanted: $(printf "$wanted")"
    passed "what is shown of '$script'"
}

shows 'set 0 A1 1\nset 9 A1 5\n' 'line 2: bad field\n    set 9 A1 5\n        ^ expected: a process, from 0 to 1\n'
shows 'sheet 3 3 3\nrun 2 too swung\n' 'line 2: bad field\n    run 2 too swung\n          ^ expected: `to`, and a point\n'
shows 'evict head\n' 'line 1: bad field\n    evict head\n              ^ expected: a cell of 2 columns and 2 rows, as A1\n'
shows 'recover 0 now\n' 'line 1: bad field\n    recover 0 now\n              ^ expected: nothing more\n'
shows 'begin 0 report\n' 'line 1: unknown command\n    begin 0 report\n            ^ expected: set, work, show, recover or migrate\n'
shows 'walk\n' 'line 1: unknown command\n    walk\n    ^ expected: a command, as set, work, report or crash\n'
shows 'begin 0 set A1 1\nrun 0 to held\n' 'line 2: bad field\n    run 0 to held\n             ^ expected: a point of the call that the process is in\n'
shows 'set 0 A9 1\n' 'line 1: bad field\n    set 0 A9 1\n          ^ expected: a cell of 2 columns and 2 rows, as A1\n' 'run --stops'
shows 'sheet 26 64 2\n' 'line 1: bad field\n    sheet 26 64 2\n             ^ expected: rows, from 1 to 64, for at most 1024 cells\n'
shows '1,2\n3\n' 'bad csv\nrecord 2 has 1 fields, the first one 2\n' report
"$program" run --stops --from 19 --to 20 <examples/stops >"$said"
"$program" run --stops <examples/stops | sed -n '/^stop 19$/,/^stop 21$/p' | grep -v '^stop 21$' | cmp - "$said"
passed "run --stops --from 19 --to 20"
on examples/stops run --stops --from 0
expect "run --stops --from 0" "$status" 2 'dsheet: --from: from 1 to 65535'
for words in "--stops --from 3 --to 2:--to: not below --from; .*" "--from 3:--from: .* give --stops" "--to 3:--to: .* give --stops" \
    "--from 1:--from: .* give --stops" "--strict --to 0:--to: .* give --stops" "--json --stops:--json: .*; --stops does not write them"; do
    # shellcheck disable=SC2086
    on examples/stops run ${words%%:*}
    expect "run ${words%%:*}" "$status" 2 "dsheet: ${words#*:}"
    expect "run ${words%%:*}: its usage" "$status" 2 'Usage: dsheet run \[OPTIONS\] \[FILE\]'
done
on examples/stops run --stops --from 20 --to 20
expect "run --stops of one step" "$status" 0 ""
on /dev/null serve --listen 127.0.0.1:0 --forever --sessions 1
expect "serve --forever --sessions" "$status" 2 'dsheet: --sessions: how many .*'

# The usage that stands below an option's limits is that of the command's help.
for words in "serve --listen 1" "explore --most 0" "connect 1" "run --from 1" "export a --csv --json" "log a --values"; do
    # shellcheck disable=SC2086
    on /dev/null $words
    expect "$words: its usage" "$status" 2 "$("$program" "${words%% *}" --help | grep '^Usage: ' | sed 's/[][]/\\&/g')"
done
on /dev/null serve --listen 127.0.0.1:0 --log on
expect "serve --log on" "$status" 2 'dsheet: --log: off, error, warn, info, debug or trace'
on examples/stops explore --most 0
expect "explore --most 0" "$status" 2 'dsheet: --most: from 1 to 65535 thousand states'

# What is said of a text, beside its fault: what could stand there, or what is near.
known='known are SUM, MIN, MAX, COUNT, AND, OR, NOT, ABS, MOD, QUOTIENT and IF'
notes() {
    local text=$1 fault=$2 mark=$3 note=$4 words=${5:-run}
    shows "set 0 A1 $text"'\n' "line 1: $fault"'\n'"    set 0 A1 $text"'\n'"             $mark $note"'\n' "$words"
}
notes '=AVERAGE(1)' 'UnknownFunction 1' ' ^' "AVERAGE is unknown: a mean is the QUOTIENT of a SUM and a COUNT; $known"
notes '=sun(1)' 'UnknownFunction 1' ' ^' "sun is unknown: SUM is near; $known"
notes '=QUOTEINT(4;2)' 'UnknownFunction 1' ' ^' "QUOTEINT is unknown: QUOTIENT is near; $known"
notes '=IFS(1;2)' 'UnknownFunction 1' ' ^' "IFS is unknown: IF is near; $known"
notes '=FOO(1)' 'UnknownFunction 1' ' ^' "FOO is unknown; $known"
notes '=TRUE' 'UnknownFunction 1' ' ^' "TRUE is unknown: it is 1; $known"
notes '=1/2' 'BadToken 2' '  ^' 'no / here: QUOTIENT(1;2), or MOD(1;2) for the remainder'
notes '=1/2' 'BadToken 2' '  ^' 'no / here: QUOTIENT(1,2), or MOD(1,2) for the remainder' 'run --a1'
notes '=SUM(1,2)' 'BadToken 6' '      ^' '; parts arguments; --a1 reads commas'
notes '=SUM(1' 'Unfinished 6' '      ^' ') is missing'
notes '=1+' 'Unfinished 3' '   ^' 'a number, a reference, a function or ( could stand here'
notes '=(1 2)' 'BadToken 4' '    ^' 'an operator, ; or ) could stand here'
notes '=SUM(A1:B2 1)' 'BadToken 15' '           ^' 'an operator, , or ) could stand here' 'run --a1'
notes '=1)' 'BadToken 2' '  ^' 'an operator or the end could stand here'
notes '=SUM 1' 'BadToken 5' '     ^' "( stands after a function's name"
notes '=[A1]' 'BadToken 2' '  ^' 'a reference is written [.A1], a range [.A1:.B3]'
notes '=[.A1' 'Unfinished 5' '     ^' 'a reference is written [.A1], a range [.A1:.B3]'
notes '=1!=2' 'BadToken 2' '  ^' 'not equal is written <>'
notes '=1==2' 'BadToken 3' '   ^' 'equal is written ='
notes '=2^3' 'BadToken 2' '  ^' 'operators are + - * = <> < > <= and >='
notes '="a"' 'BadToken 1' ' ^' 'formulas have no texts'
notes '=1.5' 'NotWhole 2' '  ^' 'numbers are whole'
notes '1,000' 'BadToken 1' ' ^' 'a number has nothing but digits after its sign'
notes 'Rent' 'BadToken 0' '^' 'no number; a formula begins with ='
notes '9223372036854775808' 'NumberTooLarge 0' '^' 'numbers are from -9223372036854775808 to 9223372036854775807'
notes '=MOD(1)' 'WrongArguments 1' ' ^' 'MOD takes two arguments'
notes '=A1+IF(A2)' 'WrongArguments 7' '    ^' 'IF takes two or three arguments' 'run --a1'
notes '=[.C1]' 'OutsideSheet 1' ' ^' 'the sheet has no such cell'
notes '=1+[.A1:.A2]' 'RangeNotAllowed 3' '   ^' 'a range is a whole argument of SUM, MIN, MAX, COUNT, AND or OR'
notes '=----------------1' 'TooDeep 0' '^' 'a formula has at most 64 nodes and depth 16'
notes '=1/2' 'BadToken 2' '  ^' 'no / here: QUOTIENT(1;2), or MOD(1;2) for the remainder' 'run --stops'

# Each text that is refused is shown, and none of a call that is refused for something else.
shows 'begin 0 set A1 1\nset 0 A1 =1.5\nset 1 A1 =1/2\nbegin 1 set B1 2.5\nrun 0\n' 'line 3: BadToken 2\n    set 1 A1 =1/2\n               ^ no / here: QUOTIENT(1;2), or MOD(1;2) for the remainder\nline 4: NotWhole 1\n    begin 1 set B1 2.5\n                    ^ numbers are whole\n'
shows 'begin 0 set A1 1\nset 0 A1 =1.5\nset 1 A1 =1.5\n' 'line 3: NotWhole 2\n    set 1 A1 =1.5\n               ^ numbers are whole\n'
shows 'set 0 A1 x\nfly\nset 0 A1 y\n' 'line 2: unknown command\n    fly\n    ^ expected: a command, as set, work, report or crash\nline 1: BadToken 0\n    set 0 A1 x\n             ^ no number; a formula begins with =\n'

shows 'set 0 A1 =[.B1]+B2*A1\n' 'line 1: UnknownFunction 7\n    set 0 A1 =[.B1]+B2*A1\n                    ^ references are written [.A1]; --a1 reads A1\n'
shows 'set 0 A1 1\nset 0 A1 =B1+[.B2]\n' 'line 2: BadToken 4\n    set 0 A1 =B1+[.B2]\n                 ^ with --a1 references are written A1\n' 'run --a1'
shows '1,=A1\n' 'cell B1: UnknownFunction 1\n  line 1, column 3\n    =A1\n     ^ references are written [.A1]; --a1 reads A1\n' report
shows '1,=A1*FOO(1)\n' 'cell B1: UnknownFunction 7\n  line 1, column 3\n    =A1*FOO(1)\n        ^ FOO is unknown; '"$known"'\n' 'report --a1'

# A strict run says how many of its answers are refusals, after each text that is one.
shows 'set 0 A1 7.5\nbegin 0 set A1 1\nset 0 A1 2\n' 'line 1: NotWhole 1\n    set 0 A1 7.5\n              ^ numbers are whole\nrefusals: 2\n' 'run --strict'
shows 'set 0 A1 7.5\n' 'line 1: NotWhole 1\n    set 0 A1 7.5\n              ^ numbers are whole\nrefusals: 1\n' 'run --strict --stops'
shows 'set 0 A1 7.5\nset 0 A1 x\n' 'line 1: NotWhole 1\n    set 0 A1 7.5\n              ^ numbers are whole\nline 2: BadToken 0\n    set 0 A1 x\n             ^ no number; a formula begins with =\nrefusals: 2\n' 'run --strict --stops'
shows 'set 0 A1 7\n' '' 'run --strict'

# All fields that are refused are told, each with its place in the file.
shows '\n"Rent\n(flat)",7.5\n\r\n"a""b",\n' 'cell A1: BadToken 0\n  line 2, column 1\n    Rent?(flat)\n    ^ no number; a formula begins with =\ncell B1: NotWhole 1\n  line 3, column 9\n    7.5\n     ^ numbers are whole\ncell A2: BadToken 0\n  line 5, column 1\n    a"b\n    ^ no number; a formula begins with =\n3 fields are refused\nno number and no formula: 2; with --labels they pass through\n' report
shows 'Rent,7.5\n' 'cell B1: NotWhole 1\n  line 1, column 6\n    7.5\n     ^ numbers are whole\n' 'report --labels'

# A store of lines in A1 notation is that of the lines in OpenFormula.
printf 'sheet 2 2 1\nset 0 A1 =SUM($B$1:B2,1)\n# =A1\nset 0 B1 7\n' >"$room/lines"
on "$room/lines" import --a1 "$room/a1.db"
expect "import --a1" "$status" 0 ""
"$program" export "$room/a1.db" >"$room/exported"
printf 'sheet 2 2 1\nset 0 A1 =SUM([.$B$1:.B2];1)\n# =A1\nset 0 B1 7\n' | cmp - "$room/exported" || fail "import --a1: another store"
on "$room/exported" import --a1 "$room/none.db"
expect "import --a1 of brackets" "$status" 1 "line 2: BadToken 5"
[ ! -e "$room/none.db" ] || fail "import --a1 of brackets: it leaves a file"
on "$room/lines" import "$room/bare.db"
expect "import without --a1" "$status" 1 " *\^ references are written \[\.A1\]; --a1 reads A1"

# A store of a grid has the texts of the grid, and is written as the grid: the texts, and the values as report has them.
printf '1,=A1*20,\n,"=SUM(A1:B1,2)",=1/2\n' >"$room/grid"
on "$room/grid" import --csv --a1 "$room/grid.db"
expect "import --csv of a text that is refused" "$status" 1 "cell C2: BadToken 2"
[ ! -e "$room/grid.db" ] || fail "import --csv of a text that is refused: it leaves a file"
printf '1,=A1*20,\n,"=SUM(A1:B1,2)",-7\n' >"$room/grid"
on "$room/grid" import --csv --a1 "$room/grid.db"
expect "import --csv --a1" "$status" 0 ""
printf '1,=[.A1]*20,\n,=SUM([.A1:.B1];2),-7\n' >"$room/texts"
answers "export --csv" "$room/texts" /dev/null export "$room/grid.db" --csv
"$program" report <"$room/texts" >"$room/values"
answers "export --values" "$room/values" /dev/null export "$room/grid.db" --values
answers "export --csv --values --until" "$room/values" /dev/null export "$room/grid.db" --csv --values --until 65535
on "$room/texts" import "$room/again.db" --csv
expect "import --csv of what is exported" "$status" 0 ""
answers "export --csv, again" "$room/texts" /dev/null export "$room/again.db" --csv
for words in "export $room/grid.db --csv" "log $room/grid.db" "log $room/grid.db --at 1" "export $room/grid.db --json" "check $room/grid.db"; do
    # shellcheck disable=SC2086
    onto_full /dev/null $words
    expect "${words%% *}: a full device" "$status" 3 "dsheet: standard output: .*"
    # shellcheck disable=SC2086
    onto_closed /dev/null $words
    expect "${words%% *}: nobody reads it" "$status" 141 ""
done

# A store's values are written as JSON as report writes them, and its texts so too.
"$program" report --json <"$room/texts" >"$room/json"
answers "export --values --json" "$room/json" /dev/null export "$room/grid.db" --values --json
printf '{"rows":[["1","=[.A1]*20",""],["","=SUM([.A1:.B1];2)","-7"]]}\n' >"$room/json"
answers "export --json" "$room/json" /dev/null export "$room/grid.db" --json
on /dev/null import --csv "$room/empty.db"
expect "import --csv of no record" "$status" 1 "empty grid"
on "$room/long" import --csv "$room/empty.db"
expect "import --csv over its limit" "$status" 3 "dsheet: .*"
[ ! -e "$room/empty.db" ] || fail "import --csv of no grid: it leaves a file"
on "$room/texts" import --csv "$room/again.db"
expect "import --csv over a store" "$status" 1 "dsheet: .*already"

# The list of edits begins with the texts that the sheet began with; the sheet is shown as it was.
printf '# 4 texts that the sheet began with, and then its edits: what was before is not kept\n1 - - A1 1\n2 - - B1 =[.A1]*20\n3 - - B2 =SUM([.A1:.B1];2)\n4 - - C2 -7\n' >"$room/list"
answers "log of texts alone" "$room/list" /dev/null log "$room/grid.db"
printf 'sheet 2 1 2\nset 1 A1 =[.B1]\nset 0 B1 5\n# a comment\nset 1 A1\nset 1 B1 6\n' | "$program" import "$room/log.db"
printf '1 1 0 A1 =[.B1]\n2 0 0 B1 5\n3 1 1 A1\n4 1 2 B1 6\n' >"$room/list"
answers "log" "$room/list" /dev/null log "$room/log.db"
grep A1 "$room/list" >"$room/cell"
answers "log --cell" "$room/cell" /dev/null log "$room/log.db" --cell A1
for row in "1:=[.B1],:0," "2:=[.B1],5:5,5" "3:,5:,5" "4:,6:,6" "65535:,6:,6"; do
    IFS=: read -r at texts values <<<"$row"
    echo "$texts" >"$room/wanted"
    answers "log --at $at" "$room/wanted" /dev/null log "$room/log.db" --at "$at"
    echo "$values" >"$room/wanted"
    answers "log --at $at --values" "$room/wanted" /dev/null log "$room/log.db" --at "$at" --values
done
echo '=[.B1]' >"$room/wanted"
answers "log --cell --at" "$room/wanted" /dev/null log "$room/log.db" --at 1 --cell a1
echo 5 >"$room/wanted"
answers "log --cell --at --values" "$room/wanted" /dev/null log "$room/log.db" --at 2 --cell A1 --values
on /dev/null log "$room/log.db" --cell A2
expect "log of a cell that is none" "$status" 2 "dsheet: --cell: no cell of 2 columns and 1 rows, as A1"
# What a check tells of each process; a compacted store begins with the texts, has no edit beside them, and counts as many.
printf 'sheet 2 1 2\nprocess 0: 1 edits of 256\nprocess 1: 3 edits of 256\n4 edits count, none is in doubt\n' >"$room/wanted"
answers "check" "$room/wanted" /dev/null check "$room/log.db"
on /dev/null compact "$room/log.db" "$room/compacted.db"
expect "compact" "$status" 0 ""
printf '# 1 texts that the sheet began with, and then its edits: what was before is not kept\n1 - - B1 6\n' >"$room/wanted"
answers "log of a compacted store" "$room/wanted" /dev/null log "$room/compacted.db"
printf 'sheet 2 1 2\nprocess 0: 1 edits of 256\nprocess 1: 0 edits of 256\n4 edits count, none is in doubt\n' >"$room/wanted"
answers "check of a compacted store" "$room/wanted" /dev/null check "$room/compacted.db"
on /dev/null log "$room/log.db" --values
expect "log --values of the list" "$status" 2 "dsheet: --values: .*"
on /dev/null log "$room/nothing.db"
expect "log of no store" "$status" 3 "dsheet: .*No such file.*"

# The manual page is that of this program, and is shown without a warning.
holds "the manual page: of this program" tools/man.py --check "$program"
if command -v groff >/dev/null; then
    groff -man -ww -Tutf8 examples/man/dsheet.1 2>"$said" >/dev/null
    holds "the manual page: no warning" [ ! -s "$said" ]
fi

# The completions are those of this program; those of bash complete commands, options and files.
holds "the completions: of this program" tools/completions.py --check "$program"
# shellcheck source=/dev/null
. examples/completions/dsheet.bash
completes() {
    local wanted=$1
    shift
    COMP_WORDS=("$@")
    COMP_CWORD=$(($# - 1))
    COMPREPLY=()
    _dsheet
    local came
    came=$(printf '%s\n' "${COMPREPLY[@]}" | LC_ALL=C sort | paste -sd ' ')
    [ "$came" = "$wanted" ] || fail "what completes '$*': wanted '$wanted', came '$came'"
    passed "what completes '$*'"
}
completes "explore export" dsheet exp
completes "--stops --strict" dsheet run --st
completes "--json" dsheet run --j
completes "examples/sum examples/sum.args examples/sum.stdout" dsheet run examples/sum
completes "examples/sum examples/sum.args examples/sum.stdout" dsheet serve --store examples/sum
completes "" dsheet log a --at ""
completes "import" dsheet help im
