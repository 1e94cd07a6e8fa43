#!/usr/bin/env bash
# Runs the program where it refuses its line and where it meets a fault, and looks at its status and at both outputs.
#
# usage: tests/status.sh PROGRAM
# Prints one line of what failed, and exits with status 1 then.
set -u

program=${1:?usage: tests/status.sh PROGRAM}
usage='usage: cnsbook replay --open DATE | run --open DATE FILE... | statements --open DATE --day DATE --workers N'
room=$(mktemp -d)
trap 'rm -rf "$room"' EXIT

fail() {
    echo "status: $1" >&2
    exit 1
}

# What the last run gave: its status, and the lines on its two outputs.
expect() {
    local name=$1 status=$2 output=$3 errors=$4 ended=$5
    [ "$ended" = "$status" ] || fail "$name: status $ended, where $status was due"
    printf '%s' "$output" | cmp -s - "$room/output" || fail "$name: '$(cat "$room/output")' on standard output"
    printf '%s' "$errors" | cmp -s - "$room/errors" || fail "$name: '$(cat "$room/errors")' on standard error"
}

# A line that is refused, whatever the input is.
refuse() {
    printf 'MEMBER,101\n' | "$program" "$@" >"$room/output" 2>"$room/errors"
    expect "words '$*'" 2 '' "$usage"$'\n' "$?"
}

while read -r words; do
    eval "refuse $words"
done <<'LINES'

replay
replay --open
replay --open 2024-02-30
replay --open 2024-6-3
replay --open ''
replay 2024-06-03
replay -o
replay -o 2024-06-03
replay -o2024-06-03
replay -open 2024-06-03
replay --open 2024-06-03 more
replay --open 2024-06-03 --open 2024-06-03
replay --open 2024-06-03 --help
replay --help
replay -h
replay --version
replay help
--open 2024-06-03 replay
--help
help
--version
Replay --open 2024-06-03
run
run FILE
run --open 2024-06-03
run --open 2024-06-31 FILE
run --open 2024-06-03 FILE --help
run --open 2024-06-03 FILE{1..65}
statements --open 2024-06-03
statements --open 2024-06-03 --workers 1
statements --open 2024-06-03 --day 2024-06-03
statements --open 2024-06-03 --day 2024-06-31 --workers 1
statements --open 2024-06-03 --day 2024-06-03 --workers 1 more
statements --open 2024-06-03 --day 2024-06-03 --workers 0
statements --open 2024-06-03 --day 2024-06-03 --workers 65
statements --open 2024-06-03 --day 2024-06-03 --workers ''
statements --open 2024-06-03 --day 2024-06-03 --workers +1
statements --open 2024-06-03 --day 2024-06-03 --workers -1
statements --open 2024-06-03 --day 2024-06-03 --workers ' 1'
statements --open 2024-06-03 --day 2024-06-03 --workers 1.0
statements --open 2024-06-03 --day 2024-06-03 --workers x
statements --open 2024-06-03 --day 2024-06-03 --workers 18446744073709551617
LINES

# Words that are no text.
refuse $'\xff'
refuse replay --open $'2024-06-03\xff'

printf 'MEMBER,101\nMEMBER,x\n' | "$program" replay --open 2024-06-03 >"$room/output" 2>"$room/errors"
expect 'a replay' 0 $'ok\nline Number\n' '' "$?"
printf 'MEMBER,101\n' | "$program" replay --open=2024-06-03 >"$room/output" 2>"$room/errors"
expect 'a date behind an equals sign' 0 $'ok\n' '' "$?"

# A folder cannot be read.
"$program" replay --open 2024-06-03 <"$room" >"$room/output" 2>"$room/errors"
expect 'a reader that fails' 1 '' $'fault Read\n' "$?"

# The device takes no byte.
: >"$room/output"
printf 'MEMBER,101\n' | "$program" replay --open 2024-06-03 >/dev/full 2>"$room/errors"
expect 'a writer that fails' 1 '' $'fault Write\n' "$?"

# Two files with fifty commands each: three and 47 trades, and fifty trades that may come before the members do.
# Accepted or not, each is a command of its worker.
trades() {
    local reference
    for reference in $(seq "$1" "$2"); do
        echo "TRADE,$reference,101,202,037833100,1,19500,2024-06-03"
    done
}
{ printf 'MEMBER,101\nMEMBER,202\nISSUE,037833100,19500\n'; trades 1 47; } >"$room/one.csv"
trades 101 150 >"$room/two.csv"
tally='{"closes":0,"commands":100,"counts":[50,50],"dividends":"0.00","lines":0,"marks":"0.00"}'
"$program" run --open 2024-06-03 "$room/one.csv" "$room/two.csv" >"$room/output" 2>"$room/errors" </dev/null
expect 'a run of two files' 0 "$tally"$'\n' '' "$?"

# As many files as a run may have, of which each is read by a worker of its own.
printf 'MEMBER,1\nno,kind\n' >"$room/three.csv"
files=()
counts=1
for _ in $(seq 1 64); do files+=("$room/three.csv"); done
for _ in $(seq 2 64); do counts+=,1; done
tally='{"closes":0,"commands":64,"counts":['"$counts"'],"dividends":"0.00","lines":64,"marks":"0.00"}'
"$program" run --open 2024-06-03 "${files[@]}" >"$room/output" 2>"$room/errors" </dev/null
expect 'a run of 64 files' 0 "$tally"$'\n' '' "$?"

# Accepted closes and records at fault are counted; an empty file has no command.
printf 'MEMBER,101\nCLOSE,2024-06-04\nCLOSE,2024-06-03\nMEMBER,x\nCLOSE,2024-06-05\n' >"$room/closes.csv"
tally='{"closes":2,"commands":4,"counts":[4,0],"dividends":"0.00","lines":1,"marks":"0.00"}'
"$program" run --open 2024-06-03 "$room/closes.csv" /dev/null >"$room/output" 2>"$room/errors" </dev/null
expect 'a run with closes and an empty file' 0 "$tally"$'\n' '' "$?"

# No worker is started where a file is missing.
"$program" run --open 2024-06-03 "$room/one.csv" "$room/missing.csv" >"$room/output" 2>"$room/errors" </dev/null
expect 'a file that is missing' 1 '' $'fault Open 2\n' "$?"

# Files are opened from left to right, so of two that are missing the first is told.
"$program" run --open 2024-06-03 "$room/missing.csv" "$room/gone.csv" >"$room/output" 2>"$room/errors" </dev/null
expect 'two files that are missing' 1 '' $'fault Open 1\n' "$?"

# Workers are numbered by the files from left to right.
tally='{"closes":0,"commands":51,"counts":[50,1],"dividends":"0.00","lines":1,"marks":"0.00"}'
"$program" run --open 2024-06-03 "$room/one.csv" "$room/three.csv" >"$room/output" 2>"$room/errors" </dev/null
expect 'files from left to right' 0 "$tally"$'\n' '' "$?"

# The book opens on the date of the line: a close that names it, or a date before it, is refused.
printf 'CLOSE,2024-06-04\n' >"$room/close.csv"
for opening in 2024-06-03 2024-06-04; do
    closes=$([ "$opening" = 2024-06-03 ] && echo 1 || echo 0)
    tally='{"closes":'"$closes"',"commands":1,"counts":[1],"dividends":"0.00","lines":0,"marks":"0.00"}'
    "$program" run --open "$opening" "$room/close.csv" >"$room/output" 2>"$room/errors" </dev/null
    expect "a run that opens on $opening" 0 "$tally"$'\n' '' "$?"
done

# A folder can be opened and not read; the other worker goes on.
tally='{"closes":0,"commands":1,"counts":[0,1],"dividends":"0.00","lines":1,"marks":"0.00"}'
"$program" run --open 2024-06-03 "$room" "$room/three.csv" >"$room/output" 2>"$room/errors" </dev/null
expect 'a file that cannot be read' 1 "$tally"$'\n' $'worker 1 Read\n' "$?"

: >"$room/output"
"$program" run --open 2024-06-03 "$room/one.csv" >/dev/full 2>"$room/errors" </dev/null
expect 'a tally that cannot be written' 1 '' $'fault Write\n' "$?"

# All statements of the sample's first day, by any number of workers, and of a day that is not closed.
day=$(dirname "$0")/../examples/day.csv
statements='statement 101 2024-06-03 1 100.00 0.00
row 037833100 0 100 0.00 196.00 -19500.00 100.00 0.00
statement 202 2024-06-03 1 -100.00 0.00
row 037833100 0 -140 0.00 196.00 27340.00 -100.00 0.00
statement 303 2024-06-03 1 0.00 0.00
row 037833100 0 40 0.00 196.00 -7840.00 0.00 0.00
'
for workers in 1 2 0003 64; do
    "$program" statements --open 2024-06-03 --day 2024-06-03 --workers "$workers" <"$day" >"$room/output" 2>"$room/errors"
    expect "statements by $workers workers" 0 "$statements" '' "$?"
done
for closed in 2024-06-09 2024-05-31; do
    "$program" statements --open 2024-06-03 --day "$closed" --workers 2 <"$day" >"$room/output" 2>"$room/errors"
    expect 'statements of a day that is not closed' 1 '' $'fault NoSuchDay\n' "$?"
done
"$program" statements --open 2024-06-03 --day 2024-06-09 --workers 2 <"$room" >"$room/output" 2>"$room/errors"
expect 'statements of records that cannot be read' 1 '' $'fault Read\n' "$?"
printf 'CLOSE,2024-06-04\n' | "$program" statements --open 2024-06-03 --day 2024-06-03 --workers 2 >"$room/output" 2>"$room/errors"
expect 'statements of a day without rows' 0 '' '' "$?"

# The sheet of the first day has the date of the line.
printf 'CLOSE,2024-06-04\nSTATEMENT,0,2024-06-02\n' | "$program" replay --open 2024-06-02 >"$room/output" 2>"$room/errors"
expect 'a replay that opens on its date' 0 $'closed 1 2024-06-02 0 0\nstatement 0 2024-06-02 0 0.00 0.00\n' '' "$?"
