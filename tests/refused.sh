#!/usr/bin/env bash
# Refuses each growth of the program's memory in turn, by a library that is loaded before the C library, and looks at its
# status and at both outputs.
#
# usage: tests/refused.sh PROGRAM DRIVER
# DRIVER is the program of cns_cases, which with a word on its line makes those calls of a desk that no subcommand makes, or
# statements between the calls of a gate.
# Prints a line for each input that passes. Prints one line of what failed, and exits with status 1 then.
set -u

program=$(realpath "${1:?usage: tests/refused.sh PROGRAM DRIVER}")
driver=$(realpath "${2:?usage: tests/refused.sh PROGRAM DRIVER}")
tests=$(realpath "$(dirname "$0")")
examples=$tests/../examples
# More growths than any run here asks for.
most=2000
# Growths that a run does without: the words of the line are collected with a hint of how many there are.
hints=1
room=$(mktemp -d)
trap 'rm -rf "$room"' EXIT

fail() {
    echo "refused: $1" >&2
    exit 1
}

${CC:-cc} -O2 -shared -fPIC -o "$room/refuse.so" "$tests/refuse.c" || fail 'no library'

# Puts the whole of a file into a variable.
take() { IFS= read -r -d '' "$1" <"$2"; }

# Runs the program with one growth refused. Its status, its outputs, and whether a growth was refused.
starve() {
    local growth=$1
    shift
    LD_PRELOAD=$room/refuse.so REFUSE=$growth "$program" "$@" >"$room/output" 2>"$room/errors" 9>"$room/told"
    ended=$?
    take output "$room/output"
    take errors "$room/errors"
    take told "$room/told"
}

# Whether the last run wrote what the program writes when it has all memory, and told no fault.
is_whole() { [ "$ended" = 0 ] && [ -z "$errors" ] && [ "$output" = "$whole" ]; }

# Whether the last run ended with this line on standard error, and no other.
ends_with() { [ "$ended" = 1 ] && [ "$errors" = "$1"$'\n' ]; }

# Whether the last run wrote the replies to some first records, and no part of another reply. The lines of rows and of liable
# members belong to the line before them.
is_front() {
    local left=${whole#"$output"}
    [ "$output$left" = "$whole" ] || return 1
    [[ -z $output || $output == *$'\n' ]] || return 1
    [[ $left != 'row '* && $left != 'liable '* ]]
}

# Whether the last run told a tally that leaves out what worker 1 or 2 had no memory for, of two with fifty records each. The
# other worker has all of its own, and both together have as many as the book.
is_tally_without() {
    local worker=$1 counts
    local tally='^\{"closes":0,"commands":([0-9]+),"counts":\[([0-9]+),([0-9]+)\],"dividends":"0.00","lines":0,"marks":"0.00"\}'
    ends_with "worker $worker NoMemory" || return 1
    [[ $output =~ $tally$'\n'$ ]] || return 1
    counts=("${BASH_REMATCH[@]:1}")
    [ "${counts[0]}" = $((counts[1] + counts[2])) ] && [ "${counts[$worker]}" -lt 50 ] && [ "${counts[$((3 - worker))]}" = 50 ]
}

# How the last run ended, in which a growth was refused; nothing where that is no end that it may have.
kind_of() {
    local subcommand=$1
    kind=
    if is_whole; then
        kind=whole
    elif [ "$subcommand" = replay ]; then
        ends_with 'fault NoMemory' && is_front && kind=front
    elif ends_with 'fault NoMemory' && [ -z "$output" ]; then
        kind=nothing
    elif ends_with 'fault Spawn' && [ -z "$output" ]; then
        kind=spawn
    elif [ "$subcommand" = run ]; then
        is_tally_without 1 && kind=worker-1
        is_tally_without 2 && kind=worker-2
    fi
    [ -n "$kind" ]
}

# Refuses each growth of a run in turn, until there are no more. The kinds of ends that are named after it have to be met.
drive() {
    local name=$1 input=$2 kinds=$3 growth longest=0 without=0 met=' '
    shift 3
    "$program" "$@" <"$input" >"$room/whole" 2>"$room/errors" || fail "$name: status $? with all memory"
    take whole "$room/whole"
    for growth in $(seq 1 "$most"); do
        starve "$growth" "$@" <"$input"
        if [ -z "$told" ]; then
            is_whole || fail "$name: status $ended where nothing was refused"
            for kind in $kinds; do
                [[ $met == *" $kind "* ]] || fail "$name: no end of the kind '$kind'"
            done
            [ "$without" -le "$hints" ] || fail "$name: $without growths were done without"
            echo "refused: $name: $((growth - 1)) growths"
            growths=$((growth - 1))
            return
        fi
        kind_of "$1" || fail "$name, growth $growth: status $ended, '$errors', ${#output} bytes"
        # A later growth is one for the same record or for a later one.
        if [ "$kind" = front ]; then
            [ "${#output}" -ge "$longest" ] || fail "$name, growth $growth: fewer replies"
            longest=${#output}
        fi
        [ "$kind" != whole ] || without=$((without + 1))
        met="$met$kind "
    done
    fail "$name: no end of growths"
}

# How a run of the driver ended, in which a growth was refused: its call found no memory and did at once what it does, or the
# records could not be read; nothing where that is no end that it may have.
call_of() {
    case $ended,$errors in
        3,) [ -z "$output" ] && call=read ;;
        0,$'open\n' | 0,$'submit\n' | 0,$'sheet\n' | 0,$'reserve\n') [ "$output" = "$whole" ] && call=${errors%$'\n'} ;;
        *) false ;;
    esac
}

# Refuses each growth of the driver in turn.
drive_desk() {
    local input=$tests/desk.csv growth name met=' '
    "$driver" desk <"$input" >"$room/whole" 2>"$room/errors" || fail "desk: status $? with all memory"
    cmp -s "$room/whole" "$tests/desk.replies" || fail 'desk: other replies with all memory'
    take whole "$room/whole"
    program=$driver
    for growth in $(seq 1 "$most"); do
        starve "$growth" desk <"$input"
        if [ -z "$told" ]; then
            is_whole || fail "desk: status $ended where nothing was refused"
            for name in read open submit sheet reserve; do
                [[ $met == *" $name "* ]] || fail "desk: no growth of the call '$name'"
            done
            echo "refused: a desk and its log: $((growth - 1)) growths"
            return
        fi
        call_of || fail "desk, growth $growth: status $ended, '$errors', ${#output} bytes"
        met="$met$call "
    done
    fail 'desk: no end of growths'
}

# Refuses each growth of the statements of a day in turn. Their gate and the library write to one file, which tells the order: in
# some run the growth of each statement is refused between the two calls of its gate.
drive_gate() {
    local growth told all=
    for growth in $(seq 1 "$most"); do
        LD_PRELOAD=$room/refuse.so REFUSE=$growth "$driver" statements <"$examples/day.csv" >"$room/told" 2>&1 9>&1
        take told "$room/told"
        if [[ $told != *refused* ]]; then
            [ -n "$all" ] && [ "$told" = "$all" ] || fail 'a gate: no growth between the two calls of some statement'
            echo "refused: statements and their gate: $((growth - 1)) growths"
            return
        fi
        [ "$told" != "$all"$'before\nrefused\nanswered\n' ] || all+=$'before\nanswered\n'
    done
    fail 'a gate: no end of growths'
}

# The records of a file: members, an issue and so many trades that no other file has, so that any order gives one tally.
records() {
    local number=$1 issue=$2 trades=$3
    printf 'MEMBER,%s01\nMEMBER,%s02\nISSUE,%s,19500\n' "$number" "$number" "$issue"
    seq -f "TRADE,$number%.0f,${number}01,${number}02,$issue,1,19500,2024-06-03" 1 "$trades"
}
records 1 037833100 47 >"$room/one.csv"
records 2 17275R102 47 >"$room/two.csv"
records 3 594918104 1500 >"$room/long.csv"

for name in day week actions buy-in merger; do
    drive "$name" "$examples/$name.csv" front replay --open 2024-06-03
done
drive 'fifteen hundred trades' "$room/long.csv" front replay --open 2024-06-03
drive 'statements by one worker' "$examples/week.csv" 'nothing spawn' statements --open 2024-06-03 --day 2024-06-05 --workers 1
by_one=$growths
drive 'statements by four workers' "$examples/week.csv" 'nothing spawn' statements --open 2024-06-03 --day 2024-06-05 --workers 4
# Each worker has a thread of its own, whose start asks for memory.
[ "$growths" -gt "$by_one" ] || fail 'four workers ask for no more than one'
drive 'a run of two files' /dev/null 'nothing spawn worker-1 worker-2' run --open 2024-06-03 "$room/one.csv" "$room/two.csv"
drive_desk
drive_gate
