#!/usr/bin/env bash
# Runs each subcommand over the samples with a stack of 128 KiB, which is that of each of its threads too, and compares what it
# writes with what it writes without that limit.
#
# usage: tests/stack.sh PROGRAM
# Prints a line for each run that failed, and exits with status 1 then.
set -euo pipefail

program=$(realpath "${1:?usage: tests/stack.sh PROGRAM}")
cd "$(dirname "$0")/../examples"
size=128
room=$(mktemp -d)
trap 'rm -rf "$room"' EXIT
failed=0

tell() {
    echo "stack: $1" >&2
    failed=1
}

# The program answers these words, with the file as its input, as it does without the limit.
same() {
    local input=$1 status=0
    shift
    "$program" "$@" <"$input" >"$room/due" 2>"$room/errors" || tell "'$*' < $input: status $? without a limit"
    # The shell's own word of a program that was ended goes nowhere; the status tells it.
    { (ulimit -s "$size" && exec "$program" "$@") <"$input" >"$room/output" 2>"$room/errors"; } 2>/dev/null || status=$?
    if [ "$status" != 0 ]; then
        tell "'$*' < $input: status $status with $size KiB: '$(head -c 200 "$room/errors")'"
    elif ! cmp -s "$room/due" "$room/output"; then
        tell "'$*' < $input: something else is written with $size KiB"
    fi
}

for file in *.csv; do
    same "$file" replay --open 2024-06-03
    same /dev/null run --open 2024-06-03 "$file"
    # Four workers over the same records come to the same tally, whichever is the first at a record.
    same /dev/null run --open 2024-06-03 "$file" "$file" "$file" "$file"
    same "$file" statements --open 2024-06-03 --day 2024-06-03 --workers 4
done
exit "$failed"
