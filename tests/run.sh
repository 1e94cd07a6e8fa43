#!/usr/bin/env bash
# Runs `make run`, which answers a file of records without a proof: with words that it has to refuse, with a sample, and with
# records whose replies are more than such a run may write.
#
# usage: tests/run.sh
# Takes some two minutes. Prints one line of what failed, and exits with status 1 then.
set -u

cd "$(dirname "$0")/.." || exit 1
room=$(mktemp -d)
trap 'rm -rf "$room"' EXIT

fail() {
    echo "run: $1" >&2
    exit 1
}

answer() { make --no-print-directory run "$@" > "$room/$name" 2> "$room/$name.errors"; }

# Words that are refused at once, with the line that says why.
refuse() {
    local line=$1 name=refused
    shift
    if answer "$@"; then fail "words '$*' are taken"; fi
    grep -qF "make run: $line" "$room/$name.errors" || fail "words '$*': '$(cat "$room/$name.errors")' on standard error"
    [ ! -s "$room/$name" ] || fail "words '$*': something on standard output"
}

refuse 'give FILE' FILE= OPEN=
refuse 'give FILE' FILE=examples/day.csv OPEN=
refuse 'give FILE' FILE= OPEN=2024-06-03
refuse 'FILE cannot be read' FILE="$room/no such file" OPEN=2024-06-03
refuse 'FILE cannot be read' FILE=examples OPEN=2024-06-03
refuse 'OPEN is not a date' FILE=examples/day.csv OPEN=2024-6-3
refuse 'OPEN is not a date' FILE=examples/day.csv OPEN=2024-02-30

# More than 1 MiB of replies: none of them is written, and that is said. The name of the file has a blank and a quote.
{ echo ISSUE,037833100,19500; yes POSITION,0,037833100 | head -n 60000; } > "$room/a member's records.csv"
(name=long; answer FILE="$room/a member's records.csv" OPEN=2024-06-03) &
long=$!

name=day
answer FILE=examples/day.csv OPEN=2024-06-03 || fail "a sample: status $?: $(cat "$room/day.errors")"
cmp -s "$room/day" examples/day.replies || fail 'other replies to a sample'
grep -q 'nothing was proved' "$room/day.errors" || fail 'that nothing was proved is not said'

if wait "$long"; then fail 'too many replies end with status 0'; fi
[ ! -s "$room/long" ] || fail 'some of too many replies were written'
grep -q 'no reply was written: .* 1048576 bytes' "$room/long.errors" || fail "too many replies: $(cat "$room/long.errors")"
echo 'make run answers a sample, and refuses what it cannot answer'
