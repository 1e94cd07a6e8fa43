#!/usr/bin/env bash
# Drives the program through a pipe, as a clerk who waits for each reply before the next record is sent.
#
# usage: tests/pipe.sh PROGRAM
# Prints one line of what failed, and exits with status 1 then.
set -u

program=${1:?usage: tests/pipe.sh PROGRAM}
seconds=10

fail() {
    echo "pipe: $1" >&2
    exit 1
}

# The next line of the program is this one.
expect() {
    local line
    read -r -t "$seconds" -u "$output" line || fail "no reply, where '$1' was due"
    [ "$line" = "$1" ] || fail "'$line', where '$1' was due"
}

coproc book { "$program" replay --open 2024-06-03; }
# Kept apart, since bash forgets all of a coprocess once it has ended.
pid=$book_PID
exec {output}<&"${book[0]}" {input}>&"${book[1]}"
eval "exec ${book[1]}>&-"
trap '' PIPE

# A record, and its reply, before the next.
while IFS='|' read -r record reply; do
    printf '%s\n' "$record" >&"$input" || fail "'$record' could not be sent"
    expect "$reply"
done <<'RECORDS'
MEMBER,101|ok
MEMBER,202|ok
MEMBER,101|refused 1
ISSUE,037833100,19500|ok
TRADE,1,101,202,037833100,100,1950000,2024-06-03|ok
POSITION,101,037833100|position 101 037833100 100 0 -19500.00 0
MEMBER,x|line Number
RECORDS

# A block that ends inside of a record: the whole records get their replies, and the rest its own later.
printf 'MEMBER,303\nMEMBER,303\nMEMB' >&"$input"
expect 'ok'
expect 'refused 1'
printf 'ER,404\nCLOSE,2024-' >&"$input"
expect 'ok'
printf '06-04\n' >&"$input"
expect 'closed 1 2024-06-03 2 0'

# A quoted field with a line end, in two blocks.
printf 'MEMBER,505\nMEMBER,"6\n' >&"$input"
expect 'ok'
printf '0"\nMEMBER,707\n' >&"$input"
expect 'line Number'
expect 'ok'

# A last record without a line end is answered at the end of the input.
printf 'MEMBER,808' >&"$input"
exec {input}>&-
expect 'ok'
if read -r -t "$seconds" -u "$output" line; then
    fail "'$line' after the last reply"
fi
wait "$pid" || fail "status $?"
