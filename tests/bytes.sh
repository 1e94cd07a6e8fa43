#!/usr/bin/env bash
# Replays records and fields without measure. Each record is answered, and nothing is lost.
#
# usage: tests/bytes.sh PROGRAM
# Prints one line of what failed, and exits with status 1 then.
set -u

program=${1:?usage: tests/bytes.sh PROGRAM}
room=$(mktemp -d)
trap 'rm -rf "$room"' EXIT

fail() {
    echo "bytes: $1" >&2
    exit 1
}

# The input in the room, and the replies that are due to it.
replay() {
    local name=$1 due=$2 status
    timeout 60 "$program" replay --open 2024-06-03 <"$room/input" >"$room/output" 2>"$room/errors"
    status=$?
    [ "$status" = 0 ] || fail "$name: status $status, '$(head -c 200 "$room/errors")' on standard error"
    printf "$due" | cmp -s - "$room/output" || fail "$name: '$(head -c 200 "$room/output")', where '$due' was due"
}

# Text of so many bytes, all the same.
bytes() {
    head -c "$1" /dev/zero | tr '\0' "$2"
}

# Records and fields without measure, from standard input. Each is between two others, which are answered.
between() {
    local name=$1 due=$2
    { printf 'MEMBER,1\n'; cat; printf '\nMEMBER,2\n'; } >"$room/input"
    replay "$name" "ok\n$due\nok\n"
}
between 'a record of a million empty fields' 'line Kind' < <(bytes 1000000 ,)
between 'a member with a million fields' 'line Count' < <(printf MEMBER; bytes 1000000 ,)
between 'a member with a million numbers' 'line Count' < <(printf MEMBER; yes ,1 | head -n 1000000 | tr -d '\n')
between 'a number of ten million digits' 'line Range' < <(printf MEMBER,; bytes 10000000 9)
between 'ten million zeros' 'line Range' < <(printf MEMBER,; bytes 10000000 0)
between 'a member after ten million zeros' 'ok' < <(printf MEMBER,; bytes 10000000 0; printf 3)
between 'ten million digits and a letter' 'line Number' < <(printf MEMBER,; bytes 10000000 9; printf x)
between 'an issue of ten million digits' 'line Cusip' < <(printf 'ISSUE,'; bytes 10000000 0; printf ,1)
between 'a date of ten million digits' 'line Date' < <(printf CLOSE,; bytes 10000000 0)
between 'ten million digits in quotes' 'line Range' < <(printf 'MEMBER,"'; bytes 10000000 9; printf '"')
between 'five million doubled quotes' 'line Number' < <(printf 'MEMBER,"'; bytes 10000000 '"'; printf '"')
between 'ten million line feeds in quotes' 'line Number' < <(printf 'MEMBER,"'; bytes 10000000 '\n'; printf '"')
between 'a kind of ten million letters' 'line Kind' < <(bytes 10000000 M)
between 'ten million empty lines' 'ok' < <(bytes 5000000 '\n'; printf MEMBER,3; bytes 5000000 '\n')
