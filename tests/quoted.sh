#!/usr/bin/env bash
# Replays three hundred thousand records, as they are and with each field in quotes, as spreadsheets write them. The second may
# take half as long again as the first, and is answered the same.
#
# usage: tests/quoted.sh PROGRAM
# Prints the two times, and exits with status 1 where the second is too long.
set -u

program=${1:?usage: tests/quoted.sh PROGRAM}
room=$(mktemp -d)
trap 'rm -rf "$room"' EXIT

{ echo ISSUE,037833100,19500; yes POSITION,0,037833100 | head -n 300000; } >"$room/plain"
sed 's/[^,]*/"&"/g' "$room/plain" >"$room/quoted"

# Milliseconds of the processor that a replay takes.
milliseconds() {
    local TIMEFORMAT='%U %S'
    { time "$program" replay --open 2024-06-03 <"$room/$1" >"$room/$1.replies"; } 2>&1 | awk '{ printf "%d", ($1 + $2) * 1000 }'
}

# A processor that other work slows down for a while does it to both of a pair, one run after the other. So each pair is judged by
# itself, and of eleven pairs the middle one counts.
pairs=$(for _ in 1 2 3 4 5 6 7 8 9 10 11; do echo "$(milliseconds plain) $(milliseconds quoted)"; done)
read -r plain quoted < <(awk '{ print $2 / $1, $0 }' <<<"$pairs" | sort -n | awk 'NR == 6 { print $2, $3 }')
echo "three hundred thousand records: $plain ms, in quotes $quoted ms"
if ! cmp -s "$room/plain.replies" "$room/quoted.replies"; then
    echo "quoted: the replies differ" >&2
    exit 1
fi
if [ $((quoted * 2)) -gt $((plain * 3)) ]; then
    echo "quoted: $quoted ms, where $plain ms are taken without quotes" >&2
    exit 1
fi
