#!/usr/bin/env bash
# Runs the program that writes a day as a page: to each of its statuses, over each closed day of the samples, and over a day
# whose page is kept.
#
# usage: tests/page.sh PROGRAM
# Prints one line of what failed, and exits with status 1 then.
set -u

program=${1:?usage: tests/page.sh PROGRAM}
usage='usage: cnspage --open DATE [--day DATE|today] [--account N [--issue CUSIP] | --folder DIR] < RECORDS'
room=$(mktemp -d)
trap 'rm -rf "$room"' EXIT

fail() {
    echo "page: $1" >&2
    exit 1
}

# A run's status and its line on standard error; of its output nothing was written.
expect() {
    local name=$1 status=$2 line=$3 ended=$4
    [ "$ended" = "$status" ] || fail "$name: status $ended, where $status was due"
    [ "$(cat "$room/errors")" = "$line" ] || fail "$name: '$(cat "$room/errors")' on standard error"
    [ ! -s "$room/output" ] || fail "$name: something on standard output"
}

refuse() {
    "$program" "$@" < examples/day.csv > "$room/output" 2> "$room/errors"
    expect "words '$*'" 2 "$usage" "$?"
}

while read -r words; do
    eval "refuse $words"
done <<'LINES'

--open
2024-06-03
--open 2024-02-30
--open 2024-6-3
--open ''
--open 2024-06-03 more
--open 2024-06-03 --open 2024-06-03
--open 2024-06-03 --day
--open 2024-06-03 --day 2024-06-31
--open 2024-06-03 --day 2024-6-3
--open 2024-06-03 --day last
--open 2024-06-03 --day Today
--day 2024-06-03
--open 2024-06-03 --issue 594918104
--open 2024-06-03 --day 2024-06-03 --issue 594918104
--open 2024-06-03 --account 10000
--open 2024-06-03 --account +303
--open 2024-06-03 --account ''
--open 2024-06-03 --account 303 --account 202
--open 2024-06-03 --account 10000 --issue 594918104
--open 2024-06-03 --account +303 --issue 594918104
--open 2024-06-03 --account '' --issue 594918104
--open 2024-06-03 --account 303 --issue 594918105
--open 2024-06-03 --account 303 --folder .
--open 2024-06-03 --account 303 --issue 594918104 --folder .
--open 2024-06-03 --issue 594918104 --folder .
--open 2024-06-03 --folder . --folder .
--open 2024-06-03 --folder
--open 2024-06-03 --help
--help
--version
replay --open 2024-06-03
LINES

# Words that are no text.
refuse --open $'2024-06-03\xff'

"$program" --open 2024-06-03 < /dev/null > "$room/output" 2> "$room/errors"
expect 'no records' 1 'fault NoSuchDay' "$?"
for day in 2024-06-30 2024-06-02; do
    "$program" --open 2024-06-03 --day "$day" < examples/day.csv > "$room/output" 2> "$room/errors"
    expect 'a day that is not closed' 1 'fault NoSuchDay' "$?"
done
: > "$room/output"
"$program" --open 2024-06-03 < examples/day.csv > /dev/full 2> "$room/errors"
expect 'a full disk' 1 'fault Write' "$?"

# Each closed day of each sample: a whole page, which names its day; the last one also without the day's date.
pages=0
for sample in examples/*.csv; do
    for day in $(sed -n 's/^closed [0-9]* \([0-9-]*\) .*/\1/p' "${sample%.csv}.replies"); do
        "$program" --open 2024-06-03 --day "$day" < "$sample" > "$room/page" || fail "$sample, $day: status $?"
        grep -q "<title>Closed day $day</title>" "$room/page" || fail "$sample, $day: another title"
        tail -n 1 "$room/page" | grep -q '</html>' || fail "$sample, $day: no end"
        pages=$((pages + 1))
    done
    "$program" --open 2024-06-03 < "$sample" | cmp -s - "$room/page" || fail "$sample: the last day is another"
done

# A day's page is the same from the records up to its close as from all of them, says their digest, and has as many rows as its
# foot says; the open day's page has what came after the last close.
while read -r end day; do
    head -n "$end" examples/week.csv > "$room/records"
    "$program" --open 2024-06-03 < "$room/records" > "$room/part" || fail "week.csv to record $end: status $?"
    "$program" --open 2024-06-03 --day "$day" < examples/week.csv | cmp -s - "$room/part" || fail "week.csv, $day: another page from all records"
    grep -q "$(sha256sum "$room/records" | cut -d ' ' -f 1)" "$room/part" || fail "week.csv, $day: another digest"
    grep -q "so many rows: $(grep -c '<th scope=row' "$room/part")<" "$room/part" || fail "week.csv, $day: another count of rows"
done <<'DAYS'
46 2024-06-03
120 2024-06-05
DAYS
{ cat examples/week.csv; printf 'PRICE,x\n'; } | "$program" --open 2024-06-03 --day today > "$room/page" || fail "today: status $?"
grep -q '<h1>Open day ' "$room/page" && grep -q '<code>PRICE,x</code>' "$room/page" || fail 'today: the last record is not there'
pages=$((pages + 3))

# Beyond 200 exceptions the first 200 stand on the page, and how many there are of each kind.
{ for number in $(seq 250); do echo "PRICE,$number"; done; echo CLOSE,2024-06-04; } | "$program" --open 2024-06-03 > "$room/page" || fail "250 exceptions: status $?"
[ "$(grep -c '<code>PRICE,' "$room/page")" = 200 ] && grep -q '<th scope=row>Invalid record<td>250' "$room/page" || fail '250 exceptions'

# Refused questions stand behind all others: of 250 and a refused trade behind them the trade stands first, and 199 questions.
{ for _ in $(seq 250); do echo POSITION,1,037833100; done; echo TRADE,1,101,202,037833100,5,0,2024-06-03; echo CLOSE,2024-06-04; } \
    | "$program" --open 2024-06-03 > "$room/page" || fail "250 questions: status $?"
[ "$(grep -c '<code>POSITION,' "$room/page")" = 199 ] && grep -m 1 '<td><code>' "$room/page" | grep -q '<code>TRADE,1,' || fail '250 questions'

# Of a field of more than 200 bytes the first ones stand there, and its length; a comma between quotes ends no field.
{ printf 'MEMBER,%0300d,"%0150d,%0150d",1\nCLOSE,2024-06-04\n' 0 0 0; } | "$program" --open 2024-06-03 > "$room/page" || fail "long fields: status $?"
grep -qF "<code>MEMBER,$(printf '%0200d' 0)… (300 bytes),&quot;$(printf '%0150d,%048d' 0 0)… (303 bytes),1</code>" "$room/page" || fail 'long fields'

# A trade that Tuesday's close books into Wednesday is on the sheet of neither day, and the projection says how it stands.
while read -r day state; do
    "$program" --open 2024-06-03 --day "$day" < examples/week.csv > "$room/page" || fail "week.csv, $day: status $?"
    row="<tr><th scope=row>2024-06-05<td>60313<td>808<td>202<td>023135106<td>100<td>18,120.00<td>$state"
    [ "$(grep -c '<td>60313<' "$room/page")" = "$([ -n "$state" ] && echo 1 || echo 0)" ] || fail "week.csv, $day: trade 60313"
    [ -z "$state" ] || grep -qxF "$row" "$room/page" || fail "week.csv, $day: trade 60313 is not $state"
done <<'DAYS'
2024-06-03 pending
2024-06-04 booked
2024-06-05
DAYS

# What decided a refusal: the trade that has the reference, what waits beside a position, the first pending trade, and what
# retired issues were exchanged for.
{
    printf 'PRICE,x\nMEMBER,1\nMEMBER,2\nISSUE,17275R102,4600\nISSUE,037833100,19500\nISSUE,594918104,41000\n'
    printf 'TRADE,71,1,2,17275R102,1500,6900000,2024-06-03\nTRADE,80,1,2,037833100,1000000000,0,2024-06-03\n'
    printf 'TRADE,%d,1,2,037833100,1000000000,0,2024-06-05\n' {81..89}
    printf 'PRICE,y\nTRADE,90,2,1,037833100,7,0,2024-06-04\nTRADE,71,2,1,037833100,5,100,2024-06-03\nTRADE,91,1,2,037833100,1,0,2024-06-05\n'
    printf 'EXCHANGE,%s,%s,1,1,0,0\n' 037833100 594918104 17275R102 594918104
    printf 'PRICE,17275R102,4700\nEXCHANGE,037833100,17275R102,1,1,0,0\nCLOSE,2024-06-04\n'
} | "$program" --open 2024-06-03 > "$room/page" || fail "what decided a refusal: status $?"
sed -n 's/^<tr><th scope=row>\([0-9]*\)<td>.*<td>Today was 2024-06-03, day 1\. /\1: /p' "$room/page" | cmp -s - <(cat <<'LINES'
20: Trade 71 of record 7: member 1 bought 1,500 of 17275R102 from member 2, for 2024-06-03
21: Position of 1 in 037833100: 1,000,000,000 (pending: 9,000,000,000 bought, 7 sold). Position of 2 in 037833100: -1,000,000,000 (pending: 7 bought, 9,000,000,000 sold)
22: Trade 81, for 2024-06-05, is pending
24: Price of 17275R102: 46.00. The issue 17275R102 was exchanged for 594918104
25: Price of 037833100: 195.00. Price of 17275R102: 46.00. The issue 17275R102 was exchanged for 594918104
LINES
) || fail 'what decided a refusal: other lines'
pages=$((pages + 1))

# A day before the last, with exchanges and questions that are refused, byte for byte. Where cnspage writes another page by
# intent, look at each figure before it is kept: those of this one were compared with tests/recompute.py.
"$program" --open 2024-02-27 --day 2024-02-29 < tests/pages/exchange.csv > "$room/page" || fail "exchange.csv: status $?"
cmp -s "$room/page" tests/pages/exchange.html || fail "exchange.csv: $(diff "$room/page" tests/pages/exchange.html | head -n 2)"
pages=$((pages + 1))

# The page of a day: what each mark comes from, also in the sums of an account and of all; the sums by issue; what the close booked, and
# what is due; and which record put a refused trade right.
while read -r day row; do
    "$program" --open 2024-06-03 --day "$day" < examples/week.csv > "$room/page" || fail "week.csv, $day: status $?"
    grep -qxF "$row" "$room/page" || fail "week.csv, $day: no row $row"
    pages=$((pages + 1))
done <<'ROWS'
2024-06-07 <tr><th scope=row>594918104<td>-210<td>-100<td>424.52<td>423.85<td>-46,640.00<td>140.70<td>-16.50<td>0.00<td>0.00<td>0.00<td>0.00<td>124.20<td>0.00
2024-06-07 <tr class=sum><th scope=rowgroup colspan=5 id=account-303>Account 303<td>-46,640.00<td>182.70<td>-16.50<td>0.00<td>0.00<td>0.00<td>0.00<td>166.20<td>0.00
2024-06-07 <tbody class=total><tr><th scope=row>All accounts<td><td><td><td><td>0.00<td>0.00<td>0.00<td>155,597.40<td>-155,597.40<td>0.00<td>0.00<td>0.00<td>0.00
2024-06-07 <tr><th scope=row>594918104<td>135<td>-135<td>0<td>0.00<td>0.00<td>0.00
2024-06-07 <tr><th scope=row>594918104<td>303<td>-100<td>40<td>-60<td>-60
2024-06-07 <tr><th scope=row>023135106<td>202<td>0<td>0<td>0<td>30
ROWS
"$program" --open 2024-06-03 --day 2024-06-03 < examples/week.csv > "$room/page" || fail "week.csv, 2024-06-03: status $?"
sed -n 's/^<tr><th scope=row>\([0-9]*\)<td>.*\. Put right by record \([0-9]*\)$/\1 \2/p' "$room/page" | tr '\n' ',' | grep -qx '28 29,30 31,32 33,' || fail 'week.csv, 2024-06-03: put right'
pages=$((pages + 1))

# The history of a position: what each record booked there, each close, and what a close booked; where nothing did, a line says so.
"$program" --open 2024-06-03 --account 303 --issue 594918104 < examples/week.csv > "$room/page" || fail "history: status $?"
sed -n 's/^<tr[^>]*><th scope=row>//p' "$room/page" | tail -n 3 | cmp -s - <(cat <<'LINES'
168<td>2024-06-07<td>Trade 60702: bought from member 505<td>110<td>-46,640.00<td>-100<td>-46,640.00<td><td><td><td><td>
180<td>2024-06-07<td>Close of day 5<td><td><td>-100<td>-46,640.00<td>423.85<td>-42,385.00<td>124.20<td>5<td>0.00
180<td>2024-06-10<td>Trades that were due, booked by the close<td>40<td>-16,960.00<td>-60<td>-16,960.00<td><td><td><td><td>
LINES
) || fail 'history: other lines'
pages=$((pages + 1))

# The rows of a page, table after table.
rows() {
    sed -n 's/^<section aria-labelledby=\(.*\)>$/\1/p; s/^<tr[^>]*><th scope=row>//p' "$room/page"
}

# The page of an account on Tuesday: what moved its positions, what its marks come from, what is due on Wednesday, and the records.
"$program" --open 2024-06-03 --day 2024-06-04 --account 202 < examples/week.csv > "$room/page" || fail "account 202: status $?"
grep -qxF '<title>Account 202 on 2024-06-04</title>' "$room/page" && grep -qxF '<h1>Account 202 on <span style="white-space: nowrap">2024-06-04</span></h1>' "$room/page" || fail 'account 202: title'
grep -qxF '<p>Day 2, as its close left it. Market value of the positions (dollars): long 0.00, short -9,717.50, net -9,717.50. Mark 75,518.20, dividends 0.00. The next day is 2024-06-05.</p>' "$room/page" || fail 'account 202: head'
rows | sed '/^exceptions$/,$d' | cmp -s - <(cat <<'LINES'
positions
023135106<td>120<td>0<td>0<td>-120<td>0<td>0<td>0<td>0<td>179.34<td>0.00<td>-21,400.80<td>0.00
037833100<td>-800<td>250<td>500<td>0<td>0<td>0<td>-50<td>2<td>194.35<td>-9,717.50<td>96,919.00<td>0.00
marks
023135106<td>178.34<td>179.34<td>120.00<td>0.00<td>0.00<td>-21,520.80<td>0.00<td>0.00<td>-21,400.80<td>0.00
037833100<td>194.03<td>194.35<td>-256.00<td>0.00<td>97,175.00<td>0.00<td>0.00<td>0.00<td>96,919.00<td>-48,587.50
dividends
due
023135106<td>0<td>-100<td>-100<td>-100
037833100<td>-50<td>0<td>-50<td>-50
fails
037833100<td>2<td>2024-06-03<td>-800<td>-50<td>194.35<td>-9,717.50<td>-256.00
liable
notices
projection
2024-06-05<td>60313<td>808<td>202<td>023135106<td>100<td>18,120.00<td>booked
bookings
52<td>037833100<td>Delivered by member 202<td>500<td>0.00<td>-300
67<td>023135106<td>Received by member 202<td>-120<td>0.00<td>0
69<td>037833100<td>Trade 60401: bought from member 101<td>250<td>-48,587.50<td>-50
LINES
) || fail 'account 202: other rows'
grep -qF '<code>cnspage --open 2024-06-03 --day 2024-06-04 --account 202 &lt; records &gt; page.html</code>' "$room/page" || fail 'account 202: the line that makes it again'
grep -q "of the first 2749 bytes of the records, whose SHA-256 is <code>$(head -n 88 examples/week.csv | sha256sum | cut -d ' ' -f 1)<" "$room/page" || fail 'account 202: another digest'
rows | sed '1,/^exceptions$/d' | sed 's/<strong>\(Refused [0-9]*\)<.*/\1/' | cmp -s - <(cat <<'LINES'
68<td><code>DELIVER,202,023135106,100</code><td>Refused 10
80<td><code>TRADE,60408,202,606,88160R101,100,1747700,2024-06-04</code><td>Refused 4
LINES
) || fail 'account 202: other exceptions'
grep -q 'so many rows: 13<' "$room/page" || fail 'account 202: another count of rows'

# Made of the records up to its close it is the same.
head -n 88 examples/week.csv | "$program" --open 2024-06-03 --account 202 | cmp -s - "$room/page" || fail 'account 202: another page from the records up to the close'

# What the close before booked stands first, by its record; a purchase makes a short smaller, and a sale waits for the next day. What the price did
# to a short goes back to its first close, be it in an issue that was exchanged.
while read -r sample day account row; do
    "$program" --open 2024-06-03 --day "$day" --account "$account" < "examples/$sample.csv" > "$room/page" || fail "$sample.csv, $day, $account: status $?"
    rows | grep -qxF "$row" || fail "$sample.csv, $day, account $account: no row $row"
    pages=$((pages + 1))
done <<'ROWS'
week 2024-06-05 202 88<td>023135106<td>Trades that were due, booked by the close<td>-100<td>18,120.00<td>-100
week 2024-06-05 202 023135106<td>0<td>-100<td>0<td>0<td>0<td>0<td>-100<td>1<td>181.28<td>-18,128.00<td>-8.00<td>0.00
week 2024-06-03 202 023135106<td>120<td>0<td>120<td>20
week 2024-06-07 303 594918104<td>-210<td>110<td>0<td>0<td>0<td>0<td>-100<td>5<td>423.85<td>-42,385.00<td>124.20<td>0.00
week 2024-06-07 303 594918104<td>424.52<td>423.85<td>140.70<td>-16.50<td>0.00<td>0.00<td>0.00<td>0.00<td>124.20<td>-46,640.00
week 2024-06-07 303 594918104<td>-100<td>40<td>-60<td>-60
week 2024-06-07 303 594918104<td>5<td>2024-06-03<td>-210<td>-100<td>423.85<td>-42,385.00<td>-1,539.90
week 2024-06-07 303 023135106<td>4<td>2024-06-04<td>-60<td>-60<td>184.30<td>-11,058.00<td>-3,386.00
buy-in 2024-06-07 101 17275R102<td>710<td>0<td>0<td>0<td>0<td>-340<td>370<td>0<td>47.13<td>17,438.10<td>56.81<td>0.00
buy-in 2024-06-07 101 17275R102<td>47.05<td>47.13<td>56.80<td>0.00<td>0.00<td>0.00<td>0.00<td>0.01<td>56.81<td>16,024.21
buy-in 2024-06-07 101 39<td>17275R102<td>Buy-in execution of notice 1<td>-340<td>16,024.21<td>370
buy-in 2024-06-05 101 17275R102<td>1<td>101<td>400<td>3<td>400<td>5
buy-in 2024-06-06 202 17275R102<td>3<td>202<td>3<td>300<td>300
actions 2024-06-10 303 17275R102<td>2024-06-04<td>2024-06-08<td>0.405000<td>-117<td>-47.38
actions 2024-06-10 0 17275R102<td>2024-06-04<td>2024-06-08<td>0.405000<td>-39<td>-15.79
actions 2024-06-11 303 023135106<td>7<td>2024-06-03<td>-10<td>-39<td>183.00<td>-7,137.00<td>1,813.50
actions 2024-06-11 303 41<td>17275R102<td>Exchange of 17275R102 for 023135106: 1 new for 6 old<td>175<td>0.00<td>0
actions 2024-06-11 303 41<td>023135106<td>Exchange of 17275R102 for 023135106: 1 new for 6 old<td>-29<td>-118.00<td>-39
actions 2024-06-11 0 023135106<td>0<td>0<td>0<td>9<td>-9<td>0<td>0<td>0<td>183.00<td>0.00<td>-151.00<td>0.00
ROWS

# A member without rows has a page, with a line for each table. Who is nobody at the close has none, and there is no history of an
# issue that is not listed then.
"$program" --open 2024-06-03 --day 2024-06-03 --account 404 < examples/actions.csv > "$room/page" || fail "no rows: status $?"
grep -q 'long 0.00, short 0.00, net 0.00. Mark 0.00, dividends 0.00. ' "$room/page" || fail 'no rows: head'
[ "$(rows | wc -l)" = 10 ] && grep -q 'so many rows: 0<' "$room/page" || fail 'no rows: some rows'
[ "$(grep -c '^<p>The sheet has no row of this account\.</p>$' "$room/page")" = 2 ] || fail 'no rows: no line for positions and marks'
printf '%s\n' MEMBER,1 ISSUE,037833100,19500 CLOSE,2024-06-04 MEMBER,2 ISSUE,594918104,41500 CLOSE,2024-06-05 > "$room/later.csv"
while read -r records fault words; do
    "$program" --open 2024-06-03 $words < "$records" > "$room/output" 2> "$room/errors"
    expect "words '$words'" 1 "fault $fault" "$?"
done <<FAULTS
examples/week.csv NoSuchMember --account 9999
examples/week.csv NoSuchDay --account 202 --day today
examples/week.csv NoSuchDay --account 202 --day 2024-06-30
examples/week.csv NoSuchDay --account 9999 --day 2024-06-30
examples/week.csv NoSuchMember --account 9999 --issue 594918104
examples/week.csv NoSuchIssue --account 303 --issue 88160R101
examples/week.csv NoSuchDay --account 303 --issue 594918104 --day 2024-06-30
$room/later.csv NoSuchMember --account 2 --day 2024-06-03
$room/later.csv NoSuchMember --account 2 --issue 037833100 --day 2024-06-03
$room/later.csv NoSuchIssue --account 1 --issue 594918104 --day 2024-06-03
FAULTS
"$program" --open 2024-06-03 --account 202 < /dev/null > "$room/output" 2> "$room/errors"
expect 'an account before the first close' 1 'fault NoSuchDay' "$?"

# What no record bears on is refused before any is read: this input has no end.
mkfifo "$room/endless"
exec 9<> "$room/endless"
timeout 20 "$program" --open 2024-06-03 --account 202 --day today <&9 > "$room/output" 2> "$room/errors"
expect 'an account of the open day, and an input without an end' 1 'fault NoSuchDay' "$?"
exec 9>&-
pages=$((pages + 2))

# A record is a stranger's bytes: what could be taken for markup, what is no character of a text, and what is no UTF-8.
while IFS='|' read -r record shown; do
    printf 'MEMBER,1\r\n\r\n%b\r\nCLOSE,2024-06-04\r\n' "$record" | "$program" --open 2024-06-03 > "$room/page" || fail "'$record': status $?"
    row="<tr><th scope=row>2<td><code>$(printf '%b' "$shown")</code>"
    grep -qF "$row" "$room/page" || fail "'$record' is not shown as '$shown'"
    ! grep -q '<script' "$room/page" || fail "'$record' is markup"
    iconv -f UTF-8 -t UTF-8 "$room/page" > /dev/null || fail "'$record': the page is not UTF-8"
done <<'TEXTS'
MEMBER,x|MEMBER,x
<script>alert(1)</script>|&lt;script&gt;alert(1)&lt;/script&gt;
"A" & 'B'|&quot;A&quot; &amp; &#39;B&#39;
&lt;|&amp;lt;
\x00\x1b\x7f|\xef\xbf\xbd\xef\xbf\xbd\xef\xbf\xbd
\xc2\x85\xe2\x80\xae\xe2\x81\xa6x|\xef\xbf\xbd\xef\xbf\xbd\xef\xbf\xbdx
"two\nlines"|&quot;two\nlines&quot;
M\xc3\xbcller \xff|M\xc3\xbcller \xef\xbf\xbd
\xe4\xf6|\xef\xbf\xbd\xef\xbf\xbd
TEXTS

# The pages are HTML, where tidy is on this machine to tell; it warns of tags that may be left out, and they are.
checked='not checked: tidy is not on this machine'
if command -v tidy > /dev/null; then
    while read -r words; do
        "$program" --open 2024-06-03 $words < examples/week.csv > "$room/page" || fail "words '$words': status $?"
        tidy -e -q "$room/page" > "$room/errors" 2>&1
        [ "$?" -lt 2 ] || fail "words '$words', by tidy: $(cat "$room/errors")"
    done <<'LINES'
--day 2024-06-05
--day today
--day 2024-06-04 --account 202
--account 303 --issue 594918104
LINES
    checked='checked by tidy'
fi

echo "pages passed: $pages; HTML $checked"
