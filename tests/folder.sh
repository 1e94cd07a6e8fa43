#!/usr/bin/env bash
# Runs the program that writes the pages of a day into a folder: each closed day of each sample into one, whose files are then the
# pages that the program writes by themselves, but for links, of which each leads to a file; and into folders that refuse.
#
# usage: tests/folder.sh PROGRAM
# Prints one line of what failed, and exits with status 1 then.
set -u

program=${1:?usage: tests/folder.sh PROGRAM}
room=$(mktemp -d)
trap 'rm -rf "$room"' EXIT

fail() {
    echo "folder: $1" >&2
    exit 1
}

# A run's status and its line on standard error; nothing was written to standard output.
expect() {
    local name=$1 status=$2 line=$3 ended=$4
    [ "$ended" = "$status" ] || fail "$name: status $ended, where $status was due"
    [ "$(cat "$room/errors")" = "$line" ] || fail "$name: '$(cat "$room/errors")' on standard error"
    [ ! -s "$room/output" ] || fail "$name: something on standard output"
}

run() {
    "$program" --open 2024-06-03 "$@" > "$room/output" 2> "$room/errors"
}

# A page without the links that a page in a folder has.
unlinked() {
    sed -e '/^<li><a href=2.*\.html>The \(day before\|next day\)<\/a>$/d' -e '/^<li><details><summary>The accounts/,/^<\/details>$/d' \
        -e '/^<nav aria-label=Pages>.*\.html>All accounts on this day<\/a><\/ul><\/nav>$/d' "$1"
}

# The files that links of a folder's pages lead to.
linked() {
    sed -n 's/.*<a href=\([0-9-]*\.html\)>.*/\1/p' "$1"/*.html | sort -u
}

pages=0
for sample in examples/*.csv; do
    folder=$room/$(basename "$sample" .csv)
    mkdir "$folder"
    for day in $(sed -n 's/^closed [0-9]* \([0-9-]*\) .*/\1/p' "${sample%.csv}.replies"); do
        run --day "$day" --folder "$folder" < "$sample"
        expect "$sample, $day" 0 '' "$?"
        accounts=0
        for file in "$folder/$day"-*.html; do
            account=$(basename "$file" .html)
            account=${account#"$day"-}
            "$program" --open 2024-06-03 --day "$day" --account "$account" < "$sample" | cmp -s - <(unlinked "$file") || fail "$file is another page"
            accounts=$((accounts + 1))
        done
        "$program" --open 2024-06-03 --day "$day" < "$sample" | cmp -s - <(unlinked "$folder/$day.html") || fail "$folder/$day.html is another page"
        # The corporation and each member so far have a page, and nobody else.
        members=$(grep -vE '^(row|liable) ' "${sample%.csv}.replies" | paste -d , "$sample" - \
            | awk -F , -v closed="^closed [0-9]* $day " '$1 == "MEMBER" && $NF == "ok" { members++ } $NF ~ closed { print members + 1; exit }')
        [ "$accounts" = "$members" ] || fail "$sample, $day: $accounts accounts, where $members were due"
        # One link leads to the page of each account, and each of these pages leads back.
        [ "$(sed -n "s/.*<a href=\($day-[0-9]*\.html\)>.*/\1/p" "$folder/$day.html" | sort)" = "$(cd "$folder" && printf '%s\n' "$day"-*.html | sort)" ] || fail "$sample, $day: an account without a link"
        [ "$(grep -l "<a href=$day\.html>All accounts" "$folder/$day"-*.html | wc -l)" = "$accounts" ] || fail "$sample, $day: a page without a link to the day"
        pages=$((pages + accounts + 1))
    done
    # All links lead to files, but that of the last day to the next, which is not closed yet.
    next=$(sed -n 's/^<li><a href=\([0-9-]*\.html\)>The next day<\/a>$/\1/p' "$folder/$day.html")
    [ "$(linked "$folder" | while read -r file; do [ -e "$folder/$file" ] || echo "$file"; done)" = "$next" ] || fail "$sample: a link leads nowhere"
    [ -z "$(find "$folder" -name '*.part')" ] || fail "$sample: a part of a file is left"
done

# Once more, also of the records up to the close alone: nothing changes.
folder=$room/week
find "$folder" -newer "$folder/2024-06-03.html" | sort > "$room/newer"
head -n 120 examples/week.csv > "$room/records"
for records in examples/week.csv "$room/records"; do
    run --day 2024-06-05 --folder "$folder" < "$records"
    expect 'once more' 0 '' "$?"
done
find "$folder" -newer "$folder/2024-06-03.html" | sort | cmp -s - "$room/newer" || fail 'once more: other files'

# A page that is missing is made again; another one is a fault, and stays.
rm "$folder/2024-06-05-202.html" "$folder/2024-06-05.html"
echo other > "$folder/2024-06-05-303.html"
run --day 2024-06-05 --folder "$folder" < examples/week.csv
expect 'another page' 1 'fault OtherPage 2024-06-05 303' "$?"
[ "$(cat "$folder/2024-06-05-303.html")" = other ] && [ -s "$folder/2024-06-05-202.html" ] && [ ! -e "$folder/2024-06-05.html" ] || fail 'another page: other files'
rm "$folder/2024-06-05-303.html"
echo other > "$folder/2024-06-05.html"
run --day 2024-06-05 --folder "$folder" < examples/week.csv
expect 'another page of the day' 1 'fault OtherPage 2024-06-05' "$?"

# A folder that is not there, or is none; a day that is not closed; a folder that cannot be written, and one whose disk is full.
mkdir "$room/folder"
while IFS='|' read -r words fault; do
    run $words < examples/week.csv
    expect "words '$words'" 1 "fault $fault" "$?"
done <<FAULTS
--folder $room/nowhere|NoSuchFolder
--folder $folder/2024-06-03.html|NoSuchFolder
--folder $room/folder --day 2024-06-30|NoSuchDay
--folder $room/folder --day today|NoSuchDay
FAULTS
run --folder '' < examples/week.csv
expect 'no name' 1 'fault NoSuchFolder' "$?"
# The folder is looked for before the records are read, which fails of a folder.
run --folder "$room/nowhere" < /
expect 'no folder and no records' 1 'fault NoSuchFolder' "$?"
run --folder "$room/folder" < /dev/null
expect 'no day' 1 'fault NoSuchDay' "$?"
[ -z "$(ls "$room/folder")" ] || fail 'a file in a folder for nothing'
run --folder /proc < examples/week.csv
expect 'a folder that takes no file' 1 'fault Write' "$?"
# Files may have 4 KiB here, and no page is as short.
(ulimit -f 4; trap '' XFSZ; run --folder "$room/folder" < examples/week.csv)
expect 'a full disk' 1 'fault Write' "$?"
[ -z "$(ls "$room/folder")" ] || fail 'a full disk: something is left'

# With no issue there are no accounts' pages, and a page of the day.
printf 'MEMBER,1\nCLOSE,2024-06-04\n' > "$room/bare.csv"
run --folder "$room/folder" < "$room/bare.csv"
expect 'no issue' 0 '' "$?"
[ "$(ls "$room/folder")" = 2024-06-03.html ] || fail 'no issue: other files'

if command -v tidy > /dev/null; then
    for file in "$folder"/2024-06-04*.html; do
        tidy -e -q "$file" > "$room/errors" 2>&1
        [ "$?" -lt 2 ] || fail "$file, by tidy: $(cat "$room/errors")"
    done
fi

echo "pages in folders passed: $pages"
