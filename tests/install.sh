#!/usr/bin/env bash
# Installs the built programs into a fresh folder and runs both from there, runs the examples of their manual pages, renders
# the pages, and takes all away again.
#
# usage: tests/install.sh
# The pages are rendered by man, and read by mandoc, where they are on this machine. Prints what was done, or one line of
# what failed, and exits with status 1 then.
set -u

cd "$(dirname "$0")/.." || exit 1
top=$PWD
room=$(mktemp -d)
trap 'rm -rf "$room"' EXIT
bin=$room/staged/usr/bin
man=$room/staged/usr/share/man/man1
files='usr/bin/cnsbook usr/bin/cnspage usr/share/man/man1/cnsbook.1 usr/share/man/man1/cnspage.1'

fail() {
    echo "install: $1" >&2
    exit 1
}

# The files that are installed now, by their names.
installed() { (cd "$room/staged" && find . -type f -printf '%P\n' | sort | tr '\n' ' '); }

# The lines between .EX and .EE of a manual page, as commands.
examples() { sed -n '/^\.EX/,/^\.EE/{/^\.E[XE]/d;s/\\(aq/'\''/g;s/\\-/-/g;p}' "$1"; }

# The text of a manual page in one line.
words() { sed 's/\\-/-/g; s/^\.[A-Z]* //; s/"//g' "$1" | tr -s '\n ' ' '; }

# A program that was not built is not installed, and neither is the other one.
mkdir "$room/staged"
if make --no-print-directory install DESTDIR="$room/staged" PREFIX=/usr PAGE="$room/none" 2> "$room/errors"; then
    fail 'a program that is not there was no fault'
fi
grep -q 'run make build first' "$room/errors" || fail "'$(cat "$room/errors")' where a program is not there"
[ -z "$(installed)" ] || fail 'something was installed where a program is not there'

make --no-print-directory install DESTDIR="$room/staged" PREFIX=/usr || fail 'make install'
[ "$(installed)" = "$files " ] || fail "installed: $(installed)"

cd "$room" || exit 1
cp "$top/examples/week.csv" .
"$bin/cnsbook" replay --open 2024-06-03 < week.csv | cmp -s - "$top/examples/week.replies" || fail 'the installed cnsbook replays otherwise'
"$bin/cnspage" --open 2024-06-03 < week.csv > day.html || fail "the installed cnspage ends with status $?"
grep -q '<h1>.*2024-06-07.*</h1>' day.html || fail 'the installed cnspage writes another day'
rm day.html

for page in cnsbook cnspage; do
    examples "$man/$page.1" > "$page.sh"
    [ -s "$page.sh" ] || fail "$page.1 has no examples"
    PATH=$bin:$PATH bash -euo pipefail "$page.sh" > "$page.output" || fail "an example of $page.1 ends with status $?"
done
[ -s cnsbook.output ] || fail 'the examples of cnsbook.1 wrote nothing'
[ -s day.html ] || fail 'the examples of cnspage.1 wrote nothing'

# Each fault of the formats is in the page of its program; those of cnspage stand below its heading.
has_faults() {
    words "$man/$1.1" > "$1.words"
    sed -n 's/^| `\(fault [A-Za-z]*\|worker K [A-Za-z]*\).*/\1/p' > "$1.faults"
    [ -s "$1.faults" ] || fail "the formats have no faults of $1"
    while read -r fault; do
        grep -qF "$fault" "$1.words" || fail "$1.1 does not have '$fault'"
    done < "$1.faults"
}
heading='## The page of a day'
has_faults cnsbook < <(sed "/^$heading/,\$d" "$top/docs/formats.md")
has_faults cnspage < <(sed -n "/^$heading/,\$p" "$top/docs/formats.md")

readers=
if command -v man > /dev/null; then
    readers='man'
    for page in cnsbook cnspage; do
        man --warnings -l "$man/$page.1" > "$page.text" 2> warnings || fail "man ends with status $? on $page.1: $(cat warnings)"
        [ ! -s warnings ] || fail "man on $page.1: $(cat warnings)"
        [ -s "$page.text" ] || fail "man renders nothing of $page.1"
    done
fi
if command -v mandoc > /dev/null; then
    readers="${readers:+$readers and }mandoc"
    mandoc -T lint -W warning "$man/cnsbook.1" "$man/cnspage.1" > warnings 2>&1 || fail "mandoc: $(cat warnings)"
fi

cd "$top" || exit 1
make --no-print-directory uninstall DESTDIR="$room/staged" PREFIX=/usr || fail 'make uninstall'
[ -z "$(installed)" ] || fail "left after make uninstall: $(installed)"
echo 'installed, run and taken away: two programs and their manual pages'
if [ -n "$readers" ]; then
    echo "manual pages rendered without a warning by $readers"
else
    echo 'manual pages not rendered: neither man nor mandoc is on this machine'
fi
