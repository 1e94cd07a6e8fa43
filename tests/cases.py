#!/usr/bin/env python3
"""Plays the case files of tests/cases over both forms of positions, as a replay and as a load.

usage: tests/cases.py COMMAND WORD...

The command plays books as the program of crates/cns_cases does. Prints the name of a case that differs, the form, and the
first place that differs, what is expected there and what came; the status is 1 then.

A case file is text, a line at a time. A record has no two blanks in a row.

- A line that is `#`, or begins with `#` and a blank, is prose, and is not played. The first says what the case shows.
- The first other line is `open DATE`, the date that the book opens on, or `after NAME`: the file begins with the records and
  replies of another case, which are played again.
- Each line after it is a record, two blanks or more, and its reply.
- A line that begins with two blanks is a further line of the replies: a liable member, a row, or a reply of its own where the
  line above it is bytes of several records.
- An empty line is handed in as an empty line, and gets no reply.
- `bytes TEXT` hands in the bytes of the text as they are, with no line end after them: `\\n`, `\\r`, `\\t`, `\\\\` and `\\x` with
  two hexadecimal digits are written as `printf` takes them. Two blanks or more, and the first line of the replies, may follow.
- A later line `open DATE` begins another book with an input of its own. An empty line before it belongs to neither.

The replies are what a replay has to write, to the byte. What it has to count follows from them: a reply `line ..` is an
invalid record, each other one a command, and each reply `closed ..` a close. A load of the same records has to count the same.
"""

import datetime
import itertools
import pathlib
import re
import subprocess
import sys

CASES = pathlib.Path(__file__).resolve().parent / "cases"


def unescaped(text):
    """The bytes of a text with escapes."""
    named = {b"n": b"\n", b"r": b"\r", b"t": b"\t", b"\\": b"\\"}
    escape = re.compile(rb"\\(x[0-9a-f]{2}|[nrt\\])")
    return escape.sub(lambda it: named.get(it[1]) or bytes.fromhex(it[1][1:].decode()), text.encode())


def read_lines(lines, text, replies):
    """Reads the lines of a case below its head: the input and the reply lines with those of these lines."""
    for line in lines:
        record, _, reply = line.partition("  ")
        if record.startswith("bytes "):
            text += unescaped(record.removeprefix("bytes "))
        elif line == "" or record:
            text += record.encode() + b"\n"
            assert reply or not record, f"no reply to {record}"
        if reply:
            replies = replies + [reply.lstrip(" ")]
    return text, replies


def without_prose(text):
    return [line for line in text.split("\n") if line != "#" and not line.startswith("# ")]


def read_case(name):
    """The opening date, the input and the reply lines of each book of a case file."""
    text = (CASES / f"{name}.case").read_text(encoding="utf-8").removesuffix("\n")
    head = without_prose(text)[0]
    if head.startswith("after "):
        return [
            (opening, *read_lines(without_prose(text)[1:], before, replies))
            for opening, before, replies in read_case(head.removeprefix("after "))
        ]
    assert "\nopen " in text, f"{name}: neither `open DATE` nor `after NAME`"
    read = []
    for book in text.split("\nopen ")[1:]:
        date, _, lines = book.removesuffix("\n").partition("\n")
        opening = datetime.date.fromisoformat(date)
        read.append((opening, *read_lines(without_prose(lines) if lines else [], b"", [])))
    return read


def names():
    return sorted(path.stem for path in CASES.glob("*.case"))


def counted(replies):
    """The commands, invalid records and closes of reply lines."""
    heads = [reply.partition(" ")[0] for reply in replies]
    lines = heads.count("line")
    return len(heads) - heads.count("row") - heads.count("liable") - lines, lines, heads.count("closed")


def difference(replies, words):
    """Tells the first place at which what came differs."""
    commands, lines, closes = counted(replies)
    wanted = [commands, lines, closes] * 2 + [commands, commands, closes + 1]
    due, got = "".join(reply + "\n" for reply in replies), bytes.fromhex(words[0]).decode(errors="replace")
    for place, (one, other) in enumerate(itertools.zip_longest(due.split("\n"), got.split("\n")), 1):
        if one != other:
            return f"reply line {place}: expected {one!r}, got {other!r}"
    if words[1:] != [str(count) for count in wanted]:
        return f"expected the counts {wanted} of the replay, the load and its book, got {words[1:]}"
    return None


def main():
    books = [(name, *book) for name in names() for book in read_case(name)]
    text = "".join(f"{opening} {records.hex()}\n" for _, opening, records, _ in books)
    done = subprocess.run(sys.argv[1:], input=text, capture_output=True, text=True, check=False)
    told = [line.split(" ") for line in done.stdout.splitlines()]
    if done.returncode or len(told) != 2 * len(books):
        sys.exit(f"{done.stderr}cases: status {done.returncode}, and {len(told)} lines of {2 * len(books)}")
    differ = False
    for (name, _, _, replies), flat, tree in zip(books, told[::2], told[1::2]):
        for form, (came, *words) in ("flat", flat), ("tree", tree):
            where = difference(replies, words) if came == form else f"expected the form {form}, got {came}"
            if where:
                print(f"{name}: {form} positions: {where}")
                differ = True
    if differ:
        sys.exit(1)
    print(f"cases: {len(names())} files agree over both forms of positions, replayed and loaded")


if __name__ == "__main__":
    main()
