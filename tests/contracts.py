#!/usr/bin/env python3
"""Prints the public calls of crates, each with what it is for and its contract, as they stand in the source.

usage: tests/contracts.py CRATE..

A call stands by its path, with the first sentence of its comment, and its clauses. Calls of a trait are those of each type
that has it. What a crate's root doesn't hand out is left out.
"""

import collections
import re
import sys
from pathlib import Path

CRATES = Path(__file__).resolve().parent.parent / "crates"

# A public call: its path, its comment, and its clauses, each with its name, which may be empty, and its text.
Call = collections.namedtuple("Call", "path comment clauses")

OWNER = re.compile(r"(?:pub )?trait (\w+)|impl(?:<[^{]*?>)? (?:.* for )?(\w+)")
FUNCTION = re.compile(r"(    )?(pub )?fn (\w+)")
CLAUSE = re.compile(r"\s+(requires|ensures) ?(\w*) \{")


def handed_out(root):
    """The names that a crate's root hands out, and its public modules."""
    names = set()
    for group in re.findall(r"^pub use ([^;]*);", root, re.MULTILINE):
        names.update(re.findall(r"\w+", group.split("::", 1)[1]))
    return names, re.findall(r"^pub mod (\w+);", root, re.MULTILINE)


def clauses(lines):
    """The clauses at the head of some lines, which end where a body begins."""
    found, text = [], ""
    for line in lines:
        if not text and not CLAUSE.match(line):
            if found and re.match(r"\s*(//|where|\w+: )", line) is None:
                break
            if line.rstrip().endswith(("{", ";")):
                break
            continue
        text = f"{text} {line.strip()}".strip()
        if text.count("{") == text.count("}"):
            word, name, rest = re.match(r"(\w+) ?(\w*) (\{.*)", text).groups()
            found.append((word, name, rest.rstrip(";")))
            text = ""
            if line.rstrip().endswith(";"):
                break
    return found


def comment(lines):
    """The first paragraph of the comment right above, past attributes."""
    above = []
    for line in reversed(lines):
        if match := re.match(r"\s*/// ?(.*)", line):
            above.insert(0, match[1])
        elif not re.match(r"\s*(#\[|//)", line):
            break
    return " ".join(above[: above.index("")] if "" in above else above)


def calls_in(crate, path, names, is_public):
    """The public calls of a file."""
    lines = path.read_text(encoding="utf-8").splitlines()
    module = f"{path.stem}::" if is_public else ""
    owner, is_trait = "", False
    for number, line in enumerate(lines):
        if match := OWNER.match(line):
            owner, is_trait = match[1] or match[2], bool(match[1])
            if " for " in line:
                owner = ""
        elif line == "}":
            owner, is_trait = "", False
        match = FUNCTION.match(line)
        if not match or not (match[2] or (is_trait and match[1])):
            continue
        named = owner if match[1] else match[3]
        if named in names or (is_public and not match[1]):
            where = f"{owner}::" if match[1] else ""
            yield Call(f"{crate}::{module}{where}{match[3]}", comment(lines[:number]), clauses(lines[number + 1 :]))


def calls(crate):
    """The public calls of a crate."""
    source = CRATES / crate / "src"
    names, modules = handed_out((source / "lib.rt").read_text(encoding="utf-8"))
    for path in sorted(source.rglob("*.rt")):
        yield from calls_in(crate, path, names, path.stem in modules)


def tell(call):
    first = re.match(r"(.*?\.)(?= [A-Z`]|$)", call.comment)
    print(call.path)
    if first:
        print(f"    {first[1]}")
    for word, name, text in call.clauses:
        print(f"    {word}{' ' if name else ''}{name} {text}")
    print()


if __name__ == "__main__":
    for crate in sys.argv[1:]:
        for call in calls(crate):
            tell(call)
