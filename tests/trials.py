#!/usr/bin/env python3
"""Tries the edits in the crates' folders trials, each a planted bug that the check must refuse. The gate tries those in the
folders must-fail alone.

usage: tests/trials.py [CRATE..]
       tests/trials.py --apply

A check goes function by function, and a caller's part rests on what the called function promises alone. So edits of different
functions are tried in one check, on a copy, of the functions that they change and of those that these call. A function that is
not checked since it calls one that is not proved, or that a proof refuses only for a name that the edit took away, says nothing
of its edit: it is tried again, at last alone, in a check of the whole crate.

Prints a line for each trial that is not refused, and one for each crate; the status is 1 where a trial is not refused. With
--apply it tells only whether each of them can still be applied.
"""

import collections
import os
import pathlib
import re
import shutil
import subprocess
import sys
import tempfile
import time

ROOT = pathlib.Path(__file__).resolve().parent.parent
FUNCTION = re.compile(r"^ *(?:pub(?:\(\w+\))? )?(?:unsafe )?fn (\w+)", re.MULTILINE)
# A type or a trait where it is declared, the first line of a block of methods, and its end.
TYPE = re.compile(r"^(?:pub(?:\(\w+\))? )?(?:struct|enum|trait) (\w+)", re.MULTILINE)
BLOCK = re.compile(r"^(?:(?:unsafe )?impl\b.*|(?:pub(?:\(\w+\))? )?trait .*|\})$", re.MULTILINE)
# Refusals that rest on a proof's words alone.
NAMES = re.compile(r"has no field|is not in scope|has no `|was not admitted|`: module `")

Edit = collections.namedtuple("Edit", "name pairs functions")


def pairs_of(path):
    """The file of each change of an edit, its old text and its new one."""
    pairs = []
    for line in path.read_text(encoding="utf-8").splitlines():
        if line.startswith("file: "):
            file = line[6:]
        elif line.startswith("old: "):
            pairs.append([file, line[5:]])
        elif line.startswith("new:"):
            pairs[-1].append(line[5:])
    return pairs


def function_at(source, place):
    """The head of the function that a place is in; a text that begins before a function's head is of that one."""
    heads = [it for it in FUNCTION.finditer(source) if it.start() <= place] + [FUNCTION.match(source, place)]
    return [it for it in heads if it][-1:]


def modules_of(file):
    return [it for it in re.split(r"/|\.rt$", file.removeprefix("src/")) if it not in ("lib", "main", "")]


def home_of(name, crate):
    """The modules in which a type or a trait of a crate is declared."""
    for file in crate.glob("src/**/*.rt"):
        if name in TYPE.findall(file.read_text(encoding="utf-8")):
            return modules_of(str(file.relative_to(crate)))
    return []


def path_of(file, found, source, crate):
    """How a check names a function of a file: by its modules, and a method by its type, where that is declared, or by the type and a
    trait; "" for a method of a type at some other types alone."""
    head = [it[0] for it in BLOCK.finditer(source, 0, found.start())][-1:]
    if found[0][0] != " " or head in ([], ["}"]):
        return "::".join([*modules_of(file), found[1]])
    given = re.search(r"\bFrom<(\w+)>", head[0])
    plain = re.sub(r"^(?:unsafe )?impl\b", "", head[0])
    while "<" in plain and (less := re.sub(r"<[^<>]*>", "", plain)) != plain:
        plain = less
    of, owner = re.search(r"(?:(?:\w+::)*(\w+) for )?&?(\w+)", plain.split("trait ")[-1]).groups()
    if not of and re.search(rf"\b{owner}<[^>]*<", head[0]):
        return ""
    modules = modules_of(file) if of else home_of(owner, crate)
    return "::".join([*modules, owner + (of or "") + (given[1] if given else ""), found[1]])


def read(path, crate):
    """An edit, with the files and functions that it changes; None where it cannot be applied."""
    pairs, functions, sources = pairs_of(path), {}, {}
    for file, old, new in pairs:
        source = sources.get(file) or (crate / file).read_text(encoding="utf-8")
        if source.count(old) != 1:
            return None
        found = function_at(source, source.index(old))
        functions.update({(file, it[1]): path_of(file, it, source, crate) for it in found} or {(file, ""): ""})
        sources[file] = source.replace(old, new)
    return Edit(path.stem, pairs, functions)


def edits_of(crate):
    return {path: read(path, crate) for path in sorted((crate / "trials").glob("*.edit"))}


def apply(edit, crate):
    """Makes the changes of an edit, where no other of the round took one of its old texts away or made it a second time."""
    sources = {}
    for file, old, new in edit.pairs:
        source = sources.get(file) or (crate / file).read_text(encoding="utf-8")
        if source.count(old) != 1:
            return False
        sources[file] = source.replace(old, new)
    for file, source in sources.items():
        (crate / file).write_text(source, encoding="utf-8")
    return True


def verdict(log, file, function, path, alone):
    """What a check said of a function, of all functions of a file, or, of an edit alone, of the crate: what a constant turns
    shows where it is used. Refused, proved, or nothing that tells."""
    module = [] if alone else modules_of(file)[:1]
    told = [
        rest for head, rest in re.findall(r"^fn \w+?::(\S+): (.*)$", log, re.MULTILINE)
        if (head == path if path and not alone else all(it in head for it in module))
    ]
    place = rf"(?:{path.replace('::', '/')}|\S*\+{function})/" if path and not alone else "/".join(module)
    errors = [it for it in re.findall(rf"^\./proofs/{place}.*: error.*$", log, re.MULTILINE) if not NAMES.search(it)]
    if errors or any(it.startswith("no proof: expected answers in") for it in told):
        return "refused"
    return "proved" if any(it.startswith("proved") for it in told) else ""


def check(crate, paths):
    """What a check says of these functions and those that they call, or of the whole crate where none are given."""
    only = [word for it in sorted(paths) for word in ("--only", it)]
    return subprocess.run(["rt", "check", *only], cwd=crate, capture_output=True, text=True, check=False).stdout


def round_of(edits, alone):
    """Edits of different functions that a check can name, or one alone."""
    if alone:
        return edits[:1]
    used, chosen = set(), []
    for edit in edits:
        if all(edit.functions.values()) and not edit.functions.keys() & used:
            chosen.append(edit)
            used |= edit.functions.keys()
    return chosen


def try_all(name, room):
    """Tries the trials of a crate; those that are not refused, with what is known of each."""
    crate, source = room / "crates" / name, ROOT / "crates" / name
    left = [it for it in edits_of(source).values() if it]
    missed, alone = [], False
    while left:
        chosen = [it for it in round_of(left, alone) if apply(it, crate)]
        if not chosen:
            alone = True
            continue
        log = check(crate, () if alone else {it for edit in chosen for it in edit.functions.values()})
        shutil.rmtree(crate / "src")
        shutil.copytree(source / "src", crate / "src")
        said = {
            edit.name: [verdict(log, *key, path, alone) for key, path in edit.functions.items()] for edit in chosen
        }
        known = [it for it in chosen if alone or "refused" in said[it.name] or set(said[it.name]) == {"proved"}]
        missed += [(it.name, "is proved" if "proved" in said[it.name] else "has no verdict")
                   for it in known if "refused" not in said[it.name]]
        left = [it for it in left if it not in known]
        alone = alone or not known
    return missed


def main(names):
    crates = [it.parent for it in sorted(ROOT.glob("crates/*/trials"))]
    lost = [path for crate in crates for path, edit in edits_of(crate).items() if edit is None]
    for path in lost:
        print(f"{path.relative_to(ROOT)} cannot be applied")
    if names == ["--apply"]:
        print(f"trials that can be applied: {sum(len(edits_of(crate)) for crate in crates) - len(lost)}")
        return bool(lost)
    failed = bool(lost)
    with tempfile.TemporaryDirectory() as place:
        room = pathlib.Path(place)
        shutil.copytree(ROOT / "crates", room / "crates", ignore=shutil.ignore_patterns("out", "trials", "must-fail"))
        for file in ("crates.txt", "HANDLES"):
            shutil.copy(ROOT / file, room / file)
        for name in names or [it.name for it in crates]:
            begun, count = time.monotonic(), len(edits_of(ROOT / "crates" / name))
            missed = try_all(name, room)
            for trial, what in missed:
                print(f"{name}/{trial} {what}")
            print(f"{name}: {count - len(missed)} of {count} refused, in {time.monotonic() - begun:.0f} s", flush=True)
            failed = failed or bool(missed)
    return failed


if __name__ == "__main__":
    sys.exit(main(sys.argv[1:]))
