#!/usr/bin/env python3
"""Runs a command of rt, by default the whole gate from nothing, and tells where its processor time went.

usage: tests/times.py [--csv FILE] [COMMAND WORD...]

The command, `rt ci --anew` where none is given, runs as it would alone. Twice a second the processes that it started are
looked at: the prover's are told apart by crate and by part.

  proofs   the functions of a crate
  tests    a crate with its tests, that is the tests and, once more, the functions that they stand on in the crate itself
  seeds    the functions of a crate once more, for its edits to begin with
  edits    the edits of must-fail
  other    all else: building, linking, running, and what ended between two looks

Processor minutes are printed by crate and part, with the minutes that the clock showed; with --csv they are written to a
file as seconds. The status is the command's.
"""

import collections
import os
import re
import resource
import subprocess
import sys
import time

PARTS = ("proofs", "tests", "seeds", "edits", "other")
TICKS = os.sysconf("SC_CLK_TCK")


def read(path):
    try:
        with open(path, "rb") as file:
            return file.read()
    except OSError:
        return b""


def processes():
    """The processes of this machine: number, parent, start and the ticks that each has used."""
    for name in os.listdir("/proc"):
        if name.isdigit():
            fields = read(f"/proc/{name}/stat").rpartition(b")")[2].split()
            if len(fields) > 20:
                yield int(name), int(fields[1]), int(fields[19]), int(fields[11]) + int(fields[12])


def part_of(number):
    """The crate and the part that a process of the prover works on, None for another process."""
    words = read(f"/proc/{number}/cmdline").decode(errors="replace").split("\0")
    if "--crate-name" not in words or "rattle" not in os.path.basename(words[0]):
        return None
    crate = words[words.index("--crate-name") + 1]
    where = words[words.index("--incremental") + 1] if "--incremental" in words else ""
    if re.search(r"/rt-edits-[^/]*/seed$", where):
        return crate, "seeds"
    if re.search(r"/rt-edits-[^/]*/\d+$", where) or "/rt-edit-" in os.readlink(f"/proc/{number}/cwd"):
        return crate, "edits"
    return crate, "tests" if "--test" in words else "proofs"


def watch(child):
    """Looks at the processes below one until it ends, and gives the ticks of each with its crate and part."""
    known, ticks = {}, {}
    while child.poll() is None:
        found = list(processes())
        below = {child.pid}
        for number, parent, _, _ in sorted(found):
            if parent in below:
                below.add(number)
        for number, _, start, used in found:
            if number in below:
                key = number, start
                if known.get(key) is None:
                    try:
                        known[key] = part_of(number)
                    except OSError:
                        continue
                if known[key]:
                    ticks[key] = used
        time.sleep(0.5)
    spent = collections.Counter()
    for key, used in ticks.items():
        spent[known[key]] += used / TICKS
    return spent


def tell(spent, whole, clock):
    crates = sorted({crate for crate, _ in spent}, key=lambda it: -sum(spent[it, part] for part in PARTS))
    print(f"{'processor minutes':24}" + "".join(f"{part:>9}" for part in PARTS[:-1]) + f"{'all':>9}")
    for crate in crates:
        row = [spent[crate, part] / 60 for part in PARTS[:-1]]
        print(f"{crate:24}" + "".join(f"{it:9.1f}" for it in row) + f"{sum(row):9.1f}")
    row = [sum(spent[crate, part] for crate in crates) / 60 for part in PARTS[:-1]]
    print(f"{'all crates':24}" + "".join(f"{it:9.1f}" for it in row) + f"{sum(row):9.1f}")
    print(f"other {whole / 60 - sum(row):.1f}, in all {whole / 60:.1f} processor minutes, {clock / 60:.1f} by the clock, "
          f"{os.cpu_count()} processors")


def main(words):
    csv = None
    if words[:1] == ["--csv"]:
        csv, words = words[1], words[2:]
    begun = time.time()
    child = subprocess.Popen(words or ["rt", "ci", "--anew"])
    spent = watch(child)
    used = resource.getrusage(resource.RUSAGE_CHILDREN)
    whole, clock = used.ru_utime + used.ru_stime, time.time() - begun
    tell(spent, whole, clock)
    if csv:
        with open(csv, "w", encoding="utf-8") as file:
            print("crate,part,processor_seconds", file=file)
            for (crate, part), seconds in sorted(spent.items()):
                print(f"{crate},{part},{seconds:.0f}", file=file)
            print(f"all,other,{whole - sum(spent.values()):.0f}", file=file)
            print(f"all,clock,{clock:.0f}", file=file)
    return child.returncode


if __name__ == "__main__":
    sys.exit(main(sys.argv[1:]))
