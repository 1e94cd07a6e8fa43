#!/usr/bin/env python3
"""Each file of lemmas names functions that its lemmas are for, and each of them exists.

A line of its head begins "-- For `f` of x.rt": `f` is a function of src/x.rt in the same crate, or `x.rt in NAME` of another.
Files of cns_units and cns_terms are about units and definitions, and serve all crates above them.
"""

import pathlib
import re
import sys

CRATES = pathlib.Path(__file__).resolve().parent.parent / "crates"
GROUP = re.compile(r"((?:`[^`]+`(?:, | and )?)+) of ([\w/]+\.rt)(?: in (\w+))?")


def faults(path, crate):
    head = [line for line in path.read_text().split("\n")[:8] if line.startswith("-- For `")]
    if not head:
        yield "says of no function that it is for it"
    for names, file, other in GROUP.findall(" ".join(head)):
        source = CRATES / (other or crate) / "src" / file
        text = source.read_text() if source.exists() else ""
        for name in re.findall(r"`([^`]+)`", names):
            if not re.search(rf"\bfn {re.escape(name.split('::')[-1])}\b", text):
                yield f"is for `{name}` of {file}, which is not there"


def main():
    found = 0
    for path in sorted(CRATES.glob("*/proofs/*.antt")):
        crate = path.parent.parent.name
        if crate in ("cns_units", "cns_terms") or path.stem in ("Lib", "Common"):
            continue
        for fault in faults(path, crate):
            found += 1
            print(f"{path.relative_to(CRATES)} {fault}", file=sys.stderr)
    return min(found, 1)


if __name__ == "__main__":
    sys.exit(main())
