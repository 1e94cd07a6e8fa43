#!/usr/bin/env python3
"""Whether the documents tell what the program does.

usage: tests/documents.py PROGRAM PAGE

- A table that begins with `Record | Reply` is a session: its records get these replies, in this order, in the replay of
  one of the samples in `examples`, or, where no sample has them all, each on an empty book.
- A row of a table with a reply, a record and what is wrong with a file, is so on a book with two members and an issue.
- A block of text that begins with `statement` stands in the statements of a closed day of a sample.
- A block that begins with a brace is the tally of a run of a sample.
- A block of commands that begin with a program, with `grep`, `printf` or `sed` is run, in a folder with the samples and with
  the files that it names, and after the blocks before it; each ends with status 0. A block marked `text` right after it is
  what it writes.
- Each command in a table that begins with `Question | Answer` is run after the blocks before it; it writes something, and ends
  with status 0.
- A block marked `csv` is records, and the next one, marked `text`, is what a replay answers. After a command
  `make run FILE=..` the records are those of that file.
- A block that begins with `Kind,` is the file `sheet.csv`, as a spreadsheet saves it.
- A command `make NAME` is one of the Makefile's; the kit is the one that `rt` says it is; a link leads to a file of the
  repository, and to a heading of it; the README has at most 600 words; packages that it names are commands of this machine.
- A path that begins with a crate is a public call or type of it; a call, a clause, a definition and a file that the last
  column of a table names beside such paths stands in the source.

Tells how many of each there were, or what is not so, and exits with status 1 then.
"""

import os
import re
import shutil
import subprocess
import sys
import tempfile
from pathlib import Path

import contracts

ROOT = Path(__file__).resolve().parent.parent
OPENING = "2024-06-03"
# the program, and the one that writes a day as a page
BUILT = ("crates/cnsbook/out/cnsbook", "crates/cnspage/out/cnspage")
# how a block of commands begins, on a line without places to fill in
RUN = re.compile(r"(crates/\w+/out/|(cnsbook (replay|run|statements)|cnspage) --open \d|(grep|printf|sed) )")
# and how a command begins that answers a question
ANSWER = re.compile(r"`((?:cnsbook|cnspage|grep|printf|sed|awk|head|sha256sum) [^`]+)`")
WORDS = 600
# the kinds of records in each of the files that a run is shown with
FILES = {
    "trades.csv": ("MEMBER", "TRADE"),
    "prices.csv": ("ISSUE", "PRICE"),
    "actions.csv": ("DIVIDEND", "SPLIT", "EXCHANGE"),
}


def replies(program, records):
    """Each record with the lines of its reply."""
    lines = subprocess.run(
        [program, "replay", "--open", OPENING], input="\n".join(records) + "\n", capture_output=True, text=True, check=True
    ).stdout.splitlines()
    answered = []
    for line in lines:
        if line.startswith(("row ", "liable ")):
            answered[-1].append(line)
        else:
            answered.append([line])
    return list(zip(records, answered, strict=True))


def mistakes(program, text):
    """The examples of the table of mistakes, and those that get another reply than the one beside them."""
    begun = ["MEMBER,1", "MEMBER,2", "ISSUE,037833100,19500"]
    rows = re.findall(r"^\| [a-z ]*`((?:line|refused) \w+)` \| `([^`]+)`( twice)? \|", text, re.M)
    wrong = []
    for reply, record, again in rows:
        lines = [record, record] if again else [record]
        if replies(program, begun + lines)[-1][1] != [reply]:
            wrong.append(f"{record} is not answered with {reply}")
    return len(rows), wrong


def statements(program, records, day):
    return subprocess.run(
        [program, "statements", "--open", OPENING, "--day", day, "--workers", "2"],
        input="\n".join(records) + "\n",
        capture_output=True,
        text=True,
        check=True,
    ).stdout


def tally(program, sample):
    """The tally of a run of a sample, one file."""
    words = [program, "run", "--open", OPENING, ROOT / "examples" / sample]
    return subprocess.run(words, capture_output=True, text=True, check=True).stdout


def follow(session, sample):
    """Whether the session's records get their replies one after another among those of the sample."""
    left = iter(sample)
    return all(step in left for step in session)


def sessions(text):
    """The tables of records and replies, each with the number of its first line."""
    lines = text.splitlines()
    for number, line in enumerate(lines):
        if not re.match(r"\| Record \| Reply \|", line):
            continue
        session = []
        for row in lines[number + 2 :]:
            if not row.startswith("|"):
                break
            record, reply = (re.findall(r"`([^`]*)`", cell) for cell in row.split(" | ")[:2])
            session.append((record[0], reply))
        yield number + 1, session


def blocks(text):
    """The blocks between fences, each with the number of its first line, and its mark."""
    for match in re.finditer(r"^```([a-z]*)\n(.*?)^```$", text, re.MULTILINE | re.DOTALL):
        yield text.count("\n", 0, match.start()) + 1, match.group(1), match.group(2)


def anchors(text):
    """The names by which the headings of a document are linked to."""
    prose = re.sub(r"^```.*?^```$", "", text, flags=re.MULTILINE | re.DOTALL)
    headings = re.findall(r"^#+ (.*)$", prose, re.MULTILINE)
    return {re.sub(r"[^a-z0-9 _-]", "", heading.lower()).replace(" ", "-") for heading in headings}


def source_names():
    """The paths of what crates hand out, and all words and file names of their source."""
    paths, words = set(), set()
    for source in contracts.CRATES.glob("*/src"):
        root, crate = source / "lib.rt", source.parent.name
        if root.exists():
            handed_out, _ = contracts.handed_out(root.read_text())
            paths.update(f"{crate}::{name}" for name in handed_out)
            paths.update(call.path for call in contracts.calls(crate))
        for path in [*source.rglob("*.rt"), *(source.parent / "specs").rglob("*.antt"), *(source.parent / "proofs").glob("*.antt")]:
            words.update(re.findall(r"\w+", path.read_text()), [path.name])
    return paths, words


class Checked:
    """What was found so far."""

    def __init__(self, program):
        self.program = program
        self.samples = {
            path.name: replies(program, path.read_text().splitlines()) for path in sorted((ROOT / "examples").glob("*.csv"))
        }
        self.counts = {"sessions": 0, "mistakes": 0, "statements": 0, "tallies": 0, "commands": 0, "answers": 0, "records": 0, "outputs": 0, "links": 0, "names": 0}
        self.paths, self.sources = source_names()
        self.rules = re.findall(r"^([a-z]+):(?!=)", (ROOT / "Makefile").read_text(), re.MULTILINE)
        self.kit = subprocess.run(["rt", "version"], capture_output=True, text=True, check=True).stdout.strip()
        self.faults = []

    def session(self, place, session):
        self.counts["sessions"] += 1
        if any(follow(session, sample) for sample in self.samples.values()):
            return
        for record, reply in session:
            if replies(self.program, [record]) != [(record, reply)]:
                self.faults.append(f"{place}: no sample has this session, and alone it is not so: {record}")
                return

    def mistakes(self, place, text):
        count, wrong = mistakes(self.program, text)
        self.counts["mistakes"] += count
        self.faults.extend(f"{place}: {fault}" for fault in wrong)

    def statements(self, place, block):
        self.counts["statements"] += 1
        for sample in self.samples.values():
            records = [record for record, _ in sample]
            days = [reply[0].split()[2] for _, reply in sample if reply[0].startswith("closed ")]
            if any(block in statements(self.program, records, day) for day in days):
                return
        self.faults.append(f"{place}: no closed day of a sample has these statements")

    def tally(self, place, block):
        self.counts["tallies"] += 1
        if block not in [tally(self.program, sample) for sample in self.samples]:
            self.faults.append(f"{place}: no sample has this tally")

    def commands(self, place, block, room):
        """What the commands write to standard output."""
        self.counts["commands"] += block.count("\n")
        path = f"{room}/bin:{os.environ['PATH']}"
        words = ["bash", "-euo", "pipefail", "-c", block]
        ran = subprocess.run(words, cwd=room, env={**os.environ, "PATH": path}, capture_output=True, text=True)
        if ran.returncode != 0:
            self.faults.append(f"{place}: ends with status {ran.returncode}: {ran.stderr}")
        return ran.stdout

    def answers(self, place, text, room):
        """The commands that answer the questions of a table."""
        for rows in re.findall(r"^\| Question \| Answer \|\n(.*?)(?:\n\n|\Z)", text, re.MULTILINE | re.DOTALL):
            for command in ANSWER.findall(rows):
                self.counts["answers"] += 1
                if not self.commands(place, command.replace("\\|", "|"), room):
                    self.faults.append(f"{place}: nothing is written by: {command}")

    def records(self, place, block, shown):
        """The replies to a block of records, which are those of the file that is shown, if one is."""
        self.counts["records"] += 1
        if shown and block != (ROOT / shown[1]).read_text():
            self.faults.append(f"{place}: these are not the records of {shown[1]}")
        return "".join(f"{line}\n" for _, reply in replies(self.program, block.splitlines()) for line in reply)

    def output(self, place, block, due):
        self.counts["outputs"] += 1
        if due is None:
            self.faults.append(f"{place}: nothing is before this output that writes it")
        elif block != due:
            self.faults.append(f"{place}: what is written is: {due}")

    def blocks(self, path, text, room):
        due = shown = None
        for number, mark, block in blocks(text):
            place = f"{path.name}:{number}"
            if mark == "text":
                self.output(place, block, due)
            due = None
            if mark == "csv":
                due = self.records(place, block, shown)
            shown = re.match(r"make run FILE=(examples/\S+)", block)
            if mark:
                continue
            if block.startswith("statement "):
                self.statements(place, block)
            if block.startswith("{"):
                self.tally(place, block)
            if block.startswith("Kind,"):
                (room / "sheet.csv").write_text(block)
            if RUN.match(block):
                due = self.commands(place, block, room)

    def names(self, place, text):
        """The calls, clauses and definitions that a document names."""
        named = set(re.findall(r"`(cns_\w+(?:::\w+)+)`", text))
        inner = {name for name in named if f"{name.split('::')[1]}.rt" in self.sources}
        self.faults += [f"{place}: no crate hands out {name}" for name in sorted(named - inner - self.paths)]
        for row in re.findall(r"^\|.*\| (.*`cns_\w+::.*|the inner .*|the same.*) \|$", text, re.MULTILINE):
            for name in re.findall(r"`([\w:.]+)`", row):
                self.counts["names"] += 1
                missing = [word for word in name.split("::") if word not in self.sources and not word.startswith("cns_")]
                self.faults += [f"{place}: nothing in the source is named {name}"] * bool(missing)

    def words(self, path, text):
        """The Makefile's commands, the kit, the links and the length of a document."""
        commands = re.findall(r"`make ([a-z]+)[^`\n]*`", text)
        for _, _, block in blocks(text):
            commands += re.findall(r"^(?:sudo )?make ([a-z]+)", block, re.MULTILINE)
        self.faults += [f"{path.name}: the Makefile has no {name}" for name in commands if name not in self.rules]
        kits = re.findall(r"rattle-kit-\S+ logic [0-9a-f]+", text)
        if kits and self.kit not in kits:
            self.faults.append(f"{path.name}: the kit is {self.kit}")
        for target, _, anchor in (link.partition("#") for link in re.findall(r"\]\(([^):]*)\)", text)):
            self.counts["links"] += 1
            file = path.parent / target if target else path
            if not file.exists():
                self.faults.append(f"{path.name}: no file {target}")
            elif anchor and anchor not in anchors(file.read_text()):
                self.faults.append(f"{path.name}: {file.name} has no heading {anchor}")
        for packages in re.findall(r"^sudo apt-get install --yes (.*)$", text, re.MULTILINE):
            missing = [package for package in packages.split() if not shutil.which(package)]
            self.faults += [f"{path.name}: no command {package} on this machine" for package in missing]
        if path == ROOT / "README.md" and len(text.split()) > WORDS:
            self.faults.append(f"{path.name}: {len(text.split())} words, where {WORDS} are the most")


def lay_out(room, programs):
    """What a clone has after it was built and installed, and files for a run."""
    for path, program in zip(BUILT, programs, strict=True):
        (room / path).parent.mkdir(parents=True)
        os.symlink(program, room / path)
        (room / "bin").mkdir(exist_ok=True)
        os.symlink(program, room / "bin" / Path(path).name)
    shutil.copytree(ROOT / "examples", room / "examples")
    records = (ROOT / "examples/week.csv").read_text().splitlines(keepends=True)
    for name, kinds in FILES.items():
        (room / name).write_text("".join(record for record in records if record.startswith(kinds)))


def main():
    programs = [os.path.abspath(path) for path in sys.argv[1:]]
    checked = Checked(programs[0])
    with tempfile.TemporaryDirectory() as folder:
        room = Path(folder)
        lay_out(room, programs)
        for path in [ROOT / "README.md", *sorted((ROOT / "docs").glob("*.md")), ROOT / "examples/README.md"]:
            text = path.read_text()
            for number, session in sessions(text):
                checked.session(f"{path.name}:{number}", session)
            checked.mistakes(path.name, text)
            checked.blocks(path, text, room)
            checked.answers(path.name, text, room)
            checked.words(path, text)
            checked.names(path.name, text)
    for fault in checked.faults:
        print("documents:", fault, file=sys.stderr)
    if checked.faults:
        sys.exit(1)
    print("documents agree:", ", ".join(f"{what} {count}" for what, count in checked.counts.items()))


main()
