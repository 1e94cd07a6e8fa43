#!/usr/bin/env python3
"""Plays random, directed and mutated streams of records over the program, and compares what it prints with
tests/recompute.py.

usage: tests/fuzz.py PROGRAM PAGE [--seconds N]
       tests/fuzz.py PROGRAM PAGE --seeds FIRST COUNT [--reach]
       tests/fuzz.py --model

tests/streams.py makes a stream by a seed, which is told, so that a difference can be seen again. Each is replayed by the
program; a third is taken by `statements` of each closed day and of others, a third by `run` over one to four files, and a
third by the pages of each closed day, of the open one, of some accounts on some days and of some histories, whose figures
are read off them. A difference is cut down to few records, which are printed with both answers, and the status is 1.

Seeds rise from a random one for so many seconds, 20 where none are given. With --seeds they are the same each time. With
--reach these streams together must reach all that stands in tests/reached.py: how often they do is told, and the status is 1
where one thing is never reached.

With --model the program is left out: recompute.py is played over the samples in examples and the case files of tests/cases,
whose replies were worked out by hand.
"""

import argparse
import collections
import datetime
import pathlib
import random
import subprocess
import sys
import tempfile
import time

import accounts
import cases
import figures
import reached
import recompute
import streams

ROOT = pathlib.Path(__file__).resolve().parent.parent
SAMPLES = ROOT / "examples"
SAMPLES_OPENING = datetime.date(2024, 6, 3)

# The most runs of the program and the most seconds that cutting a difference down may take.
MOST_CUTS = 400
MOST_SECONDS = 40

# ---- the model over what was worked out by hand -------------------------------------------------------------------


def check_model():
    """Plays the model over all cases and samples; the names of those that differ."""
    differ = []
    for name in cases.names():
        for opening, text, replies in cases.read_case(name):
            got = [line for reply in recompute.replay(text, opening) for line in reply]
            if got != replies:
                differ.append(name)
    for path in sorted(SAMPLES.glob("*.csv")):
        got = [line for reply in recompute.replay(path.read_bytes(), SAMPLES_OPENING) for line in reply]
        if recompute.written(got) != path.with_suffix(".replies").read_bytes():
            differ.append(path.stem)
    return differ


# ---- both answers -------------------------------------------------------------------------------------------------

WORKERS = [1, 2, 3, 64]


class Play:
    """A stream, and how recompute.py answers it."""

    def __init__(self, seed, opening, text):
        self.seed, self.opening, self.text = seed, opening, text
        self.book = recompute.Book(opening)
        self.records = list(recompute.records(text))
        self.replies = [self.book.reply(it) for it in self.records]


def run(program, words, text):
    """What the program writes and its status."""
    try:
        done = subprocess.run([program, *words], input=text, capture_output=True, timeout=60, check=False)
    except subprocess.TimeoutExpired:
        return b"", b"no end within 60 seconds", None
    return done.stdout, done.stderr, done.returncode


# Each of these tells what was asked, what was due, and what came: outputs, standard errors and statuses.


def answers_replay(program, play):
    lines = [line for reply in play.replies for line in reply]
    due = recompute.written(lines), b"", 0
    yield "replay", due, run(program, ["replay", "--open", str(play.opening)], play.text)


def statements(book, day):
    """What the statements of a day are to be."""
    number = book.day_on(day)
    if number is None:
        return b"", b"fault NoSuchDay\n", 1
    accounts = [it for it in [recompute.CORPORATION] + book.members() if book.rows(it, number)]
    return recompute.written(line for it in accounts for line in book.statement(it, number)), b"", 0


def answers_statements(program, play):
    """Of each closed day, of the open one, and of days that are none, by each number of workers in turn."""
    book, open_day = play.book, play.book.date_today()
    closed = [book.date_of(day) for day in range(1, book.today())]
    none = {datetime.date.min, datetime.date(2024, 6, 8), datetime.date.max} - {open_day, *closed}
    for place, day in enumerate([*closed, open_day, *sorted(none)]):
        kind = "the open day" if day == open_day else "a closed day" if day in closed else "no day"
        workers = str(WORKERS[(play.seed + place) % len(WORKERS)])
        words = ["statements", "--open", str(play.opening), "--day", str(day), "--workers", workers]
        yield f"statements of {kind}", statements(book, day), run(program, words, play.text)


def parts_of(play, count):
    """The records in so many files, each field in quotes. All closes stand in the first, so that how many are accepted
    does not depend on how the files mix; nor does anything else that a run tells."""
    rng, parts = random.Random(play.seed), [b""] * count
    for record in play.records:
        place = 0 if record[0] == b"CLOSE" else rng.randrange(count)
        parts[place] += b",".join(b'"' + it.replace(b'"', b'""') + b'"' for it in record) + b"\n"
    return parts


def counted(parts, opening):
    """The line of a run over files whose closes all stand in the first."""
    replies = [[reply[0] for reply in recompute.replay(part, opening)] for part in parts]
    faults = [sum(it.startswith("line ") for it in part) for part in replies]
    commands = [len(part) - fault for part, fault in zip(replies, faults)]
    closes = sum(it.startswith("closed ") for it in replies[0])
    return (
        f'{{"closes":{closes},"commands":{sum(commands)},"counts":[{",".join(str(it) for it in commands)}],'
        f'"dividends":"0.00","lines":{sum(faults)},"marks":"0.00"}}'
    )


def answers_run(program, play):
    """Over one to four files; a single one is read from standard input."""
    count = 1 + play.seed // 6 % 4
    words = ["run", "--open", str(play.opening)]
    if count == 1:
        due = recompute.written([recompute.tally(play.text, play.opening)]), b"", 0
        yield "a run of one file", due, run(program, [*words, "/dev/stdin"], play.text)
        return
    parts = parts_of(play, count)
    with tempfile.TemporaryDirectory() as room:
        names = [f"{room}/{number}.csv" for number in range(count)]
        for name, part in zip(names, parts):
            pathlib.Path(name).write_bytes(part)
        due = recompute.written([counted(parts, play.opening)]), b"", 0
        yield f"a run of {count} files", due, run(program, [*words, *names], b"")


def answers_pages(page, play):
    """The figures of the page of each closed day and of the open one, and of the day before the first one, which has none."""
    before = play.opening - datetime.timedelta(1) if play.opening > datetime.date.min else datetime.date.max
    words = ["--open", str(play.opening), "--day"]
    yield "a page of no day", (b"", b"fault NoSuchDay\n", 1), run(page, [*words, str(before)], play.text)
    for day, lines in figures.days_of(play.text, play.opening):
        output, errors, status = run(page, [*words, str(day)], play.text)
        got = recompute.written(figures.shown(output)) if status == 0 else output
        yield f"a page of {'the open' if day == 'today' else 'a closed'} day", (recompute.written(lines), b"", 0), (got, errors, status)
    yield from answers_histories(page, play)
    yield from answers_accounts(page, play)


def page_of(page, play, day, account, issue=None):
    """What the program writes of an account, or of its position in an issue; of the last record or close where no day is given."""
    words = ["--open", str(play.opening), "--account", str(account)]
    words += ["--issue", issue.decode()] if issue else []
    return run(page, words + (["--day", str(day)] if day else []), play.text)


def stranger(book):
    """An account that is nobody's."""
    return next(it for it in range(9999, 0, -1) if it not in book.members())


def answers_histories(page, play):
    """The figures of some histories; there is none of nobody, and none in an issue that is not listed."""
    issues = play.book.issues()
    if issues:
        due = b"", b"fault NoSuchMember\n", 1
        yield "a history of nobody", due, page_of(page, play, None, stranger(play.book), issues[0])
    if NOT_LISTED not in issues:
        yield "a history of no issue", (b"", b"fault NoSuchIssue\n", 1), page_of(page, play, None, 0, NOT_LISTED)
    for account, issue, day in histories_asked(play):
        output, errors, status = page_of(page, play, day, account, issue)
        got = recompute.written(figures.past_shown(output)) if status == 0 else output
        due = figures.past_of(play.text, play.opening, account, issue, day)
        yield "a history", (recompute.written(due), b"", 0), (got, errors, status)


NOT_LISTED = b"000000000"


def histories_asked(play):
    """Some accounts in the first issue, up to the last record; and one in the last issue of the first close, up to that."""
    accounts_of = [recompute.CORPORATION, *play.book.members()[:2]]
    asked = [(account, issue, None) for account in accounts_of for issue in play.book.issues()[:1]]
    if play.book.today() > 1:
        then = accounts.Days(play).closed(1).book
        last = [recompute.CORPORATION, *then.members()][-1]
        asked += [(last, issue, then.opening) for issue in then.issues()[-1:]]
    return asked


def answers_accounts(page, play):
    """The figures of the pages of some accounts on some closed days, and what stands on them; there is none of nobody."""
    days, rng = accounts.Days(play), random.Random(play.seed)
    for number in rng.sample(range(1, play.book.today()), min(play.book.today() - 1, 3)):
        day = days.closed(number)
        if day.book.issues():
            due = b"", b"fault NoSuchMember\n", 1
            yield "an account's page of nobody", due, page_of(page, play, day.date, stranger(day.book))
        for account in accounts_asked(day, rng):
            output, errors, status = page_of(page, play, day.date, account)
            got = recompute.written(accounts.shown(output)) if status == 0 else output
            lines = days.page(day, account)
            stands = accounts.stands_on(lines) + accounts.told_of_shorts(day.book, account, number)
            for what in ["", *(f" with {it}" for it in stands)]:
                yield f"an account's page{what}", (recompute.written(lines), b"", 0), (got, errors, status)


def accounts_asked(day, rng):
    """The corporation, a member of a closed day, one that has no row on its sheet, and one of whose shorts most is told."""
    members, owners = day.book.members(), {account for account, _ in day.rows}
    any_one, without = rng.sample(members, min(len(members), 1)), [it for it in members if it not in owners][:1]
    told = sorted(members, key=lambda it: -len(accounts.told_of_shorts(day.book, it, day.day)))[:1]
    return sorted({recompute.CORPORATION, *any_one, *without, *told})


def difference(answers, program, play):
    """The first that differs: what was asked, what was due, and what came. None where all agree."""
    return next((it for it in answers(program, play) if it[1] != it[2]), None)


def cut_down(answers, program, play):
    """A stream that differs too, with few records: pieces are left out as long as that holds."""
    lines = play.text.splitlines(keepends=True)
    size, cuts, end = len(lines) // 2, 0, time.monotonic() + MOST_SECONDS
    while size >= 1 and cuts < MOST_CUTS and time.monotonic() < end:
        place, shorter = 0, False
        while place < len(lines) and cuts < MOST_CUTS and time.monotonic() < end:
            rest = lines[:place] + lines[place + size :]
            cuts += 1
            if difference(answers, program, Play(play.seed, play.opening, b"".join(rest))):
                lines, shorter = rest, True
            else:
                place += size
        size = size if shorter and size == 1 else size // 2
    return Play(play.seed, play.opening, b"".join(lines))


def first_difference(due, got):
    """The first line that differs, by its number, as it was due and as it came."""
    due, got = due.split(b"\n"), got.split(b"\n")
    for number, (one, other) in enumerate(zip(due, got), 1):
        if one != other:
            return f"line {number}: due {one!r}, came {other!r}"
    return f"due {len(due) - 1} lines, came {len(got) - 1}"


def tell(answers, program, play):
    short = cut_down(answers, program, play)
    asked, due, got = difference(answers, program, short) or ("what does not differ again", *[(b"", b"", 0)] * 2)
    print(f"fuzz: seed {play.seed}, {asked}, opened on {play.opening}: {first_difference(due[0], got[0])}")
    print(f"status due {due[2]}, came {got[2]}; standard error due {due[1]!r}, came {got[1]!r}")
    print(f"{len(short.text)} bytes that show it:")
    for line in short.text.splitlines(keepends=True):
        print(f"  {line!r}")


def checks(seed):
    """What a stream is taken by: all by a replay, and each third by the statements, by a run or by pages."""
    return [answers_replay, [answers_statements, answers_run, answers_pages][seed % 3]]


def fuzz(program, page, seeds, seconds):
    """Plays streams by seeds; how often each thing is reached, or None where one differs."""
    begun, count, records, found = time.monotonic(), 0, 0, collections.Counter()
    for seed in seeds:
        if time.monotonic() - begun > seconds:
            break
        play = Play(seed, *streams.stream(seed))
        for answers in checks(seed):
            asked_of = page if answers is answers_pages else program
            for asked, due, got in answers(asked_of, play):
                found[asked] += 1
                if due != got:
                    tell(answers, asked_of, play)
                    return None
        found.update(reached.by(play))
        count += 1
        records += len(play.records)
    took = time.monotonic() - begun
    print(f"fuzz: {count} streams of {records} records agree, seeds {seeds[0]} to {seeds[0] + count - 1}, in {took:.0f} s")
    return found


def main():
    parser = argparse.ArgumentParser(usage=__doc__.split("usage:")[1].split("\n\n")[0])
    parser.add_argument("program", nargs="?")
    parser.add_argument("page", nargs="?")
    parser.add_argument("--model", action="store_true")
    parser.add_argument("--seconds", type=float, default=20)
    parser.add_argument("--seeds", type=int, nargs=2)
    parser.add_argument("--reach", action="store_true")
    asked = parser.parse_args()
    if asked.model:
        differ = check_model()
        print(f"fuzz: the recomputation differs at {' '.join(differ)}" if differ else
              "fuzz: the recomputation agrees with all cases and samples")
        return bool(differ)
    first, count = asked.seeds or (random.SystemRandom().randrange(10**9), 10**6)
    found = fuzz(asked.program, asked.page, range(first, first + count), 10**6 if asked.seeds else asked.seconds)
    return found is None or (asked.reach and not reached.tell(found))


if __name__ == "__main__":
    sys.exit(main())
