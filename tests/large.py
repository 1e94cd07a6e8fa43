#!/usr/bin/env python3
"""Gives the programs inputs in which there is much of each thing, and compares what they write.

usage: tests/large.py PROGRAM PAGE

A contract lets a call find no memory at any time. That no command gives up because there is much to keep is shown here: a
hundred thousand issues, more than a million rows, thousands of pending trades, notices, dividends, closed days. What is due
follows from how each input is made. Prints a line for each input; the status is 1 where one is answered otherwise.
"""

import datetime
import pathlib
import resource
import subprocess
import sys
import tempfile

OPENING = datetime.date(2024, 6, 3)
ISSUE, OTHER = "17275R102", "594918104"

# What stands on the page of many things, and how often: the first 200 exceptions, and the counts of all. Member 1 has sold its
# share, so its notice is refused too.
PAGE_MARKS = {b"<td><code>": 200, b"member exists<td>1,000\n": 1, b"not long<td>1\n": 1}
# And on that of member 2000, which has sold a share to each of a thousand: their seller, and once liable; short since the first day.
OWN_MARKS = {b"<td>2000<td>": 1_001, b"<td>-999<td>-1,000<td>-1,999<td>-1,999\n": 1, b"<td>100<td>2024-06-03<td>-999<td>-999<td>": 1}


def cusip(number):
    """The issue whose first eight characters are a number."""
    body = f"{number:08}"
    doubled = [int(digit) * (2 if place % 2 else 1) for place, digit in enumerate(body)]
    return body + str((10 - sum(it // 10 + it % 10 for it in doubled) % 10) % 10)


def date(day):
    """The date of a day of these books, each of which is closed on the next date. Days count from 1."""
    return (OPENING + datetime.timedelta(day - 1)).isoformat()


class Session:
    """Records, and the lines that are due to them."""

    def __init__(self):
        self.records, self.due, self.references = [], [], 0

    def ask(self, record, *lines):
        self.records.append(record)
        self.due.extend(lines)

    def accept(self, *records):
        for record in records:
            self.ask(record, "ok")

    def members(self, numbers):
        self.accept(*(f"MEMBER,{number}" for number in numbers))

    def trade(self, buyer, seller, issue, shares, day=1):
        self.references += 1
        self.accept(f"TRADE,{self.references},{buyer},{seller},{issue},{shares},0,{date(day)}")

    def close(self, day, rows, *liable):
        """Closes a day, with so many rows and these liable members: issue, member, shares and age."""
        lines = (f"liable {issue} {member} {shares} {age}" for issue, member, shares, age in liable)
        self.ask(f"CLOSE,{date(day + 1)}", f"closed {day} {date(day)} {rows} {len(liable)}", *lines)

    def position(self, account, issue, now, opening=0, age=0):
        self.ask(f"POSITION,{account},{issue}", f"position {account} {issue} {now} {opening} 0.00 {age}")


def members():
    it = Session()
    it.members(range(1, 10_000))
    it.ask("MEMBER,5000", "refused 1")
    return it


def issues():
    it = Session()
    it.accept(*(f"ISSUE,{cusip(number)},100" for number in range(100_000)))
    it.ask(f"ISSUE,{cusip(65_536)},100", "refused 3")
    it.accept(f"PRICE,{cusip(99_999)},1")
    it.close(1, 0)
    return it


def issues_of_an_account():
    """A member is long in more issues than sixteen bits count."""
    it = Session()
    it.members([1, 2])
    rows, worth = [], 0
    for number in range(70_000):
        shares = number % 1_000 + 1
        it.accept(f"ISSUE,{cusip(number)},100")
        it.trade(1, 2, cusip(number), shares)
        rows.append(f"row {cusip(number)} 0 {shares} 0.00 1.00 0.00 {shares}.00 0.00")
        worth += shares
    it.position(1, cusip(65_536), 537)
    it.close(1, 140_000)
    it.ask(f"STATEMENT,1,{date(1)}", f"statement 1 {date(1)} 70000 {worth}.00 0.00", *rows)
    return it


def pending_trades():
    """Five thousand pending trades of ten thousand keys."""
    it = Session()
    it.members(range(1, 201))
    it.accept(*(f"ISSUE,{cusip(number)},100" for number in range(50)))
    for number in range(5_000):
        it.trade(1 + number // 50, 101 + number // 50, cusip(number % 50), 1 + number % 7, day=2)
    it.ask(f"EXCHANGE,{cusip(0)},{cusip(1)},1,1,0,0", "refused 20")
    it.close(1, 0)
    it.position(100, cusip(49), 1 + 4_999 % 7)
    it.position(200, cusip(49), -1 - 4_999 % 7)
    it.close(2, 10_000)
    it.accept(f"SPLIT,{cusip(49)},2,1,0", f"EXCHANGE,{cusip(0)},{cusip(1)},1,1,0,0")
    it.position(100, cusip(49), 2 + 2 * (4_999 % 7), 1 + 4_999 % 7)
    it.close(3, 10_000)
    return it


def rows():
    """More than a million rows, which a close with a due trade passes on to the next day."""
    it = Session()
    it.members(range(1, 1_101))
    for number in range(1_000):
        issue = cusip(number)
        it.accept(f"ISSUE,{issue},100")
        for member in range(1, 1_101, 2):
            it.trade(member, member + 1, issue, member)
    it.trade(1, 2, cusip(0), 5, day=2)
    it.close(1, 1_100_000)
    it.position(1, cusip(0), 6, 1)
    it.position(1_100, cusip(999), -1_099, -1_099, 1)
    it.accept(f"SPLIT,{cusip(999)},3,1,0", f"EXCHANGE,{cusip(998)},{cusip(997)},1,1,0,0")
    it.position(1_100, cusip(999), -3_297, -1_099, 1)
    it.position(1_100, cusip(997), -2_198, -1_099, 1)
    it.close(2, 1_100_000)
    return it


def notices():
    """Three thousand notices of one issue, and one that three thousand members are liable for."""
    it = Session()
    longs, shorts = range(1, 3_001), range(3_001, 6_001)
    it.members([*longs, *shorts, 9_999])
    it.accept(f"ISSUE,{ISSUE},100", f"ISSUE,{OTHER},100")
    for long, short in zip(longs, shorts):
        it.trade(long, short, ISSUE, 10)
        it.trade(9_999, short, OTHER, 10)
    for number, long in enumerate(longs, 1):
        it.ask(f"NOTICE,{long},{ISSUE},10", f"notice {number}")
    it.ask(f"NOTICE,9999,{OTHER},30000", "notice 3001")
    it.close(1, 9_001, *((issue, short, 10, 1) for issue in (ISSUE, OTHER) for short in shorts))
    it.close(2, 9_001)
    it.ask("EXECUTE,3001,30000,0", "executed 3000")
    it.ask("EXECUTE,3000,10,0", "executed 1")
    it.ask("EXECUTE,3000,1,0", "refused 10")
    it.accept("WITHDRAW,2999")
    it.position(3_001, ISSUE, 0, -10, 2)
    it.position(6_000, OTHER, 0, -10, 2)
    it.close(3, 9_001)
    it.ask("WITHDRAW,1", "refused 15")
    it.accept(f"SPLIT,{ISSUE},2,1,0")
    it.position(1, ISSUE, 20, 10)
    return it


def batches():
    """A thousand batches of one day."""
    it = Session()
    it.members([1, 2])
    named = [cusip(number) for number in range(1_000)]
    for number, issue in enumerate(named, 1):
        it.accept(f"ISSUE,{issue},100")
        it.trade(1, 2, issue, 3)
        it.ask(f"NOTICE,1,{issue},2", f"notice {number}")
    it.close(1, 2_000, *((issue, 2, 3, 1) for issue in named))
    it.close(2, 2_000)
    it.ask("EXECUTE,1000,2,0", "executed 1")
    it.position(2, named[-1], -1, -3, 2)
    return it


def dividends():
    """Three thousand dividends of ten cents each, due at one close."""
    it = Session()
    it.members([1, 2])
    it.accept(f"ISSUE,{ISSUE},100")
    it.trade(1, 2, ISSUE, 10)
    it.accept(*[f"DIVIDEND,{ISSUE},{date(1)},{date(2)},10000"] * 3_000)
    it.close(1, 2)
    it.close(2, 2)
    it.ask(f"STATEMENT,2,{date(2)}", f"statement 2 {date(2)} 1 0.00 -300.00",
           f"row {ISSUE} -10 -10 1.00 1.00 0.00 0.00 -300.00")
    return it


def references():
    """References as far from one another as they can be."""
    it = Session()
    it.members([1, 2])
    it.accept(f"ISSUE,{ISSUE},100")
    used = [number * 10**14 for number in range(1, 10_001)]
    it.accept(*(f"TRADE,{reference},1,2,{ISSUE},1,0,{date(1)}" for reference in used))
    it.ask(f"TRADE,{used[6_000]},1,2,{ISSUE},1,0,{date(1)}", "refused 9")
    it.position(2, ISSUE, -10_000)
    return it


def closed_days():
    it = Session()
    it.members([1, 2])
    it.accept(f"ISSUE,{ISSUE},100")
    it.trade(1, 2, ISSUE, 10)
    it.close(1, 2)
    for day in range(2, 4_001):
        it.close(day, 2)
    it.trade(1, 2, ISSUE, 1, day=4_001)
    it.ask(f"NOTICE,1,{ISSUE},5", "notice 1")
    it.position(2, ISSUE, -11, -10, 4_000)
    it.ask(f"STATEMENT,1,{date(2_500)}", f"statement 1 {date(2_500)} 1 0.00 0.00",
           f"row {ISSUE} 10 10 1.00 1.00 0.00 0.00 0.00")
    return it


def history():
    it = Session()
    for _ in range(1_200_000):
        it.ask("WITHDRAW,1", "refused 14")
    return it


REPLAYED = [members, issues, issues_of_an_account, pending_trades, rows, notices, batches, dividends, references,
            closed_days, history]


def text(lines):
    return "".join(line + "\n" for line in lines).encode()


def check(name, run, due):
    if run.returncode or run.stderr or run.stdout != due:
        first = next((place for place, pair in enumerate(zip(run.stdout.splitlines(), due.splitlines()), 1)
                      if pair[0] != pair[1]), "another count of lines")
        sys.exit(f"large: {name}: status {run.returncode}, {run.stderr[:200]!r}, first other line: {first}")
    print(f"large: {name}")


def replay(program, make):
    session = make()
    run = subprocess.run([program, "replay", "--open", date(1)], input=text(session.records), capture_output=True)
    check(make.__name__.replace("_", " "), run, text(session.due))


def room_of_records(program):
    """A million accepted records fit in 100 MB, as the history keeps each in 72 bytes and doubles its room: nothing but memory shows
    that."""
    room = 100_000_000
    records = text([f"ISSUE,{ISSUE},100"] + [f"PRICE,{ISSUE},100"] * 1_000_000)
    run = subprocess.run([program, "replay", "--open", date(1)], input=records, capture_output=True,
                         preexec_fn=lambda: resource.setrlimit(resource.RLIMIT_DATA, (room, room)))
    check("a million accepted records in 100 MB", run, text(["ok"] * 1_000_001))


def run_files(program):
    """A worker reads more than a million records, and another one a few."""
    with tempfile.TemporaryDirectory() as room:
        long, short = pathlib.Path(room, "long"), pathlib.Path(room, "short")
        long.write_bytes(text(["WITHDRAW,1"] * 1_200_000))
        short.write_bytes(text(["MEMBER,1", "MEMBER,2", "x"]))
        run = subprocess.run([program, "run", "--open", date(1), long, short], capture_output=True)
    due = '{"closes":0,"commands":1200002,"counts":[1200000,2],"dividends":"0.00","lines":1,"marks":"0.00"}'
    check("two files, one of 1,200,000 records", run, text([due]))


def run_many_files(program):
    """As many files as there may be, each with members of its own, a record at fault and a command that a rule refuses."""
    with tempfile.TemporaryDirectory() as room:
        files = [pathlib.Path(room, str(number)) for number in range(64)]
        for number, file in enumerate(files):
            joining = (f"MEMBER,{member}" for member in range(1 + 100 * number, 101 + 100 * number))
            file.write_bytes(text([*joining, "x", "WITHDRAW,1"]))
        run = subprocess.run([program, "run", "--open", date(1), *files], capture_output=True)
    counts = ",".join(["101"] * 64)
    due = f'{{"closes":0,"commands":6464,"counts":[{counts}],"dividends":"0.00","lines":64,"marks":"0.00"}}'
    check("64 files", run, text([due]))


def statements(program):
    """The statements of all members, the last of whom has many rows, by as many workers as there may be."""
    session = Session()
    session.members(range(1, 10_000))
    session.accept(f"ISSUE,{ISSUE},100", *(f"ISSUE,{cusip(number)},100" for number in range(2_000)))
    session.accept(*["PRICE,17275R102,100"] * 60_000)
    due = []
    for member in range(1, 9_999):
        if member % 2:
            session.trade(member, member + 1, ISSUE, member)
        shares = member if member % 2 else 1 - member
        due += [f"statement {member} {date(1)} 1 {shares}.00 0.00",
                f"row {ISSUE} 0 {shares} 0.00 1.00 0.00 {shares}.00 0.00"]
    due[2:4] = ["statement 2 2024-06-03 2001 -2001.00 0.00",
                *(f"row {cusip(number)} 0 -1 0.00 1.00 0.00 -1.00 0.00" for number in range(2_000)), due[3]]
    due += ["statement 9999 2024-06-03 2000 2000.00 0.00"]
    for number in range(2_000):
        session.trade(9_999, 2, cusip(number), 1)
        due += [f"row {cusip(number)} 0 1 0.00 1.00 0.00 1.00 0.00"]
    session.close(1, 13_998)
    for workers in "1", "64":
        words = ["statements", "--open", date(1), "--day", date(1), "--workers", workers]
        run = subprocess.run([program, *words], input=text(session.records), capture_output=True)
        check(f"statements of 9,999 members by {workers}", run, text(due))


def page(program):
    """A page of the last of a hundred days, with a thousand refused records, and as many shorts, notices and pending trades."""
    it = Session()
    it.members(range(1, 2_001))
    it.accept(f"ISSUE,{ISSUE},100")
    for member in range(1, 1_001):
        it.trade(member, 1_000 + member, ISSUE, member)
        it.trade(1_000 + member, member, ISSUE, 1, day=2)
    for day in range(1, 100):
        it.close(day, 2_000)
    for member in range(1, 1_001):
        it.ask(f"MEMBER,{member}", "refused 1")
        it.ask(f"NOTICE,{member},{ISSUE},1", "..")
        it.trade(member, 2_000, ISSUE, 1, day=101)
    it.accept(*["PRICE,17275R102,100"] * 60_000)
    it.close(100, 2_000)
    words = [program, "--open", date(1), "--day", date(100)]
    look("a page of a hundred days and a thousand refused records", words, it.records, PAGE_MARKS)
    look("a page of an account with a thousand pending trades", [*words, "--account", "2000"], it.records, OWN_MARKS)


def look(name, words, records, marks):
    """Looks for what stands on a page."""
    run = subprocess.run(words, input=text(records), capture_output=True)
    counts = [run.stdout.count(mark) for mark in marks]
    if run.returncode or run.stderr or not run.stdout.endswith(b"</html>\n") or counts != list(marks.values()):
        sys.exit(f"large: {name}: status {run.returncode}, {run.stderr[:200]!r}, counts {counts}")
    print(f"large: {name}")


def main():
    program = sys.argv[1]
    for make in REPLAYED:
        replay(program, make)
    room_of_records(program)
    run_files(program)
    run_many_files(program)
    statements(program)
    page(sys.argv[2])


if __name__ == "__main__":
    main()
