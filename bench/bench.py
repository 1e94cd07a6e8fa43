#!/usr/bin/env python3
"""Replays command files of growing size and prints a table: records a second, and bytes of memory a command.

    bench.py PROGRAM [RECORDS ...]

Each file lists 200 members and 1,000 issues, and then trades between them. Every tenth record asks for a position, and
every 20,000th closes the day, 25 times at most. The same size gives the same file.
"""

import os
import random
import shutil
import subprocess
import sys
import tempfile
import threading

OPENING = '2024-06-03'
LEGEND = """
records/s is by processor time. bytes/command is the most memory held, less that for a single record, over the records:
  history         72 bytes for each command, and 56 more for a reply that is not ok alone
  closed sheets   112 bytes a row: one for each closed day, account and issue with a position or a booking
  positions       96 bytes for each account and issue that was ever booked
The files have up to 200,000 pairs of account and issue, and up to 25 closed days."""
VALUES = {c: i for i, c in enumerate('0123456789ABCDEFGHIJKLMNOPQRSTUVWXYZ')}


def cusip(number):
    """A CUSIP whose first eight characters are the number."""
    body = '%08d' % number
    total = 0
    for place, character in enumerate(body):
        value = VALUES[character] * (2 if place % 2 else 1)
        total += value // 10 + value % 10
    return body + str((10 - total % 10) % 10)


def records(count):
    """The records of a file of that size."""
    draw = random.Random(count)
    members = range(1, 201)
    issues = [cusip(number) for number in range(1, 1001)]
    lines = ['MEMBER,%d' % member for member in members]
    lines += ['ISSUE,%s,%d' % (issue, draw.randrange(100, 100_000)) for issue in issues]
    day, date = 3, OPENING
    while len(lines) < count:
        issue = draw.choice(issues)
        if len(lines) % 20_000 == 0 and day < 28:
            day += 1
            date = '2024-06-%02d' % day
            lines.append('CLOSE,' + date)
        elif len(lines) % 10 == 0:
            lines.append('POSITION,%d,%s' % (draw.choice(members), issue))
        else:
            buyer, seller = draw.sample(members, 2)
            shares = draw.randrange(1, 1000)
            lines.append('TRADE,%d,%d,%d,%s,%d,%d,%s'
                         % (len(lines), buyer, seller, issue, shares, shares * 5000, date))
    return lines[:count]


def peak(process):
    """The most memory that a running process has held since it was started, in bytes."""
    with open('/proc/%d/status' % process) as status:
        return next(int(line.split()[1]) * 1024 for line in status if line.startswith('VmHWM:'))


def feed(path, target):
    """Copies the file into a pipe, which stays open."""
    with open(path, 'rb') as source:
        shutil.copyfileobj(source, target)
    target.flush()


def run(program, path, count):
    """Processor seconds of a replay, and the most memory that it held, in bytes."""
    child = subprocess.Popen([program, 'replay', '--open', OPENING], stdin=subprocess.PIPE, stdout=subprocess.PIPE)
    feeder = threading.Thread(target=feed, args=(path, child.stdin))
    feeder.start()
    # Each record of these files gets one line. The memory is read once all are there and before the program ends:
    # what the system tells of it afterwards counts the memory of this script too.
    for _ in range(count):
        child.stdout.readline()
    feeder.join()
    most = peak(child.pid)
    child.stdin.close()
    child.stdout.read()
    _, status, usage = os.wait4(child.pid, 0)
    if status:
        sys.exit('the program failed on %s' % path)
    return usage.ru_utime + usage.ru_stime, most


def main():
    program = sys.argv[1]
    sizes = [int(size) for size in sys.argv[2:]] or [10_000, 100_000, 1_000_000]
    with tempfile.TemporaryDirectory() as folder:
        least = os.path.join(folder, 'least.csv')
        with open(least, 'w') as target:
            target.write('MEMBER,1\n')
        _, floor = run(program, least, 1)
        print('%10s %12s %14s %16s' % ('records', 'seconds', 'records/s', 'bytes/command'))
        for size in sizes:
            path = os.path.join(folder, '%d.csv' % size)
            with open(path, 'w') as target:
                target.write('\n'.join(records(size)) + '\n')
            seconds, most = run(program, path, size)
            print('%10d %12.3f %14.0f %16.0f' % (size, seconds, size / max(seconds, 1e-9), (most - floor) / size))
    print(LEGEND)


if __name__ == '__main__':
    main()
