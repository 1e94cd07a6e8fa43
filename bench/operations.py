#!/usr/bin/env python3
"""Tells what single operations take, by how many rows the book has.

usage: bench/operations.py PROGRAM [ISSUES MEMBERS]...

A row is a place of a member in an issue. Each issue has the same members: half of them long, half short, since the first day. An
operation follows the records of such a book some times over; what that takes beyond the records without it, in processor time, is
divided by the times. Of each replay the least of three counts.
"""

import os
import subprocess
import sys
import tempfile

from bench import cusip

DAYS = ['2024-06-%02d' % day for day in range(3, 29)]
REPEATS = 3


class Book:
    """The records of a book with members in issues, whose first day is closed."""

    def __init__(self, issues, members):
        self.issues, self.members, self.trades = issues, members, 0
        self.records = ['MEMBER,%d' % member for member in self.accounts()]
        self.records += ['ISSUE,%s,1000' % cusip(issue) for issue in range(2 * issues)]
        for issue in range(issues):
            for long in range(1, members, 2):
                self.records.append(self.trade(issue, long, DAYS[0]))
        self.records.append('CLOSE,%s' % DAYS[1])

    def accounts(self):
        return range(1, self.members + 1)

    def rows(self):
        return self.issues * self.members

    def trade(self, issue, long, day):
        self.trades += 1
        return 'TRADE,%d,%d,%d,%s,100,100000,%s' % (self.trades, long, long + 1, cusip(issue), day)

    # The operations: their records, how many of them there are, and the records that they are beside.

    def trade_today(self):
        count = 20_000
        return [self.trade(it * 37 % self.issues, it * 74 % self.members + 1, DAYS[1]) for it in range(count)], count, []

    def position(self):
        count = 20_000
        return ['POSITION,%d,%s' % (it % self.members + 1, cusip(it * 37 % self.issues)) for it in range(count)], count, []

    def statement(self):
        count = 100
        return ['STATEMENT,%d,%s' % (it % self.members + 1, DAYS[0]) for it in range(count)], count, []

    def split(self):
        count = 50
        return ['SPLIT,%s,2,1,0' % cusip(issue) for issue in range(count)], count, []

    def exchange(self):
        count = 50
        return ['EXCHANGE,%s,%s,1,2,0,0' % (cusip(it), cusip(self.issues + it)) for it in range(count)], count, []

    def close(self):
        count = 10
        return ['CLOSE,%s' % day for day in DAYS[2:2 + count]], count, []

    def payment(self):
        """A dividend that a close pays, beside a close that pays none."""
        count = 50
        closes = ['CLOSE,%s' % day for day in DAYS[2:4]]
        declared = ['DIVIDEND,%s,%s,%s,100000' % (cusip(issue), DAYS[1], DAYS[2]) for issue in range(count)]
        return declared + closes, count, closes

    def execution(self):
        """One of a share, where all that are short in the issue are liable."""
        givers, times = min(50, self.members // 2), 100
        notices = ['NOTICE,%d,%s,%d' % (2 * it + 1, cusip(0), times) for it in range(givers)]
        notices += ['CLOSE,%s' % day for day in DAYS[2:4]]
        executed = ['EXECUTE,%d,1,1000' % (it + 1) for it in range(givers)] * times
        return notices + executed, len(executed), notices


OPERATIONS = [('TRADE', Book.trade_today), ('POSITION', Book.position), ('STATEMENT', Book.statement), ('SPLIT', Book.split),
              ('EXCHANGE', Book.exchange), ('a dividend paid', Book.payment), ('CLOSE', Book.close), ('EXECUTE', Book.execution)]


def seconds(program, path):
    """Processor seconds of a replay, the least of some."""
    least = None
    for _ in range(REPEATS):
        with open(path, 'rb') as records:
            child = subprocess.Popen([program, 'replay', '--open', DAYS[0]], stdin=records, stdout=subprocess.DEVNULL)
            _, status, usage = os.wait4(child.pid, 0)
        if status:
            sys.exit('the program failed')
        spent = usage.ru_utime + usage.ru_stime
        least = spent if least is None else min(least, spent)
    return least


def cost(program, folder, book, operation):
    """Processor milliseconds of an operation."""
    records, count, beside = operation(book)
    spent = []
    for more in (beside, records):
        path = os.path.join(folder, 'records')
        with open(path, 'w') as target:
            target.write('\n'.join(book.records + more) + '\n')
        spent.append(seconds(program, path))
    return max(spent[1] - spent[0], 0) / count * 1000


def main():
    program, sizes = sys.argv[1], [int(it) for it in sys.argv[2:]] or [100, 100, 1_000, 100]
    books = [Book(*pair) for pair in zip(sizes[::2], sizes[1::2])]
    print('%-16s' % 'milliseconds' + ''.join('%12d rows' % book.rows() for book in books))
    with tempfile.TemporaryDirectory() as folder:
        for name, operation in OPERATIONS:
            print('%-16s' % name + ''.join('%17.4f' % cost(program, folder, book, operation) for book in books), flush=True)
    print('A STATEMENT has %s rows; at an EXECUTE %s members are liable.' % (
        ', '.join(str(book.issues) for book in books), ', '.join(str(book.members // 2) for book in books)))


if __name__ == '__main__':
    main()
