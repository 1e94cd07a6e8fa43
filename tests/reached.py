"""What the streams of tests/fuzz.py have to reach, each with how often one of them does.

A stream comes as it was played: the book of recompute.py after it, its records and their replies.
"""

import collections
import datetime
import textwrap

import accounts
import recompute

# ---- what is looked for -------------------------------------------------------------------------------------------


# An accepted execution: its place in the list, its notice, its money and what it books for each member that it fills.
Execution = collections.namedtuple("Execution", "place notice money fills")


class Played:
    """What the lines of the list below ask of a stream."""

    def __init__(self, play):
        self.play, self.book, self.opening = play, play.book, play.opening
        self.said = collections.Counter(" ".join(lines[0].split(" ")[:2]) for lines in play.replies)
        self.dates = [self.book.date_of(day) for day in range(1, self.book.today() + 1)]
        self.rows = [line.split(" ") for lines in play.replies for line in lines if line.startswith("row ")]
        self.exchanges = self.book.of_kind("EXCHANGE")
        self.executions = [self.execution(it) for it in self.book.of_kind("EXECUTE")]

    def before(self, place):
        """The book as an accepted activity found it."""
        then = recompute.Book(self.opening)
        then.accepted = self.book.accepted[:place]
        then.entries = [it for it in self.book.entries if it.place < place]
        return then

    def accepted(self, kind, holds=lambda values: True):
        return sum(holds(it.values) for it in self.book.of_kind(kind))

    def paid(self, is_wanted):
        """Issues in which a close pays dividends, where they and the close are wanted."""
        closes = [(it, day) for it in self.book.issues() for day in range(1, self.book.today())]
        return sum(is_wanted(it, self.book.dividends_due(it, day), day) for it, day in closes)

    def is_retired_by(self, issue, day):
        return any(it.values[0] == issue and it.day <= day for it in self.exchanges)

    def execution(self, accepted):
        fills = [it for it in self.book.entries if it.place == accepted.place and it.shares > 0]
        return Execution(accepted.place, self.book.notices()[accepted.values[0] - 1], accepted.values[2], fills)

    def earlier(self, execution):
        """Those of the same batch before it."""
        batch = batch_of(execution.notice)
        return [it for it in self.executions if it.place < execution.place and batch_of(it.notice) == batch]

    def after_others(self, is_wanted):
        """Executions with earlier ones of the same batch that are wanted beside them."""
        return sum(any(is_wanted(other, it) for other in self.earlier(it)) for it in self.executions)

    def used_up(self):
        """Executions beside a liable member of whose liability an earlier one left less than it is short now."""
        count = 0
        for execution in self.executions:
            then, (day, issue) = self.before(execution.place), batch_of(execution.notice)
            filled = [(it, then.filled(it, day)) for it in then.liable(day) if it.issue == issue]
            count += any(given > 0 and it.shares - given < -then.position(it.member, it.issue) for it, given in filled)
        return count

    def widened(self):
        """Closes that make members liable for what no notice of the day calls for by itself."""
        count = 0
        for close in self.book.of_kind("CLOSE"):
            then = self.before(close.place)
            given = [it for it in then.notices() if it.day == close.day and then.is_live(it)]
            for issue in {it.issue for it in given}:
                most = max(then.remaining(it) for it in given if it.issue == issue)
                chosen = then.chosen(issue)
                older = sum(it.shares for it in chosen if it.age > chosen[-1].age)
                count += older >= most > 0
        return count

    def beside_withdrawn(self, is_wanted):
        """Executions beside a notice of the same batch that was withdrawn after the batch was chosen, and is wanted beside
        what was executed before."""
        notices, count = self.book.notices(), 0
        withdrawn = [(it, notices[it.values[0] - 1]) for it in self.book.of_kind("WITHDRAW")]
        for execution in self.executions:
            before = [other.notice for other in self.earlier(execution)]
            count += any(
                it.place < execution.place and it.day > notice.day and batch_of(notice) == batch_of(execution.notice)
                and is_wanted(notice, before)
                for it, notice in withdrawn
            )
        return count

    def pairs(self, is_wanted):
        """Pairs of exchanges that are wanted, the earlier first."""
        return [(one, other) for one in self.exchanges for other in self.exchanges
                if one.place < other.place and is_wanted(one, other)]

    def with_ages(self, pairs, accounts, is_wanted):
        """Those pairs of exchanges of a closed day for which the ages of an account at the close before are wanted: in the
        old issue of the first, in that of the second, and in the successor of the second."""
        return sum(
            one.day < self.book.today() and any(
                self.book.age(account, other.values[1], one.day) and is_wanted(*(
                    self.book.age(account, issue, one.day - 1)
                    for issue in (one.values[0], other.values[0], other.values[1])
                ))
                for account in accounts
            )
            for one, other in pairs
        )


def batch_of(notice):
    return notice.day, notice.issue


def fill_the_same(one, other):
    return bool({it.account for it in one.fills} & {it.account for it in other.fills})


def leaves_more(execution, which):
    """Whether some of the fills pay another sum than their part of the money, cut by itself."""
    shares = sum(it.shares for it in execution.fills)
    return any(-it.cents != execution.money * it.shares // shares for it in execution.fills[which])


def into_one(one, other):
    return one.day == other.day and one.values[1] == other.values[1]


def in_a_row(one, other):
    return one.values[1] == other.values[0]


def in_a_row_today(one, other):
    return one.day == other.day and in_a_row(one, other)


def is_leap_day(date):
    return (date.month, date.day) == (2, 29)


# ---- the list -----------------------------------------------------------------------------------------------------

# What the program was asked; tests/fuzz.py counts these.
ASKED = [
    "replay", "statements of a closed day", "statements of the open day", "statements of no day", "a run of one file",
    "a run of 2 files", "a run of 3 files", "a run of 4 files", "a page of a closed day", "a page of the open day", "a page of no day",
    "a history", "a history of nobody", "a history of no issue", "an account's page", "an account's page of nobody",
    *(f"an account's page with {each}" for each in [*accounts.TABLES, *accounts.CAUSES, accounts.BROUGHT, accounts.MOVED]),
]

ACCEPTED = [kind.decode() for kind in recompute.KINDS if kind not in (b"POSITION", b"STATEMENT")]
FAULTS = ["Kind", "Count", "Number", "Range", "Date", "Cusip"]

LIST = {
    **{f"{kind} accepted": lambda it, kind=kind: it.accepted(kind) for kind in ACCEPTED},
    **{f"refused {number}": lambda it, number=number: it.said[f"refused {number}"] for number in range(1, 21)},
    **{f"line {fault}": lambda it, fault=fault: it.said[f"line {fault}"] for fault in FAULTS},
    "a row with an opening": lambda it: sum(row[2] != "0" for row in it.rows),
    "a row with a price before": lambda it: sum(row[4] != "0.00" for row in it.rows),
    "a row with a dividend": lambda it: sum(row[8] != "0.00" for row in it.rows),
    "two dividends of an issue by one close": lambda it: it.paid(lambda issue, due, day: len(due) > 1),
    "a dividend of a retired issue": lambda it: it.paid(lambda issue, due, day: bool(due) and it.is_retired_by(issue, day)),
    "a sheet of 60 rows": lambda it: sum(
        lines[0].startswith("closed ") and int(lines[0].split(" ")[3]) >= 60 for lines in it.play.replies
    ),
    "opened on the first day of the calendar": lambda it: it.opening == datetime.date.min,
    "opened on its last day": lambda it: it.opening == datetime.date.max,
    "a close up to its last day": lambda it: it.accepted("CLOSE", lambda values: values[0] == datetime.date.max),
    "a 29 February": lambda it: sum(is_leap_day(date) for date in it.dates),
    "a trade for a 29 February": lambda it: it.accepted("TRADE", lambda values: is_leap_day(values[6])),
    "a trade of 10^18 cents": lambda it: it.accepted("TRADE", lambda values: values[5] == 10**18),
    "an execution of 10^18 cents": lambda it: it.accepted("EXECUTE", lambda values: values[2] == 10**18),
    "a split by 10,000": lambda it: it.accepted("SPLIT", lambda values: 10**4 in values[1:3] and values[1] != values[2]),
    "an exchange by 10,000": lambda it: it.accepted("EXCHANGE", lambda values: 10**4 in values[2:4]),
    "three fills of one execution": lambda it: sum(len(execution.fills) >= 3 for execution in it.executions),
    "a last fill that pays what the others leave": lambda it: sum(leaves_more(each, slice(-1, None)) for each in it.executions),
    "one between others that does": lambda it: sum(leaves_more(each, slice(1, -1)) for each in it.executions),
    "a batch for more than one notice calls for": lambda it: it.widened(),
    "executions of two notices of a batch": lambda it: it.after_others(lambda one, other: one.notice != other.notice),
    "a member filled twice by a notice": lambda it: it.after_others(
        lambda one, other: one.notice == other.notice and fill_the_same(one, other)
    ),
    "a member filled by two notices": lambda it: it.after_others(
        lambda one, other: one.notice != other.notice and fill_the_same(one, other)
    ),
    "a fill that what is left of a liability stops": lambda it: it.used_up(),
    "an execution beside a withdrawn notice": lambda it: it.beside_withdrawn(lambda notice, before: True),
    "one beside a notice executed and withdrawn": lambda it: it.beside_withdrawn(lambda notice, before: notice in before),
    "two exchanges of a day into one issue": lambda it: len(it.pairs(into_one)),
    "two that bring ages there, the younger last": lambda it: it.with_ages(
        it.pairs(into_one), it.book.members(), lambda first, second, own: first > second > 0 and first > own
    ),
    "exchanges of a day in a row": lambda it: len(it.pairs(in_a_row_today)),
    "an age carried through both": lambda it: it.with_ages(
        it.pairs(in_a_row_today), it.book.members(), lambda first, second, own: first > max(second, own)
    ),
    "the corporation's carried so": lambda it: it.with_ages(
        it.pairs(in_a_row_today), [0], lambda first, second, own: first > max(second, own)
    ),
    "exchanges of several days in a row": lambda it: len(it.pairs(in_a_row)) - len(it.pairs(in_a_row_today)),
}


def by(play):
    """How often a stream reaches each thing of the list."""
    played = Played(play)
    return collections.Counter({name: int(count(played)) for name, count in LIST.items()})


def tell(found):
    """Prints how often each thing was reached; whether each was."""
    names = [*ASKED, *LIST]
    print(textwrap.fill("reached: " + ", ".join(f"{name}: {found[name]}" for name in names), 124))
    never = [name for name in names if not found[name]]
    if never:
        print("fuzz: never reached: " + ", ".join(never))
    return not never
