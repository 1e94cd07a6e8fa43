"""The figures of the page of an account's closed day: those that cnspage shows, and those that it has to show by
tests/recompute.py.

Both are lines of text, as in tests/figures.py, whose rows of liable members, notices and trades this page has too. What moved a
position is a sum over the entries that are dated within the day, by the kind of the activity that booked them. That it adds up, to
the closing position and to the mark, is asserted of each page, and that its dividends do, to those of the positions.
"""

import collections
import hashlib
import html
import re

from figures import AGAIN, CAUSES, FOOT, ROW, SECTION, Day, Trades, count, dollars, is_question, moved, of_table, ranked, reason
from recompute import CORPORATION, Book, command_of, ended_records, towards_zero

# ---- what a page shows --------------------------------------------------------------------------------------------

HEAD = re.compile(
    r"<title>(?P<name>Account \d+ on )(?P<date>\S+)</title>.*<h1>(?P=name)<span[^>]*>(?P=date)</span></h1>\s*<p>Day (\d+), as its close left it\."
    r" Market value of the positions \(dollars\): long (\S+), short (\S+), net (\S+)\."
    r" Mark (\S+), dividends (\S+)\. The next day is (\S+)\.</p>",
    re.DOTALL,
)


def shown(page):
    """The figures that a page shows, and the names of its tables."""
    page = page.decode()
    name, *figures = HEAD.search(page).groups()
    lines = [f"head {name}" + " ".join(figures)]
    for name, text in SECTION.findall(page):
        lines += [f"table {name}", *(" ".join([name, *of_table(name, row)]) for row in ROW.findall(text))]
    return [*lines, html.unescape(AGAIN.search(page)[1]), " ".join(["foot", *FOOT.search(page).groups()])]


# ---- what it has to show ------------------------------------------------------------------------------------------

# The fields that name accounts, by the kind of the record.
NAMING = {"TRADE": [1, 2], **dict.fromkeys(["MEMBER", "DELIVER", "RECEIVE", "NOTICE", "POSITION", "STATEMENT"], [0])}
# What was booked in an issue at once: the number of the record, its words, and the entries.
Step = collections.namedtuple("Step", "number issue what entries")
DUE = "Trades that were due, booked by the close"


def words(account, kind, values):
    """What booked for an account, as a page says it."""
    if kind == "TRADE":
        reference, buyer, seller = values[:3]
        return f"Trade {reference}: " + (f"bought from member {seller}" if account == buyer else f"sold to member {buyer}")
    if kind == "EXCHANGE":
        old, successor = (it.decode() for it in values[:2])
        return f"Exchange of {old} for {successor}: {values[2]} new for {values[3]} old"
    return {
        "DELIVER": f"Delivered by member {values[0]}",
        "RECEIVE": f"Received by member {values[0]}",
        "SPLIT": f"Split: {values[1]} new for {values[-2]} old",
        "EXECUTE": f"Buy-in execution of notice {values[0]}",
    }[kind]


def rate_text(rate):
    return f"{rate // 10**6:,}.{rate % 10**6:06}"


# ---- how long a short has stood, and what was exchanged for it


def first_short(book, account, issue, day):
    """The day of the first of the closes in a row, up to that of a day, at which an account was short in an issue or in one that was
    turned into it: of several the first. None where it is not short at the last of them."""
    if day == 0 or book.position_at_close(account, issue, day) >= 0:
        return None
    before = [first_short(book, account, it, day - 1) for it in book.turned_into(issue, day)]
    return min([it for it in before if it], default=day)


def behind(book, issue):
    """An issue, with those that were exchanged for it, directly or by further exchanges."""
    exchanges, found = [it.values[:2] for it in book.of_kind("EXCHANGE")], [issue]
    for each in found:
        found += [old for old, successor in exchanges if successor == each]
    return found


def change_while_short(book, account, issues, first, last):
    """What the price did, on the days after one up to another, to what was short in issues when they began."""
    moves = [
        (book.position_at_close(account, it, day - 1), book.price(it, day) - book.price(it, day - 1))
        for day in range(first + 1, last + 1)
        for it in issues
    ]
    return sum(opening * change for opening, change in moves if opening < 0)


# What may be told of the shorts of a member: that an exchange brought an age, and that the price moved one before its exchange.
BROUGHT, MOVED = "a fail whose age was brought", "a fail that moved before its exchange"


def told_of_shorts(book, account, day):
    """Which of these two is so of a member at the close of a day."""
    if account == CORPORATION:
        return []
    firsts = [(it, first_short(book, account, it, day)) for it in book.issues()]
    brought = [(it, first) for it, first in firsts if first and book.position_at_close(account, it, first) >= 0]
    moved = any(change_while_short(book, account, behind(book, it)[1:], first, day) for it, first in brought)
    return [BROUGHT] * bool(brought) + [MOVED] * moved


class Own:
    """What the day that a book has just closed did to an account, of whose refused records some are given."""

    def __init__(self, day, account, numbers, refused, others):
        self.day, self.book, self.account, self.numbers, self.refused = day, day.book, account, numbers, refused
        self.others = others
        self.rows = self.book.rows(account, day.day)
        self.booked = [it for it in self.book.entries if it.account == account and day.is_of_day(it)]

    # -- its positions

    def head(self):
        worth = [it.closing * it.price for it in self.rows]
        sums = sum(it for it in worth if it > 0), sum(it for it in worth if it < 0), sum(worth)
        stated = sum(it.mark for it in self.rows), sum(it.dividend for it in self.rows)
        return [f"Account {self.account} on {self.day.date}", self.day.day, *map(dollars, sums + stated), self.day.next]

    def positions(self):
        for row in self.rows:
            shares = [row.opening, *(it.shares for it in self.day.moves(self.account, row)), row.closing]
            amounts = row.price, row.closing * row.price, row.mark, row.dividend
            age = self.book.age(self.account, row.issue, self.day.day)
            yield [row.issue.decode(), *map(count, shares), age, *map(dollars, amounts)]

    def marks(self):
        for row in self.rows:
            amounts = row.opening_price, row.price, *self.day.parts(self.account, row), row.mark, row.cents
            yield [row.issue.decode(), *map(dollars, amounts)]

    # -- dividends

    def cash(self, account, issue, recorded, rate):
        """What a dividend pays an account; the corporation's is the opposite of the members' sum."""
        if account == CORPORATION:
            return -sum(self.cash(it, issue, recorded, rate) for it in self.book.members())
        return towards_zero(self.position_on(account, issue, recorded) * rate, 10000)

    def position_on(self, account, issue, recorded):
        return self.book.position_at_close(account, issue, self.book.last_close_by(recorded))

    def dividends(self):
        """The dividends that the close paid to the account or took from it."""
        paid = dict.fromkeys(self.book.issues(), 0)
        for issue in paid:
            for _, recorded, payable, rate in self.book.dividends_due(issue, self.day.day):
                position, cents = self.position_on(self.account, issue, recorded), self.cash(self.account, issue, recorded, rate)
                paid[issue] += cents
                if position or self.account == CORPORATION:
                    yield [issue.decode(), recorded, payable, rate_text(rate), count(position), dollars(cents)]
        assert {it: cents for it, cents in paid.items() if cents} == {it.issue: it.dividend for it in self.rows if it.dividend}

    # -- what comes

    def due(self):
        """In each issue: the closing position, with what the close booked into the next day, and with all that is pending."""
        for issue in self.book.issues():
            row = self.day.due_at(self.account, issue)
            if any(row):
                yield [issue.decode(), *map(count, row)]

    # -- its fails

    def fails(self):
        """Its shorts, the oldest first, each with the first close of its age and what the price did to it since."""
        shorts = [it for it in self.rows if it.closing < 0 and self.account != CORPORATION]
        firsts = [(first_short(self.book, self.account, it.issue, self.day.day), it) for it in shorts]
        for first, it in sorted(firsts, key=lambda it: it[0]):
            change = change_while_short(self.book, self.account, behind(self.book, it.issue), first, self.day.day)
            shares, amounts = (it.opening, it.closing), (it.price, it.closing * it.price, change)
            age, since = self.day.day + 1 - first, self.book.date_of(first)
            yield [it.issue.decode(), age, since, *map(count, shares), *map(dollars, amounts)]

    # -- the account's own rows of the tables of the day, by the columns that name members

    def liable(self):
        return [it for it in self.day.liable() if it[2] == self.account]

    def notices(self):
        return [it for it in self.day.notices() if it[2] == self.account]

    def projection(self):
        return [it for it in self.day.projection() if self.account in it[2:4]]

    # -- records

    def steps(self):
        """What booked, in order: the close before, issue by issue, and then the day's records. An exchange books in the old
        issue before the successor."""
        waited = [it for it in self.booked if self.day.activity(it).day < self.day.day]
        for issue in sorted({it.issue for it in waited}):
            close = self.book.of_kind("CLOSE")[self.day.day - 2]
            yield Step(self.numbers[close.place], issue, DUE, [it for it in waited if it.issue == issue])
        for place in sorted({it.place for it in self.booked} - {it.place for it in waited}):
            _, _, kind, values = self.book.accepted[place]
            what, own = words(self.account, kind, values), [it for it in self.booked if it.place == place]
            for issue in values[:2] if kind == "EXCHANGE" else {it.issue for it in own}:
                yield Step(self.numbers[place], issue, what, [it for it in own if it.issue == issue])

    def bookings(self):
        stands = {issue: self.book.position_at_close(self.account, issue, self.day.day - 1) for issue in self.book.issues()}
        for number, issue, what, entries in self.steps():
            shares, cents = moved(entries)
            stands[issue] += shares
            if shares or cents:
                yield [number, issue.decode(), what, count(shares), dollars(cents), count(stands[issue])]
        assert all(stands[it.issue] == it.closing for it in self.rows)

    def exceptions(self):
        for number, why, kind, values in self.refused:
            if self.account in [values[it] for it in NAMING.get(kind, [])]:
                yield [number, f"Refused {why}", *self.others.get(number, [])]

    # -- the page

    def lines(self, first):
        """The page, which is made of the first bytes of the records."""
        tables = [(name, list(getattr(self, name)())) for name in TABLES]
        shown = [line for name, rows in tables for line in [["table", name], *([name, *row] for row in rows)]]
        options = ["--open", self.book.opening, "--day", self.day.date, "--account", self.account]
        again = ["cnspage", *options, "< records > page.html"]
        foot = ["foot", len(first), hashlib.sha256(first).hexdigest(), sum(len(rows) for _, rows in tables)]
        return [" ".join(map(str, it)) for it in (["head", *self.head()], *shown, again, foot)]


TABLES = ["positions", "marks", "dividends", "due", "fails", "liable", "notices", "projection", "bookings", "exceptions"]


def stands_on(lines):
    """The tables of a page that have rows, and the columns of movements that are not all 0."""
    tables = [name for name in TABLES if any(line.startswith(f"{name} ") for line in lines)]
    rows = [line.split(" ") for line in lines if line.startswith("positions ")]
    return tables + [cause for place, cause in enumerate(CAUSES, 3) if any(row[place] != "0" for row in rows)]


class Days:
    """The closed days of records that were played, found by the book after all of them."""

    def __init__(self, play):
        self.text, self.book = play.text, play.book
        self.records = list(ended_records(play.text))
        self.reasons = [reason(lines[0]) for lines in play.replies]
        self.trades = Trades()
        for number, ((record, _), lines) in enumerate(zip(self.records, play.replies), 1):
            self.trades.add(number, record, lines[0])
        self.numbers = [number for number, lines in enumerate(play.replies, 1) if is_accepted(lines[0])]
        assert len(self.numbers) == len(play.book.accepted)

    def closed(self, day):
        """A closed day, of the book as its close left it."""
        then = Book(self.book.opening)
        close = self.book.of_kind("CLOSE")[day - 1].place
        then.accepted = self.book.accepted[: close + 1]
        then.entries = [it for it in self.book.entries if it.place <= close]
        return Day(then)

    def page(self, day, account):
        """What the page of an account on a closed day has to show."""
        start, end = (self.numbers[close.place] if close else 0 for close in ([None] + day.book.of_kind("CLOSE"))[-2:])
        own = Own(day, account, self.numbers, self.refused(start, end), self.trades.others(end))
        return own.lines(self.text[: self.records[end - 1][1]])

    def refused(self, start, end):
        """Those of the first exceptions between two records that are commands: number, reason, kind and values."""
        found = [it for it in range(start, end) if self.reasons[it] is not None]
        found = ranked([(it, self.reasons[it], is_question(self.records[it][0], self.reasons[it])) for it in found])
        return [(it + 1, why, *command_of(self.records[it][0])) for it, why, _ in found if why]


def is_accepted(line):
    """Whether a reply is that to an activity that was accepted."""
    return line.split(" ")[0] in ("ok", "notice", "executed", "closed")
