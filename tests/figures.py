"""The figures of the page of a day and of a history: those that cnspage shows, and those that it has to show by
tests/recompute.py.

Both are lines of text, a table's name before the cells of each of its rows, so that they can be compared as replies are.
"""

import collections
import hashlib
import html
import re

from recompute import CORPORATION, Book, ended_records

# ---- what a page shows --------------------------------------------------------------------------------------------

HEAD = re.compile(
    r"<h1>Closed day (\S+)</h1>\s*<p>Day (\d+) of the book, as its close left it: records (\d+) to (\d+); exceptions: ([\d,]+)\."
    r" The next day is (\S+)\.</p>"
)
OPEN = re.compile(
    r"<h1>Open day (\S+)</h1>\s*<p>Day (\d+) of the book so far\. Records after number (\d+): ([\d,]+); exceptions: ([\d,]+)\.</p>"
)
PAST = re.compile(
    r"<h1>History of account (\d+) in (\S+)</h1>\s*<p>A book that opened on (\S+), from its first record to record (\d+)\."
    r" The position after it: (\S+) \(shares\)\.</p>"
)
FOOT = re.compile(
    r"of the first (\d+) bytes of the records, whose SHA-256 is <code>(\w+)</code>\.</p>\s*"
    r"<p>End of the page\. Its tables have so many rows: (\d+)</p>\s*</footer>\s*</html>\s*$"
)
# The line that makes a page again.
AGAIN = re.compile(r"<code>(cnspage [^<]*)</code>")
SECTION = re.compile(r"<section aria-labelledby=(\w+)>(.*?)</section>", re.DOTALL)
# A text of a record may have line ends, but no angle brackets of its own.
ROW = re.compile(r"<tr[^>]*><th scope=row[^>]*>(.*?)(?=\n<tr|\n</t)", re.DOTALL)
REASON = re.compile(r"<strong>(Invalid record|Refused \d+)</strong>")
OTHER = re.compile(r" (?:of|Put right by) record (\d+)")


def cells(row):
    return [html.unescape(re.sub(r"<[^>]*>", "", cell)) for cell in row.split("<td>")]


def of_table(name, row):
    """The cells of a row that are figures: of an exception its record, why it is one, and the record that used its reference or put
    it right, of control totals their counts."""
    if name == "exceptions":
        return [cells(row)[0], REASON.search(row)[1], *OTHER.findall(row)]
    return cells(row)[1:] if name == "totals" else cells(row)


def shown(page):
    """The figures that a page shows."""
    page = page.decode()
    head = HEAD.search(page) or OPEN.search(page)
    lines = ["head " + " ".join(head.groups())]
    for name, text in SECTION.findall(page):
        lines += [" ".join([name, *of_table(name, row)]) for row in ROW.findall(text)]
    return lines + ["foot " + " ".join(FOOT.search(page).groups())]


def past_shown(page):
    """The figures that a history shows."""
    page = page.decode()
    rows = [cells(row) for row in ROW.findall(page)]
    lines = [" ".join(PAST.search(page).groups())] + [" ".join(row[:2] + row[3:]) for row in rows]
    return lines + [html.unescape(AGAIN.search(page)[1]), "foot " + " ".join(FOOT.search(page).groups())]


# ---- what it has to show ------------------------------------------------------------------------------------------


def count(number):
    """A number of shares or of other things, with commas between thousands."""
    return f"{number:,}"


def dollars(cents):
    """An amount, with commas between thousands."""
    return f"{'-' if cents < 0 else ''}{abs(cents) // 100:,}.{abs(cents) % 100:02}"


# The kinds that book, by the column in which a page has what they move.
CAUSES = {
    "settling trades": ["TRADE"],
    "delivered": ["DELIVER"],
    "received": ["RECEIVE"],
    "corporate actions": ["SPLIT", "EXCHANGE"],
    "buy-ins": ["EXECUTE"],
}
# What was booked for a cause.
Moved = collections.namedtuple("Moved", "shares cents")


def moved(entries):
    return Moved(sum(it.shares for it in entries), sum(it.cents for it in entries))


class Day:
    """The day that a book has just closed."""

    def __init__(self, book):
        self.book, self.day = book, book.today() - 1
        self.date, self.next = book.date_of(self.day), book.date_today()
        self.rows = [(account, it) for account in [CORPORATION] + book.members() for it in book.rows(account, self.day)]
        self.booked = collections.defaultdict(list)
        for it in book.entries:
            if self.is_of_day(it):
                self.booked[it.account, it.issue].append(it)

    # -- what moved the positions

    def is_of_day(self, entry):
        """Whether what an activity books is dated after the day before, and not after this one."""
        before = self.book.date_of(self.day - 1) if self.day > 1 else None
        return entry.date <= self.date and (before is None or entry.date > before)

    def activity(self, entry):
        return self.book.accepted[entry.place]

    def moves(self, account, row):
        """What each cause moved at the place of a row."""
        booked = self.booked[account, row.issue]
        moves = [moved([it for it in booked if self.activity(it).kind in kinds]) for kinds in CAUSES.values()]
        assert row.opening + sum(it.shares for it in moves) == row.closing
        assert sum(it.cents for it in moves) == row.cents
        return moves

    def parts(self, account, row):
        """What the mark of a row comes from: the price change on its opening position, and each cause."""
        parts = [row.opening * (row.price - row.opening_price)]
        parts += [it.shares * row.price + it.cents for it in self.moves(account, row)]
        assert sum(parts) == row.mark
        return parts

    # -- its tables

    def amounts(self, rows):
        """The sums of money, of the parts of the marks, of marks and of dividends."""
        of_each = [[it.cents, *self.parts(account, it), it.mark, it.dividend] for account, it in rows]
        return [dollars(sum(column)) for column in zip(*of_each)] or [dollars(0)] * (4 + len(CAUSES))

    def accounts(self):
        """The sums over all rows, and each account's rows after the sums of its own."""
        yield ["All accounts", "", "", "", "", *self.amounts(self.rows)]
        last = None
        for account, row in self.rows:
            if account != last:
                yield [f"Account {account}", *self.amounts([it for it in self.rows if it[0] == account])]
            last = account
            figures = count(row.opening), count(row.closing), dollars(row.opening_price), dollars(row.price)
            yield [row.issue.decode(), *figures, *self.amounts([(account, row)])]

    def issues(self):
        """The sums by issue over all accounts."""
        for issue in sorted({it.issue for _, it in self.rows}):
            rows = [it for _, it in self.rows if it.issue == issue]
            sums = [sum(side(it.closing, 0) for it in rows) for side in (max, min)]
            zeros = [sum(getattr(it, name) for it in rows) for name in ("closing", "cents", "mark", "dividend")]
            assert zeros == [0] * 4
            yield [issue.decode(), *map(count, [*sums, zeros[0]]), *map(dollars, zeros[1:])]

    def shorts(self):
        return [(account, it) for account, it in self.rows if account != CORPORATION and it.closing < 0]

    def fails(self):
        aged = [(self.book.age(account, it.issue, self.day), account, it) for account, it in self.shorts()]
        for age, account, row in sorted(aged, key=lambda it: -it[0]):
            yield [row.issue.decode(), account, age, count(row.opening), count(row.closing)]

    def liable(self):
        for day in range(max(self.day - 1, 1), self.day + 1):
            for it in self.book.liable(day):
                yield [it.issue.decode(), day, it.member, it.age, count(it.shares), count(it.shares - self.book.filled(it, day))]

    def notices(self):
        for it in self.book.notices():
            if self.book.is_live(it):
                shares = count(it.shares), count(self.book.remaining(it))
                yield [it.issue.decode(), it.number, it.member, shares[0], it.day, shares[1], it.day + 2]

    def later(self):
        """The trades that settle after the day."""
        return [it.values for it in self.book.of_kind("TRADE") if it.values[-1] > self.date]

    def due_at(self, account, issue):
        """The closing position, what the close booked into the next day, what is due then, and the same with all that is pending."""
        closing, due = self.book.position_at_close(account, issue, self.day), self.book.position(account, issue)
        return closing, due - closing, due, due + sum(it.shares for it in self.book.waiting(issue) if it.account == account)

    def due(self):
        """Where a trade that settles after the day changes a position, by account and issue."""
        for account, issue in sorted({(account, it[3]) for it in self.later() for account in it[1:3]}):
            yield [issue.decode(), account, *map(count, self.due_at(account, issue))]

    def projection(self):
        trades = self.later()
        for *values, settles in sorted(trades, key=lambda it: it[-1]):
            reference, buyer, seller, issue, shares, money = values
            state = "booked" if settles <= self.next else "pending"
            yield [settles, reference, buyer, seller, issue.decode(), count(shares), dollars(money), state]

    def line(self):
        """Its line among the last days: the sum of the amounts of its marks, and how many members' positions are short."""
        return [self.date, self.day, dollars(sum(abs(it.mark) for _, it in self.rows)), count(len(self.shorts()))]

    def tables(self):
        """The tables that are of the book alone."""
        for name in ("accounts", "issues", "fails", "liable", "notices", "due", "projection"):
            for row in getattr(self, name)():
                yield [name, *row]


KINDS = """Invalid record, member exists, no such member, issue exists, no such issue, retired, same party, same issue, wrong day,
seen reference, exceeds position, not on hand, not long, already noticed, no such notice, not live, too early, not liable, too large,
no such day, pending trades""".replace("\n", " ").split(", ")
MOST_EXCEPTIONS = 200


def reason(reply):
    """The number of a refusal, 0 for an invalid record, None where a record is no exception."""
    kind, _, rest = reply.partition(" ")
    return {"line": 0, "refused": kind == "refused" and int(rest.split(" ")[0])}.get(kind)


def is_question(record, why):
    """Whether a record that is an exception is a question."""
    return bool(why) and record[0] in (b"POSITION", b"STATEMENT")


def ranked(found):
    """The first exceptions, refused questions behind the others."""
    return sorted(found, key=lambda it: it[2])[:MOST_EXCEPTIONS]


def exceptions(found, others):
    """The first exceptions of a day, with the records that used their references or put them right, and how many there are of each
    kind."""
    for number, why, _ in ranked(found):
        yield ["exceptions", number, f"Refused {why}" if why else KINDS[0], *others.get(number, [])]
    for why, times in sorted(collections.Counter(why for _, why, _ in found).items()):
        yield ["reasons", f"Refused {why}, {KINDS[why]}" if why else KINDS[0], count(times)]


class Trades:
    """The references of refused trades and why, by the numbers of their records, and the numbers of accepted ones, by their
    references."""

    def __init__(self):
        self.refused, self.accepted = {}, {}

    def add(self, number, record, reply):
        if record[0] == b"TRADE" and reply == "ok":
            self.accepted[int(record[1])] = number
        elif record[0] == b"TRADE" and reply.startswith("refused "):
            self.refused[number] = int(record[1]), reason(reply)

    def others(self, end):
        """By the number of each refused trade the record of the one that was accepted with its reference: before it, where that is why
        it was refused, else after it and up to a record, if there is one."""
        pairs = ((number, self.accepted.get(reference, 0), why) for number, (reference, why) in self.refused.items())
        return {number: [other] for number, other, why in pairs if KINDS[why] == "seen reference" or number < other <= end}


class Input:
    """Records with the bytes that the first of them take, and the exceptions among them."""

    def __init__(self, text, opening):
        self.text, self.book, self.trades = text, Book(opening), Trades()
        self.found, self.closes, self.last, self.days = [], [(0, 0)], 0, []
        for self.last, (record, end) in enumerate(ended_records(text), 1):
            reply = self.book.reply(record)[0]
            self.trades.add(self.last, record, reply)
            why = reason(reply)
            if why is not None:
                self.found.append((self.last, why, is_question(record, why)))
            if reply.startswith("closed "):
                day = Day(self.book)
                self.days.append((day, list(day.tables())))
                self.closes.append((self.last, end))

    def of(self, start, end):
        return [it for it in self.found if start < it[0] <= end]

    def page(self, head, start, end, size, tables):
        """A page of the records between two numbers: the lines of head, tables and foot."""
        own = self.of(start, end)
        rows = [*exceptions(own, self.trades.others(end)), *tables]
        for since, to in ((0, start), (start, end), (0, end)):
            rows.append(["totals", count(to - since), count(len(self.of(since, to)))])
        foot = ["foot", size, hashlib.sha256(self.text[:size]).hexdigest(), len(rows)]
        return [" ".join(map(str, it)) for it in (["head", *head, count(len(own))], *rows, foot)]


def days_of(text, opening):
    """The days of an input, each by its words for --day with the figures that its page has to show, the open one last."""
    whole = Input(text, opening)
    lines = [["days", *day.line()] for day, _ in whole.days]
    for place, (day, tables) in enumerate(whole.days):
        (start, _), (end, size) = whole.closes[place : place + 2]
        page = whole.page([day.date, day.day, start + 1, end], start, end, size, tables + lines[: place + 1][-60:])
        page[0] += f" {day.next}"
        yield day.date, page
    start = whole.closes[-1][0]
    head = [whole.book.date_today(), whole.book.today(), start, count(whole.last - start)]
    yield "today", whole.page(head, start, whole.last, len(text), [])


def past_of(text, opening, account, issue, day=None):
    """The figures of the history of an account's position in an issue, up to the close of a day or to the last record."""
    book, rows, last, stood, size = Book(opening), [], 0, (0, 0), len(text)
    for last, (record, end) in enumerate(ended_records(text), 1):
        reply = book.reply(record)[0]
        now = book.position(account, issue), book.cents(account, issue, book.today())
        closed = book.today() - 1 if reply.startswith("closed ") else 0
        if closed:
            stood = stood[0], 0
            row = book.row(account, issue, closed)
            if row.opening or row.closing or row.cents or row.dividend:
                amounts = dollars(row.cents), dollars(row.price), dollars(row.closing * row.price), dollars(row.mark)
                age = book.age(account, issue, closed)
                rows.append([last, book.date_of(closed), "", "", count(row.closing), *amounts, age, dollars(row.dividend)])
        if now != stood:
            moved, after = [(count(shares), dollars(cents)) for shares, cents in ((now[0] - stood[0], now[1] - stood[1]), now)]
            rows.append([last, book.date_today(), *moved, *after, "", "", "", "", ""])
        stood = now
        if closed and book.date_of(closed) == day:
            size = end
            break
    known = issue in book.issues() and account in [CORPORATION] + book.members()
    head = [account, issue.decode(), opening, last, count(book.position(account, issue)) if known else "none"]
    options = ["--open", opening, "--day", day or "today", "--account", account, "--issue", issue.decode()]
    foot = ["foot", size, hashlib.sha256(text[:size]).hexdigest(), len(rows)]
    return [" ".join(map(str, it)) for it in [head, *rows, ["cnspage", *options, "< records > page.html"], foot]]
