#!/usr/bin/env python3
"""A second program that prints what a replay has to print, and recomputes everything for each record.

usage: tests/recompute.py [replay] --open DATE < RECORDS
       tests/recompute.py statements --open DATE --day DATE < RECORDS

It is written from docs/rules.md and docs/formats.md alone, and shares no code with the book. It keeps the accepted
activities and what each of them books, and nothing else: no position, no price, no age, no list of notices or of
trades that wait. Each figure is a sum, a count or a search over that list, done anew for each question. So it is slow,
and short.

What is booked has a date: that of the open day, or, of a trade ahead, its settlement date. A sum up to a day takes
what is dated up to that day's date. So a close books nothing here: with its date, more of the list is counted.
"""

import collections
import datetime
import re
import sys

CORPORATION = 0
LARGEST_POSITION = 10**10
DAYS_AHEAD = 5

# ---- records: bytes to fields -------------------------------------------------------------------------------------

COMMA, QUOTE, FEED, RETURN = b",", b'"', b"\n", b"\r"
ENDS_FIELD = re.compile(rb"[,\n\r]")


def records(text):
    """The records of an input, each a list of fields."""
    return (record for record, _ in ended_records(text))


def ended_records(text):
    """The records of an input, each with the place where it ends."""
    place = 3 if text.startswith(b"\xef\xbb\xbf") else 0
    while place < len(text):
        if text[place : place + 1] in (FEED, RETURN):
            place += 1  # an empty line, or the second byte of a line end
            continue
        record, place = read_record(text, place)
        yield record, min(place, len(text))


def read_record(text, place):
    """The record that begins at a place, and the place after it."""
    fields = []
    while True:
        field, place = read_field(text, place)
        fields.append(field)
        if text[place : place + 1] != COMMA:
            return fields, place + 1  # past its line end, if it has one
        place += 1


def read_field(text, place):
    """The field that begins at a place, and the place of what ends it."""
    quoted = b""
    if text[place : place + 1] == QUOTE:
        quoted, place = read_quoted(text, place + 1)
    end = ENDS_FIELD.search(text, place)
    end = end.start() if end else len(text)
    return quoted + text[place:end], end


def read_quoted(text, place):
    """The bytes up to the closing quote, and the place after it. A quote that is never closed takes all that is left."""
    parts = []
    while True:
        end = text.find(QUOTE, place)
        if end < 0:
            return b"".join(parts) + text[place:], len(text)
        parts.append(text[place:end])
        if text[end + 1 : end + 2] != QUOTE:
            return b"".join(parts), end + 1
        parts.append(QUOTE)
        place = end + 2


# ---- commands: fields to values -----------------------------------------------------------------------------------


class LineFault(Exception):
    """Why a record is no command."""


def number(least, most):
    def read(field):
        if not re.fullmatch(rb"[0-9]+", field):
            raise LineFault("Number")
        digits = field.lstrip(b"0") or b"0"
        if len(digits) > 30 or not least <= int(digits) <= most:
            raise LineFault("Range")
        return int(digits)

    return read


def date(field):
    if not re.fullmatch(rb"[0-9]{4}-[0-9]{2}-[0-9]{2}", field):
        raise LineFault("Date")
    try:
        return datetime.date(int(field[:4]), int(field[5:7]), int(field[8:]))
    except ValueError:
        raise LineFault("Date") from None


def check_digit(body):
    """The digit that the ninth character of a CUSIP has to be."""
    values = [b"0123456789ABCDEFGHIJKLMNOPQRSTUVWXYZ*@#".index(byte) for byte in body]
    doubled = [value * 2 if place % 2 else value for place, value in enumerate(values)]
    return (10 - sum(value // 10 + value % 10 for value in doubled) % 10) % 10


def cusip(field):
    if not re.fullmatch(rb"[0-9A-Z*@#]{8}[0-9]", field) or int(field[8:]) != check_digit(field[:8]):
        raise LineFault("Cusip")
    return field


MEMBER, ACCOUNT, REFERENCE = number(1, 9999), number(0, 9999), number(1, 10**18)
SHARES, MONEY, PRICE = number(1, 10**9), number(0, 10**18), number(0, 10**9)
RATE, SIDE, NOTICE = number(1, 10**11), number(1, 10**4), number(1, 4294967295)

KINDS = {
    b"MEMBER": [MEMBER],
    b"ISSUE": [cusip, PRICE],
    b"TRADE": [REFERENCE, MEMBER, MEMBER, cusip, SHARES, MONEY, date],
    b"PRICE": [cusip, PRICE],
    b"DELIVER": [MEMBER, cusip, SHARES],
    b"RECEIVE": [MEMBER, cusip, SHARES],
    b"DIVIDEND": [cusip, date, date, RATE],
    b"SPLIT": [cusip, SIDE, SIDE, PRICE],
    b"EXCHANGE": [cusip, cusip, SIDE, SIDE, PRICE, PRICE],
    b"NOTICE": [MEMBER, cusip, SHARES],
    b"WITHDRAW": [NOTICE],
    b"EXECUTE": [NOTICE, SHARES, MONEY],
    b"CLOSE": [date],
    b"POSITION": [ACCOUNT, cusip],
    b"STATEMENT": [ACCOUNT, date],
}


def command_of(record):
    """The kind of a record and its values; a LineFault where it is no command."""
    if record[0] not in KINDS:
        raise LineFault("Kind")
    readers = KINDS[record[0]]
    if len(record) != len(readers) + 1:
        raise LineFault("Count")
    return record[0].decode(), tuple(read(field) for read, field in zip(readers, record[1:]))


# ---- the list of accepted activities, and what is asked of it -----------------------------------------------------

# An accepted activity: its place in the list, the number of the day that it was taken on, its kind and its values.
Accepted = collections.namedtuple("Accepted", "place day kind values")
# What an activity books, and from which date on.
Entry = collections.namedtuple("Entry", "place date account issue shares cents")
# A notice that was accepted.
Notice = collections.namedtuple("Notice", "number place day member issue shares")
# A member that a close made liable.
Liable = collections.namedtuple("Liable", "issue member shares age")
# A row of the sheet of a closed day.
Row = collections.namedtuple("Row", "issue opening closing opening_price price cents mark dividend")


class Refused(Exception):
    """The number of a refusal, and the number that follows it, if one does."""


def towards_zero(above, below):
    """A quotient cut towards zero; the divisor is above zero."""
    return above // below if above >= 0 else -(-above // below)


class Book:
    def __init__(self, opening):
        self.opening = opening
        self.accepted = []
        self.entries = []
        # Positions and ages at closes that were asked for. A day that is closed does not change, so its figures are kept.
        self.closed_positions, self.closed_ages = {}, {}

    # -- days

    def of_kind(self, *kinds):
        return [it for it in self.accepted if it.kind in kinds]

    def today(self):
        """The number of the open day."""
        return len(self.of_kind("CLOSE")) + 1

    def date_of(self, day):
        """The date of a day up to the open one, by its number."""
        closes = self.of_kind("CLOSE")
        return closes[day - 2].values[0] if day > 1 else self.opening

    def date_today(self):
        return next((it.values[0] for it in reversed(self.accepted) if it.kind == "CLOSE"), self.opening)

    def day_on(self, wanted):
        """The number of the closed day that has a date, None where there is none."""
        return next((day for day in range(1, self.today()) if self.date_of(day) == wanted), None)

    def last_close_by(self, wanted):
        """The number of the last closed day dated on or before a date, 0 where there is none."""
        return max((day for day in range(1, self.today()) if self.date_of(day) <= wanted), default=0)

    # -- accounts and issues

    def members(self):
        return sorted(it.values[0] for it in self.of_kind("MEMBER"))

    def issues(self):
        return sorted(it.values[0] for it in self.of_kind("ISSUE"))

    def is_retired(self, issue):
        return any(it.values[0] == issue for it in self.of_kind("EXCHANGE"))

    def price(self, issue, day):
        """The price of an issue at the end of a day, 0 where it was not listed then."""
        set_ones = [it for it in self.of_kind("ISSUE", "PRICE") if it.values[0] == issue and it.day <= day]
        return set_ones[-1].values[1] if set_ones else 0

    # -- positions

    def of_key(self, account, issue):
        return [it for it in self.entries if it.account == account and it.issue == issue]

    def position(self, account, issue):
        today = self.date_today()
        return sum(it.shares for it in self.of_key(account, issue) if it.date <= today)

    def position_at_close(self, account, issue, day):
        """The position at the close of a day by its number, 0 at that of day 0."""
        key = account, issue, day
        if key not in self.closed_positions:
            last = self.date_of(day) if day > 0 else datetime.date.min
            booked = [it for it in self.of_key(account, issue) if day > 0 and it.date <= last]
            self.closed_positions[key] = sum(it.shares for it in booked)
        return self.closed_positions[key]

    def cents(self, account, issue, day):
        """The cents booked on a day: what is dated after the day before, and not after this one."""
        last, before = self.date_of(day), self.date_of(day - 1) if day > 1 else datetime.date.min
        booked = [it.cents for it in self.of_key(account, issue) if it.date <= last and (day == 1 or it.date > before)]
        return sum(booked)

    def waiting(self, issue):
        """What trades ahead have yet to book in an issue."""
        today = self.date_today()
        return [it for it in self.entries if it.issue == issue and it.date > today]

    def turned_into(self, issue, day):
        """An issue, with the old issues of a day's exchanges whose successor is among these."""
        exchanges, found = [it.values[:2] for it in self.of_kind("EXCHANGE") if it.day == day], [issue]
        for each in found:
            found += [old for old, successor in exchanges if successor == each and old not in found]
        return found

    def age(self, account, issue, day):
        """The closes in a row, from that of a day back, at which the account was short in the issue or in one that was
        turned into it: of several, the most."""
        key = account, issue, day
        if key not in self.closed_ages:
            is_short = day > 0 and self.position_at_close(account, issue, day) < 0
            self.closed_ages[key] = 1 + self.oldest(account, issue, day) if is_short else 0
        return self.closed_ages[key]

    def oldest(self, account, issue, day):
        """The greatest age, at the close before a day, of what the issue is at the end of it."""
        return max(self.age(account, it, day - 1) for it in self.turned_into(issue, day))

    # -- dividends

    def dividends_due(self, issue, day):
        """The dividends in an issue that the close of a day pays."""
        before = self.date_of(day - 1) if day > 1 else datetime.date.min
        declared = [it.values for it in self.of_kind("DIVIDEND") if it.values[0] == issue and it.day <= day]
        return [it for it in declared if it[2] <= self.date_of(day) and (day == 1 or it[2] > before)]

    def dividend(self, account, issue, day):
        if account == CORPORATION:
            return -sum(self.dividend(member, issue, day) for member in self.members())
        return sum(
            towards_zero(self.position_at_close(account, issue, self.last_close_by(recorded)) * rate, 10000)
            for _, recorded, _, rate in self.dividends_due(issue, day)
        )

    # -- sheets

    def row(self, account, issue, day):
        opening, closing = (self.position_at_close(account, issue, it) for it in (day - 1, day))
        before, price = self.price(issue, day - 1), self.price(issue, day)
        cents = self.cents(account, issue, day)
        mark = closing * price - opening * before + cents
        return Row(issue, opening, closing, before, price, cents, mark, self.dividend(account, issue, day))

    def rows(self, account, day):
        """The rows of an account on the sheet of a closed day."""
        rows = [self.row(account, issue, day) for issue in self.issues()]
        return [it for it in rows if it.opening or it.closing or it.cents or it.dividend]

    # -- notices

    def notices(self):
        given = self.of_kind("NOTICE")
        return [Notice(number, it.place, it.day, *it.values) for number, it in enumerate(given, 1)]

    def since(self, notice, *kinds):
        return [it for it in self.of_kind(*kinds) if it.place > notice.place]

    def is_live(self, notice):
        withdrawn = any(it.values[0] == notice.number for it in self.since(notice, "WITHDRAW"))
        converted = any(it.values[0] == notice.issue for it in self.since(notice, "SPLIT", "EXCHANGE"))
        return not withdrawn and not converted and self.today() <= notice.day + 2

    def remaining(self, notice):
        """What remains of a live notice."""
        moved = self.since(notice, "RECEIVE")
        received = sum(it.values[2] for it in moved if it.values[:2] == (notice.member, notice.issue))
        executed = sum(it.values[1] for it in self.since(notice, "EXECUTE") if it.values[0] == notice.number)
        left = min(notice.shares - received - executed, self.position(notice.member, notice.issue))
        return max(left, 0)

    # -- who is liable, and for what

    def called(self, issue):
        """What remains of the notices that were given today in an issue."""
        today = [it for it in self.notices() if it.issue == issue and it.day == self.today()]
        return sum(self.remaining(it) for it in today if self.is_live(it))

    def chosen(self, issue):
        """The members that the close of today makes liable in an issue, if it comes now."""
        called, day = self.called(issue), self.today()
        shorts = [
            Liable(issue, member, -self.position(member, issue), self.oldest(member, issue, day) + 1)
            for member in self.members()
            if self.position(member, issue) < 0
        ]
        # A group is taken where the shorts of all older ones are less than what is called.
        taken = [it for it in shorts if sum(other.shares for other in shorts if other.age > it.age) < called]
        return sorted(taken, key=lambda it: (-it.age, it.member))

    def liable(self, day):
        """The members that the close of a day made liable, in order. Worked out on the list as that close found it."""
        close = self.of_kind("CLOSE")[day - 1]
        then = Book(self.opening)
        then.accepted = self.accepted[: close.place]
        then.entries = [it for it in self.entries if it.place < close.place]
        return [it for issue in then.issues() for it in then.chosen(issue)]

    def filled(self, liable, day):
        """What executions of the notices of a day gave a member on account of its liability."""
        of_day = {it.number for it in self.notices() if it.day == day and it.issue == liable.issue}
        places = {it.place for it in self.of_kind("EXECUTE") if it.values[0] in of_day}
        return sum(
            it.shares
            for it in self.entries
            if it.place in places and (it.account, it.issue) == (liable.member, liable.issue) and it.shares > 0
        )

    def capacities(self, notice):
        """The members that an execution of a notice can fill, in order, each with how many shares it can be given."""
        liable = [it for it in self.liable(notice.day) if it.issue == notice.issue]
        return [
            (it.member, min(it.shares - self.filled(it, notice.day), max(-self.position(it.member, it.issue), 0)))
            for it in liable
        ]

    # -- refusals

    def refuse(self, number, holds, *follows):
        if holds:
            raise Refused(number, *follows)

    def refuse_issue(self, *issues):
        self.refuse(4, any(it not in self.issues() for it in issues))
        self.refuse(5, any(self.is_retired(it) for it in issues))

    def refuse_members(self, *members):
        self.refuse(2, any(it not in self.members() for it in members))

    def refuse_large(self, entries):
        """After the entries a member is beyond its limits with what its trades ahead buy, or with what they sell."""
        after, today = Book(self.opening), self.date_today()
        after.accepted, after.entries = self.accepted, self.entries + entries
        for account, issue in {(it.account, it.issue) for it in entries if it.account != CORPORATION}:
            position = after.position(account, issue)
            ahead = [it.shares for it in after.of_key(account, issue) if it.date > today]
            most = max(position, 0) + sum(shares for shares in ahead if shares > 0)
            least = min(position, 0) + sum(shares for shares in ahead if shares < 0)
            self.refuse(18, most > LARGEST_POSITION or least < -LARGEST_POSITION)

    # -- what activities book

    def booked(self, lines, date=None):
        """Entries by the activity that comes next, of today where no other date is given."""
        return [Entry(len(self.accepted), date or self.date_today(), *line) for line in lines]

    def converted(self, issue, to, new, old, lieu, cash):
        """What a split or an exchange books for the members, and its opposite for the corporation."""
        lines = []
        for member in self.members():
            before = self.position(member, issue)
            if before == 0:
                continue
            after = towards_zero(before * new, old)
            rest = before * new - after * old
            cents = towards_zero(rest * lieu, old) + before * cash
            lines.append((member, issue, -before, 0))
            lines.append((member, to, after, cents))
        for name in {issue, to}:
            shares = sum(line[2] for line in lines if line[1] == name)
            cents = sum(line[3] for line in lines if line[1] == name)
            lines.append((CORPORATION, name, -shares, -cents))
        return lines

    def fills(self, notice, shares, money):
        """The shares and the payment of each member that an execution fills."""
        fills, given = [], 0
        for member, capacity in self.capacities(notice):
            fill = min(capacity, shares - given)
            if fill > 0:
                pays = money * (given + fill) // shares - money * given // shares
                fills.append((member, fill, pays))
                given += fill
        return fills

    # -- each kind: refusals in the order of their numbers, then the lines that it books and the reply

    def accept(self, kind, values, lines=(), date=None):
        entries = self.booked(lines, date)
        self.accepted.append(Accepted(len(self.accepted), self.today(), kind, values))
        self.entries += entries

    def take_member(self, member):
        self.refuse(1, member in self.members())
        self.accept("MEMBER", (member,))
        return ["ok"]

    def take_issue(self, issue, price):
        self.refuse(3, issue in self.issues())
        self.accept("ISSUE", (issue, price))
        return ["ok"]

    def take_trade(self, reference, buyer, seller, issue, shares, money, settles):
        self.refuse_members(buyer, seller)
        self.refuse_issue(issue)
        self.refuse(6, buyer == seller)
        self.refuse(8, not 0 <= (settles - self.date_today()).days <= DAYS_AHEAD)
        self.refuse(9, any(it.values[0] == reference for it in self.of_kind("TRADE")))
        lines = [(buyer, issue, shares, -money), (seller, issue, -shares, money)]
        self.refuse_large(self.booked(lines, settles))
        self.accept("TRADE", (reference, buyer, seller, issue, shares, money, settles), lines, settles)
        return ["ok"]

    def take_price(self, issue, price):
        self.refuse_issue(issue)
        self.accept("PRICE", (issue, price))
        return ["ok"]

    def take_deliver(self, member, issue, shares):
        self.refuse_members(member)
        self.refuse_issue(issue)
        self.refuse(10, shares > max(-self.position(member, issue), 0))
        lines = [(member, issue, shares, 0), (CORPORATION, issue, -shares, 0)]
        self.accept("DELIVER", (member, issue, shares), lines)
        return ["ok"]

    def take_receive(self, member, issue, shares):
        self.refuse_members(member)
        self.refuse_issue(issue)
        self.refuse(10, 0 < self.position(member, issue) < shares)
        self.refuse(11, -self.position(CORPORATION, issue) < shares)
        self.refuse(12, self.position(member, issue) <= 0)
        lines = [(member, issue, -shares, 0), (CORPORATION, issue, shares, 0)]
        self.accept("RECEIVE", (member, issue, shares), lines)
        return ["ok"]

    def take_dividend(self, issue, recorded, payable, rate):
        self.refuse_issue(issue)
        self.refuse(8, recorded < self.date_today() or payable <= recorded)
        self.accept("DIVIDEND", (issue, recorded, payable, rate))
        return ["ok"]

    def take_split(self, issue, new, old, lieu):
        self.refuse_issue(issue)
        lines = self.converted(issue, issue, new, old, lieu, 0)
        self.refuse_large(self.booked(lines))
        self.accept("SPLIT", (issue, new, old, lieu), lines)
        return ["ok"]

    def take_exchange(self, issue, to, new, old, lieu, cash):
        self.refuse_issue(issue, to)
        self.refuse(7, issue == to)
        lines = self.converted(issue, to, new, old, lieu, cash)
        self.refuse_large(self.booked(lines))
        self.refuse(20, self.waiting(issue))
        self.accept("EXCHANGE", (issue, to, new, old, lieu, cash), lines)
        return ["ok"]

    def take_notice(self, member, issue, shares):
        self.refuse_members(member)
        self.refuse_issue(issue)
        self.refuse(10, 0 < self.position(member, issue) < shares)
        self.refuse(12, self.position(member, issue) <= 0)
        for it in self.notices():
            self.refuse(13, (it.member, it.issue) == (member, issue) and self.is_live(it), it.number)
        self.accept("NOTICE", (member, issue, shares))
        return [f"notice {len(self.notices())}"]

    def take_withdraw(self, number):
        self.refuse(14, number > len(self.notices()))
        self.refuse(15, not self.is_live(self.notices()[number - 1]))
        self.accept("WITHDRAW", (number,))
        return ["ok"]

    def take_execute(self, number, shares, money):
        self.refuse(14, number > len(self.notices()))
        notice = self.notices()[number - 1]
        self.refuse(10, self.is_live(notice) and shares > self.remaining(notice))
        self.refuse(15, not self.is_live(notice))
        self.refuse(16, self.today() < notice.day + 2)
        room = sum(capacity for _, capacity in self.capacities(notice))
        self.refuse(17, shares > room, room)
        fills = self.fills(notice, shares, money)
        lines = [(notice.member, notice.issue, -shares, money)]
        lines += [(member, notice.issue, fill, -pays) for member, fill, pays in fills]
        self.accept("EXECUTE", (number, shares, money), lines)
        return [f"executed {len(fills)}"]

    def take_close(self, following):
        day = self.today()
        self.refuse(8, following <= self.date_of(day))
        self.accept("CLOSE", (following,))
        rows = sum(len(self.rows(account, day)) for account in [CORPORATION] + self.members())
        liable = self.liable(day)
        lines = [f"liable {it.issue.decode()} {it.member} {it.shares} {it.age}" for it in liable]
        return [f"closed {day} {self.date_of(day)} {rows} {len(liable)}"] + lines

    def take_position(self, account, issue):
        self.refuse(2, account != CORPORATION and account not in self.members())
        self.refuse(4, issue not in self.issues())
        last = self.today() - 1
        now, opening = self.position(account, issue), self.position_at_close(account, issue, last)
        cents, age = self.cents(account, issue, self.today()), self.age(account, issue, last)
        return [f"position {account} {issue.decode()} {now} {opening} {dollars(cents)} {age}"]

    def take_statement(self, account, wanted):
        self.refuse(2, account != CORPORATION and account not in self.members())
        self.refuse(19, self.day_on(wanted) is None)
        return self.statement(account, self.day_on(wanted))

    # -- replies

    def statement(self, account, day):
        rows = self.rows(account, day)
        mark, dividend = (dollars(sum(it)) for it in ([row.mark for row in rows], [row.dividend for row in rows]))
        lines = [
            f"row {it.issue.decode()} {it.opening} {it.closing} {dollars(it.opening_price)} {dollars(it.price)} "
            f"{dollars(it.cents)} {dollars(it.mark)} {dollars(it.dividend)}"
            for it in rows
        ]
        return [f"statement {account} {self.date_of(day)} {len(rows)} {mark} {dividend}"] + lines

    def reply(self, record):
        """The lines that answer a record."""
        try:
            kind, values = command_of(record)
            return getattr(self, "take_" + kind.lower())(*values)
        except LineFault as fault:
            return [f"line {fault}"]
        except Refused as refusal:
            return ["refused " + " ".join(str(it) for it in refusal.args)]


def dollars(cents):
    return f"{'-' if cents < 0 else ''}{abs(cents) // 100}.{abs(cents) % 100:02}"


# ---- whole inputs -------------------------------------------------------------------------------------------------


def replay(text, opening):
    """What a replay of an input has to write, a list of lines for each record."""
    book = Book(opening)
    return [book.reply(record) for record in records(text)]


def statements(text, opening, day):
    """What the statements of a closed day are, None where no day with the date is closed."""
    book = Book(opening)
    for record in records(text):
        book.reply(record)
    number = book.day_on(day)
    if number is None:
        return None
    accounts = [it for it in [CORPORATION] + book.members() if book.rows(it, number)]
    return [line for account in accounts for line in book.statement(account, number)]


def tally(text, opening):
    """The line that a run of one file has to print."""
    replies = [lines[0] for lines in replay(text, opening)]
    closes = sum(it.startswith("closed ") for it in replies)
    faults = sum(it.startswith("line ") for it in replies)
    commands = len(replies) - faults
    return (
        f'{{"closes":{closes},"commands":{commands},"counts":[{commands}],'
        f'"dividends":"0.00","lines":{faults},"marks":"0.00"}}'
    )


def written(lines):
    return "".join(line + "\n" for line in lines).encode()


def main(words):
    options = dict(zip(words[-2::-2], words[::-2]))
    opening, text = date(options["--open"].encode()), sys.stdin.buffer.read()
    if words[0] == "statements":
        lines = statements(text, opening, date(options["--day"].encode()))
        if lines is None:
            sys.exit("fault NoSuchDay")
    else:
        lines = [line for reply in replay(text, opening) for line in reply]
    sys.stdout.buffer.write(written(lines))


if __name__ == "__main__":
    main(sys.argv[1:])
