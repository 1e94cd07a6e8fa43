"""Makes the streams of records that tests/fuzz.py plays, each by a seed.

One of an even seed is random: records that a book of recompute.py says are likely to be accepted, over few members and
issues, so that positions, trades ahead, dividends, notices and executions meet. One of an odd seed is directed: it leads
to what random ones seldom reach, and ends in few random records. Then some are mutated: records dropped, repeated, swapped,
fields changed, bytes put in.
"""

import datetime
import random

import recompute

# ---- streams ------------------------------------------------------------------------------------------------------


def with_check_digit(body):
    return body + str(recompute.check_digit(body.encode()))


ISSUES = ["037833100", "594918104", "17275R102", with_check_digit("#*@00AZ9"), with_check_digit("00000000")]
MORE_ISSUES = ISSUES + ["023135106", "459200101", with_check_digit("ZZZZZZZZ"), with_check_digit("########")]
MEMBERS = [1, 2, 3, 7, 101, 4096, 9999]

# The opening date of most streams, and others: the ends of the calendar, and days before a February ends, in leap years and
# in others.
OPENING = "2024-06-03"
OPENINGS = [
    "0001-01-01", "0004-02-27", "1900-02-26", "2000-02-28", "2023-02-27", "2024-02-28", "2100-02-27", "1999-12-30",
    "9999-12-18", "9999-12-27", "9999-12-31",
]

# How often each kind comes, AHEAD being trades of one later date and what comes before it, BRINK trades that a split or an
# exchange takes to the limit, and BUY_IN a notice and its executions: few streams have all of them.
WEIGHTS = {
    "TRADE": 12,
    "AHEAD": 2,
    "BRINK": 0,
    "PRICE": 2,
    "DELIVER": 5,
    "RECEIVE": 5,
    "DIVIDEND": 3,
    "SPLIT": 1,
    "EXCHANGE": 0.5,
    "NOTICE": 4,
    "WITHDRAW": 1,
    "EXECUTE": 2,
    "BUY_IN": 1.5,
    "CLOSE": 4,
    "POSITION": 4,
    "STATEMENT": 3,
    "MEMBER": 0.5,
    "ISSUE": 0.5,
}


class Stream:
    """Makes a stream of records, beside a book that tells what is likely to be accepted."""

    def __init__(self, rng, opening):
        self.rng = rng
        self.book = recompute.Book(opening)
        self.records = []
        self.large = rng.random() < 0.15
        # How many of the trades have a later date than today's.
        self.ahead = rng.choice([0, 0.2, 0.6])
        # Each kind is left out of some streams, unless others need it.
        self.kinds = {kind: weight * rng.choice([0, 1, 1, 1, 2]) for kind, weight in WEIGHTS.items()}
        self.kinds["CLOSE"] = max(self.kinds["CLOSE"], 1)
        if self.ahead:
            self.kinds["EXCHANGE"] *= 2
        if self.large:
            self.kinds |= {"TRADE": 40, "BRINK": 2, "SPLIT": 3, "EXCHANGE": 1}

    def add(self, *fields):
        record = ",".join(str(it) for it in fields)
        self.records.append(record)
        self.book.reply([field.encode() for field in record.split(",")])

    # -- fields

    def member(self):
        members = self.book.members()
        return self.rng.choice(members if members and self.rng.random() < 0.97 else MEMBERS)

    def account(self):
        return self.member() if self.rng.random() < 0.8 else 0

    def issue(self):
        listed = [it.decode() for it in self.book.issues()]
        return self.rng.choice(listed if listed and self.rng.random() < 0.97 else ISSUES)

    def shares(self):
        if self.large:
            return self.rng.choice([1, 999999999, 1000000000, 1000000000, 1000000000, self.rng.randint(1, 10**9)])
        return self.rng.choice([1, 2, 3, 10, self.rng.randint(1, 60), self.rng.randint(1, 400)])

    def some_of(self, most):
        """A number of shares that is mostly at most this, and often all of it or one beside it."""
        most = max(most, 0)
        half = self.rng.randint(1, most // 2 + 1)
        some = self.rng.choice([most, most, most + 1, most - 1, half, half, self.rng.randint(1, most + 2), self.shares()])
        return max(some, 1 if self.rng.random() < 0.95 else 0)

    def cents(self):
        return self.rng.choice([0, 1, 99, self.rng.randint(0, 10**4), self.rng.randint(0, 10**7), self.rng.randint(0, 10**18)])

    def price(self):
        return self.rng.choice([0, 1, 99, self.rng.randint(0, 30000), self.rng.randint(0, 30000), 10**9])

    def side(self):
        return self.rng.choice([1, 1, 2, 2, 3, 5, 7, self.rng.randint(1, 100), self.rng.randint(1, 10**4)])

    def today(self):
        return self.book.date_of(self.book.today())

    def moved(self, date, days):
        """A date so many days away, within the calendar."""
        return datetime.date.fromordinal(min(max(date.toordinal() + days, 1), datetime.date.max.toordinal()))

    def later(self, date, most):
        return self.moved(date, self.rng.randint(0, most))

    def trade_date(self):
        """Mostly a date that a trade may have: today's, or one up to five days ahead."""
        if self.rng.random() < 0.04:
            return self.moved(self.today(), self.rng.choice([-1, 6, 6]))
        ahead = self.rng.choice([1, 2, 3, 4, 5, 5]) if self.rng.random() < self.ahead else 0
        return self.moved(self.today(), ahead)

    def holding(self, is_wanted):
        """A member and an issue in which its position is wanted, where there is one."""
        found = [
            (member, issue.decode())
            for member in self.book.members()
            for issue in self.book.issues()
            if is_wanted(self.book.position(member, issue)) and not self.book.is_retired(issue)
        ]
        if not found:
            self.add_trade()
        return self.rng.choice(found) if found and self.rng.random() < 0.95 else (self.member(), self.issue())

    def notice(self):
        given = self.book.notices()
        ready = [it.number for it in given if self.book.is_live(it) and self.book.today() >= it.day + 2]
        if ready and self.rng.random() < 0.85:
            return self.rng.choice(ready)
        return self.rng.choice([it.number for it in given] + [max(len(given), 1), len(given) + 1])

    # -- kinds

    def add_member(self):
        self.add("MEMBER", self.rng.choice(MEMBERS))

    def add_issue(self):
        self.add("ISSUE", self.rng.choice(ISSUES), self.price())

    def parties(self):
        parties = self.member(), self.member()
        if parties[0] == parties[1]:
            parties = self.member(), self.member()
        if self.large and self.rng.random() < 0.8:
            parties = sorted(parties)  # so that positions grow
        return parties

    def add_trade(self, date=None):
        reference = self.rng.choice([len(self.records) + 1] * 8 + [1, 10**18 - self.rng.randint(0, 9)])
        date = date or self.trade_date()
        self.add("TRADE", reference, *self.parties(), self.issue(), self.shares(), self.cents(), date)

    def add_ahead(self):
        """Trades of one later date, what comes while they wait, and mostly the close that books them."""
        date = self.moved(self.today(), self.rng.randint(1, 5))
        for _ in range(self.rng.randint(1, 12 if self.large else 5)):
            self.add_trade(date)
        between = ["trade", "split", "exchange", "notice", "deliver", "receive", "dividend", "execute", "position"]
        for kind in self.rng.choices(between, k=self.rng.randint(0, 4)):
            getattr(self, "add_" + kind)()
        if self.rng.random() < 0.7:
            self.add("CLOSE", self.moved(date, self.rng.choice([-1, 0, 0, 0, 1, 3])))
            self.add_position()

    def add_brink(self):
        """Trades that bring two members to their limits by a split or an exchange, few shares beside that, and it."""
        old, to = self.issue(), self.issue()
        parties, times = self.parties(), self.rng.choice([1, 2, 3, 5])
        booked = self.rng.randint(0, 10 // times)
        later = self.moved(self.today(), self.rng.randint(1, 5))
        for count, issue, date in (booked, old, self.today()), (10 - times * booked, to, later):
            for _ in range(count):
                self.add("TRADE", len(self.records) + 1, *parties, issue, 10**9, self.cents(), date)
        for _ in range(self.rng.randint(0, 3)):
            few = self.rng.sample([*parties, self.member()], 2)
            date = self.rng.choice([self.today(), later])
            self.add("TRADE", len(self.records) + 1, *few, self.rng.choice([old, to]), self.rng.randint(1, 3), 0, date)
        if old == to:
            self.add("SPLIT", old, times, 1, self.price())
        else:
            self.add("EXCHANGE", old, to, times, 1, self.price(), self.price())

    def add_price(self):
        self.add("PRICE", self.issue(), self.price())

    def add_deliver(self):
        member, issue = self.holding(lambda it: it < 0)
        self.add("DELIVER", member, issue, self.some_of(-self.book.position(member, issue.encode())))

    def add_receive(self):
        member, issue = self.holding(lambda it: it > 0)
        if self.book.position(0, issue.encode()) >= 0 and self.rng.random() < 0.9:
            return self.add_deliver()
        on_hand = -self.book.position(0, issue.encode())
        position = self.book.position(member, issue.encode())
        self.add("RECEIVE", member, issue, self.some_of(min(position, on_hand) if self.rng.random() < 0.9 else position))

    def add_dividend(self):
        recorded = self.later(self.today(), 4)
        rate = self.rng.choice([1, 5000, 405000, self.rng.randint(1, 10**7), 10**11])
        self.add("DIVIDEND", self.issue(), recorded, self.later(recorded, 5), rate)

    def add_split(self):
        self.add("SPLIT", self.issue(), self.side(), self.side(), self.price())

    def add_exchange(self):
        self.add("EXCHANGE", self.issue(), self.issue(), self.side(), self.side(), self.price(), self.price())

    def add_notice(self):
        member, issue = self.holding(lambda it: it > 0)
        self.add("NOTICE", member, issue, self.some_of(self.book.position(member, issue.encode())))

    def add_withdraw(self):
        if not self.book.notices() and self.rng.random() < 0.9:
            return self.add_notice()
        self.add("WITHDRAW", self.notice())

    def add_execute(self):
        given = self.book.notices()
        live = [it.day + 2 for it in given if self.book.is_live(it)]
        if self.book.today() not in live and self.rng.random() < 0.9:
            return self.add_close() if live else self.add_notice()
        number, most = self.notice(), 10
        if number <= len(given) and self.book.is_live(given[number - 1]):
            notice = given[number - 1]
            most = self.book.remaining(notice)
            if self.book.today() >= notice.day + 2 and self.rng.random() < 0.6:
                most = min(most, sum(it[1] for it in self.book.capacities(notice)))
        self.add("EXECUTE", number, self.some_of(most), self.cents())

    def add_buy_in(self):
        """A notice, and executions of it two closes later."""
        self.add_trade()
        self.add_notice()
        self.add_close()
        for _ in range(self.rng.randint(0, 3)):
            self.rng.choice([self.add_deliver, self.add_receive, self.add_trade])()
        self.add("CLOSE", self.later(self.today(), 3))
        for _ in range(self.rng.randint(1, 3)):
            self.add_execute()

    def add_close(self):
        date = self.later(self.today(), 1) if self.rng.random() < 0.2 else self.later(self.today(), 3)
        self.add("CLOSE", date)

    def add_position(self):
        self.add("POSITION", self.account(), self.issue())

    def add_statement(self):
        day = self.rng.randint(1, self.book.today())
        if day == self.book.today() and self.rng.random() < 0.8:
            return self.add_close() if day == 1 else self.add_position()
        self.add("STATEMENT", self.account(), self.book.date_of(day))

    def some(self, count):
        """So many records and more, of kinds by their weights."""
        kinds, weights = list(self.kinds), list(self.kinds.values())
        for kind in self.rng.choices(kinds, weights, k=count):
            getattr(self, "add_" + kind.lower())()

    def make(self):
        for member in self.rng.sample(MEMBERS, self.rng.randint(2, 6)):
            self.add("MEMBER", member)
        for issue in self.rng.sample(ISSUES, self.rng.randint(1, 3)):
            self.add("ISSUE", issue, self.price())
        if self.rng.random() < 0.05:
            self.add("CLOSE", self.moved(datetime.date.max, -self.rng.randint(0, 20)))
        if self.large:
            self.add_brink()
        self.some(self.rng.choice([10, 40, 80, 120]))

    # -- directed streams, each named by what it leads to

    def begin(self, members, issues):
        """Enters so many members and issues, and answers them."""
        members, issues = self.rng.sample(range(1, 10000), members), self.rng.sample(MORE_ISSUES, issues)
        for member in members:
            self.add("MEMBER", member)
        for issue in issues:
            self.add("ISSUE", issue, self.price())
        return members, issues

    def trade(self, buyer, seller, issue, shares, cents=None, days=0):
        cents = self.cents() if cents is None else cents
        self.add("TRADE", len(self.records) + 1, buyer, seller, issue, shares, cents, self.moved(self.today(), days))

    def end_day(self):
        self.add("CLOSE", self.moved(self.today(), self.rng.choice([1, 1, 1, 3])))

    def short_more(self, longs, shorts, issue, most):
        """Sales by some of the shorts, and few deliveries."""
        for seller in self.rng.sample(shorts, self.rng.randint(1, len(shorts))):
            self.trade(self.rng.choice(longs), seller, issue, self.rng.randint(1, most))
        if self.rng.random() < 0.2:
            self.add("DELIVER", self.rng.choice(shorts), issue, self.rng.randint(1, most))

    def notice_all(self, longs, issue):
        """A notice of each member that is long, for all of its shares or for some."""
        for member in longs:
            position = self.book.position(member, issue.encode())
            if position > 0:
                self.add("NOTICE", member, issue, self.rng.choice([position, self.rng.randint(1, position)]))

    def execute_some(self, number, money):
        """An execution of a part of what can be executed of a notice, and the positions of all that are liable."""
        notice = next((it for it in self.book.notices() if it.number == number), None)
        if not notice or not self.book.is_live(notice) or self.book.today() < notice.day + 2:
            return
        capacities = self.book.capacities(notice)
        most = min(self.book.remaining(notice), sum(it for _, it in capacities))
        self.add("EXECUTE", number, max(self.rng.choice([most, most, self.rng.randint(0, most), most // 2]), 1), money)
        for member, _ in capacities:
            self.add("POSITION", member, notice.issue.decode())

    def lead_to_executions(self):
        """Two or three notices of one batch, executions of them in parts, shorts that sell more, a notice withdrawn."""
        members, (issue,) = self.begin(self.rng.randint(6, 8), 1)
        longs, shorts = members[: self.rng.randint(2, 3)], members[3:]
        for _ in range(self.rng.randint(1, 3)):
            self.short_more(longs, shorts, issue, 40)
            self.end_day()
        self.short_more(longs, shorts, issue, 40)
        self.notice_all(longs, issue)
        for _ in range(2):
            self.end_day()
            self.short_more(longs, shorts, issue, 60)
            if self.rng.random() < 0.3:
                self.rng.choice([self.add_execute, self.add_withdraw])()
        for _ in range(self.rng.randint(3, 6)):
            for number in range(1, len(self.book.notices()) + 1):
                self.execute_some(number, self.rng.choice([self.rng.randint(1, 9999), self.cents()]))
                if self.rng.random() < 0.15:
                    self.add("WITHDRAW", self.rng.randint(1, number))
            if self.rng.random() < 0.4:
                self.short_more(longs, shorts, issue, 60)
        self.end_day()

    def exchange_shorts(self, pairs_of):
        """Shorts of several ages, new prices, exchanges by pairs of issues on one day or on days in a row, and a notice after them."""
        members, issues = self.begin(self.rng.randint(4, 6), self.rng.randint(3, 4))
        last, days = issues[-1], self.rng.randint(3, 4)
        begins = self.rng.sample(range(days + 1), len(issues))
        if self.rng.random() < 0.7:
            begins.sort()
        for day in range(days):
            for issue, begun in zip(issues, begins):
                if day >= begun:
                    self.short_more(members[:2], members[2:], issue, 40)
            if self.rng.random() < 0.4:
                self.add_deliver()
            self.add("PRICE", self.rng.choice(issues), self.price())
            self.end_day()
        each_day = self.rng.random() < 0.2
        for old, to in pairs_of(issues):
            ratio = self.rng.choice([(1, 1), (1, 1), (3, 2), (self.side(), self.side())])
            self.add("EXCHANGE", old, to, *ratio, self.price(), self.price())
            if each_day:
                self.end_day()
        self.short_more(members[:2], members[2:], last, 9)
        self.notice_all(members[:2], last)
        for _ in range(2):
            self.end_day()
            for account in [0, *members]:
                self.add("POSITION", account, last)
        for number in range(1, len(self.book.notices()) + 1):
            self.execute_some(number, self.cents())

    def lead_to_exchanges_in_a_row(self):
        self.exchange_shorts(lambda issues: zip(issues, issues[1:]))

    def lead_to_exchanges_into_one(self):
        self.exchange_shorts(lambda issues: [(it, issues[-1]) for it in issues[:-1]])

    def lead_to_dates(self):
        """A trade of each date, dividends, closes and statements, where a month or the calendar ends."""
        (one, other), (issue,) = self.begin(2, 1)
        for _ in range(self.rng.randint(3, 6)):
            for days in self.rng.sample(range(-1, 7), 4):
                self.trade(one, other, issue, self.shares(), days=days)
            self.add_dividend()
            before = self.today()
            self.end_day()
            self.add("STATEMENT", self.account(), before)
            self.add("POSITION", self.account(), issue)

    def lead_to_ends_of_ranges(self):
        """The most money, ratios, rates and prices, on large positions."""
        members, (issue, to) = self.begin(4, 2)
        for _ in range(self.rng.randint(3, 12)):
            cents = self.rng.choice([10**18, 10**18 - 1, 10**18, 0])
            self.trade(members[0], self.rng.choice(members[1:]), issue, self.rng.choice([10**9, 7, 10**9 - 1]), cents)
        self.add("PRICE", issue, 10**9)
        self.add("DIVIDEND", issue, self.today(), self.moved(self.today(), 1), 10**11)
        self.add("NOTICE", members[0], issue, 10**9)
        for _ in range(2):
            self.end_day()
        self.execute_some(1, 10**18)
        self.execute_some(1, 10**18 - 1)
        for ratio in self.rng.sample([(1, 10000), (10000, 9999), (9999, 10000), (10000, 10000), (10000, 1)], 3):
            self.add("SPLIT", issue, *ratio, self.price())
        self.add("EXCHANGE", issue, to, *self.rng.choice([(1, 10000), (10000, 9999), (10000, 1)]), 10**9, 10**9)
        self.end_day()
        self.add_statement()

    def lead_to_many_rows(self):
        """Sheets of 60 rows and more, with deliveries, dividends and splits."""
        members, issues = self.begin(self.rng.randint(10, 14), self.rng.randint(6, 7))
        for issue in issues:
            for buyer, seller in zip(members, members[1:] + members[:1]):
                if self.rng.random() < 0.93:
                    self.trade(buyer, seller, issue, self.rng.randint(1, 99), self.rng.randint(0, 10**6))
        for _ in range(2):
            self.end_day()
            for _ in range(4):
                self.rng.choice([self.add_deliver, self.add_receive, self.add_dividend, self.add_price, self.add_split])()


# In turn; what some lead to is seldom reached even so, and they come more than once.
DIRECTED = [
    Stream.lead_to_executions, Stream.lead_to_exchanges_in_a_row, Stream.lead_to_exchanges_into_one, Stream.lead_to_dates,
    Stream.lead_to_executions, Stream.lead_to_ends_of_ranges, Stream.lead_to_exchanges_in_a_row,
    Stream.lead_to_exchanges_into_one, Stream.lead_to_executions, Stream.lead_to_many_rows,
]


# ---- mutations ----------------------------------------------------------------------------------------------------

# Fields and pieces of fields that are at fault, or at the ends of a range, or written in another way.
PIECES = [
    b"", b"0", b"1", b"00001", b"-1", b"+1", b" 1", b"1 ", b"1.0", b"1e3", b"x", b"9999", b"10000", b"1000000000",
    b"1000000001", b"1000000000000000000", b"1000000000000000001", b"4294967295", b"4294967296",
    b"18446744073709551616", b"9" * 40, b"0" * 40 + b"1", b"2024-06-03", b"2024-6-3", b"2024-02-30", b"0000-01-01",
    b"0001-01-01", b"9999-12-31", b"2023-02-29", b"1900-02-29", b"2000-02-29", b"10000-01-01", b"20240603",
    b"037833100", b"037833101", b"17275r102", b"03783310", b"#*@00AZ9",
    b'"1"', b'"0""1"', b'"037833100"', b'""', b'"', b'a"b', b'"1"0', b'""1', b'"\r\n"', b"MEMBER", b"member", b"CLOSE",
    b"\x00", b"\xff", b"\xc3\xa9", b"\xef\xbb\xbf", b",", b",,", b"\r", b"\n", b"\r\n", b"\n\n",
]


def change_field(rng, record):
    fields = record.split(b",")
    place = rng.randrange(len(fields))
    fields[place] = rng.choice(PIECES)
    return b",".join(fields)


def quote_field(rng, record):
    """The same record, a field of it in quotes."""
    fields = record.split(b",")
    place = rng.randrange(len(fields))
    fields[place] = b'"' + fields[place].replace(b'"', b'""') + b'"'
    return b",".join(fields)


def drop_field(rng, record):
    fields = record.split(b",")
    del fields[rng.randrange(len(fields))]
    return b",".join(fields)


def put_in(rng, record):
    place = rng.randint(0, len(record))
    return record[:place] + rng.choice(PIECES) + record[place:]


def change_byte(rng, record):
    if not record:
        return record
    place = rng.randrange(len(record))
    return record[:place] + bytes([rng.choice([rng.randrange(256), 0x22, 0x2C, 0x30, 0x39])]) + record[place + 1 :]


def mutate(rng, records):
    """The records, some of them changed, dropped, repeated or moved."""
    records = list(records)
    for _ in range(rng.choice([1, 2, 5, 20])):
        if not records:
            break
        place = rng.randrange(len(records))
        choice = rng.randrange(9)
        if choice == 0:
            del records[place]
        elif choice == 1:
            records.insert(rng.randrange(len(records)), records[place])
        elif choice == 2:
            records.insert(rng.randrange(len(records)), records.pop(place))
        else:
            change = rng.choice([change_field, change_field, quote_field, drop_field, put_in, change_byte])
            records[place] = change(rng, records[place])
    return records


def text_of(rng, records):
    """The records with line ends; in a few streams of other kinds, and without the last one."""
    if rng.random() < 0.8:
        return b"".join(it + b"\n" for it in records)
    ends = [b"\n", b"\r\n", b"\r", b"\n\n"]
    text = b"".join(it + rng.choice(ends) for it in records)
    return text[:-1] if rng.random() < 0.5 else text


def stream(seed):
    """The opening date and the text of a stream, by its seed."""
    rng, is_directed = random.Random(seed), seed % 2 == 1
    make = DIRECTED[seed // 2 % len(DIRECTED)] if is_directed else Stream.make
    opening = rng.choice(OPENINGS) if make is Stream.lead_to_dates or rng.random() < 0.1 else OPENING
    made = Stream(rng, datetime.date.fromisoformat(opening))
    make(made)
    made.some(rng.randint(0, 9))
    records = [it.encode() for it in made.records]
    if rng.random() < (0.15 if is_directed else 0.4):
        records = mutate(rng, records)
    text = text_of(rng, records)
    return made.book.opening, b"\xef\xbb\xbf" + text if rng.random() < 0.02 else text
