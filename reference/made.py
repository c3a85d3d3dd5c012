"""Calls made at random, as a book could meet them: run with the law checked, or written as a daybook."""

import random
from collections import Counter, defaultdict

from daybook import BYTE_ORDER_MARK, LONGEST_LINE, Desk, entry
from rules import Refused

FORECAST, DOLLARS, KWH, LAST_YEAR = 1_000_000_000, 100_000_000, 10_000_000_000, 65_535

# --- a maker of calls -----------------------------------------------------------------------


class Maker:
    """Makes up calls for the book that is open: mostly such as move its year on, and some of any kind."""

    def __init__(self, dice):
        self.dice = dice
        many = dice.choice([1, 2, 3, 3, 5, 80])
        self.projects = dice.sample(range(1, dice.choice([100, 99_999_999])), many)
        self.fewest = dice.choice([1, min(many, 64), min(many, 64)])
        self.participants = dice.choice([1, 2, 5])
        self.largest = 10 ** dice.randrange(1, 9)
        self.largest_kwh = dice.choice([10, 1_000, 1_000_000, KWH])
        self.usage_rate = dice.choice([10, 30_000, 1_000_000])
        self.fair = dice.random() < 0.85
        self.wild = dice.choice([0.02, 0.1, 0.4])
        self.book = None

    def opening(self):
        dice = self.dice
        year = dice.choice([0, 1, *[2026] * 5, dice.randrange(LAST_YEAR), LAST_YEAR - dice.randrange(9)])
        kind, most = dice.choice([("table", 65_535), ("entries", 1_000_000)])
        return "open", year, kind, dice.choice([0, 1, most, *[3, 5, 10, 20, 30, 50] * 4])

    def within(self, low, high):
        """A number of a range, its ends and beyond among them."""
        size = min(10 ** self.dice.randrange(1, 12), high - low + 1)
        beyond = [low - 1, high + 1, -(2**63), 2**63 - 1]
        return self.dice.choice([low, high, *beyond, *(low + self.dice.randrange(size) for _ in range(12))])

    def project(self):
        return self.dice.choice(self.projects)

    def dollars(self):
        return self.dice.randrange(self.largest + 1)

    def forecast(self):
        """One that makes a usage rate in range, if any does."""
        rate = self.dice.choice([self.usage_rate, self.dice.randrange(1, self.usage_rate + 1)])
        forecast = self.book.total() * 10_000 // rate
        return min(max(forecast, 1), FORECAST)

    def requirement(self, project):
        """One that is in range and makes a column 16 that is."""
        row = self.book.row_of(project)
        due_now = row.due_now if row else 0
        return min(self.dollars() + max(0, -due_now), DOLLARS - max(0, due_now))

    def kwh(self):
        """Where it is fair, a sixth of the total at most is charged for them; seldom the most there can be."""
        book, largest = self.book, self.largest_kwh
        if self.dice.random() < 0.01:
            return KWH
        if self.fair and book.rate:
            largest = min(book.total() * 10_000_000 // (6 * book.rate), KWH)
        return self.dice.randrange(largest + 1)

    def pair(self):
        return self.dice.randrange(1, self.participants + 1), self.dice.randrange(1, 13)

    def bill_or_resettle(self):
        dice, held = self.dice, list(self.book.journal.held())
        if held and dice.random() < 0.3:
            return "resettle", *dice.choice(held), self.kwh()
        return dice.choice(["bill", "bill", "bill", "bill", "resettle"]), *self.pair(), self.kwh()

    def rates(self):
        """The words of a list; the quarters of a run may leave out a month of the year's 24."""
        dice, year = self.dice, self.book.year
        rate = dice.choice([0, 1, 25_000, 100_000, dice.randrange(100_001), dice.randrange(100_000, 100_010)])
        first = max(4 * year - dice.choice([0, 0, 0, 1, 4, 20, -1]), 0)
        run = [dice.randrange(dice.choice([100_001, 100_001, 100_001, 100_100])) for _ in range(dice.randrange(4, 13))]
        below = dice.choice([("flat", rate), ("flat", 2**32 - 1), ("quarter", first, *run), ("quarter", first, *run)])
        if dice.random() < 0.5:
            return "flat", 25_000
        return dice.choice([below, ("holding", *below)])

    def next_of_draft(self):
        dice, rows = self.dice, self.book.rows
        unfiled = [row.project for row in rows if row.requirement is None]
        if len(rows) >= self.fewest and not unfiled and dice.random() < 0.5:
            return "post", self.forecast()
        unknown = [project for project in self.projects if not self.book.row_of(project)]
        project = dice.choice(unfiled or unknown or self.projects)
        return "file", project, self.requirement(project)

    def next_of_posted(self):
        dice, rows = self.dice, self.book.rows
        unstated = [row.project for row in rows if row.actual is None]
        kind = dice.random()
        if kind < (0.5 if unstated else 0.2):
            return self.bill_or_resettle()
        if kind < 0.6 and unstated:
            return ("pay",)
        if unstated or kind < 0.3:
            return "state", dice.choice(unstated or self.projects), self.dollars()
        paid = all(row.paid == self.book.share_of(row) for row in rows)
        return ("close", *self.rates()) if paid else ("pay",)

    def any(self):
        """A call of any kind, in range or out."""
        dice = self.dice
        project = dice.choice([self.project(), self.within(1, 99_999_999)])
        dollars = dice.choice([self.dollars(), self.within(0, DOLLARS)])
        pair = dice.choice([self.pair(), (self.within(1, 65_535), self.within(1, 12))])
        kwh = dice.choice([self.kwh(), self.within(0, KWH)])
        return dice.choice(
            [
                ("file", project, dollars),
                ("post", self.within(1, FORECAST)),
                ("bill", *pair, kwh),
                ("resettle", *pair, kwh),
                ("pay",),
                ("state", project, dollars),
                ("close", *self.rates()),
                ("look", project),
                ("look", self.project()),
            ]
        )

    def next_call(self):
        """The words of a call, as an entry has them."""
        if self.dice.random() < self.wild:
            return self.any()
        return self.next_of_draft() if self.book.rate is None else self.next_of_posted()


def text_of(words):
    return ",".join(map(str, words)).encode()


def calls(dice, desk):
    """Calls without end, for a desk that performs each of them; now and then one opens another book."""
    maker, left = None, 0
    while True:
        if desk.run is None or left == 0:
            maker, left = Maker(dice), dice.choice([20, 200, 500, 1_000])
            yield maker.opening()
        else:
            left -= 1
            maker.book = desk.run.book
            if maker.book.year == LAST_YEAR:
                left = min(left, 30)
            yield maker.next_call()


# --- with the law checked -------------------------------------------------------------------


def random_runs(seed, count):
    """So many calls on books made at random: how often each was accepted, and refused with each number."""
    accepted, refused = Counter(), defaultdict(Counter)
    desk = Desk()
    for _, words in zip(range(count), calls(random.Random(seed), desk)):
        name = words[0]
        try:
            desk.perform(*entry(text_of(words)))
            accepted[name] += 1
        except Refused as why:
            refused[why.number][name] += 1
    yield f"{count:,} calls, {accepted['close']:,} of them closes; the law holds after each call"
    yield "accepted    " + said(accepted)
    for number in range(1, 21):
        yield f"refused {number:>2}  " + said(refused[number])


def said(times):
    return ", ".join(f"{name} {times[name]:,}" for name in sorted(times)) or "never"


# --- as a daybook ---------------------------------------------------------------------------

PASSED_OVER = [b"", b"", b"#", b"# a remark", b"# pay", b"#open,2026,table,1", "# Größe".encode(), b"# \xff", b",,,", b'"# a, b",,']
NO_NUMBERS = [b"", b"-", b"-0", b"+1", b"--1", b"01", b"-01", b"1 ", b" 1", b"1.0", b"1e3", b"1_000", b"0x1"]
NO_NUMBERS += ["\u0661".encode(), "\uff11".encode(), b"1\xff", b"1\0", b"9" * 5_000]
TOO_LARGE = [2**16, 10**6 + 1, 2**32, 2**63, -(2**63) - 1, 2**64, 10**30, -(10**30), -1]
FIRST_WORDS = [b"-", b"Pay", b"paid", b"opens", b"bill", b"file", b"close", b"look", b"table", b"\xef\xbb\xbfpay"]


def with_another_word(dice, line):
    """One of its words, or the name, is another."""
    words = line.split(b",")
    place = dice.randrange(len(words))
    number = dice.choice([*NO_NUMBERS, *(str(number).encode() for number in TOO_LARGE)])
    words[place] = number if place else dice.choice(FIRST_WORDS)
    return b",".join(words)


def with_more_or_less(dice, line):
    """A word, a comma or another byte is one too many, or the last word is missing."""
    place = dice.randrange(len(line) + 1)
    more = dice.choice([b",", b" ", b"\r", b"\t", b";", b"\0", b"\xff", b"\xe2\x82", "\u20ac".encode(), b"0", b"-"])
    return dice.choice(
        [
            line[:place] + more + line[place:],
            line + more,
            more + line,
            line + b",1",
            line.upper(),
            line.rpartition(b",")[0] or b" ",
        ]
    )


def very_long(dice, line):
    """About as long as a line may be, and in half of the cases an entry if it is not too long."""
    size = LONGEST_LINE + dice.choice([-1, 0, 0, 1, 2, 4_000])
    if dice.random() < 0.5:
        return line.ljust(size, dice.choice([b" ", b"0", b"\xff"]))
    start = b"close,quarter,%d" % dice.choice([0, 4 * 2026])
    rates = b",1" * ((size - len(start)) // 2)
    return start + rates + b"0" * (size - len(start) - len(rates))


def damaged(dice, line):
    damage = dice.choice([with_another_word, with_more_or_less] * 120 + [very_long])
    return damage(dice, line)


def opening_lines(dice):
    """Entries before any book is open."""
    return dice.choices([b"pay", b"look,1", b"file,7,1", b"close,flat,1", b"open,65536,table,1"], k=dice.randrange(4))


def random_lines(dice, count):
    """The lines of a daybook with so many entries, without their ends."""
    desk, early = Desk(), opening_lines(dice)[:count]
    yield from early
    for _, words in zip(range(count - len(early)), calls(dice, desk)):
        line = text_of(words)
        if dice.random() < 0.04:
            line = damaged(dice, line)
        if dice.random() < 0.04:
            line += b"," * dice.randrange(1, 6)
        desk.line(0, line)
        yield line
        if dice.random() < 0.04:
            yield dice.choice(PASSED_OVER)


def random_daybook(seed, count):
    """A daybook with so many entries, in bytes; it may begin with a mark, and its last line may lack the newline."""
    dice = random.Random(seed)
    lines = [line + dice.choices([b"\n", b"\r\n"], [9, 1])[0] for line in random_lines(dice, count)]
    text = dice.choice([b"", b"", b"", BYTE_ORDER_MARK]) + b"".join(lines)
    return text if dice.random() < 0.5 else text.removesuffix(b"\n")
