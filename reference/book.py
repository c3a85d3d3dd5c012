"""The book, its calls with their questions in order, and the journals that it keeps."""

from dataclasses import dataclass

from rules import Refused, ask, charge, difference, factor, interest, settled, share, usage_rate

# --- journals -------------------------------------------------------------------------------

MOST_KWH = 10_000_000_000
MOST_PARTICIPANTS = 65_535


class Journal:
    """The numbers of the held pairs; which other pairs have a place is said by each kind."""

    def __init__(self):
        self.numbers = {}

    def look(self, participant, month):
        return self.numbers.get((participant, month))

    def put(self, participant, month, kwh):
        ask(self.has_place(participant, month) and kwh <= MOST_KWH, 12)
        self.numbers[participant, month] = kwh

    def wipe(self):
        self.numbers.clear()

    def held(self):
        """Every held pair with its number."""
        return self.numbers.copy()


class TableJournal(Journal):
    """Twelve places for each participant, from participant 1 on."""

    def __init__(self, participants):
        super().__init__()
        self.participants = min(participants, MOST_PARTICIPANTS)

    def has_place(self, participant, month):
        return 1 <= participant <= self.participants and 1 <= month <= 12


class EntryJournal(Journal):
    """So many records: a pair that is not held has a place while one is unused."""

    def __init__(self, records):
        super().__init__()
        self.records = records

    def has_place(self, participant, month):
        in_range = 1 <= participant <= MOST_PARTICIPANTS and 1 <= month <= 12
        return in_range and ((participant, month) in self.numbers or len(self.numbers) < self.records)


# --- the book -------------------------------------------------------------------------------

MOST_ROWS = 64
LAST_YEAR = 65_535


@dataclass
class Row:
    """A project's row: dollars due, filed and stated, cents kept and paid."""

    project: int
    due_now: int = 0
    due_next: int = 0
    kept: int = 0
    requirement: int = None
    actual: int = None
    paid: int = 0

    def copy(self):
        return Row(**vars(self))

    def column_16(self):
        return 0 if self.requirement is None else self.requirement + self.due_now


def in_dollars(amount):
    return 0 <= amount <= 100_000_000


class Book:
    """One book a year; a refused call leaves it as it was."""

    def __init__(self, journal, year):
        journal.wipe()
        self.journal = journal
        self.year = year
        self.rate = None  # a draft has none
        self.money = 0
        self.rows = []

    # what a reader sees

    def total(self):
        return sum(row.column_16() for row in self.rows)

    def sum_of_paid(self):
        return sum(row.paid for row in self.rows)

    def till(self):
        return self.money - self.sum_of_paid()

    def view(self):
        """All that a call could change, as values."""
        rows = [row.copy() for row in self.rows]
        return self.year, self.rate, self.money, rows, self.journal.held()

    def row_of(self, project):
        return next((row for row in self.rows if row.project == project), None)

    def share_of(self, row):
        return share(self.money, self.total(), row.column_16())

    # draft

    def file(self, project, requirement):
        ask(1 <= project <= 99_999_999, 1)
        ask(self.rate is None, 2)
        row = self.row_of(project)
        ask(row is not None or len(self.rows) < MOST_ROWS, 3)
        due_now = row.due_now if row else 0
        ask(in_dollars(requirement) and in_dollars(requirement + due_now), 4)
        if row is None:
            row = Row(project)
            self.rows.append(row)
        row.requirement = requirement

    def post(self, forecast):
        ask(self.rate is None, 2)
        ask(self.rows and all(row.requirement is not None for row in self.rows), 5)
        ask(1 <= forecast <= 1_000_000_000, 6)
        rate = usage_rate(self.total(), forecast)
        ask(1 <= rate <= 1_000_000, 7)
        self.rate = rate
        return rate

    # posted

    def ask_reading(self, participant, month, kwh):
        ask(1 <= participant <= MOST_PARTICIPANTS and 1 <= month <= 12 and 0 <= kwh <= MOST_KWH, 8)
        ask(self.rate is not None, 9)

    def enter(self, participant, month, kwh, change):
        ask(0 <= self.money + change <= 90_000_000_000, 11)
        self.journal.put(participant, month, kwh)
        self.money += change
        return change

    def bill(self, participant, month, kwh):
        self.ask_reading(participant, month, kwh)
        ask(self.journal.look(participant, month) is None, 10)
        return self.enter(participant, month, kwh, charge(kwh, self.rate))

    def resettle(self, participant, month, kwh):
        self.ask_reading(participant, month, kwh)
        held = self.journal.look(participant, month)
        ask(held is not None, 13)
        return self.enter(participant, month, kwh, charge(kwh, self.rate) - charge(held, self.rate))

    def pay(self):
        ask(self.rate is not None, 9)
        before = self.sum_of_paid()
        for row in self.rows:
            row.paid = self.share_of(row)
        return self.sum_of_paid() - before, self.till()

    def state(self, project, actual):
        ask(1 <= project <= 99_999_999, 1)
        ask(self.rate is not None, 9)
        row = self.row_of(project)
        ask(row is not None, 14)
        ask(in_dollars(actual), 15)
        row.actual = actual

    def close(self, rates):
        ask(self.rate is not None, 9)
        ask(all(row.actual is not None for row in self.rows), 16)
        ask(all(row.paid == self.share_of(row) for row in self.rows), 17)
        ask(self.year < LAST_YEAR, 18)
        by_factor = factor(rates, self.year)
        ask(by_factor is not None, 19)
        true_ups = []
        for row in self.rows:
            owed = difference(row.actual, row.due_now, row.paid)
            true_ups.append(settled(owed + interest(owed, by_factor) + row.kept))
        ask(all(abs(dollars) <= 100_000_000 for dollars, kept in true_ups), 20)
        self.money = self.till()
        self.rows = [
            Row(row.project, due_now=row.due_next, due_next=dollars, kept=kept)
            for row, (dollars, kept) in zip(self.rows, true_ups)
        ]
        self.journal.wipe()
        self.year += 1
        self.rate = None

    # any state

    def look(self, project):
        ask(1 <= project <= 99_999_999, 1)
        row = self.row_of(project)
        ask(row is not None, 14)
        return row.copy()
