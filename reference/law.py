"""The tally of a run of calls, and the law that it has with the book."""

from collections import defaultdict

from book import Book
from rules import Refused, charge, difference, factor, interest, settled, share

# --- the tally ------------------------------------------------------------------------------


class Tally:
    """What the accepted calls noted, and what the rules make of it. It never sees a book."""

    def __init__(self, year):
        self.year = year
        self.projects = []
        self.readings = defaultdict(dict)  # by year, then participant and month
        self.rates = {}  # by year
        self.requirements = {}  # by year and project
        self.actuals = defaultdict(dict)  # by year, then project
        self.payments = 0
        # sums that each note keeps up
        self.charged = 0
        self.closed_actuals = defaultdict(int)  # by project
        # what the closed years left, by project
        self.closed_years = []
        self.due_now = defaultdict(int)
        self.due_next = defaultdict(int)
        self.kept = defaultdict(int)
        self.receipts = defaultdict(int)
        self.interest = defaultdict(int)
        self.closings = {}  # difference and interest of each project in the latest close

    def charges(self):
        return self.charged

    def charges_summed(self):
        """The charges once more, over all that is noted."""
        years = self.readings.items()
        return sum(charge(kwh, self.rates[year]) for year, readings in years for kwh in readings.values())

    def closed_actuals_summed(self, project):
        """A project's closed actuals once more, over all that is noted."""
        return sum(self.actual_in(year, project) for year in self.closed_years)

    def money(self):
        """The charges that no project received in a closed year."""
        return self.charges() - sum(self.receipts[project] for project in self.projects)

    def column_16(self, project):
        filed = (self.year, project) in self.requirements
        return self.requirements[self.year, project] + self.due_now[project] if filed else 0

    def total(self):
        return sum(map(self.column_16, self.projects))

    def actual_in(self, year, project):
        return self.actuals[year].get(project, 0)

    def told(self, name, arguments, answer):
        """Told of an accepted call: its arguments, and the answer of a post or a pay."""
        note = getattr(self, f"note_{name}")
        note(*arguments, answer) if name in ANSWER_IS_TOLD else note(*arguments)

    def note_file(self, project, requirement):
        if project not in self.projects:
            self.projects.append(project)
        self.requirements[self.year, project] = requirement

    def note_post(self, _forecast, rate):
        self.rates[self.year] = rate
        self.charged = self.charges_summed()

    def note_bill(self, participant, month, kwh):
        rate, readings = self.rates[self.year], self.readings[self.year]
        noted = readings.get((participant, month), 0)
        self.charged += charge(kwh, rate) - charge(noted, rate)
        readings[participant, month] = kwh

    note_resettle = note_bill

    def note_pay(self, answer):
        self.payments += answer[0]

    def note_state(self, project, actual):
        self.actuals[self.year][project] = actual

    def note_look(self, _project):
        """A look notes nothing."""

    def note_close(self, rates):
        by_factor, money, total = factor(rates, self.year), self.money(), self.total()
        shares = {project: share(money, total, self.column_16(project)) for project in self.projects}
        self.closings = {}
        for project, received in shares.items():
            owed = difference(self.actual_in(self.year, project), self.due_now[project], received)
            borne = interest(owed, by_factor)
            true_up, kept = settled(owed + borne + self.kept[project])
            self.due_now[project], self.due_next[project] = self.due_next[project], true_up
            self.kept[project] = kept
            self.receipts[project] += received
            self.interest[project] += borne
            self.closings[project] = (owed, borne)
        for project, actual in self.actuals[self.year].items():
            self.closed_actuals[project] += actual
        self.closed_years.append(self.year)
        self.year += 1


ANSWER_IS_TOLD = {"post", "pay"}

# --- the law --------------------------------------------------------------------------------


class LawBroken(Exception):
    """A part of the law does not hold, or a refused call changed the book."""


def check(holds, part, *figures):
    if not holds:
        raise LawBroken(part, *figures)


def check_law(book, tally, accepted):
    """Every part of the law, after a call: its name if it was accepted, or else None."""
    projects = [row.project for row in book.rows]
    check(projects == tally.projects, "rows_are_the_filed_projects", projects, tally.projects)
    charged, paid_or_left = tally.charges(), tally.payments + book.till()
    check(charged == paid_or_left, "charges_equal_payments_plus_till", charged, paid_or_left)
    check(len(book.rows) <= 64, "book_has_at_most_64_rows", len(book.rows))
    for row in book.rows:
        check_lifetime(row, tally)
        check_row(row)
    if accepted == "pay":
        check_shares(book, tally)
    if accepted == "close":
        check_interest(tally.closings.values())
        check_sums(tally)


def check_sums(tally):
    """The sums that were kept up note by note are those over all that is noted."""
    check(tally.charges() == tally.charges_summed(), "charges", tally.charges())
    for project in tally.projects:
        kept_up, summed = tally.closed_actuals[project], tally.closed_actuals_summed(project)
        check(kept_up == summed, "closed actuals", project, kept_up, summed)


def check_lifetime(row, tally):
    received = tally.receipts[row.project] + 100 * (row.due_now + row.due_next) + row.kept
    due = 100 * tally.closed_actuals[row.project] + tally.interest[row.project]
    check(received == due, "lifetimes_add_up", row, received, due)
    check(abs(row.kept) <= 50, "lifetimes_add_up: kept", row)


def check_row(row):
    """What a caller may rely on of a row that it looks at."""
    check(abs(row.kept) <= 50, "row_has_kept_cents_and_column_16_in_range: kept", row)
    if row.requirement is not None:
        column = row.requirement + row.due_now
        check(0 <= column <= 100_000_000, "row_has_kept_cents_and_column_16_in_range: column 16", row)


def check_rate(tally, forecast, rate):
    """The posted rate times the forecast is as near to 10,000 times the total as can be, a half upward."""
    exact, posted = 10_000 * tally.total(), rate * forecast
    off = 2 * abs(exact - posted)
    nearest = off < forecast or off == forecast and posted > exact
    check(nearest, "usage_rate_is_nearest_to_10000_times_the_total_over_the_forecast", exact, forecast, rate)


def check_shares(book, tally):
    money, total = tally.money(), tally.total()
    check(total > 0, "shares_are_paid_after_pay: total", total)
    check(0 <= book.till() < len(book.rows), "shares_are_paid_after_pay: till", book.till())
    for row in book.rows:
        product = money * tally.column_16(row.project)
        check(row.paid * total <= product < (row.paid + 1) * total, "shares_are_paid_after_pay", row)


def check_interest(closings):
    """In the order of differences: the interest of neighbours says it of all."""
    # a project without a difference bears nothing
    ordered = sorted([*closings, (0, 0)])
    for (owed, borne), (more_owed, more_borne) in zip(ordered, ordered[1:]):
        fair = borne == more_borne if owed == more_owed else borne <= more_borne
        check(fair, "interest_is_fair_in_each_close", owed, borne, more_owed, more_borne)
    for owed, borne in ordered:
        turned = borne < 0 <= owed or owed <= 0 < borne
        check(not turned, "interest_is_fair_in_each_close: sign", owed, borne)


# --- runs of calls --------------------------------------------------------------------------


class Run:
    """A book just opened and its tally; every call goes to both, and the law is checked after it."""

    def __init__(self, journal, year):
        self.book = Book(journal, year)
        self.tally = Tally(year)

    def call(self, name, *arguments):
        """The answer of a call, or its refusal."""
        before = self.book.view()
        try:
            answer = getattr(self.book, name)(*arguments)
        except Refused:
            check(self.book.view() == before, "a refused call changed the book", name, arguments)
            check_law(self.book, self.tally, None)
            raise
        self.tally.told(name, arguments, answer)
        check_law(self.book, self.tally, name)
        if name == "post":
            check_rate(self.tally, *arguments, answer)
        return answer
