"""The rules over plain numbers, and how a call is refused."""


class Refused(Exception):
    """A call refused with the number of the first question that is answered no."""

    def __init__(self, number):
        super().__init__(number)
        self.number = number


def ask(holds, number):
    """A question; a "no" refuses with its number."""
    if not holds:
        raise Refused(number)


# what a book says of each number
WHY = {
    1: "the project number is not 1 to 99,999,999",
    2: "the year is not a draft",
    3: "the project has no row, and there are 64 rows already",
    4: "the requirement or column 16 is not 0 to 100,000,000 dollars",
    5: "there is no row, or a row has no requirement for this year",
    6: "the forecast is not 1 to 1,000,000,000 megawatt-hours",
    7: "the usage rate is not 1 to 1,000,000 ten-thousandths of a dollar",
    8: "the participant, the month or the kilowatt-hours are outside their ranges",
    9: "the year is not posted",
    10: "kilowatt-hours are held for this participant and month already",
    11: "the money afterwards is not 0 to 90,000,000,000 cents",
    12: "the journal has no place for this participant and month",
    13: "nothing is held for this participant and month",
    14: "the project has no row",
    15: "the actual is not 0 to 100,000,000 dollars",
    16: "a row has no actual for this year",
    17: "a row has not been paid its share",
    18: "the year is 65,535, the last one",
    19: "one of the 24 months from January of the year on has no rate",
    20: "a true-up is not within 100,000,000 dollars either way",
}


# --- rounding -------------------------------------------------------------------------------


def rounded(amount, divisor):
    """To the nearest whole number, a half away from zero."""
    size = (2 * abs(amount) + divisor) // (2 * divisor)
    return -size if amount < 0 else size


def rounded_down(amount, divisor):
    """The largest whole number that is not above the quotient."""
    return amount // divisor


# --- rates of interest: a list is a function from a month to its rate or None ----------------

HIGHEST_RATE = 100_000
HELD_MONTHS = 24
INTEREST_MONTHS = 24


def counted(rate):
    """A given rate, which is passed over if it is above the highest."""
    return rate if rate <= HIGHEST_RATE else None


def flat(rate):
    return lambda month: counted(rate)


def quarterly(first, run):
    """Each rate of the run stands for the three months of a quarter, from the first quarter on."""

    def rate(month):
        place = month // 3 - first
        return counted(run[place]) if 0 <= place < len(run) else None

    return rate


def holding(rates):
    """Where the list has no rate, the latest one of the 24 months before is taken."""

    def rate(month):
        back = range(month, max(month - HELD_MONTHS, 0) - 1, -1)
        return next((rates(earlier) for earlier in back if rates(earlier) is not None), None)

    return rate


def factor(rates, year):
    """What the rates of the year's months and of the next year's add up to, or None where a month has none."""
    found = [rates(month) for month in range(12 * year, 12 * year + INTEREST_MONTHS)]
    return None if None in found else sum(found)


# --- the book's rules -----------------------------------------------------------------------


def usage_rate(total, forecast):
    """Ten-thousandths of a dollar for a megawatt-hour."""
    return rounded(total * 10_000, forecast)


def charge(kwh, rate):
    """Cents for kilowatt-hours at a usage rate."""
    return rounded(kwh * rate, 100_000)


def share(money, total, column):
    """The part of the money that a column 16 is of the total."""
    return rounded_down(money * column, total)


def difference(actual, due_now, paid):
    """What should have been paid less what was, in cents."""
    return 100 * (actual + due_now) - paid


def interest(owed, by_factor):
    return rounded(owed * by_factor, 10_000_000)


def settled(cents):
    """Cents as a true-up in whole dollars, and the cents that these leave."""
    true_up = rounded(cents, 100)
    return true_up, cents - 100 * true_up
