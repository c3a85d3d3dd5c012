"""A daybook replayed: each line read as an entry, performed on the open book and answered, in bytes."""

import re

from book import EntryJournal, TableJournal
from law import Run
from rules import WHY, Refused, flat, holding, quarterly

# --- a line as an entry ---------------------------------------------------------------------

LONGEST_LINE = 65_536
BYTE_ORDER_MARK = b"\xef\xbb\xbf"
MOST_PARTICIPANTS = 65_535
MOST_RECORDS = 1_000_000

# how many numbers follow the name
NUMBERS = {b"file": 2, b"post": 1, b"bill": 3, b"resettle": 3, b"pay": 0, b"state": 2, b"look": 1}
JOURNALS = {b"table": (TableJournal, MOST_PARTICIPANTS), b"entries": (EntryJournal, MOST_RECORDS)}


class Unread(Exception):
    """A line that is no entry."""


def read(holds, why="no entry is written like this"):
    if not holds:
        raise Unread(why)


def number(word, low=-(2**63), high=2**63 - 1):
    """The number of a word in its only spelling: no needless zero, no plus sign, no -0."""
    read(re.fullmatch(rb"0|-?[1-9][0-9]{0,18}", word))
    value = int(word)
    read(low <= value <= high)
    return value


def number_u32(word):
    return number(word, 0, 2**32 - 1)


def opened(words):
    """The journal and the year of a book."""
    read(len(words) == 3 and words[1] in JOURNALS)
    year, (kind, most) = number(words[0], 0, 2**16 - 1), JOURNALS[words[1]]
    return kind(number(words[2], 0, most)), year


def rate_list(words):
    """What a rate list means, from its words."""
    if words[:1] == [b"holding"]:
        return holding(list_below(words[1:]))
    return list_below(words)


def list_below(words):
    """A list that holds nothing."""
    kind, numbers = words[:1], [number_u32(word) for word in words[1:]]
    if kind == [b"flat"] and len(numbers) == 1:
        return flat(*numbers)
    read(kind == [b"quarter"] and len(numbers) >= 2)
    return quarterly(numbers[0], numbers[1:])


def entry(line):
    """The name of an entry's call, and its arguments."""
    name, *words = line.split(b",")
    if name == b"open":
        return "open", opened(words)
    if name == b"close":
        return "close", (rate_list(words),)
    read(len(words) == NUMBERS.get(name))
    return name.decode(), [number(word) for word in words]


# --- answers as text ------------------------------------------------------------------------


def amount(number):
    return "-" if number is None else number


def row_text(row):
    return (
        f"row {row.project} due-now {row.due_now} due-next {row.due_next} paid {row.paid} kept {row.kept}"
        f" requirement {amount(row.requirement)} actual {amount(row.actual)}"
    )


ANSWER = {
    "open": lambda book, _: f"opened {book.year}",
    "file": lambda book, _: "filed",
    "post": lambda book, rate: f"rate {rate}",
    "bill": lambda book, charge: f"charge {charge}",
    "resettle": lambda book, change: f"change {change}",
    "pay": lambda book, paid: f"paid {paid[0]} till {paid[1]}",
    "state": lambda book, _: "stated",
    "close": lambda book, _: f"closed {book.year}",
    "look": lambda book, row: row_text(row),
}


def summary(book):
    """The year as it stands, and every row."""
    state = "draft" if book.rate is None else f"posted {book.rate}"
    yield f"year {book.year} {state} money {book.money} till {book.till()}"
    yield from map(row_text, book.rows)


# --- the replay -----------------------------------------------------------------------------


class Desk:
    """Reads lines and performs their entries: on no book at first, then on the one opened last."""

    def __init__(self, explain=False):
        self.explain = explain
        self.run = None

    def perform(self, name, arguments):
        """Each call goes to the book and its tally, and the law is checked after it."""
        if name == "open":
            self.run = Run(*arguments)
            return None
        read(self.run is not None, "no book is open")
        return self.run.call(name, *arguments)

    def answer(self, name, arguments):
        try:
            answer = self.perform(name, arguments)
        except Refused as refused:
            sentence = f": {WHY[refused.number]}" if self.explain else ""
            return f"refused {refused.number}{sentence}"
        return ANSWER[name](self.run.book, answer)

    def summary(self):
        """That of the open book, as lines."""
        texts = summary(self.run.book) if self.run else []
        return [b"%s\n" % text.encode() for text in texts]

    def line(self, number, line, longest=LONGEST_LINE):
        """What is printed for a line, which is given without its newline."""
        is_too_long = len(line) > longest
        shown = line[:longest] if is_too_long else line.removesuffix(b"\r")
        content = shown if is_too_long else shown.rstrip(b",")
        if content == b"" or content.startswith((b"#", b'"#')):
            return []
        before = []
        try:
            read(not is_too_long)
            name, arguments = entry(content)
            before = self.summary() if name == "open" else []
            answer = self.answer(name, arguments)
        except Unread as why:
            answer = f"unread: {why}" if self.explain else "unread"
        return [*before, b"%d: %s -> %s\n" % (number, shown, answer.encode())]


def replay(text, explain=False):
    """All that is printed for a daybook. Its last line may lack the newline."""
    desk = Desk(explain)
    mark = BYTE_ORDER_MARK if text.startswith(BYTE_ORDER_MARK) else b""
    first, *lines = text.removeprefix(mark).split(b"\n")
    yield from desk.line(1, first, LONGEST_LINE - len(mark))
    for number, line in enumerate(lines, 2):
        yield from desk.line(number, line)
    yield from desk.summary()
