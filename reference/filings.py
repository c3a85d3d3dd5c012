"""Page 1 and page 2 worked from their rules, filings read from their lines, and tables of filings."""

import random
import re

from rules import Refused, rounded

# --- page 1 and page 2 ----------------------------------------------------------------------

SCALE = 10_000
LARGEST_FACTOR = 10 * SCALE
LARGEST_AMOUNT = 10_000_000_000
LARGEST_REQUIREMENT = 100_000_000

LINES = {
    "MM": ["1", "1a", "3", "3a", "3b", "3c", "5", "7", "10", "12"],
    "CC": ["1", "2", "3", "5", "7", "10", "12"],
}

# what a sheet says of each number
WHY = {
    21: "the template has no line with this label",
    22: "an amount is 0 to 10,000,000,000, on line 10 also down to -10,000,000,000",
    23: "a line of the template has no amount yet",
    24: "a base that is divided by is not above 0",
    25: "line 3d is not from 0 to line 3",
    26: "a factor is beyond 1,000 percent",
    27: "the project's plant or depreciation is out of range",
    28: "the annual revenue requirement is not 0 to 100,000,000",
}


def enter(template, figures, label, amount):
    """Questions 21 and 22, then the figure."""
    if label not in LINES[template]:
        raise Refused(21)
    lowest = -LARGEST_AMOUNT if label == "10" else 0
    if not lowest <= amount <= LARGEST_AMOUNT:
        raise Refused(22)
    figures[label] = amount


def finish(template, figures):
    """Questions 23 to 26, then every printed amount and factor of page 1."""
    if any(label not in figures for label in LINES[template]):
        raise Refused(23)
    page = dict(figures)
    if template == "MM":
        page["2"] = page["1"] - page["1a"]
        page["3d"] = page["3a"] - page["3b"] - page["3c"]
        page["4a"] = page["3"] - page["3d"]
        bases = [page["1a"], page["1"], page["2"]]
        sections = [("4", ["3d"], "1a"), ("4b", ["4a"], "1"), ("9", ["4a", "5", "7"], "1")]
    else:
        bases = [page["1"], page["2"]]
        sections = [("4", ["3"], "1"), ("9", ["3", "5", "7"], "1")]
    sections += [("6", ["5"], "1"), ("8", ["7"], "1")]
    sections += [("11", ["10"], "2"), ("13", ["12"], "2"), ("14", ["10", "12"], "2")]
    if any(base <= 0 for base in bases):
        raise Refused(24)
    if template == "MM" and not 0 <= page["3d"] <= page["3"]:
        raise Refused(25)
    factors = {}
    for line, parts, base in sections:
        factors[line] = rounded(sum(page[part] for part in parts) * SCALE, page[base])
    asked = ["4", "9", "14"] if template == "MM" else ["9", "14"]
    if any(abs(factors[line]) > LARGEST_FACTOR for line in asked):
        raise Refused(26)
    return page, factors


def price(template, factors, gross, accumulated, depreciation):
    """Questions 27 and 28, then the columns under Attachment MM's numbers."""
    in_range = 0 <= gross <= LARGEST_AMOUNT and 0 <= depreciation <= LARGEST_AMOUNT
    if not (in_range and 0 <= accumulated <= gross):
        raise Refused(27)
    columns = {3: gross, 4: accumulated, 10: gross - accumulated, 13: depreciation}
    columns[6] = rounded(accumulated * factors["4"], SCALE) if template == "MM" else 0
    columns[8] = rounded(gross * factors["9"], SCALE)
    columns[9] = columns[6] + columns[8]
    columns[12] = rounded(columns[10] * factors["14"], SCALE)
    columns[14] = columns[9] + columns[12] + columns[13]
    if not 0 <= columns[14] <= LARGEST_REQUIREMENT:
        raise Refused(28)
    return columns


# --- filings --------------------------------------------------------------------------------

LINE_BYTES = 57
LARGEST_FILE = 65_536
MOST_PROJECTS = 64
NAMES = {b" MM": "MM", b" CC": "CC"}


# what a filing says of its own refusals: three of the numbers have two sentences
PROJECT_NUMBER = (1, "a project number is 1 to 99,999,999")
FILE_TOO_LONG = (29, "a filing has at most 65,536 bytes")
NOT_A_LINE = (29, "a line has 56 bytes and then a newline")
LETTER_OUT_OF_PLACE = (30, "a T line comes first, then F lines, then P lines")
UNKNOWN_TEMPLATE = (30, "columns 2-4 of the T line hold MM or CC")
MALFORMED_FIELD = (31, "a field is empty, is no number or ends before its last column, or something stands beside the fields")
TOO_MANY_PROJECTS = (32, "a filing has at most 64 projects")
NO_PROJECT = (32, "a filing has at least one project")


class RefusedFor(Refused):
    """A refusal of a filing's own, with its sentence."""

    def __init__(self, why):
        number, self.sentence = why
        super().__init__(number)


class LineRefused(Exception):
    """A filing refused at a line with the number of a question and a sentence."""

    def __init__(self, line, number, sentence):
        super().__init__(line, number, sentence)
        self.line = line
        self.number = number
        self.sentence = sentence


def number_in(field):
    """A right-justified number, or 31."""
    if not re.fullmatch(rb" *(0|-?[1-9][0-9]*)", field):
        raise RefusedFor(MALFORMED_FIELD)
    return int(field)


def label_in(field):
    """A right-justified label without spaces, or 31."""
    label = field.lstrip(b" ")
    if not label or b" " in label:
        raise RefusedFor(MALFORMED_FIELD)
    return label.decode("latin-1")


def spaces_in(field):
    if field.strip(b" "):
        raise RefusedFor(MALFORMED_FIELD)


def columns_of(line, first, last):
    """Columns first to last, counted from 1."""
    return line[first - 1 : last]


def worked_filing(file):
    """The template, page 1 and the priced projects of a filing."""
    if len(file) > LARGEST_FILE:
        raise LineRefused(1, *FILE_TOO_LONG)
    template, figures, page, factors, rows = None, {}, None, None, []
    place, at = 0, 0
    while at < len(file) or template is None:
        place += 1
        line = file[at : at + LINE_BYTES]
        at += LINE_BYTES
        try:
            if place == 1 and not line:
                raise RefusedFor(LETTER_OUT_OF_PLACE)
            if len(line) < LINE_BYTES or line[56:] != b"\n" or b"\n" in line[:56]:
                raise RefusedFor(NOT_A_LINE)
            letter = line[0:1]
            if place == 1:
                if letter != b"T":
                    raise RefusedFor(LETTER_OUT_OF_PLACE)
                if columns_of(line, 2, 4) not in NAMES:
                    raise RefusedFor(UNKNOWN_TEMPLATE)
                spaces_in(columns_of(line, 5, 56))
                template = NAMES[columns_of(line, 2, 4)]
            elif letter == b"F" and factors is None:
                label = label_in(columns_of(line, 2, 4))
                amount = number_in(columns_of(line, 5, 16))
                spaces_in(columns_of(line, 17, 56))
                enter(template, figures, label, amount)
            elif letter == b"P":
                number = number_in(columns_of(line, 2, 12))
                gross = number_in(columns_of(line, 13, 24))
                accumulated = number_in(columns_of(line, 25, 36))
                depreciation = number_in(columns_of(line, 37, 48))
                spaces_in(columns_of(line, 49, 56))
                if len(rows) == MOST_PROJECTS:
                    raise RefusedFor(TOO_MANY_PROJECTS)
                if factors is None:
                    page, factors = finish(template, figures)
                if not 1 <= number <= 99_999_999:
                    raise RefusedFor(PROJECT_NUMBER)
                rows.append((number, price(template, factors, gross, accumulated, depreciation)))
            else:
                raise RefusedFor(LETTER_OUT_OF_PLACE)
        except RefusedFor as refused:
            raise LineRefused(place, refused.number, refused.sentence) from None
        except Refused as refused:
            raise LineRefused(place, refused.number, WHY[refused.number]) from None
    if not rows:
        raise LineRefused(place + 1, *NO_PROJECT)
    return template, page, factors, rows


def pages(file):
    """The text that `pages` prints."""
    try:
        rows = worked_filing(file)[3]
    except LineRefused as refused:
        return f"R{refused.line:>11}{refused.number:>12}\n"
    printed = [(number, *(columns[at] for at in (9, 12, 13, 14))) for number, columns in rows]
    sums = (0, *(sum(row[at] for row in printed) for at in (1, 2, 3, 4)))
    return "".join(
        f"{number:>12}{expense:>14}{returned:>14}{depreciation:>14}{requirement:>14}\n"
        for number, expense, returned, depreciation, requirement in [*printed, sums]
    )


def t_line(template):
    return f"T{template:>3}".ljust(56).encode() + b"\n"


def f_line(label, amount):
    return f"F{label:>3}{amount:>12}".ljust(56).encode("latin-1") + b"\n"


def p_line(number, gross, accumulated, depreciation):
    return f"P{number:>11}{gross:>12}{accumulated:>12}{depreciation:>12}".ljust(56).encode() + b"\n"


MM_AMOUNTS = [1_000_000_000, 400_000_000, 30_000_000, 12_000_000, 1_000_000, 1_000_000, 3_000_000, 12_000_000, 18_000_000, 42_000_000]
CC_AMOUNTS = [1_865_000_000, 1_305_500_000, 52_989_310, 3_247_214, 12_975_857, 47_594_197, 100_209_722]
AMOUNTS = {"MM": MM_AMOUNTS, "CC": CC_AMOUNTS}
PROJECT_7 = (7, 20_000_000, 2_000_000, 400_000)


def filing(template, projects, **changed):
    """A filing of the worked figures; a keyword `line_LABEL` puts another amount on a line."""
    lines = [t_line(template)]
    for label, amount in zip(LINES[template], AMOUNTS[template]):
        amount = changed.get(f"line_{label}", amount)
        if amount is not None:
            lines.append(f_line(label, amount))
    return b"".join(lines + [p_line(*project) for project in projects])


def with_byte(file, line, column, byte):
    """The file with another byte at a line and column, both counted from 1."""
    at = (line - 1) * LINE_BYTES + column - 1
    return file[:at] + byte + file[at + 1 :]


def filing_cases():
    """Filings by name: what is printed, and each refusal at its line."""
    mm = filing("MM", [PROJECT_7])
    cc = filing("CC", [(1, 20_000_000, 500_000, 800_000), (2, 10_000_000, 2_000_000, 200_000), (3, 15_000_000, 0, 0)])
    many = [(number, 1_000_000 + number, number, 3) for number in range(1, 67)]
    head = filing("MM", [])
    t, f, p = t_line("MM"), f_line("1", 5), p_line(*PROJECT_7)
    yield "mm", mm
    yield "cc", cc
    yield "64 projects", filing("CC", many[:64])
    yield "65 projects", filing("CC", many[:65])
    yield "malformed 65th project", filing("CC", many[:64]) + p[:11] + b" " + p[12:]
    yield "a project number twice", filing("MM", [PROJECT_7, PROJECT_7])
    yield "a figure entered twice", t + f_line("12", 1) + head[LINE_BYTES:] + p
    yield "empty", b""
    yield "a newline only", b"\n"
    yield "T alone", t
    yield "no project", head
    yield "no figure", t + p
    yield "a line missing", filing("MM", [PROJECT_7], line_12=None)
    yield "a byte too few", mm[:-58] + mm[-57:]
    yield "a byte too many", mm[:-1] + b" \n"
    yield "no last newline", mm[:-1]
    yield "CR as the last byte", with_byte(mm, 3, 56, b"\r")
    yield "CR after 56 bytes", mm[:56] + b"\r\n" + mm[57:]
    yield "newline inside", with_byte(mm, 2, 20, b"\n")
    yield "65536 bytes of spaces", b" " * 65_536
    yield "65537 bytes", mm + b" " * (65_537 - len(mm))
    yield "F first", f + mm
    yield "T twice", t + mm
    yield "F after P", mm + f
    yield "unknown letter", t + b"X" + f[1:]
    yield "small letter", b"t" + mm[1:]
    yield "name MMC", b"TMMC" + mm[4:]
    yield "name MM to the left", b"TMM " + mm[4:]
    yield "name mm", b"T mm" + mm[4:]
    yield "T with a byte behind", with_byte(mm, 1, 56, b".")
    yield "F with a byte behind", with_byte(mm, 2, 17, b"0")
    yield "P with a byte behind", with_byte(mm, 12, 49, b"0")
    yield "needless zero", t + f_line("1", "007") + p
    yield "minus zero", t + f_line("10", "-0") + p
    yield "plus sign", t + f_line("1", "+7") + p
    yield "space inside", t + f_line("1", "1 7") + p
    yield "amount to the left", t + b"F  1" + b"7".ljust(12) + f[16:] + p
    yield "no amount", t + f_line("1", "") + p
    yield "no label", t + f_line("", 5) + p
    yield "label with a space inside", t + f_line("1 a", 5) + p
    yield "label to the left", t + f_line("1 ", 5) + p
    yield "label in capitals", t + f_line("1A", 5) + p
    yield "label of the other template", t + f_line("2", 5) + p
    yield "label with a NUL", t + f_line("\x00", 5) + p
    yield "label above 127", t + f_line("\xff", 5) + p
    yield "amount with a NUL", t + f_line("1", "\x005") + p
    yield "amount above 127", t + f_line("1", "\xb2") + p
    yield "largest amount", t + f_line("1", 10_000_000_000) + p
    yield "amount too large", t + f_line("1", 10_000_000_001) + p
    yield "negative amount", t + f_line("12", -1) + p
    yield "lowest line 10", t + f_line("10", -10_000_000_000) + p
    yield "line 10 too low", t + f_line("10", -10_000_000_001) + p
    yield "amount of 12 digits", t + f_line("1", 999_999_999_999) + p
    yield "base of 0", filing("MM", [PROJECT_7], line_1a=0)
    yield "net plant of 0", filing("MM", [PROJECT_7], line_1a=1_000_000_000)
    yield "3d below 0", filing("MM", [PROJECT_7], line_3a=0)
    yield "3d above line 3", filing("MM", [PROJECT_7], line_3=1)
    yield "factor too large", filing("MM", [PROJECT_7], line_12=10_000_000_000)
    yield "23 before 1", filing("MM", [(0, 1, 1, 1)], line_12=None)
    yield "24 before 1", filing("MM", [(0, 1, 1, 1)], line_1a=0)
    yield "31 before 23", t + p_line("x", 1, 1, 1)
    yield "1 before 27", head + p_line(0, -1, 0, 0)
    yield "project 0", head + p_line(0, 1, 1, 1)
    yield "project -1", head + p_line(-1, 1, 1, 1)
    yield "largest project", head + p_line(99_999_999, 1, 1, 1)
    yield "project too large", head + p_line(100_000_000, 1, 1, 1)
    yield "project of 11 digits", head + p_line(99_999_999_999, 1, 1, 1)
    yield "gross plant too large", head + p_line(1, 10_000_000_001, 0, 0)
    yield "accumulated above gross", head + p_line(1, 5, 6, 0)
    yield "negative depreciation", head + p_line(1, 5, 5, -1)
    yield "requirement too large", head + p_line(1, 10_000_000_000, 0, 0)
    yield "requirement of 0", head + p_line(1, 0, 0, 0)
    yield "second project refused", head + p + p_line(8, 5, 6, 0)
    negative = filing("MM", [(1, 9_000_000, 0, 100_000), (2, 8_000_000, 1_000_000, 200_000)], line_10=-60_000_000)
    yield "negative return charges", negative
    yield "requirement below 0", filing("MM", [(1, 9_000_000, 0, 0)], line_10=-102_000_000)
    far = filing("CC", [(n, 10_000_000_000, 0, 1) for n in range(1, 65)], line_1=1, line_2=1, line_3=10, line_5=0, line_7=0, line_10=-10, line_12=0)
    yield "charges at their limits", far


def framed(cases):
    """Each filing behind a line with its length and name."""
    return b"".join(f"{len(file)} {name}\n".encode() + file for name, file in cases)


def unframed(table):
    while table:
        head, _, table = table.partition(b"\n")
        length, _, name = head.partition(b" ")
        yield name.decode(), table[: int(length)]
        table = table[int(length) :]


def answers(table):
    return "".join(f"{name}\n{pages(file)}" for name, file in unframed(table))


def random_filing(dice):
    """A filing near the rules: mostly valid figures, now and then damaged."""
    template = dice.choice(["MM", "CC"])
    changed = {f"line_{label}": dice.randrange(10 ** dice.randrange(1, 11)) for label in LINES[template] if dice.random() < 0.15}
    projects = []
    for _ in range(dice.choice([1, 1, 2, 3, 10, 64, 65])):
        gross = dice.randrange(10 ** dice.randrange(3, 11))
        projects.append((dice.randrange(10 ** dice.randrange(1, 9)), gross, dice.randrange(gross + 1), dice.randrange(10 ** dice.randrange(1, 8))))
    file = filing(template, projects, **changed)
    for _ in range(dice.choice([0, 0, 0, 1, 1, 2])):
        at = dice.randrange(len(file))
        kind = dice.randrange(3)
        byte = bytes([dice.choice([32, 48, 49, 45, 10, 13, 70, 80, 84, 97, 0, 255])])
        file = file[:at] + (byte if kind != 1 else b"") + file[at + (kind != 2) :]
    return file


def random_cases(seed, count):
    dice = random.Random(seed)
    for place in range(count):
        yield f"random {place}", random_filing(dice)
