"""The two pages as a person reads them: those of a filing, and of a task worked step by step."""

from filings import LINES, WHY, LineRefused, enter, finish, price, worked_filing
from rules import Refused

PLANT = {
    "MM": [
        ("1", "Gross Transmission Plant - Total", "amount"),
        ("1a", "Transmission Accumulated Depreciation", "amount"),
        ("2", "Net Transmission Plant - Total", "amount"),
        ("", "O&M TRANSMISSION EXPENSE", "heading"),
        ("3", "Total O&M Allocated to Transmission", "amount"),
        ("3a", "Transmission O&M", "amount"),
        ("3b", "Less: LSE Expenses included in above, if any", "amount"),
        ("3c", "Less: Account 565 included in above, if any", "amount"),
        ("3d", "Adjusted Transmission O&M", "amount"),
        ("4", "Annual Allocation Factor for Transmission O&M", "single"),
        ("", "OTHER O&M EXPENSE", "heading"),
        ("4a", "Other O&M Allocated to Transmission", "amount"),
        ("4b", "Annual Allocation Factor for Other O&M", "single"),
    ],
    "CC": [
        ("1", "Gross Transmission Plant - Total", "amount"),
        ("2", "Net Transmission Plant - Total", "amount"),
        ("", "O&M EXPENSE", "heading"),
        ("3", "Total O&M Allocated to Transmission", "amount"),
        ("4", "Annual Allocation Factor for O&M", "single"),
    ],
}

EXPENSE_NAME = {"MM": "Annual Allocation Factor for Other Expense", "CC": "Annual Allocation Factor for Expense"}


def printed_lines(template):
    return PLANT[template] + [
        ("", "GENERAL AND COMMON (G&C) DEPRECIATION EXPENSE", "heading"),
        ("5", "Total G&C Depreciation Expense", "amount"),
        ("6", "Annual Allocation Factor for G&C Depreciation Expense", "single"),
        ("", "TAXES OTHER THAN INCOME TAXES", "heading"),
        ("7", "Total Other Taxes", "amount"),
        ("8", "Annual Allocation Factor for Other Taxes", "single"),
        ("9", EXPENSE_NAME[template], "sum"),
        ("", "INCOME TAXES", "heading"),
        ("10", "Total Income Taxes", "amount"),
        ("11", "Annual Allocation Factor for Income Taxes", "single"),
        ("", "RETURN", "heading"),
        ("12", "Return on Rate Base", "amount"),
        ("13", "Annual Allocation Factor for Return on Rate Base", "single"),
        ("14", "Annual Allocation Factor for Return", "sum"),
    ]


# what a column of page 2 shows: a column under Attachment MM's number, or the factor of a line
HEADINGS = {
    3: ("Project", "Gross", "Plant"),
    4: ("Project", "Accumulated", "Depreciation"),
    "4": ("Trans. O&M", "Allocation", "Factor"),
    6: ("Allocation", "for Trans.", "O&M Expense"),
    8: ("Allocation", "for Other", "Expense"),
    9: ("Annual", "Expense", "Charge"),
    10: ("Project", "Net", "Plant"),
    "14": ("Allocation", "Factor for", "Return"),
    12: ("Annual", "Return", "Charge"),
    13: ("Project", "Depreciation", "Expense"),
    14: ("Annual", "Revenue", "Requirement"),
}
EXPENSE_HEADING = {"MM": ("Other Exp.", "Allocation", "Factor"), "CC": ("Allocation", "Factor for", "Expense")}
RETURN_BAND = [10, "14", 12, 13, 14]
BANDS = {"MM": [[3, 4, "4", 6, "9", 8, 9], RETURN_BAND], "CC": [[3, "9", 9], RETURN_BAND]}

TITLE = {
    "MM": "Multi-Value Project (MVP) Revenue Requirement Calculation",
    "CC": "Cross-Border Network Upgrade Charge (NUC) Calculation by Project",
}
TOTAL_NAME = {"MM": "MVP Total Annual Revenue Requirements", "CC": "Annual Total"}


def percent(factor):
    return f"{'-' if factor < 0 else ''}{abs(factor) // 100}.{abs(factor) % 100:02}%"


def sub_row(place):
    """a to z, then aa, ab and so on to zz."""
    last = chr(ord("a") + place % 26)
    return last if place < 26 else chr(ord("a") + place // 26 - 1) + last


def page_one(template, page, factors):
    yield f"Attachment {template}, page 1 of 2".ljust(60) + "(3)".rjust(18) + "(4)".rjust(12)
    yield "Line".ljust(60) + "Transmission".rjust(18) + "Allocator".rjust(12)
    for label, name, kind in printed_lines(template):
        start = f"{label:<4}  {name:<54}"
        if kind == "heading":
            yield ""
            yield f"      {name}"
        elif kind == "amount":
            yield f"{start}{page[label]:>18,}"
        elif kind == "single":
            yield f"{start}{percent(factors[label]):>18}{percent(factors[label]):>12}"
        else:
            yield f"{start}{'':>18}{percent(factors[label]):>12}"
    yield ""
    yield "Lines 9 and 14 are rounded once from the exact sums of their sections. They are not"
    yield "added up from the rounded lines above them, so they can differ from that sum by 0.01%."


def page_two(template, factors, rows):
    headings = {**HEADINGS, "9": EXPENSE_HEADING[template]}
    yield f"Attachment {template}, page 2 of 2: {TITLE[template]}"
    number = 3
    for band in BANDS[template]:
        yield ""
        yield f"{'':<4}{'(2)':>10}" + "".join(f"{f'({number + place})':>16}" for place in range(len(band)))
        number += len(band)
        for part, first in ((0, "MTEP"), (1, "Project"), (2, "Number")):
            line = "Line" if part == 2 else ""
            yield f"{line:<4}{first:>10}" + "".join(f"{headings[what][part]:>16}" for what in band)
        for place, (project, columns) in enumerate(rows):
            cells = (
                f"{percent(factors[what]):>16}" if isinstance(what, str) else f"{columns[what]:>16,}"
                for what in band
            )
            yield f"1{sub_row(place):<3}{project:>10}" + "".join(cells)
        # sums stand under the charges, the depreciation expense and the requirement
        cells = (
            f"{sum(columns[what] for _, columns in rows):>16,}" if what in (9, 12, 13, 14) else f"{'':>16}"
            for what in band
        )
        yield f"{'':<4}{'Sum':>10}" + "".join(cells)
    requirement = sum(columns[14] for _, columns in rows)
    yield ""
    yield f"{'2':<4}  {TOTAL_NAME[template]:<54}{requirement:>18,}"
    yield f"{'3':<4}  {'Rev. Req. Adj. for Attachment O':<54}{requirement:>18,}"


def refused_line(file, place):
    """A refused line as it stands in the file, with its length, which may be all that is wrong with it."""
    lines = file.split(b"\n")
    line = lines[place - 1] if place <= len(lines) else b""
    if line:
        end = ", the last a carriage return" if line.endswith(b"\r") else ""
        yield f"The line has {len(line)} bytes{end}:"
        yield line.rstrip(b" \t\n\f\r").decode(errors="surrogateescape")


def filed(file):
    """Both pages of a filing, or why it is refused."""
    try:
        template, page, factors, rows = worked_filing(file)
    except LineRefused as refused:
        yield f"Line {refused.line} of the filing is refused ({refused.number}): {refused.sentence}."
        yield from refused_line(file, refused.line)
        return
    yield from page_one(template, page, factors)
    yield ""
    yield from page_two(template, factors, rows)


def worked_task(template, title, figures, projects):
    """Each action as it is done, then the two pages."""
    yield title
    open_figures = {}
    factors = None
    for label, amount in figures:
        if label == "finish":
            try:
                page, factors = finish(template, open_figures)
                of = ["4", "9", "14"] if template == "MM" else ["9", "14"]
                said = ", ".join(f"line {line} is {percent(factors[line])}" for line in of)
                yield f"  finish              page 1 worked: {said}"
            except Refused as refused:
                missing = [line for line in LINES[template] if line not in open_figures]
                said = f": {', '.join(missing)}" if refused.number == 23 else ""
                yield f"  finish              refused ({refused.number}): {WHY[refused.number]}{said}"
            continue
        start = f"  line {label:<4}{amount:>20,}"
        try:
            enter(template, open_figures, label, amount)
            yield f"{start}  entered"
        except Refused as refused:
            yield f"{start}  refused ({refused.number}): {WHY[refused.number]}"
    rows = []
    for number, gross, accumulated, depreciation in projects:
        columns = price(template, factors, gross, accumulated, depreciation)
        yield f"  project {number:<4}        annual revenue requirement {columns[14]:,}"
        rows.append((number, columns))
    yield ""
    yield from page_one(template, page, factors)
    yield ""
    yield from page_two(template, factors, rows)


def example():
    yield from worked_task(
        "CC",
        "Attachment CC: the example that the tariff prints",
        [
            ("1", 1_865_000_000),
            ("2", 1_305_500_000),
            ("3", 52_989_310),
            ("5", 3_247_214),
            ("7", 12_975_857),
            ("10", 47_594_197),
            ("finish", 0),
            ("12", 10_000_000_001),
            ("12", 100_209_722),
            ("finish", 0),
        ],
        [
            (1, 20_000_000, 500_000, 800_000),
            (2, 10_000_000, 2_000_000, 200_000),
            (3, 15_000_000, 0, 0),
        ],
    )
    yield ""
    yield from worked_task(
        "MM",
        "Attachment MM: a sheet with one Multi-Value Project",
        [
            ("1", 1_000_000_000),
            ("1a", 400_000_000),
            ("3", 30_000_000),
            ("3a", 12_000_000),
            ("3b", 1_000_000),
            ("3c", 1_000_000),
            ("5", 3_000_000),
            ("7", 12_000_000),
            ("10", 18_000_000),
            ("12", 42_000_000),
            ("finish", 0),
        ],
        [(7, 20_000_000, 2_000_000, 400_000)],
    )
