"""What `program_runs` prints of `worksheet`."""

from filings import f_line, filing, p_line
from worksheet import filed, percent, sub_row

PROJECT = (7, 9_000_000, 1_000_000, 100_000)


def inputs():
    """Filings by name: both templates, and refusals of a figure, of lines, at the end and of the file."""
    mm, cc, p = filing("MM", [], line_10=-60_000_000), filing("CC", []), p_line(*PROJECT)
    yield "two projects in Attachment MM", mm + p + p
    yield "one project in Attachment CC", cc + p
    yield "an amount too large", mm + f_line("1", 10_000_000_001) + p
    yield "a byte too few", mm + b"F  1        1000\n" + p
    yield "a carriage return before a newline", mm + f_line("1", 1000)[:-1] + b"\r\n" + p
    yield "no project", cc
    yield "no byte", b""
    yield "65,537 bytes", (cc + p).ljust(65_537)


def worksheet_runs():
    for name, file in inputs():
        yield f"worksheet: {name}"
        yield from filed(file)
        yield ""
    yield "worksheet: a filing that breaks off"
    yield "the filing cannot be read: connection reset"
    yield ""
    yield "worksheet: amounts, factors and sub-rows"
    for text in (
        *(f"{amount:,}" for amount in (0, 999, -1_000, 1_234_567, -(2**127))),
        *(percent(factor) for factor in (0, -5, 100, -(2**63))),
        *(sub_row(place) for place in (0, 25, 26, 51, 52, 701)),
    ):
        yield f"{text:>52}"
    yield ""
