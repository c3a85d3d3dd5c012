"""What `program_runs` prints of `pages`."""

from filings import LARGEST_FILE, LINE_BYTES, f_line, filing, pages, t_line

ONE_PROJECT = filing("CC", [(1, 20_000_000, 500_000, 800_000)])


def inputs():
    """Files by name: the longest and one of a byte more, in one go and in pieces, which print the same."""
    figures = t_line("CC") + f_line("1", 1_865_000_000) * (LARGEST_FILE // LINE_BYTES + 1)
    longest, too_long = figures[:LARGEST_FILE], figures[: LARGEST_FILE + 1]
    yield "no bytes", b""
    yield "a filing", ONE_PROJECT
    yield "a filing in pieces", ONE_PROJECT
    yield "65,536 bytes", longest
    yield "65,536 bytes in pieces", longest
    yield "65,537 bytes", too_long
    yield "65,537 bytes in pieces", too_long


def pages_runs():
    for name, file in inputs():
        yield f"pages: {name}"
        yield pages(file)
    yield "pages: a filing that breaks off"
    yield "the filing cannot be read: connection reset"
    yield ""
    yield "pages: an output that runs full"
    # the output has room for forty bytes
    yield pages(ONE_PROJECT)[:40]
    yield "the pages cannot be written: no storage space"
    yield ""
