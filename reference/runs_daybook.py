"""The runs of `program_runs` on daybooks: the same inputs, and what is printed for each."""

from daybook import BYTE_ORDER_MARK, LONGEST_LINE, replay

ENDS = 60

# every refusal of a book but that for want of room
REFUSALS = b"""\
open,2026,table,1
file,0,1
post,1
file,7,100000001
pay
file,7,100
post,0
post,1000000000
post,1
file,7,100
bill,0,1,1
bill,1,1,1000
bill,1,1,1000
bill,2,1,1000
resettle,1,2,1000
bill,1,2,10000000000
state,8,1
state,7,100000001
close,flat,1
state,7,100000000
close,flat,1
pay
close,flat,100001
close,flat,100000
open,65535,entries,1
file,7,1
post,1
state,7,1
pay
close,flat,1
"""

# lines that are unread or passed over, and entries while no book is open
UNREAD = [
    b"look, 7",
    b"pay",
    BYTE_ORDER_MARK + b"pay",
    b"pay\xff",
    b"#\xff",
    b'"# a remark, with a comma and \xff"',
    b"pay\r",
    b"pay\r\r",
    b"pay,,\r",
    b",,,",
    b"bill,1,13,-1",
    b"PAY",
]


def filled(length, start=b"", fill=b"a", end=b""):
    """A line of so many bytes."""
    return start + fill * (length - len(start) - len(end)) + end


def long_lines():
    """Lines of as many bytes as a line may have, and of one and of four bytes more."""
    for length in (LONGEST_LINE, LONGEST_LINE + 1, LONGEST_LINE + 4):
        yield filled(length)
        yield filled(length, b"pay", b",")
        yield filled(length, b"#")
        yield filled(length, end=b"pay")
        yield filled(length, end=b"\r")
        yield filled(length, end=b"\ra")
    yield b"pay"


def marked(length):
    """A first line of so many bytes, the mark counted."""
    return filled(length, BYTE_ORDER_MARK + b"pay", b",") + b"\n"


def shown(line):
    """A line of answers: of a long one both ends and the length, its newline counted."""
    if len(line) <= 4 * ENDS:
        return line
    return line[:ENDS] + b"[%d bytes in all]" % len(line) + line[-ENDS:]


def answered(daybook):
    return [shown(line) for line in replay(daybook, explain=True)]


def runs():
    """The name of each run, and the lines that are printed."""
    projects = b"".join(b"file,%d,1\n" % project for project in range(1, 66))
    yield "refusals", answered(REFUSALS)
    yield "many projects", answered(b"open,2026,entries,0\n" + projects)
    yield "unread lines", answered(b"\n".join(UNREAD))
    yield "a mark before the first line", answered(BYTE_ORDER_MARK + b"pay\r\n")
    yield "long lines", answered(b"\n".join(long_lines()))
    yield "a mark before a line of the most bytes", answered(marked(LONGEST_LINE))
    yield "a mark before a line of more bytes", answered(marked(LONGEST_LINE + 1))
    yield "many lines", answered(b"#\n" * 65_540 + b"pay\n")
    # what was answered before the input failed is written, and no line of which the end is unknown
    yield "an input that cannot be read", [*answered(b"pay\npay\n"), b"the daybook cannot be read: connection reset\n"]
    # the output has room for ten bytes
    written = b"".join(answered(b"pay\npay\n"))[:10]
    yield "an output that runs full", [written, b"\nthe answers cannot be written: no storage space\n"]
    yield "without words", replay(b"pay\nopen,2026,table,1\npay\npay,1\n", explain=False)


def daybook_runs():
    """What `program_runs` prints of daybooks, in bytes."""
    for name, lines in runs():
        yield b"daybook, %s:\n" % name.encode()
        yield from lines
