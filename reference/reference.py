#!/usr/bin/env python3
"""The second program: the rules of docs/ once more, in Python with exact integers.

It shares no code with the crates and reads nothing that they wrote. Stored expected outputs come
from here:

    python3 reference/reference.py worksheet         what `worksheet --example` prints
    python3 reference/reference.py runs              what `program_runs` prints
    python3 reference/reference.py pages < FILING     what `pages` prints for a filing
    python3 reference/reference.py cases              a table of filings, each behind its name and length
    python3 reference/reference.py answers < CASES    what `filing_cases` prints for such a table
    python3 reference/reference.py random SEED COUNT  the same kind of table, made at random
    python3 reference/reference.py law SEED COUNT     calls made at random on books, with the law checked after each
    python3 reference/reference.py daybook [--explain] < DAYBOOK
                                                      what `daybook` prints for a daybook, with the law checked after each
    python3 reference/reference.py daybooks SEED COUNT
                                                      a daybook of so many entries, made at random; with 14 and
                                                      20000 it is crates/daybook/stdin, and its answers are
                                                      crates/daybook/stdout
"""

import sys

from daybook import replay
from filings import answers, filing_cases, framed, pages, random_cases
from made import random_daybook, random_runs
from runs_daybook import daybook_runs
from runs_pages import pages_runs
from runs_worksheet import worksheet_runs
from worksheet import example


def main():
    words = sys.argv[1:]
    binary = sys.stdout.buffer
    if words == ["worksheet"]:
        for line in example():
            print(line)
    elif words == ["runs"]:
        for line in (*pages_runs(), *worksheet_runs()):
            binary.write(f"{line}\n".encode(errors="surrogateescape"))
        binary.writelines(daybook_runs())
    elif words == ["pages"]:
        print(pages(sys.stdin.buffer.read()), end="")
    elif words == ["cases"]:
        binary.write(framed(filing_cases()))
    elif words == ["answers"]:
        print(answers(sys.stdin.buffer.read()), end="")
    elif words in (["daybook"], ["daybook", "--explain"]):
        binary.writelines(replay(sys.stdin.buffer.read(), explain=len(words) == 2))
    elif len(words) == 3 and words[0] == "random":
        binary.write(framed(random_cases(int(words[1]), int(words[2]))))
    elif len(words) == 3 and words[0] == "daybooks":
        binary.write(random_daybook(int(words[1]), int(words[2])))
    elif len(words) == 3 and words[0] == "law":
        for line in random_runs(int(words[1]), int(words[2])):
            print(line)
    else:
        sys.exit(__doc__)


if __name__ == "__main__":
    main()
