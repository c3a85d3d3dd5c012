#!/bin/sh
# Times `daybook` on a daybook of a million entries (bills, resettlements and pays on one table journal), the same in
# Rust built with -O3, and the second program on the first ten thousand of them; all must print the same.
# It proves and builds the program first, and needs rustc. Prints the best of five runs of each and the ratios.
set -eu
root=$(cd "$(dirname "$0")/.." && pwd)
work=$(mktemp -d)
trap 'rm -rf "$work"' EXIT
rustc --edition 2021 -C opt-level=3 -o "$work/rust" "$root/reference/daybook_times.rs"
(cd "$root/crates/daybook" && rt run < /dev/null > /dev/null)
python3 - "$root" "$work" <<'PY'
import random, subprocess, sys, time

ENTRIES, PART, RUNS = 1_000_000, 10_000, 5
root, work = sys.argv[1:]
dice = random.Random(1)


def entries():
    yield from ("open,2026,table,65535", "file,7,2000000", "file,9,1000000", "post,4000000")
    billed = []
    for number in range(4, ENTRIES):
        if number % 20 == 0:
            yield "pay"
            continue
        is_bill = not billed or dice.random() < 0.6
        pair = (dice.randint(1, 65_535), dice.randint(1, 12)) if is_bill else dice.choice(billed)
        if is_bill:
            billed.append(pair)
        yield "%s,%d,%d,%d" % ("bill" if is_bill else "resettle", *pair, dice.randint(0, 2_000_000))


def timed(daybook, *program):
    """What the program prints, and its time."""
    start = time.perf_counter()
    printed = subprocess.run(program, input=daybook, stdout=subprocess.PIPE, check=True).stdout
    return printed, time.perf_counter() - start


def best(daybook, *programs):
    """The best time of each, one after the other, so that all meet the same machine."""
    times = []
    for _ in range(RUNS):
        runs = [timed(daybook, *program) for program in programs]
        assert all(printed == runs[0][0] for printed, _ in runs), "they differ"
        times.append([seconds for _, seconds in runs])
    return [min(column) for column in zip(*times)]


lines = [line + "\n" for line in entries()]
whole, part = "".join(lines).encode(), "".join(lines[:PART]).encode()
ours = [root + "/crates/daybook/out/daybook"]
own, rust = best(whole, ours, [work + "/rust"])
print(f"{ENTRIES} entries: ours {own:.2f} s, Rust {rust:.2f} s, ratio {own / rust:.2f}")
own, second = best(part, ours, ["python3", root + "/reference/reference.py", "daybook"])
print(f"{PART} entries: ours {own:.3f} s, the second program {second:.2f} s, ratio {own / second:.3f}")
PY
