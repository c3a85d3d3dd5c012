#!/bin/sh
# Times ten million bills, resettlements and pays on a book, over a full table journal and over an entry
# journal of 480 records, and the same in Rust built with -O3. It proves and builds the program first, and
# needs rustc. Prints the best of five runs of each and the ratio.
set -eu
root=$(cd "$(dirname "$0")/.." && pwd)
work=$(mktemp -d)
trap 'rm -rf "$work"' EXIT
rustc -C opt-level=3 -o "$work/rust" "$root/reference/book_times.rs"
(cd "$root/crates/book_times" && rt run > "$work/sum")
"$work/rust" | cmp - "$work/sum"
python3 - "$root/crates/book_times/out/book_times" "$work/rust" <<'PY'
import subprocess, sys, time

def run(program, journal):
    start = time.perf_counter()
    answer = subprocess.run([program, journal, "10"], stdout=subprocess.PIPE, check=True).stdout
    return time.perf_counter() - start, answer

for journal in ("table", "entries"):
    # one after the other, so that both meet the same machine
    times = []
    for _ in range(5):
        (ours, answer), (rust, other) = run(sys.argv[1], journal), run(sys.argv[2], journal)
        if answer != other:
            sys.exit(f"{journal}: the programs differ")
        times.append((ours, rust))
    ours, rust = (min(t) for t in zip(*times))
    print(f"{journal}: ours {ours:.2f} s, Rust {rust:.2f} s, ratio {ours / rust:.2f}")
PY
