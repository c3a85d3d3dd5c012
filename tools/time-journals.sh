#!/bin/sh
# Times a hundred million puts and looks on a full table journal, and the same in Rust built with -O3.
# It proves and builds the program first, and needs rustc. Prints the best of five runs of each and the ratio.
set -eu
root=$(cd "$(dirname "$0")/.." && pwd)
work=$(mktemp -d)
trap 'rm -rf "$work"' EXIT
rustc -C opt-level=3 -o "$work/rust" "$root/reference/journal_times.rs"
(cd "$root/crates/journal_times" && rt run > "$work/sum")
"$work/rust" | cmp - "$work/sum"
python3 - "$root/crates/journal_times/out/journal_times" "$work/rust" <<'PY'
import subprocess, sys, time

def run(program):
    start = time.perf_counter()
    subprocess.run([program, "100"], stdout=subprocess.DEVNULL, check=True)
    return time.perf_counter() - start

# one after the other, so that both meet the same machine
times = [(run(sys.argv[1]), run(sys.argv[2])) for _ in range(5)]
ours, rust = (min(t) for t in zip(*times))
print(f"ours {ours:.2f} s, Rust {rust:.2f} s, ratio {ours / rust:.2f}")
PY
