#!/bin/sh
# Times `pages` on a full file of 64 projects against the second program on the same file, both started a
# hundred times. It proves and builds the program first. Prints the best of five runs of each and the ratio.
set -eu
root=$(cd "$(dirname "$0")/.." && pwd)
work=$(mktemp -d)
trap 'rm -rf "$work"' EXIT
(cd "$root/crates/pages" && rt run < stdin > /dev/null)
python3 - "$root" "$work/filing" <<'PY'
import subprocess, sys, time

root, filing = sys.argv[1:]
with open(root + "/crates/pages/stdin", "rb") as f:
    lines = f.read().split(b"\n")
head = [line for line in lines if line[:1] in (b"T", b"F")]
with open(filing, "wb") as f:
    for line in head:
        f.write(line + b"\n")
    for project in range(1, 65):
        f.write(b"P%11d%12d%12d%12d" % (project, 20_000_000 + project, 2_000_000, 400_000) + b" " * 8 + b"\n")

def run(*program):
    start = time.perf_counter()
    for _ in range(100):
        with open(filing, "rb") as f:
            answer = subprocess.run(program, stdin=f, stdout=subprocess.PIPE, check=True).stdout
    return time.perf_counter() - start, answer

times = []
for _ in range(5):
    ours, answer = run(root + "/crates/pages/out/pages")
    second, other = run(sys.executable, root + "/reference/reference.py", "pages")
    if answer != other or len(answer.split(b"\n")) != 66:
        sys.exit("the programs differ")
    times.append((ours, second))
ours, second = (min(t) for t in zip(*times))
print(f"a full file: ours {ours * 10:.1f} ms, the second program {second * 10:.1f} ms, ratio {ours / second:.3f}")
PY
