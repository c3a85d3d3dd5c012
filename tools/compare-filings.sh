#!/bin/sh
# Compares `filing_cases` with the second program on filings made at random, valid and damaged.
# It proves and builds the program first. Usage: tools/compare-filings.sh [SEED [COUNT]]
set -eu
root=$(cd "$(dirname "$0")/.." && pwd)
seed=${1:-1}
count=${2:-5000}
work=$(mktemp -d)
trap 'rm -rf "$work"' EXIT
python3 "$root/reference/reference.py" random "$seed" "$count" > "$work/table"
(cd "$root/crates/filing_cases" && rt run < stdin > /dev/null)
"$root/crates/filing_cases/out/filing_cases" < "$work/table" > "$work/ours"
python3 "$root/reference/reference.py" answers < "$work/table" > "$work/second"
cmp "$work/ours" "$work/second"
refused=$(grep -c '^R' "$work/second" || true)
echo "$count filings agree, $refused of them refused (seed $seed)"
