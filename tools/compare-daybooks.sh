#!/bin/sh
# Compares `daybook` with the second program, to the byte, on the example, on the stored daybook and on daybooks made
# at random. It proves and builds the program first. Usage: tools/compare-daybooks.sh [SEED [COUNT [RUNS]]]
set -eu
root=$(cd "$(dirname "$0")/.." && pwd)
seed=${1:-1}
count=${2:-10000}
runs=${3:-10}
work=$(mktemp -d)
trap 'rm -rf "$work"' EXIT
ours=$root/crates/daybook/out/daybook

second() {
    python3 "$root/reference/reference.py" "$@"
}

lines_with() {
    LC_ALL=C grep -acE -e "$1" "$work/second" || true
}

(cd "$root/crates/daybook" && rt run < stdin > "$work/ours")
cmp "$work/ours" "$root/crates/daybook/stdout"
echo "the stored daybook agrees"

"$ours" < "$root/examples/week.daybook" | cmp - "$root/examples/week.answers"
echo "the example agrees"

last=$((seed + runs - 1))
while [ "$seed" -le "$last" ]; do
    second daybooks "$seed" "$count" > "$work/daybook"
    for explain in "" --explain; do
        "$ours" $explain < "$work/daybook" > "$work/ours"
        second daybook $explain < "$work/daybook" > "$work/second"
        cmp "$work/ours" "$work/second" || { echo "seed $seed $explain: they differ" >&2; exit 1; }
    done
    echo "seed $seed: $(lines_with '^[0-9]+: ') entries agree: $(lines_with ' -> opened') books," \
        "$(lines_with ' -> closed') closes, $(lines_with ' -> refused') refused, $(lines_with ' -> unread') unread"
    seed=$((seed + 1))
done
