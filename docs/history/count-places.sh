#!/bin/sh
# Lists and counts the lines of src/ that could be written in a newer form, by the points of
# docs/DESIGN-PASS.md. A line is a candidate; the page says which are places and what became of them.
# Use: sh tools/count-places.sh [FOLDER]     (a checkout; this one if none is given)
cd "${1:-$(dirname "$0")/..}" || exit 1

list() {
    found=$(grep -rnE -e "$2" crates/*/src | grep -vE "${3:-^$}")
    printf '%s: %s\n' "$1" "$(printf '%s' "$found" | grep -c .)"
    printf '%s\n' "$found" | sed 's/^/    /; s/  */ /g'
}

# facts of clauses that stand in three functions or more
facts() {
    found=$(grep -rhE '^ *(requires|ensures)' crates/*/src \
        | grep -oE "$1" | sed -E 's/(old|new|now)\b//' | sort | uniq -c | awk '$1 >= 3' | sort -rn)
    printf '5 facts in three clauses or more: %s\n' "$(printf '%s' "$found" | grep -c .)"
    printf '%s\n' "$found" | sed 's/^ */    /'
}

list '1 answers rebuilt by hand' \
    '^ *(Some|Ok|Err)\(.*\) => (Some|Ok|Err|return Err)\b|^ *None => |if let Err\(|let (Ok|Some)\(.*\) = .* else'
list '1 flags and numbers answered' \
    '-> (bool|u8)\b|named_before'
list '1 enums of our own' '^ *(pub(\(crate\))? )?enum '
list '2 types, for twins' '^ *(pub(\(crate\))? )?(struct|enum|trait) '
list '2 functions, for twins' '^ *(pub(\(crate\))? )?(const )?fn ' '/tests'
list '3 loops' "^ *('[a-z]+: )?(for|while|loop)\b"
list '3 counts kept by hand' '(\+=|-=|/=) |= left\.|saturating_(add|sub|mul)'
list '4 conversions and printing by hand' \
    'fn (number|thousands|percent|why[a-z_]*|of|[a-z]*_row|quotient_below|scaled|divisor)\b|\bas (u8|u64|i64|usize)\b'
list '4 ranges compared by hand' '<= [a-z_.]+ && [a-z_.]+ <='
facts 'seen \(λ [a-z]\. [^)]*\)\)?|rows_of [a-z]+|length [a-z.]+ ≡ [0-9]+|pos 0 <ℤ|Small[A-Z][a-z]+|ProjectFits|unsigned_abs (amount|factor) ≤ [0-9]+|Gives \(printed'
list '6 fixed buffers and lengths' '\[[A-Za-z?'"'"']+; ?[A-Z0-9]+\]|^ +(pub )?(count|offset|lines|len): u' '/tests'
list '6 parallel arrays' 'const [A-Z_]+: \[|\.zip\('
list '7 switches and tables of functions' '\bdyn\b|\bfn\(|impl Fn|_ => None,|_ => match'
printf '8 lines of proofs, by crate\n'
for crate in crates/*/; do
    if [ -d "$crate/proofs" ]; then
        printf '    %s %s\n' "$(basename "$crate")" "$(find "$crate/proofs" -name '*.antt' -exec cat {} + | wc -l)"
    fi
done
