#!/usr/bin/env python3
"""Spells this repository's own names of specs/ and proofs/ as the library spells its own:
words in snake_case, types, facts and records in CamelCase.

    python3 tools/respell.py          # at the top, once, after port.py of the kit

It renames definitions, lemmas, record fields, constructors and aliases that are declared in
crates/*/specs and crates/*/proofs, there and in the clauses of crates/*/src. It leaves comments,
strings, the names of functions and fields of src/, and the names that the prover makes.
"""
import glob
import re
import sys

TOKEN = re.compile(r"[^\s(){}.,;\[\]]+")
DEFINED = re.compile(r"^\s*(?:(?:abbrev|unfoldable|pub|data|record)\s+)*([^\s(){}.,;:]+)((?:\s+[({].*)?)\s*:\s")
USED = re.compile(r"use\s+([^\s{;]+)\.\{([^}]*)\}")
OWN = re.compile(r"Rattle\.(%s)\b" % "|".join(sorted(
    line.split(":")[0].split()[0] for line in open("crates.txt")
    if line.strip() and not line.startswith("#"))))

# names bound inside a proof, which no line declares
BOUND = """above-in-tally asked-columns asked-page-one at-project by-tally bytes-are
depreciation-expenses fits-14 fits-9 fits-charges fits-depreciation fits-expense fits-om fits-other
fits-requirement fits-return is-cc is-mm is-no-mm k-is more-p more-q named-so no-actual no-actuals
no-payment no-receipt no-requirement no-requirements no-share of-refused of-worked paid-1 paid-2
reads-back signed-is stands-over-the-list suc-is whole-lines with-its-share within-the-run in-tally
in-use follows-the-tariff holds-the-latest-rate expense-charges return-charges
receipts-and-outstanding-are-actuals-and-interest records-and-bytes-determine-each-other
printed-sums-hold""".split()
# names whose new spelling is a tactic's, or another name's of the same file
TAKEN = {"first-of": "first_byte_and_rest", "first_of": "first_byte_and_rest", "digitsOf": "std_digits_of"}


def spelled(name):
    if name in TAKEN:
        return TAKEN[name]
    if name[0].isupper():
        return "".join(part[:1].upper() + part[1:] for part in name.split("-"))
    return re.sub(r"(?<=[a-z0-9])([A-Z])", lambda m: "_" + m.group(1).lower(), name.replace("-", "_"))


def odd(name):
    return bool(re.fullmatch(r"[A-Za-z][A-Za-z0-9_']*(?:-[A-Za-z0-9_']+)+", name)
                or re.fullmatch(r"[a-z][a-z0-9_]*(?:[A-Z][a-z0-9]*)+", name) or name in TAKEN)


def own_names(texts):
    names, library = set(BOUND), set()
    for path, text in texts.items():
        for line in text.split("\n"):
            found = DEFINED.match(line)
            stripped = line.strip()
            if path.endswith(".antt") and found and not stripped.startswith(("--", "let ", "use ", "pub use ")) \
                    and not re.search(r":\s*goal\.", line):
                names.add(found.group(1))
        for module, items in USED.findall(text):
            for item in items.split(","):
                parts = [part.strip() for part in item.split(" as ")]
                if len(parts) == 2:
                    names.add(parts[1])
                if not OWN.match(module) or "Goals" in module:
                    library.add(parts[0])
    return {name for name in names if odd(name) and name not in library}


def in_text(start, line):
    """Whether the place stands in a comment or a string of this line."""
    before = line[:start]
    return "//" in before or before.count('"') % 2 == 1


def turn(path, text, names):
    lines = []
    for line in text.split("\n"):
        if path.endswith(".antt"):
            code, dash, rest = (line, "", "") if "--" not in line else line.partition("--")
            lines.append(TOKEN.sub(lambda m: spelled(m.group(0)) if m.group(0) in names else m.group(0), code)
                         + dash + rest)
        else:
            lines.append(TOKEN.sub(lambda m: spelled(m.group(0)) if m.group(0) in names
                                   and not in_text(m.start(), line) else m.group(0), line))
    return "\n".join(lines)


def main():
    paths = sorted(glob.glob("crates/*/specs/**/*.antt", recursive=True)
                   + glob.glob("crates/*/proofs/**/*.antt", recursive=True)
                   + glob.glob("crates/*/src/**/*.rt", recursive=True))
    texts = {path: open(path).read() for path in paths}
    names = own_names(texts)
    together = {}
    for name in sorted(names):
        together.setdefault(spelled(name), []).append(name)
    for name, olds in together.items():
        if len(olds) > 1:
            print("fall together:", name, olds)
    changed = 0
    for path, text in texts.items():
        tokens = set(TOKEN.findall(text))
        for name in sorted(tokens & names):
            if spelled(name) in tokens:
                print("beside its own new spelling:", path, name)
        new = turn(path, text, names)
        if new != text:
            open(path, "w").write(new)
            changed += 1
    print(f"{len(names)} names, {changed} files")
    if "--list" in sys.argv:
        print("\n".join(f"{name} {spelled(name)}" for name in sorted(names)))


if __name__ == "__main__":
    main()
