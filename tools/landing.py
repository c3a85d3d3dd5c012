"""What moved between two commits, and what did not: contracts, definitions and proofs.

    python3 tools/landing.py BEFORE [AFTER]

AFTER is the working tree where it is left out. For each crate that changed, on standard output:

- its contracts (each function of src/ with its signature, requires and ensures; the ghost members of traits),
- its definitions and promises (each name of specs/, with the comment above it left out),
- its proof files,
- its must-fail edits,

by name: which are new, changed or gone, and how many stayed. A line that only moved, or is only broken in
another place, is no change. The last lines count over all crates, and the lines of each kind of file.
"""

import pathlib
import re
import subprocess
import sys

TOP = pathlib.Path(__file__).resolve().parent.parent
KINDS = ("contracts", "definitions", "proof files", "must-fail edits")
FOLDERS = ("src", "specs", "proofs")
GHOST = re.compile(r"^\s+ghost (?!use)(\w+)")
FUNCTION = re.compile(r"^\s*(?:pub(?:\(\w+\))? )?(?:const )?fn (\w+)")
DEFINITION = re.compile(r"^(?:abbrev |unfoldable |foldable |record |data |theorem |pub )*([^\s:(]+)(?= [:(])")
OWNER = re.compile(r"^(?:pub )?(?:impl|trait)\b(?:<[^>]*>)? *(?:[\w:]+(?:<.*?>)? for )?([\w:]+)")


def git(*words):
    return subprocess.run(["git", *words], cwd=TOP, capture_output=True, text=True, check=True).stdout


def files_at(commit):
    """The crates' files of a commit, or of the working tree: path to text."""
    if commit is None:
        paths = git("ls-files", "--cached", "--others", "--exclude-standard", "crates").split()
        return {path: (TOP / path).read_text(errors="replace") for path in paths if (TOP / path).is_file()}
    paths = git("ls-tree", "-r", "--name-only", commit, "crates").split()
    asked = "".join(f"{commit}:{path}\n" for path in paths)
    run = subprocess.run(["git", "cat-file", "--batch"], cwd=TOP, input=asked.encode(), capture_output=True, check=True)
    texts, rest = {}, run.stdout
    for path in paths:
        head, _, rest = rest.partition(b"\n")
        size = int(head.split()[2])
        texts[path], rest = rest[:size].decode(errors="replace"), rest[size + 1 :]
    return texts


def told(lines):
    """Lines as one text, however they are broken."""
    return " ".join(" ".join(lines).split())


def contracts(path, text):
    """Each function's signature and clauses, by its module and owner."""
    module = path.split("/src/")[1].removesuffix(".rt").removesuffix("/lib").removesuffix("/main")
    found, owner, lines = {}, "", iter(text.splitlines())
    for line in lines:
        opens = OWNER.match(line)
        if opens:
            owner = opens.group(1) + "::"
        elif line.startswith("}"):
            owner = ""
        ghost = GHOST.match(line)
        if ghost:
            member = [line]
            while not member[-1].endswith(";"):
                member.append(next(lines, ";"))
            found[f"{module}: {owner}ghost {ghost.group(1)}"] = told(member)
        begins = FUNCTION.match(line)
        if begins:
            head = [line]
            while not re.match(r"^\s*\{$|.*[^{}]\{$|.*\{\}$|.*;$|.*\{ .* \}$", head[-1]) or "ensures" in head[-1] or "requires" in head[-1]:
                following = next(lines, None)
                if following is None:
                    break
                head.append(following)
            found[f"{module}: {owner}{begins.group(1)}"] = told(head).rstrip("{ ")
    return found


def definitions(path, text):
    """Each name that a file of specs/ defines, with its lines."""
    module = path.split("/specs/")[1].removesuffix(".antt")
    found, name = {}, None
    for line in text.splitlines():
        if line.startswith(("--", "use ", "module ")):
            continue
        begins = DEFINITION.match(line)
        if begins and not line.startswith(" ") and f"{module}: {begins.group(1)}" not in found:
            name = f"{module}: {begins.group(1)}"
            found[name] = []
        if name:
            found[name].append(line.split("  --")[0])
    return {name: told(lines) for name, lines in found.items()}


def things(files):
    """What a commit has, by crate and kind: name to text."""
    had = {}
    for path, text in files.items():
        _, crate, *below = path.split("/")
        kinds = had.setdefault(crate, {kind: {} for kind in KINDS})
        if below[0] == "src" and path.endswith(".rt"):
            kinds["contracts"].update(contracts(path, text))
        elif below[0] == "specs":
            kinds["definitions"].update(definitions(path, text))
        elif below[0] == "proofs":
            kinds["proof files"]["/".join(below[1:])] = text
        elif below[0] == "must-fail":
            kinds["must-fail edits"][below[1].removesuffix(".edit")] = text
    return had


def lines_in(files):
    """The lines of each kind of file, over all crates."""
    counts = dict.fromkeys(FOLDERS, 0)
    for path, text in files.items():
        folder = path.split("/")[2]
        if folder in counts:
            counts[folder] += len(text.splitlines())
    return counts


def compared(before, after):
    """New, changed and gone names, and how many stayed."""
    new = sorted(after.keys() - before.keys())
    gone = sorted(before.keys() - after.keys())
    changed = sorted(name for name in before.keys() & after.keys() if before[name] != after[name])
    stayed = len(before.keys() & after.keys()) - len(changed)
    return {"new": new, "changed": changed, "gone": gone}, stayed


def main():
    if len(sys.argv) not in (2, 3):
        sys.exit(__doc__.strip())
    files = [files_at(commit) for commit in (sys.argv[1], (sys.argv[2:] or [None])[0])]
    before, after = map(things, files)
    nothing = {kind: {} for kind in KINDS}
    sums = {kind: [0, 0, 0, 0] for kind in KINDS}
    for crate in sorted(before.keys() | after.keys()):
        lines = []
        for kind in KINDS:
            moved, stayed = compared(before.get(crate, nothing)[kind], after.get(crate, nothing)[kind])
            for place, count in enumerate([*map(len, moved.values()), stayed]):
                sums[kind][place] += count
            if any(moved.values()):
                lines.append(f"  {kind}: {stayed} stayed")
                lines += [f"    {how}: {', '.join(names)}" for how, names in moved.items() if names]
        if lines:
            print("\n".join([crate, *lines]))
    for kind, (new, changed, gone, stayed) in sums.items():
        print(f"{kind}: {new} new, {changed} changed, {gone} gone, {stayed} stayed")
    lines_before, lines_after = map(lines_in, files)
    for folder in FOLDERS:
        print(f"lines of {folder}: {lines_before[folder]} before, {lines_after[folder]} after")


main()
