"""Plants bugs in the crates, one at a time, and checks that the prover refuses each.

    python3 tools/plant-bugs.py [--fit] [CRATE ...]

The bugs of a crate stand in tools/planted/CRATE.txt, one after another, with an empty line between two:

    bug: a half goes toward zero
    kind: `<` for `<=`
    in: rounded
    file: src/rounding.rt
    old: if rest >= d - rest {
    new: if rest > d - rest {

`file:`, `old:` and `new:` may be given again for a bug of several lines. A bug of the kind `joint` is planted in
code and in the definition that it mirrors (specs/), so that only a law above both can refuse it. A bug that
the gate plants too, at every run, has `must-fail: NAME` in their place, the edit of that name in the crate's
own must-fail/.

Each bug has to fit: its old text stands once in its file. And each must-fail edit of the crate has to be named. With
--fit no more than that is asked, in a moment, and the bugs of each crate are counted. Else the crates are copied, the
bugs are put beside the copy's own edits, and `rt must-fail` plants them. On standard output stands a row for each bug:
crate, function, bug, kind, and where the check stopped first. On standard error stands for each crate its row of
docs/PLANTED.md. The status is 0 where every bug fits, and was refused.
"""

import pathlib
import re
import shutil
import subprocess
import sys
import tempfile

TOP = pathlib.Path(__file__).resolve().parent.parent
PLANTED = TOP / "tools" / "planted"
EDIT_LINES = ("file", "old", "new")
# Such a refusal shows nothing of the contract, so it does not count.
NAMES_ARE_GONE = "only because a proof file names what the edit took away"


def bugs_of(crate):
    """The bugs of a crate: for each its named lines, and the lines of its edit."""
    bugs = []
    for block in (PLANTED / f"{crate}.txt").read_text().strip().split("\n\n"):
        bug = {"edit": []}
        for line in block.splitlines():
            name, _, text = line.partition(":")
            text = text[1:]
            if name in EDIT_LINES:
                bug["edit"].append(f"{name}: {text}")
            else:
                bug[name] = text
        bug["name"] = bug.get("must-fail") or re.sub(r"\W+", "_", bug["bug"]).strip("_")
        bugs.append(bug)
    names = [bug["name"] for bug in bugs]
    twice = {name for name in names if names.count(name) > 1}
    if twice:
        sys.exit(f"{crate}: two bugs are named {', '.join(sorted(twice))}")
    return bugs


def misfit(crate, lines):
    """What of an edit's lines does not fit the code, or None."""
    texts, file, old = {}, None, None
    for line in lines:
        kind, _, text = line.partition(":")
        text = text[1:]
        if kind == "file":
            file = text
            source = TOP / "crates" / crate / file
            if file not in texts:
                texts[file] = source.read_text() if source.exists() else ""
        elif kind == "old":
            old = text
        elif texts[file].count(old) != 1:
            return f"this stands {texts[file].count(old)} times in {file}: {old}"
        else:
            texts[file] = texts[file].replace(old, text)
    return None


def misfits(crate, bugs):
    """Each bug of a crate that does not fit its code, and each must-fail edit that no bug names."""
    found = []
    at_gate = {edit.stem: edit for edit in (TOP / "crates" / crate / "must-fail").glob("*.edit")}
    for bug in bugs:
        edit = at_gate.pop(bug["name"], None)
        if not bug["edit"] and not edit:
            found.append(f"{crate}: there is no edit {bug['name']}")
        elif bug["edit"] and edit:
            found.append(f"{crate}: {bug['name']} is planted by the gate: name it with must-fail:")
        else:
            why = misfit(crate, bug["edit"] or edit.read_text().splitlines())
            found += [f"{crate}: {bug['name']}: {why}"] if why else []
    return found + [f"{crate}: no bug names the edit {name}" for name in sorted(at_gate)]


def copied_with(bugs_by_crate, folder):
    """A copy of the crates whose must-fail edits are the bugs and no others."""
    left_out = shutil.ignore_patterns("out", "target")
    shutil.copytree(TOP / "crates", folder / "crates", ignore=left_out)
    shutil.copy(TOP / "crates.txt", folder)
    for crate, bugs in bugs_by_crate.items():
        edits = folder / "crates" / crate / "must-fail"
        edits.mkdir(exist_ok=True)
        named = {bug["name"] for bug in bugs}
        for edit in edits.glob("*.edit"):
            if edit.stem not in named:
                edit.unlink()
        for bug in bugs:
            edit = edits / f"{bug['name']}.edit"
            if bug["edit"]:
                edit.write_text("\n".join(bug["edit"]) + "\n")


def place(verdict):
    """Where the prover stopped: a file, and the need that does not hold there."""
    found = re.search(r"(src|proofs)/[\w/.-]+", verdict)
    need = re.search(r"\(`([\w-]+)`\)|: `([\w-]+)`: ", verdict)
    return (found.group(0) if found else "?") + (f", {need.group(1) or need.group(2)}" if need else "")


def verdicts(folder, crates):
    """What `rt must-fail` says of each edit: crate and name to its text."""
    run = subprocess.run(["rt", "must-fail", *crates], cwd=folder, capture_output=True, text=True)
    sys.stderr.write(run.stdout + run.stderr)
    said = {}
    for line in (run.stdout + run.stderr).splitlines():
        found = re.match(r"rt: must-fail (\w+)/(\w+)\.edit: (.*)", line)
        if found:
            said[found.group(1), found.group(2)] = found.group(3)
    return said


def main():
    words = sys.argv[1:]
    crates = [word for word in words if word != "--fit"] or sorted(file.stem for file in PLANTED.glob("*.txt"))
    bugs_by_crate = {crate: bugs_of(crate) for crate in crates}
    unfit = [line for crate, bugs in bugs_by_crate.items() for line in misfits(crate, bugs)]
    if unfit:
        sys.exit("\n".join(unfit))
    if "--fit" in words:
        for crate, bugs in bugs_by_crate.items():
            print(f"{crate}: {len(bugs)} bugs, {sum('must-fail' in bug for bug in bugs)} of them at the gate")
        return
    with tempfile.TemporaryDirectory() as folder:
        copied_with(bugs_by_crate, pathlib.Path(folder))
        said = verdicts(folder, crates)
    not_refused = 0
    for crate, bugs in bugs_by_crate.items():
        stopped = []
        for bug in bugs:
            verdict = said.get((crate, bug["name"]), "not tried")
            refused = verdict.startswith("refused") and NAMES_ARE_GONE not in verdict
            not_refused += not refused
            outcome = place(verdict) if refused else verdict[:60].upper()
            stopped.append(outcome.partition("/")[0])
            gate = " (gate)" if "must-fail" in bug else ""
            print(f"| {crate} | `{bug['in']}` | {bug['bug']}{gate} | {bug['kind']} | {outcome} |")
        counts = [len(bugs), sum("must-fail" in bug for bug in bugs), stopped.count("src"), stopped.count("proofs")]
        print(" | ".join(["", crate, *map(str, counts), ""]).strip(), file=sys.stderr)
    print(f"{sum(map(len, bugs_by_crate.values()))} bugs, {not_refused} not refused", file=sys.stderr)
    sys.exit(1 if not_refused else 0)


if __name__ == "__main__":
    main()
