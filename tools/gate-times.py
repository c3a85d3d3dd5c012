"""Runs the gate and prints how much processor time each crate and each must-fail edit takes in it.

    python3 tools/gate-times.py [COMMAND ...]      (`rt ci --anew` where it is left out)

Every fifth of a second it reads from /proc what each process of the prover has used. A process's last fifth
of a second is not seen, so sums are a little low. The output of the gate goes to standard error, a table to
standard output: for each crate the seconds of its proof and build, of its tests, and of its edits, and then the edits that take
longest. An edit is named by what its copy of the crate changes.
"""

import collections
import os
import pathlib
import subprocess
import sys
import threading
import time

TOP = pathlib.Path(__file__).resolve().parent.parent
TICK = os.sysconf("SC_CLK_TCK")
EDIT_FOLDER = "rt-edit"
AS_IT_IS = "(the crate as it is)"


def processes(session):
    """The prover's processes of a session: number, words and folder, and seconds used."""
    for entry in os.scandir("/proc"):
        if not entry.name.isdigit():
            continue
        try:
            words = pathlib.Path(entry.path, "cmdline").read_bytes().decode(errors="replace").split("\0")
            if "--crate-name" not in words:
                continue
            folder = os.readlink(f"{entry.path}/cwd")
            fields = pathlib.Path(entry.path, "stat").read_text().rpartition(")")[2].split()
        except OSError:
            continue
        if fields[3] == str(session):
            yield entry.name, words, folder, (int(fields[11]) + int(fields[12])) / TICK


def edit_in(folder, crate):
    """The name of the edit whose copy of the crate stands in a folder."""
    for edit in (TOP / "crates" / crate / "must-fail").glob("*.edit"):
        lines = edit.read_text().splitlines()
        file = pathlib.Path(folder, lines[0].removeprefix("file: "))
        new = [line.removeprefix("new: ") for line in lines if line.startswith("new: ")]
        old = [line.removeprefix("old: ") for line in lines if line.startswith("old: ")]
        try:
            text = file.read_text()
        except OSError:
            continue
        if all(line in text for line in new) and not any(line in text for line in old if not any(line in n for n in new)):
            return edit.stem
    return AS_IT_IS


class Sampler(threading.Thread):
    def __init__(self, session):
        super().__init__(daemon=True)
        self.session = session
        self.used = {}
        self.done = False

    def run(self):
        while not self.done:
            for number, words, folder, seconds in processes(self.session):
                crate = words[words.index("--crate-name") + 1]
                known = self.used.get((number, folder))
                if known and known[0][2] != AS_IT_IS:
                    what = known[0]
                elif EDIT_FOLDER in folder:
                    what = (crate, "edits", edit_in(folder, crate))
                else:
                    what = (crate, "tests" if "--test" in words else "proof", "")
                self.used[number, folder] = what, seconds
            time.sleep(0.2)


def main():
    begin = time.time()
    gate = subprocess.Popen(sys.argv[1:] or ["rt", "ci", "--anew"], cwd=TOP, stdout=sys.stderr, start_new_session=True)
    sampler = Sampler(gate.pid)
    sampler.start()
    status = gate.wait()
    sampler.done = True
    sampler.join()
    by_crate, by_edit = collections.defaultdict(collections.Counter), collections.Counter()
    for (crate, kind, edit), seconds in sampler.used.values():
        by_crate[crate][kind] += seconds
        if kind == "edits":
            by_edit[crate, edit] += seconds
    edits = collections.Counter(crate for crate, edit in by_edit if edit != AS_IT_IS)
    print("| crate | proof and build | tests | edits | all |")
    print("|---|---|---|---|---|")
    for crate, kinds in sorted(by_crate.items(), key=lambda item: -sum(item[1].values())):
        many = f" ({edits[crate]})" if edits[crate] else ""
        print(f"| {crate} | {kinds['proof']:.0f} | {kinds['tests']:.0f} | {kinds['edits']:.0f}{many} | {sum(kinds.values()):.0f} |")
    sums = sum(by_crate.values(), collections.Counter())
    print(f"| all | {sums['proof']:.0f} | {sums['tests']:.0f} | {sums['edits']:.0f} ({sum(edits.values())}) | {sum(sums.values()):.0f} |")
    print("\n| edit | seconds |\n|---|---|")
    for (crate, edit), seconds in by_edit.most_common():
        print(f"| {crate}/{edit} | {seconds:.0f} |")
    print(f"\n{(time.time() - begin) / 60:.1f} minutes")
    sys.exit(status)


main()
