#!/usr/bin/env python3
"""Plants the bugs of checks/planted/ one at a time, each in a copy, and says what the check made of it.

    checks/planted.py                   all crates
    checks/planted.py book gas          these crates
    checks/planted.py --said book gas   with what rt said of each

checks/planted/CRATE.txt has a block of lines for each bug, with an empty line between two:

    bug: a name for it
    of: the function or method that it is planted in
    file: src/day.rs          which file of the crate; further pairs may follow
    old: text that stands once in that file
    new: what stands there instead

The whole tree is copied, each bug is made a must-fail edit of its crate there, and `rt must-fail` applies each to
its own copy of the crate and checks it. On standard output stands a row for each bug, in the order of the files:

    crate | function | bug | verdict

The verdict is 'refused at the code' (a clause or a safety condition there is not proved), 'refused at a proof' (a
proof of that fact no longer holds), 'PROVED', 'NO FIT' (the text no longer stands in the file, or what it makes is
not read as a program), or 'NO VERDICT' (the check was cut off, reached a limit of its own, or missed no more than a
name in a proof file). What rt said of each that is not refused, and of all with --said, stands on standard error. The
status is 0 only if there are bugs and each is refused, and 2 where the crate itself is not proved.
"""
import pathlib
import re
import shutil
import subprocess
import sys
import tempfile

TOP = pathlib.Path(__file__).resolve().parent.parent
SAID = re.compile(r"^rt: must-fail (\w+)/(\w+)\.edit: (.*)$")


def bugs_of(crate):
    """The blocks of a crate's file: (name, function, the lines of the edit)."""
    text = (TOP / "checks" / "planted" / f"{crate}.txt").read_text()
    bugs = []
    for block in re.split(r"\n\s*\n", text.strip()):
        lines = [line for line in block.split("\n") if not line.startswith("#")]
        if not lines:
            continue
        named = dict(line.split(": ", 1) for line in lines[:2])
        bugs.append((named["bug"], named["of"], lines[2:]))
    names = [name for name, _, _ in bugs]
    twice = {name for name in names if names.count(name) > 1}
    if twice:
        sys.exit(f"planted.py: {crate}: two bugs have one name: {', '.join(sorted(twice))}")
    return bugs


def copied(folder):
    """A copy of what the repository tracks."""
    tracked = subprocess.run(["git", "ls-files", "-z"], cwd=TOP, check=True, capture_output=True).stdout
    for name in tracked.decode().split("\0"):
        if name and (TOP / name).is_file():
            (folder / name).parent.mkdir(parents=True, exist_ok=True)
            shutil.copy2(TOP / name, folder / name)


def plant(folder, crate, bugs):
    """Each bug of a crate as its only must-fail edits."""
    edits = folder / "crates" / crate / "must-fail"
    shutil.rmtree(edits, ignore_errors=True)
    edits.mkdir()
    for name, _, lines in bugs:
        (edits / f"{name}.edit").write_text("\n".join(lines) + "\n")


def verdict(said):
    if said is None or "BAD EDIT" in said:
        return "NO FIT"
    if "NOT TRIED" in said or "only by a limit" in said or "only because" in said:
        return "NO VERDICT"
    if "NOT REFUSED" in said or not said.startswith("refused"):
        return "PROVED"
    place = re.search(r"(\S+\.(?:rt|antt)):\d+", said)
    return "refused at a proof" if place and re.search(r"(^|/)proofs/", place[1]) else "refused at the code"


def main(wanted, all_said):
    crates = wanted or sorted(path.stem for path in (TOP / "checks" / "planted").glob("*.txt"))
    rows, unproved = [], []
    with tempfile.TemporaryDirectory(prefix="planted-") as name:
        folder = pathlib.Path(name)
        copied(folder)
        for crate in crates:
            bugs = bugs_of(crate)
            plant(folder, crate, bugs)
            print(f"{crate}: {len(bugs)} bugs", file=sys.stderr, flush=True)
            run = subprocess.run(["rt", "must-fail", crate], cwd=folder, stdout=subprocess.PIPE, stderr=subprocess.STDOUT, text=True)
            said = {}
            for line in run.stdout.split("\n"):
                match = SAID.match(line)
                if match and match[1] == crate:
                    said[match[2]] = match[3]
            if not said:
                print(run.stdout[-2000:], file=sys.stderr)
                unproved.append(crate)
            for bug, function, _ in bugs:
                rows.append((crate, function, bug, verdict(said.get(bug))))
                print(" | ".join(rows[-1]), flush=True)
                if all_said or not rows[-1][3].startswith("refused"):
                    print(f"{crate}/{bug}: {said.get(bug)}", file=sys.stderr, flush=True)
    count = lambda what: sum(1 for row in rows if row[3] == what)
    print(f"{len(rows)} bugs: {count('refused at the code')} refused at the code, {count('refused at a proof')} at a proof,"
          f" {count('PROVED')} proved, {count('NO FIT')} without fit, {count('NO VERDICT')} without verdict", file=sys.stderr)
    if unproved or not rows:
        sys.exit(2)
    sys.exit(0 if all(row[3].startswith("refused") for row in rows) else 1)


if __name__ == "__main__":
    if "--help" in sys.argv:
        sys.exit(print(__doc__.strip()))
    main([word for word in sys.argv[1:] if word != "--said"], "--said" in sys.argv)
