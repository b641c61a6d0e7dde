#!/usr/bin/env python3
"""Where each must-fail edit is refused, from what the last `rt ci` said: host/edits.py >docs/EDITS.md

The gate keeps that in target/rt-ci.log; another file of such lines (of `rt ci` or `rt must-fail`) may be named. They say where an edit is refused first: by a
goal of a function, or at a declaration of specs/ or proofs/. An edit that only takes away what a proof file names shows nothing but the proof's shape, and one that the
prover only gives up on shows little: these are marked, and so is one that the log does not have, and the script ends with 1.
"""
import re, sys
from pathlib import Path

ROOT = Path(__file__).resolve().parent.parent
HEAD = """# Where each edit is refused

The gate applies each edit of a crate's `must-fail/` and the check has to refuse it. An edit is tried on its own crate alone, so an edit of the rules is refused among
the laws and computed cases of the rules, before any promise is reached, and an edit of the promises shows that a promise's own definitions carry weight; what the contracts of the code
shut out is tried by edits of the code. The last column has the first place where the edit is refused: a goal and its function, or a declaration and its file. Written by
[host/edits.py](../host/edits.py) from what `rt ci` said.

| Edit | In | Was | Becomes | Refused at |
|---|---|---|---|---|"""


def function_at(text, line, column):
    """The function that a place of a source stands in: a goal of the whole function stands at its first line, which may be an attribute."""
    lines = text.split("\n")
    here = lambda at: re.match(r'\s*(?:pub(?:\([^)]*\))? )?(?:const )?(?:unsafe )?(?:extern "C" )?fn (\w+)', lines[at])
    if column == 1:
        while line <= len(lines) and lines[line - 1].startswith("#["):
            line += 1
    return next((found[1] for found in map(here, range(min(line, len(lines)) - 1, -1, -1)) if found), None)


def refused_at(krate, said):
    """Where the edit is refused, and whether that is a place that says something."""
    if said is None:
        return "**not in the log**", False
    found = re.match(r"refused, as it must be(?: \((only [^:]*?)[,:][^)]*\))?:?(.*)", said)
    if not found:
        return f"**{said.split(':')[0]}**", False
    if found[1]:
        return "**only the proof's shape**" if "proof file" in found[1] else f"**{found[1]}**", False
    place = re.match(r" ?(?:note: )?(?:\./)?((?:src|specs|proofs)/[^:\s]+):(\d+):(\d+): (?:error: )?(.*)", found[2])
    if not place:
        return f"{found[2].strip()[:80] or 'the check'}", True
    file, line, column, why = place[1], int(place[2]), int(place[3]), place[4]
    goal = re.search(r"\(`([^`]*)`\)|^`([^`]*)`:", why)
    goal = goal and (goal[1] or goal[2])
    if file.startswith("src/"):
        where = function_at((ROOT / "crates" / krate / file).read_text(), line, column) or Path(file).stem
    elif Path(file).name in ("Answers.antt", "Invariants.antt", "Proof.antt"):
        where = Path(file).parent.name
    else:
        where = Path(file).stem
    return f"`{goal}` ({where})" if goal else f"{where}", True


def cell(text):
    return "`" + text.strip().replace("|", "\\|") + "`"


def main():
    log = Path(sys.argv[1]) if sys.argv[1:] else ROOT / "target/rt-ci.log"
    said = dict(re.findall(r"^rt: must-fail (\w+/[\w.-]+)\.edit: (.*)$", log.read_text(), re.M))
    print(HEAD)
    bad = 0
    for edit in sorted(ROOT.glob("crates/*/must-fail/*.edit")):
        krate, label = edit.parent.parent.name, edit.stem
        where, fine = refused_at(krate, said.get(f"{krate}/{label}"))
        bad += not fine
        file = None
        for line in edit.read_text().split("\n"):
            if line.startswith("file: "):
                file = line[6:]
            elif line.startswith("old: "):
                old = line[5:]
            elif line.startswith("new:"):
                print(f"| [{krate}/{label}](../crates/{krate}/must-fail/{label}.edit) | {file} | {cell(old)} | {cell(line[4:])} | {where} |")
    sys.exit(1 if bad else 0)


if __name__ == "__main__":
    main()
