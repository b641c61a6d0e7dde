#!/usr/bin/env python3
"""Brings the names of this repository's own definitions and lemmas to today's spelling, once, after port.py.

usage: python3 tools/respell.py [--dry]     at the top of the repository

Words are in snake case (`refusalTold` becomes `refusal_told`), types and modules stay in camel case. In a lemma's name a dash joins the names of two
definitions (`length-drop`), and a plain word is added with an underscore (`bit-set-same` becomes `bit-set_same` only where `bit` and `set` are
definitions, else `bit_set_same`). Functions of src/, exported names, strings, inputs and outputs keep their names. Names that the checker makes
(`returns-2`, `loop-i-init`) are left alone. Where two names would fall together, the one that had dashes keeps them; with --dry each such place is
printed and nothing is written.
"""
import collections
import os
import re
import subprocess
import sys

TOKEN = re.compile(r"[^\W\d](?:[\w'◌]|-(?=[\w'◌]))*")
SIGNATURE = re.compile(r"^\s*(?:abbrev |unfoldable |pub |ruleset )*((?:[^\s:(){}|=]+ )+): (.*)")
IMPORT = re.compile(r"^\s*(?:abbrev |unfoldable |pub |ghost )*use ([\w.+·-]+)\.\{([^}]*)\}")
CAMEL = re.compile(r"^[a-z][A-Za-z0-9_']*[A-Z]")
# Lemmas beside a definition or a library's word that would have the same letters: they keep their dashes.
APART = {"trailing-in", "bit-or", "open-bytes", "sound-as", "page-by", "moments-along", "any-arrives", "in-visit", "mask-of"}
# The same, where port.py has taken the dash away: only .antt files speak of them.
AGAIN = {"first_round": "first-round", "head_at": "head-at", "line_after": "line-after", "run_on": "run-on"}
# Names that are a tactic's word today get another one: where they stand, the old name and the new.
TACTICS = [
    (r"crates/spread/(specs/Jump|proofs/JumpLaws)\.antt$", "search", "searched"),
    (r"crates/(memory|visits)/(specs|proofs|src)/.*\.(antt|rt)$", "first_of", "first_slot"),
    (r"crates/promises/specs/Sheets\.antt$", "first_of", "first_alone"),
    (r"crates/parking/proofs/Rounds\.antt$", "first_of", "first_holds"),
]


def snake(part):
    if not CAMEL.match(part):
        return part
    part = re.sub(r"([a-z0-9])([A-Z])", r"\1_\2", part)
    part = re.sub(r"([A-Z])([A-Z][a-z])", r"\1_\2", part)
    return part.lower()


def tracked(root, *suffixes):
    listed = subprocess.run(["git", "ls-files", "-z", "crates"], cwd=root, capture_output=True, text=True).stdout.split("\0")
    return [f for f in listed if f.endswith(suffixes) and os.path.exists(os.path.join(root, f))]


def read(root, f):
    with open(os.path.join(root, f), encoding="utf-8") as it:
        return it.read()


def without_comment(line):
    return line.split("--")[0]


def made(f):
    """Whether a file answers the goals of a function: most of its names are the checker's."""
    parts = f.split("/")
    return "proofs" in parts and len(parts) - parts.index("proofs") > 2


def main(argv):
    root = subprocess.run(["git", "rev-parse", "--show-toplevel"], capture_output=True, text=True).stdout.strip()
    dry = "--dry" in argv
    antt = tracked(root, ".antt")
    code = tracked(root, ".rt")
    own = {f.split("/")[1] for f in antt + code}
    texts = {f: read(root, f) for f in antt + code}

    declared = collections.defaultdict(set)  # a name, and the files that declare it
    local = collections.defaultdict(set)  # names of a file that answers goals, which no other file cites
    plain = set()  # names of definitions: not lemmas
    for f in antt:
        for line in texts[f].splitlines():
            m = SIGNATURE.match(without_comment(line))
            if not m:
                continue
            for name in m.group(1).split():
                if not TOKEN.fullmatch(name):
                    continue
                if made(f):
                    if not re.match(r"(goal|tie|Need)\b", m.group(2)) and "statement" not in m.group(2) and not name.endswith(("-spec", "_spec")):
                        local[f].add(name)
                else:
                    declared[name].add(f)
                    if "-" not in name:
                        plain.add(name)
    foreign = set()  # names that come from a library
    for f in antt + code:
        for line in texts[f].splitlines():
            m = IMPORT.match(line)
            if m:
                words = m.group(1).split(".")
                if not (words[0] == "Rattle" and words[1] in own):
                    foreign |= {n.split(" as ")[0].strip() for n in m.group(2).split(",")}
    constants = {"zero", "suc", "none", "some", "nil", "cons", "true", "false"}
    words = {snake(n) for n in plain if n[:1].islower()} | {n for n in foreign if n[:1].islower()} | constants

    def turned(name):
        if name in APART:
            return name
        if name in AGAIN:
            return AGAIN[name]
        parts = [snake(p) for p in name.split("-")]
        out = parts[0]
        for i in range(1, len(parts)):
            left = parts[i - 1] if i == 1 or parts[i - 1] in words else out.split("-")[-1]
            out += ("-" if left in words and parts[i] in words else "_") + parts[i]
        return out

    renamed = {}
    for name in sorted(declared):
        if name[:1].islower() and ("-" in name or CAMEL.match(name) or name in AGAIN) and turned(name) != name:
            renamed[name] = turned(name)
    print(f"{len(renamed)} names of {len(declared)} change")

    def seen(f):
        """The names that a file declares or imports, and where each is from."""
        here = collections.defaultdict(set)
        for name, places in declared.items():
            if f in places:
                here[name].add(f)
        for line in texts[f].splitlines():
            m = IMPORT.match(line)
            if m:
                for n in m.group(2).split(","):
                    here[n.split(" as ")[-1].strip()].add(m.group(1))
        return here

    for f in antt + code:
        here = seen(f)
        by_new = collections.defaultdict(set)
        for name in here:
            by_new[renamed.get(name, name)].add(name)
        for new, old in by_new.items():
            if len(old) > 1:
                print(f"falls together in {f}: {sorted(old)} as {new}")
        said = set(TOKEN.findall(re.sub(r"(--|//).*", "", texts[f])))
        for name in here:
            new = renamed.get(name, name)
            if new != name and new in said and new not in here:
                print(f"may be hidden in {f}: {name} as {new}")
    both = {n for n in renamed if n in foreign}
    print("also a library's:", sorted(both), "; a library's in camel case:", sorted(n for n in foreign if CAMEL.match(n)))

    def scope(f):
        """The names of `both` that are this repository's in this file."""
        here = set()
        for name in both:
            if f in declared[name]:
                here.add(name)
        for line in texts[f].splitlines():
            m = IMPORT.match(line)
            if m and m.group(1).split(".")[0] == "Rattle" and m.group(1).split(".")[1] in own:
                here |= both & {n.split(" as ")[0].strip() for n in m.group(2).split(",")}
        return here

    new_names = collections.Counter()
    for f in antt + code:
        here = scope(f)
        table = {a: b for a, b in renamed.items() if (a not in both or a in here) and (a not in AGAIN or f.endswith(".antt"))}
        if f in local:
            for name in local[f]:
                if name[:1].islower() and name not in table and name not in foreign and ("-" in name or CAMEL.match(name)):
                    new = turned(name)
                    if new != name and new not in local[f]:
                        table[name] = new

        def word(m):
            t = m.group(0)
            if t in table:
                return table[t]
            if f.endswith(".antt") and CAMEL.match(t) and "-" not in t and t not in foreign:
                return snake(t)  # a variable, or a name that only this file has
            return t

        out = []
        for line in texts[f].splitlines(keepends=True):
            if f.endswith(".rt"):
                parts = re.split(r'("(?:[^"\\]|\\.)*"|\'(?:[^\'\\]|\\.)\')', line)
                line = "".join(p if i % 2 else TOKEN.sub(lambda m: word(m) if "-" not in m.group(0) or line.startswith("ghost use") or "{" in line else m.group(0), p) for i, p in enumerate(parts))
            else:
                text, mark, comment = line.partition("--")
                text = TOKEN.sub(word, text)
                comment = re.sub(r"`([^`]+)`", lambda m: "`" + TOKEN.sub(word, m.group(1)) + "`", comment)
                comment = TOKEN.sub(lambda m: word(m) if CAMEL.match(m.group(0)) and "-" not in m.group(0) else m.group(0), comment)
                line = text + mark + comment
            if f.endswith(".antt") or re.match(r"\s*(ghost use|requires|ensures)\b", line):
                for where, old, new in TACTICS:
                    if re.match(where, f):
                        line = re.sub(r"(?<![.\w-])" + old + r"(?![\w'-])", new, line)
            out.append(line)
        new = "".join(out)
        if new != texts[f]:
            new_names[f] += 1
            if not dry:
                with open(os.path.join(root, f), "w", encoding="utf-8") as it:
                    it.write(new)
    print(f"{len(new_names)} files change")
    if dry:
        for a, b in sorted(renamed.items()):
            print(f"  {a} -> {b}")


if __name__ == "__main__":
    main(sys.argv[1:])
