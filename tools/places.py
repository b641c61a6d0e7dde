#!/usr/bin/env python3
"""Counts the places in src/ that docs/DESIGN-PASS.md speaks of: usage, tools/places.py [-v] [FOLDER].

FOLDER is a checkout (this one, if none is given); -v prints each place. What is counted is a shape of the text, so a place that is found need not be
one that should change: the page says of each what became of it.
"""
import collections
import glob
import os
import re
import sys

NUMBERS = "u8|u16|u32|u64|usize|i64|Weight|Position|bool"
args = [a for a in sys.argv[1:] if a != "-v"]
shown = "-v" in sys.argv[1:]
top = args[0] if args else os.path.join(os.path.dirname(os.path.abspath(__file__)), "..")
os.chdir(top)

sources = {f: open(f).read() for f in sorted(glob.glob("crates/*/src/**/*.rt", recursive=True))}


class Function:
    def __init__(self, file, line, head, clauses, body):
        self.file, self.line, self.body = file, line, body
        self.name = re.search(r"fn (\w+)", head).group(1)
        self.for_c = 'extern "C"' in head
        inside = head[head.index("("):]
        result = re.search(r"\)\s*->\s*(.+?)\s*$", inside, re.S)
        self.result = result.group(1).strip() if result else ""
        if result:
            inside = inside[: result.start() + 1]
        parameters = re.findall(r"(?:mut )?(\w+): ([^,()]+(?:\([^)]*\))?[^,()]*)", inside)
        self.parameters = [(n, t.strip()) for n, t in parameters]
        if re.search(r"\((&mut |&|mut )?self\b", head):
            self.parameters.insert(0, ("self", "Self"))
        self.facts = []
        for clause in re.findall(r"requires(?: \w+)? \{(.*?)\}\n(?=\s*(?:ensures|requires|\{|$))", clauses, re.S):
            depth, part = 0, ""
            for c in clause + "×":
                depth += (c == "(") - (c == ")")
                if c == "×" and depth <= 0:
                    part = " ".join(part.split())
                    while part.startswith("(") and part.endswith(")"):
                        part = part[1:-1].strip()
                    if part:
                        self.facts.append(re.sub(r"\.(now|old)\b", "", part))
                    part = ""
                else:
                    part += c

    def __str__(self):
        return f"{self.file}:{self.line} {self.name}"


functions = []
for file, text in sources.items():
    for m in re.finditer(r"^( *)(?:pub(?:\(crate\))? )?(?:extern \"C\" )?(?:const )?fn \w+", text, re.M):
        indent = m.group(1)
        brace = re.compile(rf"^{indent}\{{|(?<= )\{{$", re.M).search(text, m.start())
        if not brace:
            continue
        head_end = re.compile(r"^ *(requires|ensures)\b", re.M).search(text, m.start(), brace.start())
        head = text[m.start(): head_end.start() if head_end else brace.start()]
        end = re.compile(rf"^{indent}\}}", re.M).search(text, brace.end())
        clauses = text[head_end.start(): brace.start() + 1] if head_end else ""
        body = text[brace.end(): end.start()] if end else ""
        functions.append(Function(file, text.count("\n", 0, m.start()) + 1, head.rstrip(), clauses, body))

code = [f for f in functions if not f.file.startswith(("crates/driver_c/", "crates/support_c/"))]


def lines(pattern, flags=0):
    for file, text in sources.items():
        for number, line in enumerate(text.split("\n"), 1):
            if re.search(pattern, line, flags):
                yield f"{file}:{number} {line.strip()}"


def report(point, what, places):
    places = list(places)
    print(f"{point:3} {len(places):4}  {what}")
    if shown:
        for p in places:
            print(f"            {p}")


# 1
enums = []
for file, text in sources.items():
    for m in re.finditer(r"^(?:pub )?enum (\w+) \{\n(.*?)^\}", text, re.M | re.S):
        variants = re.findall(r"^    (\w+)( \{| ?\(|,| =)", m.group(2), re.M)
        data = [v for v, k in variants if k.strip() in ("{", "(")]
        if any(v == "Refused" for v, k in variants) or (1 <= len(data) <= 2 and len(variants) <= 3 and "Visit" not in data):
            enums.append(f"{file} {m.group(1)}: {', '.join(v for v, k in variants)}")
report("1a", "enums of the shape of Option or Result", enums)
report("1b", "a number that says that there is none (by the comment)", lines(r"//.*\b((0|64|255|`count`)\b.*\bnone\b|one more than it)", re.I))
report("1c", "kinds, marks and editions held as numbers (fields and parameters, those for C left out)",
       (l for l in lines(r"\b(kind|visit|started|edition|version)\b: (u8|u32|u64|usize)\b") if "_c/" not in l and 'extern "C"' not in l))

# 2
groups = collections.defaultdict(list)
for f in code:
    body = re.sub(r"//.*", "", f.body)
    if body.count("\n") < 2:
        continue
    # A twin's body reads the same with its types, sizes, constants and the names of what it calls left out.
    shape = re.sub(r"\b[A-Z][A-Za-z0-9_]*\b|\b\d+\b|\b(?:u8|u16|u32|u64|usize)\b", "#", body)
    shape = re.sub(r"\b\w+(?=[:(.,;)\]])", "x", shape)
    groups[(shape, len(f.parameters))].append(f)
twins = [g for g in groups.values() if len(g) > 1]
report("2", f"functions that have a twin ({len(twins)} families)", (f"{f}" for g in twins for f in g))

# 3
report("3", "`while` and `loop`", lines(r"^\s*(while|loop)\b"))

# 4
scalar = re.compile(rf"^({NUMBERS})$")
report("4a", "functions of at most eight lines from numbers to a number", (
    str(f) for f in code if not f.for_c and f.parameters and all(scalar.match(t) for _, t in f.parameters) and scalar.match(f.result) and f.body.count("\n") <= 8))
report("4b", "conversions by `as`", (f"{file}:{text.count(chr(10), 0, m.start()) + 1} {m.group(0).strip()}" for file, text in sources.items()
       for m in re.finditer(rf"[\w)\]]+ as ({NUMBERS})\b", re.sub(r"^\s*(ghost )?use .*$", "", text, flags=re.M))))

# 5
facts = collections.defaultdict(list)
for f in code:
    for fact in f.facts:
        facts[fact].append(f)
often = {k: v for k, v in facts.items() if len(v) >= 3}
report("5a", f"clauses that state a fact which stands in three or more contracts ({len(often)} facts)", (
    f"{len(v):3} {k}" for k, v in sorted(often.items(), key=lambda kv: -len(kv[1])) for _ in range(1 if shown else len(v))))
pairs = collections.Counter()
for f in code:
    names = [n for n, t in f.parameters]
    for pair in zip(names, names[1:]):
        pairs[pair] += 1
together = {k: n for k, n in pairs.items() if n >= 3}
report("5b", f"parameters side by side in three or more signatures ({len(together)} pairs)", (
    f"{n:3} {', '.join(k)}" for k, n in sorted(together.items(), key=lambda kv: -kv[1]) for _ in range(1 if shown else n)))

# 6
report("6", "a buffer with a number beside it that says how much of it counts", (
    f"{f}: {a}, {b}" for f in code for (a, t), (b, u) in zip(f.parameters, f.parameters[1:])
    if re.match(r"&(mut )?\[", t) and u == "usize" and b in ("n", "r", "c", "k", "count", "total", "size", "len", "place")))

# 7
report("7", "`match` on a step or a kind of work", lines(r"^\s*match (step|kind|state)\b"))

# 8
answers = glob.glob("crates/*/proofs/**/*.antt", recursive=True)
count = sum(len(re.findall(r"^(?:abbrev )?pub \w", open(f).read(), re.M)) for f in answers if f.endswith(("Answers.antt", "Invariants.antt")))
print(f"8   {count:4}  answers and invariants in {sum(f.endswith(('Answers.antt', 'Invariants.antt')) for f in answers)} files; "
      f"{sum(open(f).read().count(chr(10)) for f in answers)} lines of proofs in all")
