#!/usr/bin/env python3
"""Counts the places that the design pass looks for in crates/*/src, point by point.

    tools/places.py [-v] [FOLDER]

FOLDER is a checkout (this one if none is given); -v prints each place. What a search
cannot see (twins that differ in more than a name, say) docs/DESIGN-PASS.md lists by hand.
"""
import collections
import pathlib
import re
import sys

args = [a for a in sys.argv[1:] if a != "-v"]
verbose = "-v" in sys.argv
root = pathlib.Path(args[0] if args else pathlib.Path(__file__).parent.parent)
files = sorted(root.glob("crates/*/src/**/*.rt"))
# Tests are measured by other rules, and the code of a comment is none.
files = [f for f in files if not f.name.endswith("tests.rt")]


def lines(path):
    for number, line in enumerate(path.read_text().split("\n"), 1):
        yield number, line.split("//")[0] if "://" not in line else line


def search(*patterns):
    found = []
    for path in files:
        for number, line in lines(path):
            if any(re.search(p, line) for p in patterns):
                found.append((f"{path.relative_to(root)}:{number}", line.strip()))
    return found


def functions():
    """Name, place, parameter names and clauses of each function."""
    head = re.compile(r"\bfn (\w+)(<.*?>)?\(", re.S)
    for path in files:
        text = path.read_text()
        for m in head.finditer(text):
            depth, i = 1, m.end()
            while depth and i < len(text):
                depth += {"(": 1, ")": -1}.get(text[i], 0)
                i += 1
            params = re.findall(r"(\w+): ", text[m.end() : i - 1])
            end = re.search(r"\n\s*\{\n|;\n|\{ *\}", text[i:])
            clauses = text[i : i + (end.start() if end else 0)]
            place = f"{path.relative_to(root)}:{text[: m.start()].count(chr(10)) + 1}"
            yield m.group(1), place, params, clauses


def same_names():
    """Functions of one name that are no methods of a trait: the first sign of twins."""
    by_name = collections.defaultdict(list)
    for path in files:
        for number, line in lines(path):
            m = re.match(r"(?:pub(?:\(crate\))? )?fn (\w+)", line)
            if m and m.group(1) not in ("main",):
                by_name[m.group(1)].append((f"{path.relative_to(root)}:{number}", line.strip()))
    return [p for places in by_name.values() if len(places) > 1 for p in places]


def repeated_requires():
    """Each fact that stands in the `requires` of three or more functions of a crate."""
    by_fact = collections.defaultdict(set)
    for name, place, _, clauses in functions():
        crate = place.split("/")[1]
        for body in re.findall(r"requires(?: \w+)? \{ (.*?) \}\n", clauses + "\n"):
            for fact in re.split(r" × ", body):
                fact = fact.replace("(", "").replace(")", "").strip()
                by_fact[(crate, fact)].add((place, name))
    return [
        (f"{crate}: {fact}", ", ".join(sorted(n for _, n in where)))
        for (crate, fact), where in sorted(by_fact.items())
        if len(where) >= 3
    ]


def groups():
    """Three or more parameters that travel together through three or more functions of a crate."""
    by_group = collections.defaultdict(set)
    for name, place, params, _ in functions():
        names = tuple(p for p in params if p not in ("self",))
        for size in range(3, len(names) + 1):
            for start in range(len(names) - size + 1):
                by_group[(place.split("/")[1], names[start : start + size])].add((place, name))
    best = {}
    for (crate, names), where in by_group.items():
        if len(where) >= 3:
            key = (crate, frozenset(where))
            if len(names) > len(best.get(key, ())):
                best[key] = names
    return [(f"{c}: {', '.join(names)}", ", ".join(sorted(n for _, n in where))) for (c, where), names in sorted(best.items(), key=str)]


def index_loops():
    """Loops over a range whose variable is an index in the body, and `while` loops that move a number on."""
    found = []
    for path in files:
        text = "\n".join(line for _, line in lines(path))
        for m in re.finditer(r"\bfor (\w+) in [^{\n]*\.\.[^{\n]*\{|\bwhile\b[^{\n]*\{", text):
            depth, i = 1, m.end()
            while depth:
                depth += {"{": 1, "}": -1}.get(text[i], 0)
                i += 1
            body = text[m.end() : i]
            if m.group(1) is None and re.search(r"[+-]= |\bplace = ", body) or m.group(1) and re.search(rf"\[[^\[\]]*\b{m.group(1)}\b[^\[\]]*\]|pair\({m.group(1)}\)", body):
                place = f"{path.relative_to(root)}:{text[: m.start()].count(chr(10)) + 1}"
                found.append((place, m.group(0)))
    return found


points = [
    ("1 a number or a flag for nothing, a kind or a refusal", lambda: search(r"^pub fn .*-> u8$", r"Result<\(\), \(\)>", r"^\s+\d+ => \w+\(&", r"\brule == \d", r": bool,$", r"^\s*Refusal::\w+ => \d+,")),
    ("2 functions of one name", same_names),
    ("3 loops that count an index by hand", index_loops),
    ("4 conversions, order and text by hand", lambda: search(r"as usize \+ 256 \*", r"256 \* \w+\[", r"fn (earlier|refusal_number|with_sign|number_in|told|status|done)\(", r'"\{slot\} \{step\}', r"l\.slot < m\.slot")),
    ("5a facts required by three or more functions", repeated_requires),
    ("5b parameters that travel together", groups),
    ("6 arrays of a fixed length, and a length beside memory", lambda: search(r"\[[\w:()\. ]+; [\w]+\]", r"^\s+(used|len|count): usize,")),
    ("7 a match that picks what to run, and hand-made closures", lambda: search(r"match (request\.)?rule\b", r"ClauseVisitor<.*> for ")),
]

for title, count in points:
    places = count()
    print(f"{len(places):4}  {title}")
    if verbose:
        for place, what in places:
            print(f"          {place}  {what}")

proofs = [p for p in root.glob("crates/*/proofs/**/*.antt")]
answers = [p for p in proofs if p.name in ("Answers.antt", "Invariants.antt")]
count = lambda ps: sum(len(p.read_text().split("\n")) - 1 for p in ps)
print(f"{count(answers):4}  8 lines of answers and invariants, in {len(answers)} files")
print(f"{count(proofs) - count(answers):4}  8 lines of lemmas, in {len(proofs) - len(answers)} files")
