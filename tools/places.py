"""Counts the places in src/ of which docs/DESIGN-PASS.md speaks, point by point.

python3 tools/places.py [ROOT]    ROOT is a checkout, and else this one. Tests are left out, but for points 2 and 3.
"""

import collections
import difflib
import pathlib
import re
import sys

ROOT = pathlib.Path(sys.argv[1] if len(sys.argv) > 1 else pathlib.Path(__file__).parent.parent)
FILES = sorted(ROOT.glob("crates/*/src/**/*.rt"))


def lines(tests=False):
    for path in FILES:
        if tests or "tests" not in path.name:
            for at, line in enumerate(path.read_text().splitlines(), 1):
                yield path.relative_to(ROOT / "crates"), at, line


def matching(pattern, tests=False):
    found = re.compile(pattern)
    return [f"{p}:{n}: {l.strip()}" for p, n, l in lines(tests) if found.search(re.sub(r'"[^"]*"|//.*', "", l)) and "ghost use" not in l]


def functions(tests=False):
    """Name, parameters, clauses and body of each function."""
    for path in FILES:
        if not tests and "tests" in path.name:
            continue
        text = re.sub(r"//[^\n]*", "", path.read_text())
        for head in re.finditer(r"\bfn (\w+)[^(]*\(", text):
            at, deep = head.end(), 1
            while deep:
                deep += {"(": 1, ")": -1}.get(text[at], 0)
                at += 1
            parameters = text[head.end() : at - 1]
            rest = text[at:]
            body = re.search(r"\n *\{\n|\{ *\n", rest)
            end = rest.find(";\n") if body is None or -1 < rest.find(";\n") < body.start() else body.start()
            clauses = re.findall(r"^ *((?:requires|ensures).*)$", rest[:end], re.M)
            code = ""
            if body is not None and end == body.start():
                at, deep = body.end(), 1
                while deep:
                    deep += {"{": 1, "}": -1}.get(rest[at], 0)
                    at += 1
                code = rest[body.end() : at - 1]
            yield f"{path.relative_to(ROOT / 'crates')}: {head.group(1)}", parameters, clauses, code


def twins():
    """Pairs of functions whose bodies are alike but for names and numbers."""

    def shape(code):
        words = re.findall(r"[A-Za-z_]\w*|\d[\d_]*|[^\s\w]", code)
        keep = {"for", "in", "if", "else", "match", "return", "let", "mut", "Some", "None", "Ok", "Err", "as"}
        return [w if w in keep or not re.match(r"\w", w) else "_" for w in words]

    all_of = [(name, shape(code)) for name, _, _, code in functions(tests=True)]
    all_of = [(name, s) for name, s in all_of if len(s) >= 12 and "test" not in name.split(": ")[0] or "refused" in name]
    found = []
    for i, (a, s) in enumerate(all_of):
        for b, t in all_of[i + 1 :]:
            if difflib.SequenceMatcher(None, s, t, autojunk=False).ratio() >= 0.9:
                found.append(f"{a} ~ {b}")
    return found


def facts():
    """Clauses that stand alike in three functions or more."""
    where = collections.defaultdict(set)
    for name, _, clauses, _ in functions():
        for clause in clauses:
            fact = re.sub(r"^(requires|ensures)\*? *\w* *\{ *|\.(now|old|new)\b| *\}$", "", clause)
            fact = re.sub(r"^length \w+", "length of a slice", fact)
            fact = re.sub(r"\b(self|sweep)\.|\b([BPV])\.(Basis|Plan|Valuation)\.", lambda m: f"{m.group(2)}." if m.group(2) else "", fact)
            where[fact].add(name)
    return [f"{len(names)} functions: {fact}" for fact, names in where.items() if len(names) >= 3]


def together():
    """Three parameters or more that stand alike in three functions or more."""
    where = collections.defaultdict(set)
    for name, parameters, _, _ in functions():
        names = frozenset(re.sub(r"\s+", " ", p).strip() for p in re.split(r",(?![^<(]*[>)])", parameters) if ":" in p)
        where[names].add(name)
    groups = set()
    for a in where:
        for b in where:
            if len(a & b) >= 3:
                groups.add(a & b)
    found = {}
    for group in groups:
        users = {n for names, ns in where.items() if group <= names for n in ns}
        if len(users) >= 3:
            found[group] = users
    return [f"{len(users)} functions: {', '.join(sorted(group))}" for group, users in found.items()]


def proofs():
    for crate in sorted(ROOT.glob("crates/*/proofs")):
        answers = list(crate.glob("**/Answers.antt"))
        count = sum(len(re.findall(r"^pub [a-z]", f.read_text(), re.M)) for f in answers)
        size = sum(len(f.read_text().splitlines()) for f in crate.glob("**/*.antt") if f.name != "Lib.antt")
        yield f"{crate.parent.name}: {len(answers)} files with {count} answers, {size} lines in proofs/"


POINTS = [
    ("1 a refusal, a kind or a flag told by a number", lambda: matching(r"number: u8|at_entry\([0-9]+|marks: Vec<i64>|marks\[.*\] == 1")),
    ("1 own enums", lambda: matching(r"^(pub )?enum ")),
    ("2 functions alike but for names and numbers", twins),
    ("3 loops that count an index", lambda: matching(r"for \w+ in 0_?\w*\.\.\w+\.len\(\)|for \w+ in 0\.\.[a-z_0-9]+ \{|\bwhile\b|\bloop\b", tests=True)),
    ("4 impls by hand of equality, order, copying, conversion and printing", lambda: matching(r"^impl.*\b(PartialEq|Eq|PartialOrd|Ord|Clone|Copy|Default|From|TryFrom|Display|Debug)\b.* for ")),
    ("4 conversions and digits by hand", lambda: matching(r"% 10\b|if \w+ < 0 \|\| \w+ > LIMIT|fn \w+\(\w+: i64\) -> Option<")),
    ("5 facts in the contracts of three functions", facts),
    ("5 parameters together in three functions", together),
    ("6 buffers with a length beside them", lambda: matching(r"let mut \w+ = \[.*; ")),
    ("6 columns side by side", lambda: matching(r"^    \w+: Vec<")),
    ("7 function pointers, trait objects, tables of functions, closures", lambda: matching(r"\bfn\(|\bdyn\b|\bFn(Once|Mut)?\(|\|\w+(: [^|]*)?\| ")),
    ("8 proofs", lambda: list(proofs())),
]

for title, find in POINTS:
    places = find()
    print(f"{title}: {len(places)}")
    for place in places:
        print(f"  {place}")
