#!/usr/bin/env python3
"""Counts the places of crates/*/src that docs/DESIGN-PASS.md speaks of, point by point.

    tools/places.py [--list] [FOLDER]     FOLDER: the repository (here: the one that this script stands in); --list: each place

It goes by the text of the sources alone: what it counts are places to look at, and no judgement.
"""
import collections
import pathlib
import re
import sys

from kit_cases import about

about(__doc__)
LIST = "--list" in sys.argv
FOLDERS = [a for a in sys.argv[1:] if not a.startswith("--")]
TOP = pathlib.Path(FOLDERS[0]) if FOLDERS else pathlib.Path(__file__).resolve().parent.parent
FILES = {p: p.read_text().splitlines() for p in sorted(TOP.glob("crates/*/src/*.rt"))}
FN = re.compile(r"^\s*(pub )?(extern \"C\" )?(final )?fn (\w+)")


def code(line):
    """The line without its comment."""
    return line.split("//")[0].rstrip()


def block(lines, i):
    """The lines from i to the one that closes the first block that opens from there on at the end of a line."""
    out, depth, opened = [], 0, False
    for line in lines[i:]:
        text = code(line)
        out.append(text)
        if not opened and re.match(r"\s*(requires|ensures|ghost)\b", text):
            continue
        depth += text.count("{") - text.count("}")
        opened = opened or "{" in text
        if opened and depth <= 0 or not opened and text.endswith(";"):
            break
    return out


def places(test):
    return [(p, i) for p, lines in FILES.items() for i in range(len(lines)) if code(lines[i]) and test(lines, i)]


def has(pattern):
    rule = re.compile(pattern)
    return lambda lines, i: bool(rule.search(code(lines[i])))


def option_like(lines, i):
    """An enum of two or three variants, one of which has one value in it and one of which is empty or a refusal."""
    if not re.match(r"\s*(pub )?enum ", code(lines[i])):
        return False
    body = [v.strip() for v in block(lines, i)[1:-1] if v.strip()]
    return len(body) <= 3 and any("(" in v for v in body)


def is_loop(lines, i):
    return bool(re.match(r"\s*('\w+: )?(while|loop)\b", code(lines[i])))


def counts(lines, i):
    """A `while` or `loop` whose body adds to a variable or takes from it, or sets it to a sum with itself."""
    step = re.compile(r"^\s*(\w+) (\+=|-=) .*;|^\s*(\w+) = \3 [+-] .*;|^\s*(at) = .*;")
    return is_loop(lines, i) and any(step.match(b) for b in block(lines, i)[1:])


def functions():
    """Each function: its file, its line, its name and its lines."""
    for p, lines in FILES.items():
        for i in range(len(lines)):
            m = FN.match(lines[i])
            if m:
                yield p, i, m.group(4), block(lines, i)


def body_of(text):
    """The body's lines: what stands after the line `{`, or after the head."""
    for k, line in enumerate(text):
        if line.strip() == "{" or line.rstrip().endswith("{") and k == 0:
            return [b.strip() for b in text[k + 1:] if b.strip()]
    return []


def same_shape():
    """Functions of three lines or more whose bodies differ in names and numbers alone."""
    shapes = collections.defaultdict(list)
    for p, i, name, text in functions():
        body = body_of(text)
        if len(body) >= 4:
            shape = re.sub(r"\b(?!if\b|else\b|let\b|mut\b|while\b|for\b|in\b|match\b|return\b|loop\b)\w+\b(::\w+)*", "_", " ".join(body))
            shapes[shape].append((p, i))
    return [q for group in shapes.values() if len(group) > 1 for q in group]


def facts_of(text):
    """The facts of a function's clauses, apart at the top of each product."""
    for line in text:
        m = re.match(r"\s*(requires|ensures)[^{]*\{(.*)\}$", line)
        if not m:
            continue
        depth, fact = 0, ""
        for ch in m.group(2) + "×":
            depth += ch in "(⟦" and 1 or ch in ")⟧" and -1 or 0
            if ch == "×" and depth == 0:
                fact = fact.strip()
                while fact.startswith("(") and fact.endswith(")") and "×" not in fact:
                    fact = fact[1:-1]
                yield m.group(1), fact
                fact = ""
            else:
                fact += ch


def repeated_facts():
    """Facts about an argument, other than a bound on one number, that three functions of a crate or more ask for."""
    seen = collections.defaultdict(list)
    for p, i, _, text in functions():
        for kind, fact in set(facts_of(text)):
            if kind == "requires" and not re.fullmatch(r"[\w.\s]+ [<≤] [\w.\s^]+", fact):
                seen[(p.parts[-3], fact)].append((p, i))
    return [q for group in seen.values() if len(group) >= 3 for q in group]


def common_parameters():
    """Functions of a crate that share three parameters or more, by name and type, with two others."""
    sets = []
    for p, i, _, text in functions():
        head = " ".join(text).split(" requires ")[0].split(" ensures ")[0].split("{")[0]
        names = re.findall(r"\b(\w+): ([^,()]+?)(?=[,)])", head)
        sets.append((p, i, {(a, re.sub(r"&'a |&mut ", "&", b.strip())) for a, b in names}))
    out = []
    for p, i, mine in sets:
        near = [1 for q, j, other in sets if (q, j) != (p, i) and len(mine & other) >= 3]
        if len(near) >= 2:
            out.append((p, i))
    return out


POINTS = [
    ("1  enums of the shape of Option or Result", places(option_like)),
    ("1  numbers for kinds", places(has(r"const (LOOK|GO|REST|IDLE|TAKE|WORK|VERSION_ONE|VERSION_TWO): u|\b(what|phase): u32\b"))),
    ("1  a value beside the answer that says whether it counts", places(has(r"^\s*pub (reading: \w+|outcome: \w+|refusal: Refusal)"))),
    ("1  refusals by their numbers", places(has(r"\bnumber: (u8|\d+),|\b(also|ensure|refused)\(.*\b\d+, ?[^)]"))),
    ("2  functions whose names differ in a width", places(has(r"\bfn \w+32\("))),
    ("2  functions whose bodies differ in names and numbers alone", same_shape()),
    ("3  loops that count", places(counts)),
    ("3  other loops by while or loop", places(lambda lines, i: is_loop(lines, i) and not counts(lines, i))),
    ("4  conversions and choices written by hand", places(has(r"\bfn (wide|small|size_of|index|digit|least|later|nibble)\("))),
    ("4  casts", places(has(r"\bas (u8|u16|u32|u64|usize)\b"))),
    ("4  answers printed by hand", places(has(r"\bfn (say_refusal|say_four|print_outcome)\b"))),
    ("5  facts that three functions of a crate ask for", repeated_facts()),
    ("5  functions that share three parameters with two others", common_parameters()),
    ("6  arrays lent beside arrays", places(has(r"^\s*(sets|grounds|ticks|low|high): &(mut |'a )?\["))),
    ("6  an array with a count beside", places(has(r"pub (n|p|v): usize"))),
    ("7  a number that says which step to run", places(has(r"\bif what ==|\bphase == [A-Z]"))),
]

for name, found in POINTS:
    print(f"{name}: {len(found)}")
    if LIST:
        for p, i in found:
            print(f"    {p.relative_to(TOP)}:{i + 1}: {FILES[p][i].strip()[:110]}")
proofs = [p for p in TOP.glob("crates/*/proofs/**/*.antt") if p.parent.name != "proofs"]
texts = [p.read_text() for p in proofs]
answers = sum(len(re.findall(r"^(?:abbrev )?pub [\w-]+ : goal\.", t, re.M)) for t in texts)
print(f"8  proof files of functions: {len(proofs)}; their lines: {sum(len(t.splitlines()) for t in texts)}; answers, invariants and measures: {answers}")
