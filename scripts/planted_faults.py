#!/usr/bin/env python3
"""Plants faults in a copy of the hand-written annotator, one at a time, and asks whether the kit finds each.

    scripts/planted_faults.py [--list] [--all] [--only WORD..]

A fault is planted in a copy of rust/compare/src in a temporary folder; the copy is compiled by rustc without the proved library, and its
program answers-by-hand is asked every question of the kit. A fault is found if an answer differs, is missing, or does not come in time.
The faults are those of scripts/planted_faults.txt, chosen by hand, and those that the operators below make of every line of the
annotator; one that does not compile is left out. A fault that passes the kit is an error, unless planted_faults.txt says why it is none:
the program means the same.

    --list   prints the faults and plants none
    --all    prints for each fault by which case it was found
    --only   plants those alone whose kind or place has one of the words

Prints a table by kind. Status 0 if every fault was found, 1 if one passed, 2 for a wrong word. All faults take about ten minutes of one processor.
"""
import glob
import os
import re
import resource
import shutil
import subprocess
import sys
import tempfile
from typing import NamedTuple

root = os.path.join(os.path.dirname(os.path.abspath(__file__)), "..")
sys.path.insert(0, os.path.join(root, "tools"))
from kit_cases import about, cases, fail, product_version, read_text

# the annotator's own files, in rust/compare/src
FILES = ["lib.rs", "record.rs", "order.rs", "form.rs", "expression.rs", "mel.rs", "numbers.rs", "sheet.rs", "dispatch.rs"]
# the heading of planted_faults.txt under which faults of the operators stand that are none
OPERATORS = "operators"
# functions that no question of the kit reaches: one row of the order
NOT_ASKED = ("pub fn after(bytes", "pub fn after_goal(")
# the crate's other parts, which answering does not need
LEFT_OUT = ("pub mod build;", "pub mod generate;", "pub mod kit;", "pub mod states;")
RUSTC = ["rustc", "--edition", "2024", "-A", "warnings", "-C", "opt-level=0", "-C", "overflow-checks=off", "-C", "panic=abort"]
# seconds of the processor for all questions of the kit; a right program takes about one
TIME = 4


class Fault(NamedTuple):
    kind: str
    file: str
    line: int
    old: str
    new: str
    # the whole file with the fault in it
    text: str
    # why it is none, if it is none
    reason: str = ""
    # of planted_faults.txt
    chosen: bool = False


def on_lines(name, text, change):
    """The faults that `change` makes of each line of code: it gives pairs of a kind and a new line."""
    lines = text.split("\n")
    asked = True
    for at, line in enumerate(lines):
        asked = not line.startswith(NOT_ASKED) and (asked or line == "}")
        code = line.split("//")[0].rstrip()
        if not asked or not code.strip() or code.strip().startswith(("#", "use ", "pub use ", "mod ", "pub mod ")):
            continue
        for kind, new in change(code):
            if new != code:
                whole = "\n".join(lines[:at] + [new] + lines[at + 1 :])
                yield Fault(kind, name, at + 1, code.strip(), new.strip(), whole)


# a kind, what it replaces, and by what
REPLACED = [
    ("comparison", r" < ", [" <= ", " >= "]),
    ("comparison", r" > ", [" >= ", " <= "]),
    ("comparison", r" <= ", [" < ", " > "]),
    ("comparison", r" >= ", [" > ", " < "]),
    ("comparison", r" == ", [" != "]),
    ("comparison", r" != ", [" == "]),
    ("arithmetic", r" \+ ", [" - "]),
    ("arithmetic", r" - ", [" + "]),
    ("arithmetic", r" \* ", [" + "]),
    ("arithmetic", r" / ", [" * "]),
    ("arithmetic", r" % ", [" / "]),
    ("arithmetic", r" \+= ", [" -= "]),
    ("arithmetic", r" -= ", [" += "]),
    ("set operator", r" & ", [" | "]),
    ("set operator", r" \| ", [" & "]),
    ("set operator", r" \^ ", [" & ", " | "]),
    ("set operator", r" [|&^]= ", [" = "]),
    ("set operator", r"(?<=[ (&|=])!(?=[a-z(])", [""]),
    ("shift", r" << ", [" >> ", " << 1 + "]),
    ("shift", r" >> ", [" << ", " >> 1 + "]),
    ("logic", r" && ", [" || "]),
    ("logic", r" \|\| ", [" && "]),
    ("logic", r"\btrue\b", ["false"]),
    ("logic", r"\bfalse\b", ["true"]),
    ("condition", r"\bif (?!let )(.*) \{", ["if true {", "if false {"]),
    ("loop", r" in (\w+)\.\.", [r" in 1 + \1.."]),
    ("loop", r" in (\w+(?: \+ 1)?)\.\.([\w.]+)", [r" in \1..\2 - 1", r" in \1..\2 + 1", r" in (\1..\2).rev()"]),
    ("loop", r"\.rev\(\)", [""]),
    ("first or last", r"trailing_zeros", ["leading_zeros"]),
    ("first or last", r"leading_zeros", ["trailing_zeros"]),
    ("first or last", r"\bmin\b", ["max"]),
    ("first or last", r"count_ones", ["count_zeros"]),
    ("sign", r"b'(.)'", [r"b'?'"]),
    ("statement left out", r"^( *)(?! |let |return |pub |const |fn |struct |\}|\)|\]|//)[^;{}]+;$", [r"\1"]),
    ("statement left out", r"\?;$", [".ok();"]),
]


def replacements(code):
    for kind, pattern, news in REPLACED:
        for found in re.finditer(pattern, code):
            for new in news:
                yield kind, code[: found.start()] + found.expand(new) + code[found.end() :]


def numbers(code):
    """Each whole number one more and one less; not the digits of a name, a type or a string."""
    for found in re.finditer(r"(?<![\w.\"\\])(0x[0-9a-fA-F_]+|\d[\d_]*)(?![\w\"])", code):
        value = int(found[1].replace("_", ""), 0)
        for kind, new in (("number one more", value + 1), ("number one less", value - 1)):
            if new >= 0:
                yield kind, code[: found.start()] + str(new) + code[found.end() :]


def by_hand():
    """The faults of planted_faults.txt, which says how its entries are read."""
    path = os.path.join(root, "scripts/planted_faults.txt")
    kind = ""
    for entry in re.split(r"\n\n+", read_text(path)):
        lines = [line for line in entry.split("\n") if line and not line.startswith("# ")]
        if lines and lines[0].startswith("## "):
            kind = lines.pop(0)[3:]
        if not lines:
            continue
        name, _, which = lines[0].partition(" ")
        parts = {sign: [line[2:] for line in lines[1:] if (line + " ").startswith(sign + " ")] for sign in "-+="}
        if name not in FILES or not parts["-"] or sum(map(len, parts.values())) != len(lines) - 1:
            fail(f"{path}: not an entry: {entry}")
        several = [parts["+"]] if len(parts["-"]) > 1 else [[new] for new in parts["+"]]
        for new in several:
            yield planted(kind, name, int(which or 1), parts["-"], new, " ".join(parts["="]))


def planted(kind, name, which, old, new, reason):
    """The fault of an entry: one old line may be part of a line of the file, several are whole lines."""
    lines = read_text(os.path.join(root, "rust/compare/src", name)).split("\n")
    whole = len(old) > 1
    fits = lambda at: all((o.strip() == l.strip() if whole else o in l) for o, l in zip(old, lines[at : at + len(old)]))
    places = [at for at in range(len(lines) - len(old) + 1) if fits(at)]
    if len(places) < which:
        fail(f"planted_faults.txt: {name} has no line {which} with: {old[0]}")
    at = places[which - 1]
    if not whole:
        new = [lines[at].replace(old[0], new[0], 1)]
    text = "\n".join(lines[:at] + new + lines[at + len(old) :])
    return Fault(kind, name, at + 1, " / ".join(line.strip() for line in lines[at : at + len(old)]), " / ".join(new).strip(), text, reason, True)


def all_faults():
    """Each once: those chosen by hand, then those of the operators, with the reasons that the list has for them."""
    found, reasons = {}, {}
    for fault in by_hand():
        (reasons if fault.kind == OPERATORS else found).setdefault((fault.file, fault.text), fault)
    for name in FILES:
        text = read_text(os.path.join(root, "rust/compare/src", name))
        for change in (replacements, numbers):
            for fault in on_lines(name, text, change):
                listed = reasons.pop((name, fault.text), None)
                found.setdefault((name, fault.text), fault._replace(reason=listed.reason) if listed else fault)
    if reasons:
        fail(f"no operator makes this fault of planted_faults.txt: {shown(next(iter(reasons.values())))}")
    return list(found.values())


class Copy:
    """A copy of the annotator's source in a folder of its own."""

    def __init__(self, folder):
        self.folder = folder
        # what cargo tells a program of its version
        self.environment = {**os.environ, "CARGO_PKG_VERSION": product_version()}
        for part in ("right", "src"):
            shutil.copytree(os.path.join(root, "rust/compare/src"), os.path.join(folder, part))
        self.write("lib.rs", self.right("lib.rs"))

    def right(self, name):
        return read_text(os.path.join(self.folder, "right", name))

    def write(self, name, text):
        """Puts a file into the copy. The library's root becomes that of the one program, which compiles faster."""
        if name == "lib.rs":
            library = "\n".join(line for line in text.split("\n") if not line.startswith(LEFT_OUT))
            program = self.right("bin/answers-by-hand.rs").replace("//!", "//").replace("compare::", "crate::")
            name, text = "main.rs", library + program
        with open(os.path.join(self.folder, "src", name), "w", encoding="utf-8") as f:
            f.write(text)

    def built(self):
        """Whether it compiles."""
        words = [*RUSTC, "-C", "incremental=steps", "src/main.rs", "-o", "answers"]
        return subprocess.run(words, cwd=self.folder, env=self.environment, capture_output=True).returncode == 0

    def difference(self, questions, expected):
        """The name of the first case whose answer differs, and how; None if there is none."""
        limit = lambda: resource.setrlimit(resource.RLIMIT_CPU, (TIME, TIME))
        program = os.path.join(self.folder, "answers")
        with open(questions) as lines, subprocess.Popen(
            [program], stdin=lines, stdout=subprocess.PIPE, stderr=subprocess.DEVNULL, preexec_fn=limit
        ) as process:
            for name, answer in expected:
                given = process.stdout.readline().decode("ascii", "replace")
                if given != answer + "\n":
                    process.kill()
                    return name, given.strip() or "no answer"
        return None


def table(results):
    kinds = sorted({fault.kind for fault, _ in results})
    print(f"\n{'kind':<34} {'planted':>8} {'found':>8} {'no fault':>8} {'passed':>8}")
    rows = [(kind, [r for r in results if r[0].kind == kind]) for kind in kinds] + [("in all", results)]
    for kind, some in rows:
        found = sum(how is not None for _, how in some)
        none = sum(how is None and bool(fault.reason) for fault, how in some)
        print(f"{kind:<34} {len(some):>8} {found:>8} {none:>8} {len(some) - found - none:>8}")


def shown(fault):
    return f"{fault.file}:{fault.line} ({fault.kind})\n  - {fault.old}\n  + {fault.new}"


def kit_cases():
    """Every case of the kit: each 40th first, then the next of each 40, so that most faults are found early."""
    asked = cases(sorted(glob.glob(os.path.join(root, "kit/*/*.txt"))))
    return [case for start in range(40) for case in asked[start::40]]


def run(faults, show_all):
    asked = kit_cases()
    expected = [(case.name, case.answer) for case in asked]
    results, wrong = [], 0
    with tempfile.TemporaryDirectory() as folder:
        questions = os.path.join(folder, "questions")
        with open(questions, "w", encoding="ascii") as f:
            f.write("".join(case.question + "\n" for case in asked))
        copy = Copy(folder)
        if not copy.built() or copy.difference(questions, expected):
            fail("the annotator without a fault does not compile or does not agree with the kit: run kit-cases")
        for fault in faults:
            copy.write(fault.file, fault.text)
            if copy.built():
                how = copy.difference(questions, expected)
                results.append((fault, how))
                bad = bool(how) == bool(fault.reason)
                wrong += bad
                if show_all or bad:
                    says = f"  found by {how[0]}: {how[1][:80]}" if how else "  passes the kit"
                    print(shown(fault) + "\n" + says + (f"; listed as none: {fault.reason}" if fault.reason else ""), flush=True)
            elif fault.chosen:
                wrong += 1
                print(shown(fault) + "\n  does not compile", flush=True)
            copy.write(fault.file, copy.right(fault.file))
    table(results)
    return wrong


def main(words):
    only = words[words.index("--only") + 1 :] if "--only" in words else []
    options = words[: words.index("--only")] if "--only" in words else words
    if set(options) - {"--list", "--all"} or "--only" in words and not only:
        print(__doc__, file=sys.stderr)
        sys.exit(2)
    faults = [f for f in all_faults() if not only or any(word in f"{f.kind} {f.file}:{f.line} {f.old}" for word in only)]
    if not faults:
        fail(f"no fault has the words {' '.join(only)}")
    if "--list" in options:
        print("\n".join(map(shown, faults)))
        print(f"{len(faults)} faults")
        return
    sys.exit(1 if run(faults, "--all" in options) else 0)


if __name__ == "__main__":
    about(__doc__)
    main(sys.argv[1:])
