#!/usr/bin/env python3
"""Fills the last column of docs/PROMISES.md with what the prover said of each must-fail edit.

    sh .ci/run                  tries every edit; what it says stands in target/ci.log
    tools/promises.py           from the repository's root: writes the column anew
    tools/promises.py --check   writes nothing; exit status 1 if the column is out of date

Both name an edit that has no row, a row that has no edit, an edit that the log does not have or that was not refused, and an edit whose
first error is not a fact of a promise: a callee's precondition or that a number fits its type (of a program, which has no promise,
nothing else can be refused), a proof file that only no longer fits the code, or a goal at which the prover gave up. A row is
`| wrong version | `CRATE/LABEL` | .. |`. The column has the function or the law, the fact of it that is not met, and where the two
sides differ, if that is short and the log's line has it.
"""
import pathlib
import re
import sys
from kit_cases import about

TABLE = pathlib.Path("docs/PROMISES.md")
LOG = pathlib.Path("target/ci.log")
ROW = re.compile(r"^\| (.*) \| `(\w+/\w+)` \|(?: (.*))? \|$")
# what rt says of an edit, on one line: refused or not, and the first error
TOLD = re.compile(r"^(?:rt: )?must-fail (\w+/\w+)\.edit: ([\w ,]*)(.*)$")
REFUSED = "refused, as it must be"
ERROR = re.compile(r": (?:note: )?(?:\./)?((?:src|proofs|specs)/\S+?):(\d+):\d+: (?:error(?:\[[\w-]+\])?: )?(.*)$")
# the proof file alone no longer fits; the prover could not tell
UNFIT = "names what the edit took away"
GAVE_UP = "only by a limit of the prover"
# a fact that the code itself asks for, as that a number fits its type
ASKED = re.compile(r"(overflow_|nonzero_|bounds-|slice_bounds-|offset_bounds-)")
# the name of a goal at the end of what is not proved
GOAL = re.compile(r"it is not proved that (.*?\(`([^`]*)`\))")


# terms of the prover's own that tell a reader nothing
INNER = re.compile(r"mathlib\.|Rattle[·.]|reads\.|borrow\.|lts\.|denote\.|_≡_|◌|…")


def short(text, most=70):
    text = " ".join(text.split()).replace("Prim.Native.Nat.", "").replace("lib.Dec.", "").replace("lib.Count.", "")
    return "" if len(text) > most or INNER.search(text) else text


def difference(message):
    for m in re.finditer(r"differ[^`]*where one has `([^`]*)`(?: \(expected\))?[^`]*and the other has `([^`]*)`", message):
        expected, other = short(m.group(1)), short(m.group(2))
        if expected and other and expected != other:
            return f"`{expected}` expected, `{other}` found"
    # (rt cuts its line where it is long)
    m = re.search(r"differ[^`]*where one has `([^`]*)`\s*\(expected\)", message)
    if m and short(m.group(1)):
        return f"`{short(m.group(1))}` expected"
    m = re.search(r"expected type `([^`]*)`,\s*but this has type `([^`]*)`", message)
    if m and short(m.group(1)) and short(m.group(2)):
        return f"`{short(m.group(1))}` expected, `{short(m.group(2))}` found"
    if "`omega`: the goal does not follow" in message:
        return "it does not follow"
    if "it is not proved that" in message:
        return "not proved"
    return "the two sides differ"


def function(crate, path, line):
    """The function of the crate's source that the line is in."""
    lines = pathlib.Path("crates", crate, path).read_text(encoding="utf-8").split("\n")
    # an attribute belongs to the function below it
    while line <= len(lines) and lines[line - 1].lstrip().startswith("#["):
        line += 1
    for text in reversed(lines[:line]):
        m = re.search(r"\bfn (\w+)", text)
        if m:
            return m.group(1)
    return path


def place(crate, path, line):
    if path.startswith("src/"):
        return f"`{function(crate, path, line)}`"
    m = re.match(r"proofs/(\S+)/(?:Answers|Invariants|Proof)\.antt$", path)
    if m:
        return f"`{m.group(1).lstrip('+')}`"
    m = re.match(r"(?:proofs|specs)/(\S+)\.antt$", path)
    return f"`{m.group(1)}`" if m else f"`{path}`"


def program(edit):
    return pathlib.Path("crates", edit.split("/")[0], "src/main.rt").is_file()


def told():
    """What the log says of each edit: the outcome and the rest of the line."""
    if not LOG.is_file():
        return {}
    lines = LOG.read_text(encoding="utf-8", errors="replace").split("\n")
    return {m.group(1): (m.group(2), m.group(3)) for m in map(TOLD.match, lines) if m}


def said(edit, log, complaints):
    if edit not in log:
        complaints.append(f"{edit}: {LOG} says nothing of it; run the gate first")
        return None
    outcome, rest = log[edit]
    if not outcome.startswith(REFUSED):
        complaints.append(f"{edit}: {outcome}{rest}")
        return None
    m = ERROR.search(rest)
    if not m:
        complaints.append(f"{edit}: its line names no error")
        return None
    crate = edit.split("/")[0]
    path, line, message = m.group(1), int(m.group(2)), m.group(3)
    goal = GOAL.search(message)
    fact = re.match(r"`([^`]+)`: (.*)", message)
    fact, message = (goal.group(2), message) if goal else (fact.group(1), fact.group(2)) if fact else ("", message)
    if UNFIT in rest:
        complaints.append(f"{edit}: the proof only no longer fits the code ({path})")
    elif GAVE_UP in rest:
        complaints.append(f"{edit}: the prover gave up ({path}, {fact})")
    elif ASKED.match(fact) and not program(edit):
        complaints.append(f"{edit}: a fact that the code asks for comes first ({path}, {fact})")
    elif re.search(r"requires(-\d+|-clause-\w+|-(then|else|in)-\S+)?$", fact) and not program(edit):
        complaints.append(f"{edit}: a callee's precondition comes first ({path}, {fact})")
    where = place(crate, path, line)
    if goal:
        return f"{where}: {goal.group(1)}"
    return f"{where}, `{fact}`: {difference(message)}" if fact else f"{where}: {difference(message)}"


def main():
    if sys.argv[1:] not in ([], ["--check"]):
        print(__doc__, file=sys.stderr)
        sys.exit(2)
    if not TABLE.is_file():
        print(f"{TABLE} is not here: run this from the repository's root", file=sys.stderr)
        sys.exit(2)
    log, complaints, rows, seen = told(), [], [], set()
    for line in TABLE.read_text(encoding="utf-8").split("\n"):
        m = ROW.match(line)
        if m and m.group(2) != "CRATE/LABEL":
            edit = m.group(2)
            seen.add(edit)
            crate, label = edit.split("/")
            if not pathlib.Path(f"crates/{crate}/must-fail/{label}.edit").is_file():
                complaints.append(f"{edit}: a row without an edit")
            else:
                line = f"| {m.group(1)} | `{edit}` | {said(edit, log, complaints) or m.group(3) or ''} |"
        rows.append(line)
    for path in sorted(pathlib.Path("crates").glob("*/must-fail/*.edit")):
        edit = f"{path.parts[1]}/{path.stem}"
        if edit not in seen:
            complaints.append(f"{edit}: an edit without a row")
    text = "\n".join(rows)
    stale = text != TABLE.read_text(encoding="utf-8")
    for c in complaints:
        print(c)
    if sys.argv[1:] == ["--check"]:
        print(f"{len(seen)} rows, {len(complaints)} to look at" + (", the column is out of date" if stale else ""))
        sys.exit(1 if stale or complaints else 0)
    TABLE.write_text(text, encoding="utf-8")
    print(f"{len(seen)} rows written, {len(complaints)} to look at")


about(__doc__)
main()
