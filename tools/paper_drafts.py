#!/usr/bin/env python3
"""Writes the drafts that the paper prints as cases of the conformance kit's format (kit/README.md).

    tools/paper_drafts.py PAPER REQUESTS        from anywhere; writes kit/cases/drafts.txt

PAPER is 01-scope.md, REQUESTS is 02-change-requests.md, whose sentences replace drafts of the paper. A draft of a form is asked for
its length too, by request 3. The drafts of tools/more_drafts.md follow, those of the change requests' other sentences among them.
Questions and answers are both taken from their text: a draft that the script cannot read is an error, and so is a piece of a draft
that it would pass over. Where a draft names no answer ("the first four" of several) the answer is searched for by the paper's words. A
draft given by waits is a record with one variable a goal, in which the pairs of goals that do not wait are listed.
"""
import itertools
import os
import re
import sys
from kit_cases import LANDED, about, fail, read_text, write_all

WORDS = {"one": 1, "two": 2, "three": 3, "four": 4, "five": 5}
ROOM = 400
lines = []


def record(head, ground, goals, pairs, variables=None, texts=None, facts=None):
    """The bytes of a record: of version 2 if the goals' facts are given, a ground set and ticks for each, else of version 1."""
    if variables is None:
        variables = max([-1] + [v for goal in goals for v in goal] + list(head)) + 1
    number = lambda members: sum(1 << v for v in members).to_bytes(8, "big")
    out = b"LFJ\0" + bytes([2 if facts else 1, len(goals), variables, len(pairs)]) + number(head) + number(ground)
    for at, goal in enumerate(goals):
        text = texts[at] if texts else b"g%d" % (at + 1)
        known = number(facts[at][0]) + facts[at][1].to_bytes(2, "big") if facts else b""
        out += number(goal) + known + bytes([len(text)]) + text
    return out + b"".join(bytes(pair) for pair in sorted(pairs))


def waiting(n, waits, texts=None):
    """A record of n goals in which goal j waits for goal i exactly if (i, j) is given."""
    pairs = [(i - 1, j - 1) for i, j in itertools.combinations(range(1, n + 1), 2) if (i, j) not in waits]
    return record(range(n), [], [[g] for g in range(n)], pairs, texts=texts)


def closed(n, waits):
    """The pairs (i, j) such that a chain of waits leads from i to j."""
    before = set(waits)
    while True:
        more = {(i, k) for i, j in before for l, k in before if j == l} - before
        if not more:
            return before
        before |= more


def first_four(n, waits):
    """The first a, b, c, d with a before c, b before c, b before d and no other order among the four."""
    before = closed(n, waits)
    for a, b, c, d in itertools.permutations(range(1, n + 1), 4):
        among = {(x, y) for x, y in before if {x, y} <= {a, b, c, d}}
        if among == {(a, c), (b, c), (b, d)}:
            return f"{a} {b} {c} {d}"
    fail("a clause that was to be without a form has one")


def hexed(data):
    return data.hex() or "-"


def case(question, answer):
    if not any(line.startswith(question + " = ") for line in lines):
        lines.append(f"{question} = {answer}")


def text_case(operation, data, text):
    answer = f"ok {len(text)} {hexed(text.encode())}"
    case(f"{operation} {LANDED} {hexed(data)} {ROOM}", answer)
    if operation == "form":
        # request 3: the form's length; a buffer of so many bytes suffices, and one byte less does not
        case(f"length {LANDED} {hexed(data)}", f"ok {len(text)}")
        case(f"form {LANDED} {hexed(data)} {len(text)}", answer)
        case(f"form {LANDED} {hexed(data)} {len(text) - 1}", f"refused 12 {len(text)}")


def check_case(data, text, answer):
    case(f"check {LANDED} {hexed(data)} {hexed(text.encode())}", answer)


def no_form(data, four):
    case(f"form {LANDED} {hexed(data)} {ROOM}", f"refused 13 0 {four}")
    case(f"length {LANDED} {hexed(data)}", f"refused 13 0 {four}")


def pairs_in(text):
    return [(int(i), int(j)) for i, j in re.findall(r"(\d+)-(\d+)", text)]


def sets_in(text):
    return [[int(v) for v in members.split(",") if v] for members in re.findall(r"\{([\d,]*)\}", text)]


def padded(n, length):
    """The goals 1 to n as one group, with spare parentheses up to the length."""
    parts = [str(g) for g in range(1, n + 1)]
    for at in itertools.cycle(range(n)):
        text = "&".join(parts)
        if len(text) == length:
            return text
        if len(text) > length:
            fail(f"a group of {n} goals has no text of {length} bytes")
        parts[at] = f"({parts[at]})"


def place_of(paper, start):
    """The place that a sentence of "What each operation turns down" names for a refusal."""
    found = re.search(re.escape(start) + r"[^;.()]*\((\d+)\)", paper)
    if not found:
        fail(f"the paper names no place for: {start}")
    return int(found[1])


# a goal with its facts, a clause with such goals, and what is said of it
GOAL = r"\{[\d,]*\}(?: knowing \{[\d,]*\})?(?: of \d+ ticks?)?(?: with a text of \d+ bytes?)?"
CLAUSE = rf"Version (\d+), head (\{{[\d,]*\}})(?:, ground (\{{[\d,]*\}}))?, goals ({GOAL}(?:, {GOAL})*)(?:, cut to (\d+) bytes)?: "
# what the dispatcher answers: a row of heads is `GOAL:LEFT GOAL:LEFT ..`, an idle head 0:0
REFUSED = r"\d+ at \d+"
STATE = r"`([\d: ]*)`, ended (\{[\d,]*\})"
START = rf"start of (\d+) heads? gives (?:`([\d: ]*)`|({REFUSED}))"
TICK = rf"tick of {STATE} gives (?:{STATE}|({REFUSED}))"
RUN = rf"run of (\d+) heads? gives (?:T (\d+), W (\d+), C (\d+)|({REFUSED}))"
# how many passes close the waits
PASSES = r"(\d+) pass(?:es)?|passes (refused by \d+ at \d+)"


def ungrouped(pattern):
    """The pattern without its groups."""
    return re.sub(r"(?<!\\)\((?!\?)", "(?:", pattern)


DISPATCHED = "(?:" + "|".join(map(ungrouped, (START, TICK, RUN))) + ")"
SAID = rf"(?:read|refused by \d+ at \d+|(?:form|MEL) `[^`]*`|{ungrouped(PASSES)}|{DISPATCHED})"


def passes_case(data, said):
    """A case of the number of passes, or of a refusal."""
    number, refused = re.fullmatch(PASSES, said).groups()
    case(f"passes {LANDED} {hexed(data)}", refused.replace("by ", "").replace("at ", "") if refused else f"ok {number}")


def dispatch_case(data, said):
    """A case of what is said of a start, a tick or a run."""
    row = lambda heads: " ".join([str(len(heads.split()))] + heads.replace(":", " ").split())
    goals = lambda text: f"{sum(1 << goal - 1 for goal in sets_in(text)[0]):08x}"
    start, tick, run = (re.fullmatch(pattern, said) for pattern in (START, TICK, RUN))
    if start:
        heads, left, refused = start.groups()
        question, answer = f"start {LANDED} {hexed(data)} {heads}", f"{0:08x} {row(left or '')}"
    elif tick:
        heads, ended, left, after, refused = tick.groups()
        question = f"tick {LANDED} {hexed(data)} {goals(ended)} {row(heads)}"
        answer = f"{goals(after or '{}')} {row(left or '')}"
    else:
        heads, *numbers, refused = run.groups()
        question, answer = f"run {LANDED} {hexed(data)} {heads}", " ".join(number or "" for number in numbers)
    case(question, f"refused {refused.replace(' at', '')}" if refused else f"ok {answer}")


def with_facts(found):
    """The record of a clause with facts at its goals: one that is not stated is the goal's before, at the first the header's; 1 tick."""
    ground = sets_in(found[3] or "{}")[0]
    goals, facts, texts, known = [], [], [], ground
    for goal in re.findall(GOAL, found[4]):
        sets, ticks, text = sets_in(goal), re.search(r"of (\d+) tick", goal), re.search(r"of (\d+) byte", goal)
        known = sets[1] if len(sets) > 1 else known
        goals.append(sets[0])
        facts.append((known, int(ticks[1]) if ticks else 1))
        texts.append(b"x" * int(text[1]) if text else b"g%d" % len(goals))
    data = record(sets_in(found[2])[0], ground, goals, [], texts=texts, facts=facts)
    data = data[:4] + bytes([int(found[1])]) + data[5:]
    return data[: int(found[5])] if found[5] else data


def one_draft(draft, paper, last):
    """Takes one draft, already without its star, apart. `last` is the record of the draft before it."""
    rest = draft

    def take(pattern):
        nonlocal rest
        found = re.search(pattern, rest)
        if found:
            rest = rest[: found.start()] + rest[found.end() :]
        return found

    # a reason, as a sentence of its own in parentheses
    rest = re.sub(r" \([A-Z][^()`]*\.\)$", "", rest)
    data = last
    # clauses with facts at their goals
    for found in iter(lambda: take(CLAUSE + rf"({SAID}(?:, {SAID})*)"), None):
        data = with_facts(found)
        for said in re.findall(SAID, found[6]):
            text = re.search(r"(form|MEL) `([^`]*)`", said)
            if re.fullmatch(DISPATCHED, said):
                dispatch_case(data, said)
            elif re.fullmatch(PASSES, said):
                passes_case(data, said)
            elif text:
                text_case(text[1].lower(), data, text[2])
            else:
                refused = re.search(r"by (\d+) at (\d+)", said)
                case(f"read {LANDED} {hexed(data)}", f"refused {refused[1]} {refused[2]}" if refused else "ok")
    # clauses given by their variable sets
    found = take(r"Head (\{[\d,]*\})(?:, ground (\{[\d,]*\}))?, goals ((?:\{[\d,]*\}(?:, )?)+)(?:no facts)?: ")
    if found:
        ground = sets_in(found[2] or "{}")[0]
        data = record(sets_in(found[1])[0], ground, sets_in(found[3]), [])
        found = take(r"^`([^`]*)`")
        if found:
            text_case("form", data, found[1])
    take(r"^The same: ")
    for found in iter(lambda: take(r"MEL `([^`]*)`"), None):
        text_case("mel", data, found[1])
    for found in iter(lambda: take(r"form `([^`]*)`"), None):
        text_case("form", data, found[1])
    # checks of expressions, on two goals of which 1 is before 2
    two = waiting(2, [(1, 2)])
    take(r"where 1 is before 2")
    for found in iter(lambda: take(r'(?:Check of|Of)? ?`([^`]*)` ?: "(same|differs)"(?: at (\d+), (\d+))?'), None):
        check_case(two, found[1], " ".join([found[2]] + [g for g in found.groups()[2:] if g]))
    for found in iter(lambda: take(r"(?:Check of )?`([^`]*)`(?: with two goals)?: (1[567]) at (\d+)"), None):
        check_case(two, found[1], f"refused {found[2]} {found[3]}")
    # clauses given by their waits
    clause = r"(?:(\w+) goals?, )?(?:no waits|[Ww]aits ((?:\d+-\d+(?:, | and )?)+))(?: of (\w+)(?: goals)?)?: "
    for found in iter(lambda: take(clause + rf"(?:`([^`]*)`|refusal 13 with ([\d ]*\d|the first four)|({DISPATCHED}(?:, {DISPATCHED})*)|(\d+ pass(?:es)?))"), None):
        waits = pairs_in(found[2] or "")
        word = (found[1] or found[3] or "").lower()
        n = WORDS[word] if word else max(map(max, waits))
        data = waiting(n, waits)
        if found[4]:
            text_case("form", data, found[4])
        elif found[6]:
            for said in re.findall(DISPATCHED, found[6]):
                dispatch_case(data, said)
        elif found[7]:
            passes_case(data, found[7])
        else:
            no_form(data, first_four(n, waits) if found[5] == "the first four" else found[5])
    for found in iter(lambda: take(r"A chain of (\d+)(?: to (\d+))? goals: (\d+ pass(?:es)?)"), None):
        for n in range(int(found[1]), int(found[2] or found[1]) + 1):
            passes_case(waiting(n, [(g, g + 1) for g in range(1, n)]), found[3])
    found = take(r"One goal: `([^`]*)`")
    if found:
        text_case("form", waiting(1, []), found[1])
    found = take(r"Goal count (\d+) or (\d+): refusal (\d+)")
    if found:
        for count in (int(found[1]), int(found[2])):
            data = bytearray(waiting(1, []))
            data[5] = count
            case(f"read {LANDED} {hexed(bytes(data))}", f"refused {found[3]} {place_of(paper, found[3] + ' goal count')}")
    found = take(r"Text length (\d+) accepted, (\d+) refused by (\d+)")
    if found:
        case(f"read {LANDED} {hexed(waiting(1, [], [b'x' * int(found[1])]))}", "ok")
        # 9's place is the length byte, behind the header's 24 bytes and the goal's set
        case(f"read {LANDED} {hexed(waiting(1, [], [b'x' * int(found[2])]))}", f"refused {found[3]} {24 + 8}")
    found = take(r"(\d+) bytes of expression read, (\d+) refused by (\d+)")
    if found:
        text = padded(10, int(found[1]))
        check_case(waiting(10, []), text, "same")
        check_case(waiting(10, []), text + ")" * (int(found[2]) - len(text)), f"refused {found[3]} {place_of(paper, found[3] + ' text empty')}")
    found = take(r'Texts of (\d+) bytes for (\d+) to (\d+) goals, in steps of (\d+), one group with spare parentheses: "same"')
    if found:
        for n in range(int(found[2]), int(found[3]) + 1, int(found[4])):
            check_case(waiting(n, []), padded(n, int(found[1])), "same")
    if re.sub(r"as in document 003|[\s.,;]", "", rest):
        fail(f"not understood: {rest!r} of the draft: {draft}")
    return data


def replaced(draft, requests):
    """The draft with the numbers by which a sentence of the change requests replaces its own."""
    # request 2, the limit of a text's length
    found = re.search(r"with refusal (\d+) as before; (\d+) is read and (\d+) refused, which replaces the (\d+) and (\d+) of the drafts", requests)
    if not found:
        fail("the change requests have no sentence that replaces the drafts of a text's length")
    number, read, refused, old_read, old_refused = found.groups()
    draft_of = "Text length {} accepted, {} refused by " + number
    return draft.replace(draft_of.format(old_read, old_refused), draft_of.format(read, refused))


def drafts_in(text):
    return [line[2:].removeprefix("* ") for line in text.splitlines() if line.startswith("- ")]


def section(paper, heading):
    found = re.search(rf"^## {heading}\n(.*?)(?=^#|\Z)", paper, re.S | re.M)
    if not found:
        fail(f"this paper has no section `{heading}`")
    return found[1]


def main(path, requests_path):
    root = os.path.join(os.path.dirname(os.path.abspath(__file__)), "..")
    paper, requests, more = read_text(path), read_text(requests_path), read_text(os.path.join(root, "tools/more_drafts.md"))
    whole = re.search(r"Whole case, hexadecimal: (.*?); (\d+) bytes\. It prints:\s*```\n(.*?)```", paper, re.S)
    if not whole:
        fail(f"{path}: no whole case in this paper")
    data = bytes.fromhex("".join("".join(re.findall(r"`([^`]*)`", whole[1])).split()))
    if len(data) != int(whole[2]):
        fail(f"{path}: the whole case has {len(data)} bytes")
    case(f"sheet {LANDED} {hexed(data)}", f"ok {hexed(whole[3].encode())}")
    for operation in ("form", "mel"):
        text_case(operation, data, re.search(f"^{operation} (.*)$", whole[3], re.M)[1])
    out = ["# The draft clauses that the papers print, and the ones of tools/more_drafts.md; tools/paper_drafts.py takes them from their text."]
    out += ["", "# whole-case: the record that the paper prints whole"] + lines
    lines.clear()
    last = b""
    theirs = drafts_in(section(paper, "Draft clauses to hold against it"))
    new = [replaced(draft, requests) for draft in theirs]
    if new == theirs:
        fail(f"{requests_path}: replaces no draft of this paper")
    named = [(f"draft-{at}", draft) for at, draft in enumerate(new, 1)]
    named += [(f"more-{at}", draft) for at, draft in enumerate(drafts_in(more), 1)]
    for name, draft in named:
        last = one_draft(draft, paper, last)
        out += ["", f"# {name}: {draft}"] + lines
        lines.clear()
    write_all({os.path.join(root, "kit/cases/drafts.txt"): "".join(line + "\n" for line in out).encode("utf-8")})
    print(f"{sum(' = ' in line for line in out)} cases")


about(__doc__)
if len(sys.argv) != 3:
    print(__doc__, file=sys.stderr)
    sys.exit(2)
main(*sys.argv[1:])
