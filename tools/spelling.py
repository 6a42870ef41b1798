#!/usr/bin/env python3
"""Brings the names of this repository's own definitions and lemmas to one spelling: words in snake case, a dash only between two names.

    python3 tools/spelling.py [ROOT]

Run once, after the kit's port.py, at the top of the repository (or with its folder). It reads which names specs/ and proofs/ declare and
writes each of them anew wherever it stands: in crates/ (but must-fail/), README.md and docs/. It prints the names that would fall together.
"""
import collections
import glob
import os
import re
import sys

from kit_cases import about

about(__doc__)
ROOT = sys.argv[1] if len(sys.argv) > 1 else "."
DECLARED = re.compile(
    r"^( *)((?:pub |abbrev |unfoldable )*)(data |record |ruleset )?([^\s:(){};,.λ]+)((?: [({][^\n]*[)}])?) : (?!Type)")
# Words of the library that lemmas are about.
LIBRARY = set("""append length take drop map get_or set sum add sub mul div mod pow zero one suc pred min max bit_and bit_or bit_xor replicate
reverse concat filter cond not and or true false eqb leb ltb nil cons repeat""".split())
# Names that would fall together with another definition.
GIVEN = {"pairs_of": "pairs_at_most"}
# An operator and a parameter.
WORDS = {"isIn": "is_in", "isVersion": "is_version"}
# A parameter and a field that had the name of a tactic, which no clause may say.
TACTIC = re.compile(r"(?<![\w\"'-])ground(?![\w\"'(-])")


def files(*patterns):
    for p in patterns:
        yield from sorted(glob.glob(os.path.join(ROOT, p)))


def text(path):
    with open(path, encoding="utf-8") as f:
        return f.read()


def snake(name):
    """Words run together by capitals, as in goalText, apart: goal_text."""
    return re.sub(r"(?<=[a-z0-9])([A-Z])(?=[a-z])", lambda m: "_" + m.group(1).lower(), re.sub(r"(?<=[a-z0-9])([A-Z])(?![a-z])", lambda m: "_" + m.group(1).lower(), name))


def joined(parts, names):
    """The parts with a dash between two names and an underscore elsewhere; as many parts as can be are in names."""
    best = {len(parts): (0, [])}
    for i in range(len(parts) - 1, -1, -1):
        found = None
        for j in range(i + 1, len(parts) + 1):
            word = "_".join(parts[i:j])
            known = word in names
            if not known and j > i + 1:
                continue
            rest = best[j]
            score = rest[0] + ((j - i) * 10 - 1 if known else 0)
            if found is None or score > found[0]:
                found = (score, [(word, known)] + rest[1])
        best[i] = found
    out = ""
    was = False
    for word, known in best[0][1]:
        out += ("" if not out else "-" if known and was else "_") + word
        was = known
    return out


def main():
    kinds = collections.defaultdict(set)
    where = collections.defaultdict(set)
    for path in files("crates/*/specs/*.antt", "crates/*/proofs/*.antt"):
        spec = os.sep + "specs" + os.sep in path
        for line in text(path).splitlines():
            m = DECLARED.match(line)
            if not m or not re.match(r"[a-z]", m.group(4)):
                continue
            flags = m.group(2)
            kinds[m.group(4)].add("definition" if "abbrev" in flags or "unfoldable" in flags else "field" if m.group(1) and spec else "lemma")
            where[m.group(4)].add(os.path.relpath(path, ROOT))
    names = set(LIBRARY)
    for name, kind in kinds.items():
        if "definition" in kind:
            names.add(snake(name).replace("-", "_"))
    turned = {}
    for name, kind in kinds.items():
        new = GIVEN.get(name, snake(name))
        if "-" in new:
            new = new.replace("-", "_") if kind & {"definition", "field"} else joined([p for p in new.split("-")], names)
        if new != name:
            turned[name] = new
    fall = collections.defaultdict(set)
    for name in kinds:
        fall[turned.get(name, name)].add(name)
    for new, olds in sorted(fall.items()):
        defined = [o for o in olds if "definition" in kinds[o]]
        if len(olds) > 1 and len(defined) < 2:
            for o in olds:
                if kinds[o] == {"lemma"}:
                    turned[o] = new + "_lem"
                    olds = olds - {o}
        if len(olds) > 1:
            print("together:", new, [(o, sorted(kinds[o]), sorted(where[o])[:4]) for o in sorted(olds)])
    cut = re.compile(r"([^\s(){}\[\];,.`\"λ:*/]+)")

    def respelled(body, path):
        tokens = set(cut.findall(body))
        for t in sorted(tokens & set(turned)):
            if turned[t] in tokens and turned[t] not in fall or (turned[t] in tokens and t != turned[t]):
                print("beside:", path, t, turned[t])
        return cut.sub(lambda m: turned.get(m.group(1), m.group(1)), body)

    count = 0
    for path in files("crates/*/specs/*.antt", "crates/*/proofs/*.antt", "crates/*/proofs/*/*.antt", "crates/*/proofs/*/*/*.antt", "crates/*/src/*.rt",
                      "README.md", "docs/*.md"):
        body = text(path)
        if path.endswith(".md"):
            new = re.sub(r"`[^`\n]+`", lambda m: cut.sub(lambda w: turned.get(w.group(1), w.group(1)), m.group(0)), body)
        elif path.endswith(".rt"):
            new = source(body, cut, turned)
        else:
            new = respelled(body, os.path.relpath(path, ROOT))
        if path.endswith(".antt"):
            new = re.sub(r"\b(isIn|isVersion)\b", lambda m: WORDS[m.group(1)], new)
        if not path.endswith(".md"):
            mark = "//" if path.endswith(".rt") else "--"
            new = "".join(TACTIC.sub("grounded", l[: (l + mark).index(mark)]) + l[(l + mark).index(mark) :] for l in new.splitlines(keepends=True))
        if new != body:
            with open(path, "w", encoding="utf-8") as f:
                f.write(new)
            count += 1
    print(f"spelling: {len(turned)} names, {count} files")
    for old, new in sorted(turned.items()):
        print(f"  {old} -> {new}")


def source(body, cut, turned):
    """Ghost imports, clauses (to their closing brace) and comments of a source file; code keeps its names."""
    out = []
    depth = 0
    for line in body.splitlines(keepends=True):
        if depth > 0 or re.match(r"\s*(//|ghost |requires|ensures)", line):
            if not line.lstrip().startswith("//"):
                depth += line.count("{") - line.count("}")
            line = cut.sub(lambda m: turned.get(m.group(1), m.group(1)), line)
        out.append(line)
    return "".join(out)


if __name__ == "__main__":
    main()
