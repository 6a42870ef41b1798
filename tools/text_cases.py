#!/usr/bin/env python3
"""Writes crates/run_texts/stdin and crates/run_texts/stdout: texts to read, and what the paper and the vectors say of them.

    tools/text_cases.py kit/cases/drafts.txt kit/cases/readings.txt kit/vectors/after-05.txt        from the repository's root

The words are files of the conformance kit's format (kit/README.md); drafts.txt is taken from the paper by tools/paper_drafts.py. The
expectation is the answer of each `check` line whose record is accepted,
never what the program printed: refusals 15 to 17 as they stand, and `read` for a text that got a verdict.
"""
import sys
from kit_cases import about, bytes_of, cases, fail, write_all

# the length of the program's input array, and of the array of a text
INPUT, TEXT = 65536, 1024
# the refusals of a text; any other is the record's
OF_TEXTS = (15, 16, 17)

about(__doc__)
found = {}
for place, _, question, answer in cases(sys.argv[1:]):
    operation, _, record, *rest = question.split()
    said = answer.split()
    if operation != "check" or said[0] == "refused" and int(said[1]) not in OF_TEXTS:
        continue
    if len(bytes_of(rest[0])) > TEXT:
        fail(f"{place}: the text is longer than {TEXT} bytes")
    goals = bytes_of(record)[5]
    found[f"{goals} {rest[0]}\n"] = (answer if said[0] == "refused" else "read") + "\n"
if not found:
    fail("no case in these files asks for the check of a text")
given, wanted = "".join(found).encode("ascii"), "".join(found.values()).encode("ascii")
if len(given) > INPUT:
    fail(f"the lines are longer than the program's {INPUT} bytes")
write_all({"crates/run_texts/stdin": given, "crates/run_texts/stdout": wanted})
print(f"{len(found)} texts")
