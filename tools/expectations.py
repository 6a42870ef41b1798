#!/usr/bin/env python3
"""Writes what the program `run_cases` is run on, and what it must print.

    tools/expectations.py kit/cases/*.txt kit/vectors/after-05.txt        from the repository's root

The words are files of the conformance kit's format, `QUESTION = ANSWER` a line (kit/README.md).
The answers of drafts.txt come from the paper's text (tools/paper_drafts.py), those of after-05.txt from an independent annotator, those
of the other files from the hand-written one of rust/compare. The questions go to crates/run_cases/data/cases.txt, the answers, and nothing
that the program itself printed, to crates/run_cases/stdout. Left out are the questions `unread`, which ask what a program leaves of its
standard input: this program calls the library alone, and scripts/sheets.py asks the program `sheet`. Left out are also `start`, `tick` and
`run`: this program lends no row of heads, and these are asked from Rust, by rust/kit.sh. Any other
question that passes the program's arrays is an error, but for a record that is refused at a place within them: the program has its first
4,096 bytes, and a record of so many is never refused for being too short.
"""
import sys
from kit_cases import about, bytes_of, cases, fail, write_all

# the lengths of the arrays of crates/run_cases/src/main.rt
LINE, RECORD, TEXT, ROOM = 32768, 4096, 1024, 196608
# the operations of which the program is asked nothing
LEFT_OUT = ("unread", "start", "tick", "run")

about(__doc__)
questions, answers, left_out = [], [], dict.fromkeys(LEFT_OUT, 0)
for place, _, question, answer in cases(sys.argv[1:]):
    operation, _, record, *rest = question.split()
    if operation in LEFT_OUT:
        left_out[operation] += 1
        continue
    # of a sheet's input no more than the program's 4,096 bytes is read
    refused = answer.startswith("refused ") and int(answer.split()[2]) < RECORD
    if len(bytes_of(record)) > RECORD and operation != "sheet" and not refused:
        fail(f"{place}: the record is longer than {RECORD} bytes")
    if operation == "check" and len(bytes_of(rest[0])) > TEXT:
        fail(f"{place}: the text is longer than {TEXT} bytes")
    if operation in ("form", "mel") and int(rest[0]) > ROOM:
        fail(f"{place}: the buffer is longer than {ROOM} bytes")
    if len(question) >= LINE:
        fail(f"{place}: the question is longer than {LINE - 1} bytes")
    questions.append(question)
    answers.append(answer)
if not questions:
    fail("these files have no question that the program can answer")
text = lambda lines: "".join(line + "\n" for line in lines).encode("ascii")
write_all({"crates/run_cases/data/cases.txt": text(questions), "crates/run_cases/stdout": text(answers)})
print(f"{len(questions)} cases; left out: " + ", ".join(f"{count} of `{operation}`" for operation, count in left_out.items()))
