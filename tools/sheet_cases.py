#!/usr/bin/env python3
"""Writes what the program `sheet_limits` is run on, and what it must print.

    tools/sheet_cases.py kit/cases/sheet.txt kit/cases/mel-long.txt        from the repository's root

The words are files of the conformance kit's format (kit/README.md) that have sheets. Each
record that the program names is the first of theirs with the property below; it goes to crates/sheet_limits/data, and the sheets that
the kit says, in the program's order, to crates/sheet_limits/stdout.
"""
import re
import sys
from kit_cases import about, bytes_of, cases, fail, read_text, write_all


def mel(sheet):
    return sheet.rpartition(b"\nmel ")[2].removesuffix(b"\n")


# a record's name, and what is true of it and its sheet
WANTED = {
    **{f"refused-{k}": lambda record, sheet, k=k: record and sheet.startswith(b"refused %d " % k) for k in [*range(1, 12), 18, 19]},
    "no-form": lambda record, sheet: b"\nform none " in sheet,
    "longest": lambda record, sheet: len(record) == 1910 and sheet.startswith(b"goals 32\n"),
    "longest-and-one": lambda record, sheet: sheet == b"refused 11 1910\n" and len(record) == 1911,
    "full": lambda record, sheet: len(record) == 4096,
    "beyond": lambda record, sheet: len(record) > 4097,
    "mel-at-limit": lambda record, sheet: len(mel(sheet)) == 32768,
    "mel-past-limit": lambda record, sheet: mel(sheet) == b"refused 12 32769",
}

about(__doc__)
sheets = []
for case in cases(sys.argv[1:]):
    operation, _, *fields = case.question.split()
    if operation == "sheet":
        sheets.append((bytes_of(fields[0]), bytes_of(case.answer.split()[1])))
files, printed = {}, b""
for name in re.findall(r'"([\w-]+)\.lfj"', read_text("crates/sheet_limits/src/main.rt")):
    if name not in WANTED:
        fail(f"the program names a record {name}, of which this script knows nothing")
    found = [pair for pair in sheets if WANTED[name](*pair)]
    if not found:
        fail(f"these files have no record for {name}; name kit/cases/sheet.txt and kit/cases/mel-long.txt")
    files[f"crates/sheet_limits/data/{name}.lfj"] = found[0][0]
    printed += found[0][1]
write_all(files | {"crates/sheet_limits/stdout": printed})
print(f"{len(files)} records")
