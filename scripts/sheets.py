#!/usr/bin/env python3
"""Holds the built program against every sheet of the kit, with its input in pieces, so that a read gives less than it asks for.

    scripts/sheets.py [SIZE..]        pieces of SIZE bytes; 1, 7, 1000 and 65536 if not given

The program is target/bin/sheet, which `sh scripts/proved-sheet.sh` builds; the environment variable SHEET names another. A piece is written when the
program has read the one before. What the program prints must be the kit's answer, byte for byte, its status 0, and what it leaves unread
as many bytes as the kit's questions `unread` say.
"""
import fcntl
import glob
import os
import subprocess
import sys
import tempfile
import termios
import time

root = os.path.join(os.path.dirname(os.path.abspath(__file__)), "..")
sys.path.insert(0, os.path.join(root, "tools"))
from kit_cases import about, bytes_of, cases, fail


def unread(pipe):
    return int.from_bytes(fcntl.ioctl(pipe, termios.FIONREAD, bytes(4)), sys.byteorder)


def fed(program, record, size):
    """What the program prints for a record in pieces, its status, and how many bytes it leaves unread."""
    source, sink = os.pipe()
    with tempfile.TemporaryFile() as printed:
        with subprocess.Popen([program], stdin=source, stdout=printed) as process:
            given = 0
            while given < len(record):
                given += os.write(sink, record[given : given + size])
                while unread(source) and process.poll() is None:
                    time.sleep(0)
                if process.poll() is not None:
                    break
            os.close(sink)
            status = process.wait()
            left = unread(source) + len(record) - given
            os.close(source)
        printed.seek(0)
        return printed.read(), status, left


def main():
    program = os.environ.get("SHEET", os.path.join(root, "target/bin/sheet"))
    if not os.access(program, os.X_OK):
        fail(f"{program} is not a program that can be run; `sh scripts/proved-sheet.sh` builds it")
    if not all(word.isdecimal() and int(word) for word in sys.argv[1:]):
        print(__doc__, file=sys.stderr)
        sys.exit(2)
    sizes = [int(word) for word in sys.argv[1:]] or [1, 7, 1000, 65536]
    paths = sorted(glob.glob(os.path.join(root, "kit/*/*.txt")))
    asked = [case for case in cases(paths) if case.question.startswith(("sheet ", "unread "))]
    differ = 0
    for size in sizes:
        for case in asked:
            operation, _, record = case.question.split()
            printed, status, left = fed(program, bytes_of(record), size)
            given = f"ok {printed.hex()}" if operation == "sheet" else f"ok {left}"
            if given != case.answer or status != 0:
                differ += 1
                if differ <= 5:
                    print(f"{case.name}, in pieces of {size} bytes: status {status}, {given[:80]}")
                    print(f"  expected {case.answer[:80]}")
        print(f"pieces of {size} bytes: {len(asked)} questions")
    print(f"{differ} differ")
    sys.exit(1 if differ else 0)


about(__doc__)
main()
