"""Reading the conformance kit's cases (kit/README.md), for the scripts beside this one."""
import os
import re
import sys
from typing import NamedTuple

# the field K: how many change requests have landed
LANDED = 5
# the number of fields behind OPERATION and K; of a tick without those of its heads, of which the third field says how many there are
FIELDS = {"read": 1, "waits": 1, "order": 1, "passes": 1, "form": 2, "length": 1, "mel": 2, "text": 2, "check": 2, "sheet": 1, "unread": 1}
FIELDS |= {"start": 2, "tick": 3, "run": 2}


class Case(NamedTuple):
    # the file and line, for messages
    place: str
    name: str
    question: str
    answer: str


def product_version():
    """The version that the header says."""
    header = read_text(os.path.join(os.path.dirname(os.path.abspath(__file__)), "../include/lfj.h"))
    return re.search(r'^#define LFJ_VERSION_TEXT "(.*)"$', header, re.MULTILINE)[1]


def answer(text):
    """Prints the text and ends the script: with status 2 if it cannot be written."""
    try:
        print(text, flush=True)
    except OSError as error:
        print(f"{sys.argv[0]}: {error.strerror}", file=sys.stderr, flush=True)
        os._exit(2)  # which does not try to write it again
    sys.exit(0)


def about(words):
    """Answers --help with the script's words and --version with the header's, and ends the script."""
    for word in sys.argv[1:]:
        if word in ("-h", "--help"):
            answer(words.strip())
        if word == "--version":
            answer(f"lfj {product_version()}")


def fail(message):
    """Ends the script with status 2."""
    print(f"{sys.argv[0]}: {message}", file=sys.stderr)
    sys.exit(2)


def read_text(path):
    try:
        with open(path, encoding="utf-8") as f:
            return f.read()
    except OSError as error:
        fail(f"{path}: {error.strerror}")
    except UnicodeDecodeError:
        fail(f"{path}: not a text file")


def is_case(words):
    """Whether a question of these words has the fields of its operation."""
    count = FIELDS.get(words[0])
    if words[0] == "tick" and len(words) > 4 and words[4].isdecimal():
        count += 2 * int(words[4])
    return count == len(words) - 2


def cases_of(path):
    """The cases of one file. A line `# GROUP: words` names the group of the next ones, which are called FILE/GROUP.1 and so on."""
    found = []
    prefix, count = os.path.basename(path).removesuffix(".txt"), 0
    group = prefix
    for number, line in enumerate(read_text(path).split("\n"), 1):
        named = re.match(r"# ([a-z0-9-]+): ", line)
        if named:
            group, count = f"{prefix}/{named[1]}", 0
        if line and not line.startswith("#"):
            question, _, answer = line.partition(" = ")
            words = question.split(" ")
            if not answer or not is_case(words):
                fail(f"{path}:{number}: not a case of the kit's format")
            if words[1] != str(LANDED):
                fail(f"{path}:{number}: the field K is not {LANDED}")
            count += 1
            found.append(Case(f"{path}:{number}", f"{group}.{count}", question, answer))
    return found


def cases(paths):
    """The cases of the files, in their order."""
    if not paths:
        fail(f"no file is named; name files of the kit, as in {sys.argv[0]} kit/cases/*.txt kit/vectors/after-05.txt")
    found = [case for path in paths for case in cases_of(path)]
    if not found:
        fail(f"no case stands in {' '.join(paths)}")
    return found


def bytes_of(field):
    try:
        return b"" if field == "-" else bytes.fromhex(field)
    except ValueError:
        fail(f"not bytes in hexadecimal: {field[:40]}")


def write_all(files):
    """Writes the contents given for each path, once all are known and every folder is there."""
    for path in files:
        if not os.path.isdir(os.path.dirname(path)):
            fail(f"{os.path.dirname(path)}: no such folder; run from the repository's root")
    for path, content in files.items():
        try:
            with open(path, "wb") as f:
                f.write(content)
        except OSError as error:
            fail(f"{path}: {error.strerror}")
