#!/bin/sh
# Tests that the scripts of tools/ which write files of the repository write none where they are
# called wrongly: no name, a name of no file, a file without a case of their kind, another folder.
set -eu
top=$(CDPATH='' cd -- "$(dirname -- "$0")/.." && pwd)
. "$top/scripts/script.sh"
begin_test "$@"
tests=0

# sums: a checksum of each file that a tool can write
sums() {
    cksum crates/run_cases/data/* crates/run_cases/stdout crates/run_texts/stdin \
        crates/run_texts/stdout crates/sheet_limits/data/* crates/sheet_limits/stdout \
        kit/cases/*.txt docs/PROMISES.md
}

# refused TOOL WORD..: it ends with status 2, says something, and writes nothing
refused() {
    status=0
    python3 "$@" >"$work/output" 2>&1 || status=$?
    sums >"$work/after"
    if [ "$status" -ne 2 ] || [ ! -s "$work/output" ] || ! cmp -s "$work/before" "$work/after"; then
        cat "$work/output"
        fail "$*: status $status, expected 2, or a file was written"
    fi
    tests=$((tests + 1))
}

# A case program without a case prints `no case`, which must not be what is expected of it.
for output in crates/run_cases/stdout crates/run_texts/stdout crates/sheet_limits/stdout; do
    if [ ! -s $output ] || grep -q '^no case$' $output; then
        fail "$output expects no case"
    fi
    tests=$((tests + 1))
done
sums >"$work/before"
echo '# no case' >"$work/empty.txt"
echo 'read 5 00 = refused 1 1' >"$work/read.txt"
echo 'unread 5 00 = ok 0' >"$work/unread.txt"
echo 'start 5 00 1 = refused 1 1' >"$work/start.txt"
echo 'tick 5 00 00000000 2 0 0 = refused 1 1' >"$work/tick.txt"
echo 'check 5 00 = ' >"$work/broken.txt"
echo 'read 4 00 = refused 1 1' >"$work/other.txt"
for tool in expectations text_cases sheet_cases; do
    refused tools/$tool.py
    refused tools/$tool.py kit/cases/none.txt
    refused tools/$tool.py kit/cases/form.txt kit/cases/none.txt
    refused tools/$tool.py kit/cases
    for name in empty unread start tick broken other; do
        refused tools/$tool.py "$work/$name.txt"
    done
done
refused tools/text_cases.py "$work/read.txt"
refused tools/text_cases.py kit/cases/form.txt
refused tools/sheet_cases.py kit/cases/form.txt
refused tools/paper_drafts.py
refused tools/paper_drafts.py kit/README.md
refused tools/paper_drafts.py none.md none.md
refused tools/paper_drafts.py kit/README.md kit/README.md
refused tools/promises.py --wrong
here=$PWD
cd "$work"
for tool in expectations text_cases; do
    status=0
    python3 "$here/tools/$tool.py" "$here/kit/cases/drafts.txt" >output 2>&1 || status=$?
    if [ "$status" -ne 2 ] || ! grep -q "repository's root" output; then
        fail "$tool.py outside the repository: status $status, expected 2"
    fi
    tests=$((tests + 1))
done
echo "$tests tests of tools/*.py: a wrong word writes nothing"
