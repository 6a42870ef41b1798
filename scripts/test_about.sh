#!/bin/sh
# usage: scripts/test_about.sh
# Tests that every script and tool answers --help and --version, says the header's version, and
# ends with status 2 where the answer cannot be written. Whatever would prove or build something
# is replaced by a program that tells of it, and must not be called.
set -eu
top=$(CDPATH='' cd -- "$(dirname -- "$0")/.." && pwd)
. "$top/scripts/script.sh"
begin_test "$@"
for program in rt cargo cc c++; do
    printf '#!/bin/sh\necho %s >>"%s"\n' "$program" "$work/called" >"$work/$program"
    chmod +x "$work/$program"
done
PATH=$work:$PATH
unset LFJ_LIB_DIR SHEET
version=$(product_version)
tests=0

# run FILE WORD: runs a script by what its first line names
run() {
    case $(head -n 1 "$1") in
    *sh) sh "$1" "$2" ;;
    *) python3 "$1" "$2" ;;
    esac
}

# answers FILE WORD: its answer, in $work/out, comes with status 0 and nothing built
answers() {
    run "$1" "$2" >"$work/out" 2>"$work/err" </dev/null || fail "$1 $2: status $?"
    [ -s "$work/out" ] || fail "$1 $2: it says nothing"
    [ ! -s "$work/err" ] || fail "$1 $2: $(cat "$work/err")"
    [ ! -e "$work/called" ] || fail "$1 $2: it calls $(cat "$work/called")"
    status=0
    run "$1" "$2" >/dev/full 2>/dev/null </dev/null || status=$?
    [ "$status" -eq 2 ] || fail "$1 $2 >/dev/full: status $status, not 2"
    tests=$((tests + 1))
}

find c kit rust samples scripts tools -name target -prune -o \( -name '*.sh' -o -name '*.py' \) -print >"$work/files"
while IFS= read -r file; do
    case $(head -n 1 "$file") in
    '#!'*) ;;
    *) continue ;; # a part of others
    esac
    answers "$file" --help
    answers "$file" --version
    grep -q " $version\$" "$work/out" || fail "$file --version: $(cat "$work/out"), not $version"
done <"$work/files"
[ "$tests" -gt 0 ] || fail "no script was found"
echo "$tests answers to --help and --version, with nothing built"
