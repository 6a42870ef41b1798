#!/bin/sh
# Holds an annotator against the conformance kit; `kit/run.sh --help` says how.
set -eu
here=$(dirname "$0")
read -r version <"$here/VERSION"

usage() {
    cat <<'END'
usage: kit/run.sh [--case NAME].. COMMAND [WORD..]    holds an annotator against the kit
       kit/run.sh --list                              the name of every case, and what it tests
       kit/run.sh --show NAME                         questions and expected answers, in clear too
       kit/run.sh --version | --help

COMMAND reads questions from standard input, one a line, and writes an answer a line to standard
output, in the same order; README.md has the format. It is started once for each file of cases.
NAME is a case (form/orders-of-3.2), a group (form/orders-of-3) or a file (form); FILES, if set,
names the files of cases to take, else all of the kit.

Status: 0 if no answer differs, 1 if one does, is missing or too much, if COMMAND ends with a
status other than 0, or if nothing was compared; 2 for a wrong word or a COMMAND that cannot run.
END
}

fail() {
    echo "kit/run.sh: $1" >&2
    exit 2
}

# answer WORD..: runs the command for its output alone
answer() {
    "$@" || exit 2
    exit 0
}

# cases MODE FILE [WORD..]: what cases.awk makes of a file of cases
cases() {
    mode=$1
    file=$2
    shift 2
    awk -v mode="$mode" -v wanted="$wanted" "$@" -f "$here/cases.awk" "$file"
}

# every MODE: the same for all files; an error if none has a case that is asked for
every() {
    status=0
    for file in ${FILES:-"$here"/cases/*.txt "$here"/vectors/*.txt}; do
        cases "$1" "$file"
    done | awk '{ print } END { exit NR == 0 }' || status=$?
    case $status in
    0) ;;
    1) fail "no case is called ${wanted:-anything}; --list has the names" ;;
    *) exit 2 ;; # it could not be written
    esac
}

for file in ${FILES:-"$here"/cases/*.txt "$here"/vectors/*.txt}; do
    [ -f "$file" ] && [ -r "$file" ] || fail "$file: no such file of cases"
done
names=
wanted=
while [ $# -gt 0 ]; do
    case $1 in
    -h | --help) answer usage ;;
    --version) answer echo "kit $version" ;;
    --list) answer every list ;;
    --show)
        [ $# -eq 2 ] || fail "--show takes one NAME"
        wanted=$2
        answer every show
        ;;
    --case)
        [ $# -ge 2 ] || fail "--case takes a NAME"
        names="$names $2"
        shift 2
        ;;
    -*) fail "no option is called $1; --help says which there are" ;;
    *) break ;;
    esac
done
if [ $# -eq 0 ]; then
    usage >&2
    exit 2
fi
if ! command -v "$1" >/dev/null || { [ -f "$1" ] && [ ! -x "$1" ]; }; then
    fail "$1 is not a program that can be run; one of this folder is called ./NAME"
fi
work=$(mktemp -d)
trap 'rm -rf "$work"' EXIT
trap 'exit 1' HUP INT TERM
for wanted in $names; do
    every list >/dev/null
done
wanted=$names
every list >"$work/list"
echo "kit $version, $(awk 'END { print NR }' "$work/list") cases"

for file in ${FILES:-"$here"/cases/*.txt "$here"/vectors/*.txt}; do
    cases questions "$file" >"$work/questions"
    [ -s "$work/questions" ] || continue
    status=0
    "$@" <"$work/questions" >"$work/answers" || status=$?
    case $status in 126 | 127) fail "$1 is not a program that can be run: status $status" ;; esac
    cases compare "$file" -v answers="$work/answers" -v status="$status" >"$work/compared"
    sed '/^skip /d' "$work/compared"
    cat "$work/compared" >>"$work/all"
done
awk -f "$here/summary.awk" "$work/all"
