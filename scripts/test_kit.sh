#!/bin/sh
# Tests kit/run.sh with small annotators that answer from the kit's own files, rightly or not,
# in a copy of the kit in a folder of its own.
set -eu
top=$(CDPATH='' cd -- "$(dirname -- "$0")/.." && pwd)
. "$top/scripts/script.sh"
begin_test "$@"
mkdir "$work/a folder"
cp -r kit "$work/a folder/kit"
kit="$work/a folder/kit"
tests=0

# annotator NAME: writes a program that answers rightly, through the commands of standard input
annotator() {
    {
        printf '#!/bin/sh\n'
        printf 'right() { awk -v kit="%s" -f "%s"; }\n' "$kit" "$work/right.awk"
        cat
    } >"$work/$1"
    chmod +x "$work/$1"
}

# tried STATUS TEXT WORD..: the runner ends with this status and its output has this text
tried() {
    wanted=$1
    text=$2
    shift 2
    status=0
    sh "$kit/run.sh" "$@" >"$work/output" 2>&1 || status=$?
    if [ "$status" -ne "$wanted" ] || ! grep -q -e "$text" "$work/output"; then
        cat "$work/output"
        fail "run.sh $*: status $status, expected $wanted and the text: $text"
    fi
    tests=$((tests + 1))
}

cat >"$work/right.awk" <<'END'
BEGIN {
    files = "cat \"" kit "\"/*/*.txt"
    while ((files | getline line) > 0) {
        at = index(line, " = ")
        answer[substr(line, 1, at - 1)] = substr(line, at + 3)
    }
}
{ print ($0 in answer) ? answer[$0] : "error" }
END

echo 'right' | annotator right
echo 'right | sed "2s/.*/ok 3 312c32/"' | annotator wrong
echo 'right; echo ok' | annotator surplus
echo 'right | sed "\$d"' | annotator missing
echo 'right; exit 3' | annotator status
echo 'sed "s/.*/skip/"' | annotator skips
echo 'awk "{ print \$1 == \"waits\" ? \"skip\" : \$0 }" | right | sed "s/^error\$/skip/"' | annotator no-waits
echo 'awk "{ print \$1 == \"tick\" ? \"skip\" : \$0 }" | right | sed "s/^error\$/skip/"' | annotator no-dispatcher
echo 'right | sed "s/\$/$(printf "\r")/"' | annotator crlf
echo 'right | tr a-f A-F' | annotator capitals
echo 'exit 0' | annotator silent
echo 'echo text' >"$work/plain"

cases=$(sh "$kit/run.sh" --list | awk 'END { print NR }')
tried 0 "^ *$cases agree      0 differ      0 skipped  in all" "$work/right"
tried 0 "kit $(cat kit/VERSION), 2 cases" --case buffers/form.1 --case buffers/form.2 "$work/right"
tried 1 'buffers/form.2: form: every room' --case buffers/form "$work/wrong"
tried 1 '^            1,2$' --case buffers/form "$work/wrong"
tried 1 '1 differ' --case buffers/form "$work/wrong"
tried 1 '1 lines more than questions' --case buffers/form "$work/surplus"
tried 1 'given     (no answer)' --case buffers/form "$work/missing"
tried 1 'ended with status 3' --case buffers/form "$work/status"
tried 1 'nothing was compared' --case buffers "$work/skips"
tried 1 'form: the program does not offer this operation' --case buffers "$work/skips"
tried 0 'waits: who waits for whom before closure' --case facts/outside-head "$work/no-waits"
tried 0 'tick: the dispatcher, a product of its own' --case tick/example --case buffers "$work/no-dispatcher"
tried 0 '0 differ' --case buffers --case check-order/three-goals "$work/crlf"
tried 0 '0 differ' --case buffers "$work/capitals"
tried 1 'given     (no answer)' --case sheet "$work/silent"
tried 2 'not a program that can be run' "$work/plain"
tried 2 'not a program that can be run' "$work/nothing"
tried 2 'no case is called form/none' --case form/none "$work/right"
tried 2 'no case is called form/none' --case form --case form/none "$work/right"
tried 2 'no case is called form/none' --show form/none
tried 2 'no option is called --all' --all
tried 2 'usage: kit/run.sh'
tried 0 'usage: kit/run.sh' --help
tried 0 "^kit $(cat kit/VERSION)\$" --version
tried 0 '^drafts/whole-case.1  ' --list
tried 0 '^            (1&2),3$' --show drafts/whole-case.2
tried 0 '1 half {0}; 2 edge {1,2}; 3 join {0,2}; independent 0-1 0-2' --show drafts/whole-case.2
tried 0 '^            ended {}; head 1 idle; head 2 goal 1, 1 left$' --show tick/freed-goal.2
tried 0 '^            ended {1}; head 1 idle; head 2 idle$' --show tick/freed-goal.2
tried 0 '^            last working tick 15, all ticks 34, heaviest chain 12$' --show run/more-heads.4
tried 0 '^            3 passes, the last of which adds nothing$' --show passes/example.1
FILES="kit/vectors/after-05.txt" tried 0 '1444 agree' "$work/right"
FILES="kit/none.txt" tried 2 'no such file of cases' "$work/right"

twice=$(sh kit/run.sh --list | awk '{ print $1 }' | sort | uniq -d)
if [ -n "$twice" ]; then
    fail "two cases are called $twice"
fi
if ! grep -q "^#define LFJ_VERSION_TEXT \"$(cat kit/VERSION)\"\$" include/lfj.h; then
    fail "kit/VERSION is $(cat kit/VERSION), which is not the header's version"
fi
echo "$tests tests of kit/run.sh; $cases cases, each with a name of its own"
