#!/bin/sh
# usage: scripts/test.sh [PART..]
# Runs all tests of the Rust crates, the C face and the scripts, or only the parts that are
# named, and prints one line a part with its time. What a part said stands in target/test; of
# a part that fails the last lines are shown. Takes a few minutes.
#   --help        prints this
#   --list        prints the parts, each with its command
#   LFJ_LIB_DIR   a folder that has liblfj.a and liblfj_dispatch.a, which are then taken and not built
#   SHEET         the proved program `sheet`, which is then taken and not built
# Without these two the Rattle kit's rt has to be on the path: it proves and builds both, once.
# Status 0 if no part fails, 1 if one does, 2 with a wrong argument or without the library.
set -eu
top=$(CDPATH='' cd -- "$(dirname -- "$0")/.." && pwd)
. "$top/scripts/script.sh"

# The parts: a name, then the command, which runs at the repository's root.
parts() {
    cat <<'END'
crates       cd rust && cargo test --offline --quiet --workspace --all-features
c            sh c/run.sh
kit          sh rust/kit.sh
sheets       python3 scripts/sheets.py
samples      sh scripts/test_samples.sh
compare      sh rust/compare.sh 20000
stack        sh rust/stack.sh
packages     sh scripts/test_packages.sh
runner       sh scripts/test_kit.sh
tools        sh scripts/test_tools.sh
about        sh scripts/test_about.sh
rules        sh scripts/kit_format.sh --check
END
}

# chosen PART NAME..: is it one of those named? All are, if none is.
chosen() {
    wanted=$1
    shift
    [ $# -gt 0 ] || return 0
    for name; do
        [ "$name" != "$wanted" ] || return 0
    done
    return 1
}

# run_part NAME COMMAND: runs it, prints its line
run_part() {
    log=$top/target/test/$1.log
    started=$(date +%s)
    status=0
    (cd "$top" && sh -c "$2") >"$log" 2>&1 </dev/null || status=$?
    time=$(($(date +%s) - started))
    if [ "$status" -eq 0 ]; then
        printf 'ok      %4d s  %-11s %s\n' "$time" "$1" "$2"
        return
    fi
    printf 'FAILED  %4d s  %-11s %s (status %d, target/test/%s.log)\n' "$time" "$1" "$2" "$status" "$1"
    tail -n 15 "$log" | sed 's/^/        | /'
    failed=$((failed + 1))
}

about "$@"
for word; do
    case $word in
    --list) parts && exit 0 ;;
    -*) wrong_usage "no option is called $word" ;;
    esac
    parts | grep -q "^$word " || wrong_usage "no part is called $word; --list prints them"
done
. "$top/scripts/static-library.sh"
. "$top/scripts/proved-sheet.sh"
mkdir -p "$top/target/test"
parts >"$top/target/test/parts"
count=0
failed=0
while read -r part command; do
    chosen "$part" "$@" || continue
    count=$((count + 1))
    run_part "$part" "$command"
done <"$top/target/test/parts"
echo "$count parts, $failed failed"
[ "$failed" -eq 0 ]
