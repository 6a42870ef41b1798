#!/bin/sh
# usage: scripts/test_samples.sh
# Holds the desk tool `annotate` against the samples: from each description it has to make the
# record NAME.lfj and print the sheet NAME.sheet, and the same sheet from the record; and draw the
# picture NAME.svg and the charts NAME.heads-K.chart and NAME.heads-K.svg, where they are there.
#   LFJ_LIB_DIR   a folder that has liblfj.a and liblfj_dispatch.a, which are then taken and not built
# Status 0 if all agree, 1 if not, 2 with a wrong argument or without the library.
set -eu
top=$(CDPATH='' cd -- "$(dirname -- "$0")/.." && pwd)
. "$top/scripts/script.sh"
no_arguments "$@"
sh "$top/rust/build.sh"
annotate=$top/rust/target/release/annotate
work_folder

# prints EXPECTED STATUS WORD..: annotate WORD.. has to print the file EXPECTED, with that status
prints() {
    expected=$1
    wanted=$2
    shift 2
    status=0
    "$annotate" "$@" >"$work/given" || status=$?
    cmp "$work/given" "$expected" || fail "annotate $*: not $expected"
    [ "$status" -eq "$wanted" ] || fail "annotate $*: status $status, not $wanted"
}

[ -x "$annotate" ] || fail "rust/build.sh did not make rust/target/release/annotate"
count=0
for text in "$top"/samples/*.txt; do
    name=${text%.txt}
    refused=0
    ! grep -q '^refused' "$name.sheet" || refused=1
    prints "$name.lfj" 0 record "$text"
    prints "$name.sheet" "$refused" sheet "$text"
    prints "$name.sheet" "$refused" sheet "$name.lfj"
    [ ! -f "$name.svg" ] || prints "$name.svg" 0 draw "$text"
    count=$((count + 1))
done
charts=0
for chart in "$top"/samples/*.heads-*.chart; do
    heads=${chart##*.heads-}
    heads=${heads%.chart}
    text=${chart%.heads-*}.txt
    prints "$chart" 0 dispatch --heads "$heads" --text "$text"
    prints "${chart%.chart}.svg" 0 dispatch --heads "$heads" "$text"
    charts=$((charts + 1))
done
[ "$count" -gt 0 ] || fail "samples/ has no description"
[ "$charts" -gt 0 ] || fail "samples/ has no chart"
echo "$count samples: annotate makes their records, prints their sheets and draws $charts charts"
