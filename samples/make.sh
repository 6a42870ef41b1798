#!/bin/sh
# usage: samples/make.sh
# Writes each sample's files anew from its description (.txt): the record (.lfj), its hexadecimal
# (.hex), its sheet by the hand-written annotator (.sheet), which the proved one is held against,
# and its picture (.svg) if the record is accepted; of some also the charts of runs on K heads
# (.heads-K.chart, .heads-K.svg).
set -eu
top=$(CDPATH='' cd -- "$(dirname -- "$0")/.." && pwd)
. "$top/scripts/script.sh"
no_arguments "$@"
sh "$top/rust/build.sh" >&2
cd "$top/samples"
annotate=../rust/target/release/annotate
reference=../rust/target/release/reference-sheet

# A file changes only once its whole content is there.
new=$(mktemp)
trap 'rm -f "$new"' EXIT

# into FILE COMMAND..: writes what the command prints to the file
into() {
    file=$1
    shift
    "$@" >"$new"
    cat "$new" >"$file"
}

for text in *.txt; do
    name=${text%.txt}
    into "$name.lfj" "$annotate" record "$text"
    into "$name.hex" "$annotate" record --hex "$text"
    into "$name.sheet" "$reference" <"$name.lfj"
    if "$annotate" sheet "$text" >"$new"; then
        into "$name.svg" "$annotate" draw "$text"
    fi
done

# chart NAME HEADS: the sample's charts of a run on so many heads
chart() {
    into "$1.heads-$2.chart" "$annotate" dispatch --heads "$2" --text "$1.txt"
    into "$1.heads-$2.svg" "$annotate" dispatch --heads "$2" "$1.txt"
}

chart side-by-side 3
chart more-heads 2
chart more-heads 3
