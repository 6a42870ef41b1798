#!/bin/sh
# usage: rust/bench.sh [WORD..]                  only the lines that hold every word
#        rust/bench.sh random [SEED [CLAUSES]]   the ratios over random clauses
# How long each operation takes, proved and hand-written, as a table.
#   LFJ_LIB_DIR   a folder that has liblfj.a and liblfj_dispatch.a, which are then taken and not built
# Status 0 if the table is printed, 1 if not, 2 with a wrong argument or without the library.
set -eu
top=$(CDPATH='' cd -- "$(dirname -- "$0")/.." && pwd)
. "$top/scripts/script.sh"
about "$@"
case ${1:-} in
-*) wrong_usage "no option is called $1" ;;
esac
sh "$top/rust/build.sh"
exec "$top/rust/target/release/speed" "$@"
