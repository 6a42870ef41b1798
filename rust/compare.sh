#!/bin/sh
# usage: rust/compare.sh [CASES [SEED]]    200000 cases and seed 1 if not given
#        rust/compare.sh --case 'LINE'     both answers to one question in the kit's format
# The proved annotator against the hand-written one, on seeded cases.
#   LFJ_LIB_DIR   a folder that has liblfj.a and liblfj_dispatch.a, which are then taken and not built
# Status 0 if no answer differs, 1 if one does, 2 with a wrong argument or without the library.
set -eu
top=$(CDPATH='' cd -- "$(dirname -- "$0")/.." && pwd)
. "$top/scripts/script.sh"
about "$@"
case ${1:-} in
--case) [ $# -eq 2 ] || wrong_usage "--case takes one question" ;;
-*) wrong_usage "no option is called $1" ;;
*)
    [ $# -le 2 ] || wrong_usage "it takes two numbers at most"
    for word; do
        is_number "$word" || wrong_usage "$word is not a number"
    done
    ;;
esac
sh "$top/rust/build.sh"
exec "$top/rust/target/release/differences" "$@"
