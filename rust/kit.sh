#!/bin/sh
# usage: rust/kit.sh
# Runs the conformance kit against the proved library, and says how many cases agree. Sheets
# come from the proved program target/bin/sheet, which is built if it is older than the
# crates; without the Rattle kit they are put together from the library's answers.
#   LFJ_LIB_DIR   a folder that has liblfj.a and liblfj_dispatch.a, which are then taken and not built
#   SHEET         the proved program, which is then taken and not built
#   FILES         the kit's files to run; all if not set
# Status 0 if no answer differs, 1 if one does, 2 with a wrong argument or without the library.
set -eu
top=$(CDPATH='' cd -- "$(dirname -- "$0")/.." && pwd)
. "$top/scripts/script.sh"
no_arguments "$@"
sh "$top/rust/build.sh"
if [ -n "${SHEET:-}" ] || command -v rt >/dev/null; then
    . "$top/scripts/proved-sheet.sh"
    set -- --sheet "$SHEET"
else
    echo "Neither SHEET is set nor rt on the path: the sheets are put together from the library's answers"
fi
exec sh "$top/kit/run.sh" "$top/rust/target/release/answers" "$@"
