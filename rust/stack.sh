#!/bin/sh
# usage: rust/stack.sh
# Each operation at its worst input on a stack of 256 KB, and the least stack it runs on.
#   LFJ_LIB_DIR   a folder that has liblfj.a and liblfj_dispatch.a, which are then taken and not built
# Status 0 if every operation runs on that stack, 1 if not, 2 with a wrong argument or without the library.
set -eu
top=$(CDPATH='' cd -- "$(dirname -- "$0")/.." && pwd)
. "$top/scripts/script.sh"
no_arguments "$@"
sh "$top/rust/build.sh"
stack=$top/rust/target/release/stack

# The limit has to bite: 300 KB must not fit.
if sh -c 'ulimit -s 256; "$0" --use 300; exit $?' "$stack" >/dev/null 2>&1; then
    echo "A stack of 256 KB held 300 KB: the limit is not in force." >&2
    exit 1
fi

(ulimit -s 256 && "$stack") || exit 1
echo "every operation runs on a stack of 256 KB"

echo
echo "least stack on which each call, with the program around it, runs (KB):"
"$stack" --names | while IFS= read -r name; do
    for size in 16 24 32 40 48 64 80 96 112 128 160 192 224 256; do
        if sh -c 'ulimit -s "$0"; "$1" "$2"; exit $?' "$size" "$stack" "$name" >/dev/null 2>&1; then
            printf '%5d  %s\n' "$size" "$name"
            break
        fi
    done
done
