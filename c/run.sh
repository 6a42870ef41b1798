#!/bin/sh
# usage: c/run.sh
# Tests the C face: compiles the header as C and C++ without a warning, tests its helpers,
# calls every function and compares the answers, holds it against the conformance kit, and
# runs the C program `sheet` on every sample beside the proved program.
#   LFJ_LIB_DIR   a folder that has liblfj.a and liblfj_dispatch.a, which are then taken and not built
#   SHEET         the proved program `sheet`, which is then taken and not built
#   CC, CXX       the compilers; cc and c++ if not set
# Status 0 if all is right, 1 if not, 2 with a wrong argument or without the library.
set -eu
top=$(CDPATH='' cd -- "$(dirname -- "$0")/.." && pwd)
. "$top/scripts/script.sh"
no_arguments "$@"
. "$top/scripts/static-library.sh"
. "$top/scripts/proved-sheet.sh"
cd "$top"
CC=${CC:-cc}
CXX=${CXX:-c++}
out=target/c
mkdir -p "$out"
warnings="-Wall -Wextra -pedantic -Wconversion -Wshadow -Werror"

# compiled NAME: builds c/NAME.c over the libraries
compiled() {
    $CC -std=c99 -O2 $warnings -Iinclude "c/$1.c" "$LFJ_LIB_DIR/liblfj.a" \
        "$LFJ_LIB_DIR/liblfj_dispatch.a" -o "$out/$1" || fail "c/$1.c does not compile"
}

for std in c99 c11 c17; do
    $CC -std=$std $warnings -Iinclude -fsyntax-only c/header.c || fail "lfj.h as $std"
done
for std in c++11 c++14 c++17; do
    $CXX -std=$std $warnings -Iinclude -fsyntax-only -x c++ c/header.c || fail "lfj.h as $std"
done
compiled header
"$out/header" || fail "a helper of lfj.h is wrong"
$CC -std=c99 -O2 $warnings -Iinclude c/nulls.c -o "$out/nulls" || fail "c/nulls.c does not compile"
"$out/nulls" || fail "lfj.h lends the library a null pointer"
echo "lfj.h compiles as C and C++ without a warning, its helpers take answers apart, and no null pointer passes it"

compiled calls
"$out/calls" samples || fail "a call of lfj.h is wrong"
$CXX -std=c++11 $warnings -Iinclude -x c++ c/calls.c -x none "$LFJ_LIB_DIR/liblfj_dispatch.a" \
    "$LFJ_LIB_DIR/liblfj.a" -o "$out/calls-c++" || fail "c/calls.c does not compile as C++"
"$out/calls-c++" samples || fail "a call of lfj.h from C++ is wrong"
echo "every function answers and writes what the samples' descriptions say, from C and from C++"

compiled answers
sh kit/run.sh "$out/answers" >"$out/kit.log" || {
    cat "$out/kit.log" >&2
    fail "the C face differs from the kit"
}
echo "the kit by the C face: $(grep " in all\$" "$out/kit.log")"

compiled sheet
count=0
for record in samples/*.lfj; do
    expected=${record%.lfj}.sheet
    status=0
    "$out/sheet" "$record" >"$out/given" || status=$?
    "$SHEET" <"$record" >"$out/proved"
    cmp "$out/given" "$out/proved" || fail "$record: not the sheet of the proved program"
    cmp "$out/given" "$expected" || fail "$record: not $expected"
    refused=0
    ! grep -q '^refused' "$expected" || refused=1
    [ "$status" -eq "$refused" ] || fail "$record: status $status, not $refused"
    count=$((count + 1))
done
[ "$count" -gt 0 ] || fail "samples/ has no record"
echo "$count samples: the C program's sheet, the proved program's and the expected one agree"

# wrong_call WORD..: the C program has to end with status 2
wrong_call() {
    status=0
    "$out/sheet" "$@" >"$out/given" 2>&1 || status=$?
    [ "$status" -eq 2 ] || fail "sheet $*: status $status, not 2"
}
wrong_call --nothing
wrong_call samples/half-motif.lfj samples/no-form.lfj
wrong_call samples
wrong_call "$out/no-such-record"
if [ -c /dev/full ]; then
    for program in sheet answers; do
        status=0
        "$out/$program" <samples/half-motif.lfj >/dev/full 2>"$out/given" || status=$?
        [ "$status" -eq 2 ] && [ -s "$out/given" ] || fail "$program did not say that nothing was written"
    done
fi
echo "wrong arguments, and what cannot be read or written, are said with status 2"
