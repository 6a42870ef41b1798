#!/bin/sh
# usage: scripts/test_packages.sh
# Tests install.sh and archive.sh: installs into a folder of its own, writes the archive twice
# and compares, unpacks it, and builds the example by pkg-config and without, with no rt on the
# path; it has to print the samples' sheets. The README's program over the dispatcher has to run
# them for as many ticks as their charts say.
#   LFJ_LIB_DIR   a folder that has liblfj.a and liblfj_dispatch.a, which are then taken and not built
#   CC            the compiler; cc if not set
# Status 0 if all is right, 1 if not, 2 with a wrong argument or without the library.
set -eu
top=$(CDPATH='' cd -- "$(dirname -- "$0")/.." && pwd)
. "$top/scripts/script.sh"
. "$top/scripts/package.sh"
no_arguments "$@"
. "$top/scripts/static-library.sh"
CC=${CC:-cc}
work_folder

# path_without_rt: the path without the folders that have rt
path_without_rt() {
    printf '%s\n' "$PATH" | tr ':' '\n' | while IFS= read -r folder; do
        [ -e "$folder/rt" ] || printf ':%s' "$folder"
    done | sed 's/^://'
}

# example PROGRAM: does it print the sheets of the samples?
example() {
    for record in "$top"/samples/*.lfj; do
        status=0
        "$1" "$record" >"$work/given" || status=$?
        [ "$status" -le 1 ] || fail "$1 $record: status $status"
        cmp "$work/given" "${record%.lfj}.sheet" || fail "$1 prints another sheet of $record"
    done
}

# dispatched README FOLDER: builds the README's program over the dispatcher, by pkg-config and
# without, in FOLDER, which has include and lib; does it say the last tick of the charts?
dispatched() {
    sed -n -e '/^    \/\* run\.c/,/^    }$/s/^    //p' "$1" >"$work/run.c"
    # shellcheck disable=SC2046
    $CC "$work/run.c" $(pkg-config --cflags --libs lfj_dispatch) -o "$work/run-by-pkg-config"
    $CC "-I$2/include" "$work/run.c" "-L$2/lib" -llfj_dispatch -llfj -o "$work/run-by-hand"
    charts=0
    for chart in "$top"/samples/*.heads-3.chart; do
        ticks=$(sed -n 's/^T = *\([0-9]*\) .*/\1/p' "$chart")
        for run in run-by-pkg-config run-by-hand; do
            given=$("$work/$run" <"${chart%.heads-3.chart}.lfj") || fail "$run of $chart: status $?"
            [ "$given" = "$ticks ticks" ] || fail "$run: $given, $chart has $ticks"
        done
        charts=$((charts + 1))
    done
    [ "$charts" -gt 0 ] || fail "samples/ has no chart of 3 heads"
    ! "$work/run-by-hand" <"$top/samples/refused-cut.lfj" 2>"$work/given" || fail "run: not refused"
    grep -q 'the record ends within' "$work/given" || fail "run: $(cat "$work/given")"
}

PATH=$(path_without_rt)
! command -v rt >/dev/null || fail "rt is still on the path"
command -v pkg-config >/dev/null || fail "pkg-config is not on the path (package pkgconf of Debian)"

sh "$top/scripts/install.sh" --destdir "$work/dest" --prefix /usr >"$work/log"
[ -f "$work/dest/usr/share/doc/lfj/README.md" ] || fail "install.sh: no README"
PKG_CONFIG_PATH=$work/dest/usr/lib/pkgconfig
export PKG_CONFIG_PATH
[ "$(pkg-config --variable=includedir lfj)" = /usr/include ] || fail "lfj.pc: not the prefix"
sh "$top/scripts/install.sh" --prefix "$work/prefix" >"$work/log"
PKG_CONFIG_PATH=$work/prefix/lib/pkgconfig
for library in $LIBRARIES; do
    [ "$(pkg-config --modversion "$library")" = "$(product_version)" ] || fail "$library.pc: not the version"
done
# shellcheck disable=SC2046 # the words of pkg-config
$CC "$top/c/sheet.c" $(pkg-config --cflags --libs lfj) -o "$work/installed"
example "$work/installed"
dispatched "$work/prefix/share/doc/lfj/README.md" "$work/prefix"
echo "installed: the example, built by pkg-config, prints the samples' sheets, and the README's runs them"

name=lfj-$(product_version)-x86_64-linux
sh "$top/scripts/archive.sh" >"$work/log"
cp "$top/target/$name.tar.gz" "$work/first.tar.gz"
(umask 077 && sh "$top/scripts/archive.sh") >"$work/log"
cmp "$work/first.tar.gz" "$top/target/$name.tar.gz" || fail "two archives of the same files differ"
tar -xzf "$work/first.tar.gz" -C "$work"
cd "$work/$name"
PKG_CONFIG_PATH=$PWD/lib/pkgconfig
# shellcheck disable=SC2046
$CC c/sheet.c $(pkg-config --cflags --libs lfj) -o by-pkg-config
$CC -Iinclude c/sheet.c -Llib -llfj -o by-hand
example ./by-pkg-config
example ./by-hand
dispatched README.md .
for file in README.md kit/README.md kit/run.sh; do
    [ -f "$file" ] || fail "the archive has no $file"
done
echo "archive: always the same bytes; the example, built in it without rt, prints the samples' sheets,"
echo "and the README's program runs them"
