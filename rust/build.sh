#!/bin/sh
# usage: rust/build.sh [PACKAGE]
# Builds the proved static library and the Rust programs that link it, or one package's alone,
# into rust/target/release.
# The library that was built last is reused while it is newer than the crates.
#   LFJ_LIB_DIR   a folder that has liblfj.a and liblfj_dispatch.a, which are then taken and not built
# Status 0 if all is built, 1 if not, 2 with a wrong argument or without the library.
set -eu
top=$(CDPATH='' cd -- "$(dirname -- "$0")/.." && pwd)
. "$top/scripts/script.sh"
about "$@"
package=${1-}
[ $# -le 1 ] || wrong_usage "one package at most, and no more words"
case $package in
"" | annotate | compare | lfj) ;;
*) wrong_usage "no package is called $package; they are annotate, compare and lfj" ;;
esac
. "$top/scripts/static-library.sh"
cd "$top/rust"
if [ -n "$package" ]; then
    set -- --package "$package"
else
    set -- --workspace
fi
cargo build --release --offline --quiet --all-features "$@" || exit 1
