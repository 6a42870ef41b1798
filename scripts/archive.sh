#!/bin/sh
# usage: scripts/archive.sh
# Writes target/lfj-VERSION-x86_64-linux.tar.gz: the header, liblfj.a, liblfj_dispatch.a, their
# files for pkg-config, a README, the program c/sheet.c as an example, and the conformance kit. It
# works without the Rattle kit, in whatever folder it is unpacked. The same files always give the
# same bytes.
#   --help        prints this
#   --version     prints the version that the archive has
#   LFJ_LIB_DIR   a folder that has liblfj.a and liblfj_dispatch.a, which are then taken and not built
# Needs GNU tar. Status 0 if it is written, 1 if not, 2 with a wrong argument or without the library.
set -eu
umask 022
top=$(CDPATH='' cd -- "$(dirname -- "$0")/.." && pwd)
. "$top/scripts/script.sh"
. "$top/scripts/package.sh"
no_arguments "$@"
if ! tar --version 2>/dev/null | grep -q GNU; then
    echo "$0: tar is not GNU tar, which is needed for archives that are always the same" >&2
    exit 2
fi
. "$top/scripts/static-library.sh"

name=lfj-$(product_version)-x86_64-linux
mkdir -p "$top/target"
work_folder
stage=$work/$name

# shellcheck disable=SC2016 # pkg-config puts in the folder of the .pc
put_library "$stage" '${pcfiledir}/../..'
put "$top/c/LIBRARY.md" "$stage"
mv "$stage/LIBRARY.md" "$stage/README.md"
put "$top/c/sheet.c" "$stage/c"
cp -R "$top/kit" "$stage/kit"
find "$stage/kit" -name __pycache__ -exec rm -rf {} +

tar --sort=name --mtime='2000-01-01 00:00:00Z' --owner=0 --group=0 --numeric-owner \
    --mode='u=rwX,go=rX' --format=ustar -C "$work" -cf "$work/$name.tar" "$name"
gzip -9n "$work/$name.tar"
mv "$work/$name.tar.gz" "$top/target/$name.tar.gz"
echo "target/$name.tar.gz: $(($(wc -c <"$top/target/$name.tar.gz"))) bytes"
