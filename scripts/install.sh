#!/bin/sh
# usage: scripts/install.sh [--prefix DIR] [--destdir DIR]
# Installs the C libraries: the header, liblfj.a, liblfj_dispatch.a, a file of each for pkg-config
# and a README.
#   --prefix DIR    where it is to stand; /usr/local if not given
#   --destdir DIR   a folder to put in front of the prefix for now, to make a package of
#   --help          prints this
#   --version       prints the version that is installed
#   LFJ_LIB_DIR     a folder that has liblfj.a and liblfj_dispatch.a, which are then taken and not built
# Status 0 if all is installed, 1 if not, 2 with a wrong argument or without the library.
set -eu
umask 022
top=$(CDPATH='' cd -- "$(dirname -- "$0")/.." && pwd)
. "$top/scripts/script.sh"
. "$top/scripts/package.sh"
about "$@"
prefix=/usr/local
destdir=
while [ $# -gt 0 ]; do
    case $1 in
    --prefix | --destdir)
        [ -n "${2:-}" ] || wrong_usage "$1 wants a folder"
        case $1 in
        --prefix) prefix=$(absolute "$2") ;;
        --destdir) destdir=$(absolute "$2") ;;
        esac
        shift 2
        ;;
    *) wrong_usage "it has no argument $1" ;;
    esac
done
case $prefix in
*[[:space:]]*) wrong_usage "a prefix with a space: pkg-config would take it for two" ;;
esac
. "$top/scripts/static-library.sh"

put_library "$destdir$prefix" "$prefix"
put "$top/c/LIBRARY.md" "$destdir$prefix/share/doc/lfj"
mv "$destdir$prefix/share/doc/lfj/LIBRARY.md" "$destdir$prefix/share/doc/lfj/README.md"
echo "lfj $(product_version) is installed in $destdir$prefix: include/lfj.h, lib/liblfj.a,"
echo "lib/liblfj_dispatch.a, lib/pkgconfig/lfj.pc, lib/pkgconfig/lfj_dispatch.pc,"
echo "share/doc/lfj/README.md"
