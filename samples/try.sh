#!/bin/sh
# A clause of your own: samples/try.sh my-clause.txt
# prints the names of its variables and its sheet, by the proved annotator. The file is a
# description, a record or a record in hexadecimal; - is standard input.
set -eu
annotate=$(dirname "$0")/../rust/annotate.sh
usage="usage: samples/try.sh FILE     a description (samples/README.md) or a record; - is standard input"
if [ $# -ne 1 ]; then
    echo "$usage" >&2
    exit 2
fi
case $1 in
-h | --help)
    echo "$usage" || exit 2
    exit 0
    ;;
--version) exec sh "$annotate" --version ;;
-?*)
    echo "$usage" >&2
    exit 2
    ;;
esac
status=0
sheet=$(sh "$annotate" sheet --names "$1") || status=$?
if [ -n "$sheet" ]; then
    printf '%s\n' "$sheet" || exit 2
    echo "# in words: rust/annotate.sh explain $1" || exit 2
    [ $status -ne 0 ] || {
        echo "# as a picture: rust/annotate.sh draw --text $1"
        echo "# on three heads: rust/annotate.sh dispatch --heads 3 --text $1"
    } || exit 2
fi
exit $status
