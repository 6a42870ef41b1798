#!/bin/sh
# kit/FORMAT.md is docs/FORMAT.md, so that the kit's folder stands on its own.
#   scripts/kit_format.sh           copies it
#   scripts/kit_format.sh --check   writes nothing; status 1 if the two differ
set -eu
top=$(CDPATH='' cd -- "$(dirname -- "$0")/.." && pwd)
. "$top/scripts/script.sh"
about "$@"
cd "$top"
case "$*" in
"") cp docs/FORMAT.md kit/FORMAT.md ;;
--check)
    if ! cmp docs/FORMAT.md kit/FORMAT.md; then
        echo "kit/FORMAT.md is not docs/FORMAT.md: scripts/kit_format.sh copies it" >&2
        exit 1
    fi
    ;;
*) wrong_usage "it takes no argument but --check" ;;
esac
