# Sets SHEET to the proved program `sheet`. Where the variable names a program already, that
# one is taken. Else target/bin/sheet is reused while it is newer than the crates and made by
# the same kit, and built if not. To be sourced with `top` set to the repository's root, else
# with the root as the current folder.
. "${top:=$PWD}/scripts/script.sh"
if [ -n "${SHEET:-}" ]; then
    SHEET=$(absolute "$SHEET")
    if [ ! -f "$SHEET" ] || [ ! -x "$SHEET" ]; then
        echo "SHEET names $SHEET, which is not a program that can be run." >&2
        exit 2
    fi
else
    built bin/sheet "SHEET name this program" sheet run sheet
    SHEET=$top/target/bin/sheet
fi
export SHEET
