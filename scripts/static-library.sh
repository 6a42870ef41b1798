# Sets LFJ_LIB_DIR to the folder of the proved static libraries, liblfj.a and the dispatcher's
# liblfj_dispatch.a. Where the variable names a folder already, that one is taken. Else those of
# target/staticlib are reused while they are newer than the crates and made by the same kit, and
# built if not. To be sourced with `top` set to the repository's root, else with the root as the
# current folder.
. "${top:=$PWD}/scripts/script.sh"
if [ -n "${LFJ_LIB_DIR:-}" ]; then
    LFJ_LIB_DIR=$(absolute "$LFJ_LIB_DIR")
    for library in $LIBRARIES; do
        if [ ! -f "$LFJ_LIB_DIR/lib$library.a" ]; then
            echo "LFJ_LIB_DIR names $LFJ_LIB_DIR, which has no lib$library.a." >&2
            exit 2
        fi
    done
else
    for library in $LIBRARIES; do
        built "staticlib/lib$library.a" \
            "LFJ_LIB_DIR name a folder that has liblfj.a and liblfj_dispatch.a" \
            "${library}_c" lib "lib${library}_c.a"
    done
    LFJ_LIB_DIR=$top/target/staticlib
fi
export LFJ_LIB_DIR
