# What install.sh and archive.sh share. To be sourced behind script.sh; put_library also wants
# what static-library.sh sets.

# put FILE FOLDER: copies FILE into FOLDER, which is made
put() {
    mkdir -p "$2" && cp "$1" "$2" && chmod 644 "$2/${1##*/}" && return
    echo "$0: $1 could not be copied into $2" >&2
    exit 1
}

# put_pc FOLDER PREFIX LIBRARY DESCRIPTION [LINE..]: LIBRARY.pc, which says PREFIX, in FOLDER, with
# further lines
put_pc() {
    pc=$1/lib/pkgconfig/$3.pc
    mkdir -p "$1/lib/pkgconfig"
    cat >"$pc" <<END || exit 1
prefix=$2
includedir=\${prefix}/include
libdir=\${prefix}/lib

Name: $3
Description: $4
Version: $(product_version)
Cflags: -I\${includedir}
Libs: -L\${libdir} -l$3
END
    shift 4
    [ $# -eq 0 ] || printf '%s\n' "$@" >>"$pc" || exit 1
}

# put_library FOLDER PREFIX: the header, the libraries and their .pc, which say PREFIX, in FOLDER
put_library() {
    put "$top/include/lfj.h" "$1/include"
    for library in $LIBRARIES; do
        put "$LFJ_LIB_DIR/lib$library.a" "$1/lib"
    done
    put_pc "$1" "$2" lfj "Which goals of a clause may run side by side, by proved functions"
    put_pc "$1" "$2" lfj_dispatch "Runs the goals of a clause on several heads, by proved functions" \
        "Requires: lfj = $(product_version)"
}
