# What the scripts share. To be sourced with `top` set to the repository's root and before any
# cd, so that a relative path is taken from the folder in which the script was called.

# The static libraries, each by the name of the crate whose functions it has; the crate NAME_c
# exports them.
LIBRARIES="lfj lfj_dispatch"

# show_help: prints the comment at the head of the script that was called
show_help() {
    sed -n -e 1d -e '/^#/!q' -e 's/^# \{0,1\}//p' "$0" || exit 2
}

# wrong_usage WORDS: says what is wrong with the arguments, and how they should be
wrong_usage() {
    echo "$0: $1" >&2
    show_help >&2
    exit 2
}

# product_version: the version that the header says
product_version() {
    sed -n 's/^#define LFJ_VERSION_TEXT "\(.*\)"$/\1/p' "$top/include/lfj.h"
}

# about WORD..: answers --help and --version, wherever they stand. Every script calls it first,
# before anything is built.
about() {
    for word; do
        case $word in
        -h | --help)
            show_help
            exit 0
            ;;
        --version)
            echo "lfj $(product_version)" || exit 2
            exit 0
            ;;
        esac
    done
}

# no_arguments WORD..: for a script that takes none but --help and --version
no_arguments() {
    about "$@"
    [ $# -eq 0 ] || wrong_usage "it takes no argument, and got $1"
}

# fail WORDS: says what went wrong
fail() {
    echo "${0##*/}: $1" >&2
    exit 1
}

# work_folder: sets `work` to a folder of the script's own, which goes when the script ends
work_folder() {
    work=$(mktemp -d)
    trap 'rm -rf "$work"' EXIT
}

# begin_test WORD..: for a test without arguments, which runs at the repository's root
begin_test() {
    no_arguments "$@"
    cd "$top"
    work_folder
}

# is_number WORD: is it a decimal number?
is_number() {
    case $1 in
    '' | *[!0-9]*) return 1 ;;
    esac
}

# absolute PATH: the path from the folder in which the script was called, as an absolute one
absolute() {
    case $1 in
    /*) printf '%s\n' "$1" ;;
    *) printf '%s/%s\n' "$PWD" "$1" ;;
    esac
}

# prover CRATE COMMAND: runs `rt COMMAND` in the crate's folder, on the crate's own input if it has
# one; what it says goes to target/rt.log and is shown only if it fails
prover() {
    log=$top/target/rt.log
    input=$top/crates/$1/stdin
    [ -f "$input" ] || input=/dev/null
    echo "rt $2 in crates/$1: proves what is not proved yet (everything takes some minutes); its words go to target/rt.log" >&2
    if ! (cd "$top/crates/$1" && rt "$2" <"$input") >"$log" 2>&1; then
        grep -v -e ': proved$' -e '^checked ' -e '^statements ' -e '^library ' -e '^crate ' -e '^logic' "$log" |
            tail -n 40 >&2
        echo "rt $2 in crates/$1 failed; all that it said stands in target/rt.log." >&2
        exit 1
    fi
}

# fresh FILE: is FILE there, made by the kit on the path, and newer than all of the crates? The
# kit's version stands in FILE.kit, which is as old as the start of the run that made FILE. What rt
# itself keeps in a crate's out/ says nothing of the crate.
fresh() {
    [ -f "$1" ] && [ -f "$1.kit" ] && [ "$(cat "$1.kit")" = "$(rt version)" ] &&
        [ -z "$(find "$top/crates.txt" "$top"/crates/*/* -name out -prune -o -newer "$1.kit" -print | head -n 1)" ]
}

# built FILE OTHERWISE CRATE COMMAND OUTPUT: makes target/FILE, if it is not fresh, by `rt COMMAND`
# in the crate's folder, which writes out/OUTPUT there. OTHERWISE says which environment variable
# can name what.
built() {
    file=$top/target/$1
    if ! command -v rt >/dev/null; then
        echo "The Rattle kit's rt is not on the path: it proves and builds target/$1." >&2
        echo "Or let the environment variable $2." >&2
        exit 2
    fi
    if fresh "$file"; then
        echo "target/$1 is reused: it is newer than the crates and made by the same kit" >&2
        return
    fi
    mkdir -p "${file%/*}"
    rt version >"$file.kit.new"
    prover "$3" "$4"
    if ! cp "$top/crates/$3/out/$5" "$file"; then
        echo "rt $4 did not write crates/$3/out/$5; what it said stands in target/rt.log." >&2
        exit 1
    fi
    mv "$file.kit.new" "$file.kit"
}
