#!/bin/sh
# The desk's tool `annotate` over the proved library:
#   rust/annotate.sh COMMAND FILE [OPTION..]     rust/annotate.sh --help says more
# Builds the library and the tool if needed, and runs it. Help, version and wrong usage are
# answered before anything is built, in the tool's own words.
set -eu
here=$(dirname "$0")
help=$here/annotate/help

# answer WORD..: runs the command for its output alone
answer() {
    "$@" || exit 2
    exit 0
}

version() {
    answer sed -n 's/^version = "\(.*\)"$/annotate \1/p' "$here/Cargo.toml"
}

# wrong COMMAND WORDS: what is wrong with the words behind a command
wrong() {
    echo "annotate $1: $2" >&2
    head -n 1 "$help/$1.txt" >&2
    exit 2
}

commands="the commands are sheet, explain, draw, dispatch, record, show"
case ${1-} in
-h | --help)
    answer cat "$help/annotate.txt"
    ;;
--version) version ;;
sheet) options="--names" ;;
draw) options="--text -o" ;;
dispatch) options="--heads --text -o" ;;
record) options="--hex" ;;
explain | show) options="" ;;
*)
    if [ $# -eq 0 ]; then
        echo "annotate: a command is missing; $commands" >&2
    else
        echo "annotate: \`$1\` is no command; $commands" >&2
    fi
    echo "annotate --help says more" >&2
    exit 2
    ;;
esac

command=$1
needs_file="-o needs a file"
needs_number="--heads needs a number from 1 to 8"
files=0
skip=1 # the command, or the word behind -o or --heads
for word in "$@"; do
    if [ $skip = 1 ]; then
        skip=0
    elif [ $skip = out ]; then
        [ -n "$word" ] || wrong "$command" "$needs_file"
        skip=0
    elif [ $skip = heads ]; then
        case $word in
        [1-8]) skip=0 ;;
        *) wrong "$command" "$needs_number" ;;
        esac
    else
        case $word in
        -h | --help)
            answer cat "$help/$command.txt"
            ;;
        --version) version ;;
        -?*)
            case " $options " in
            *" $word "*)
                case $word in
                -o) skip=out ;;
                --heads) skip=heads ;;
                esac
                ;;
            *) wrong "$command" "\`$word\` is none of its options" ;;
            esac
            ;;
        *)
            [ $files = 0 ] || wrong "$command" "one file, not both \`$file\` and \`$word\`"
            file=$word
            files=1
            ;;
        esac
    fi
done
[ $skip != out ] || wrong "$command" "$needs_file"
[ $skip != heads ] || wrong "$command" "$needs_number"
[ $files = 1 ] || wrong "$command" "a file is missing; - is standard input"

sh "$here/build.sh" annotate </dev/null >&2 || exit 2
exec "$here/target/release/annotate" "$@"
