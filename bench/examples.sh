#!/bin/sh
# Runs the command lines that examples/, README.md and docs/TUTORIAL.md show, and compares what they print with the lines shown
# below them. A program that a page shows with its file's name in the first line is written to that file. Where an example reads
# data, its line has the file: `run FILE < DATA`. It also compares the programs and the data of crate
# worked_examples with those of examples/. It is no part of the gate, and fails where something differs.
#
# usage: bench/examples.sh [PROGRAM]    PROGRAM is a built program, which stands for the repository's own
set -eu
top=$(dirname -- "$(dirname -- "$(readlink -f -- "$0")")")
work=$(mktemp -d)
trap 'rm -rf "$work"' EXIT
remora=$top/remora
if [ $# -gt 0 ]; then
    # the launcher in a tree of its own, where this program is the one that is built
    mkdir -p "$work/tree/crates/remora_cli/out"
    cp "$top/remora" "$top/crates.txt" "$work/tree"
    ln -s "$top/docs" "$work/tree/docs"
    ln -s "$(readlink -f -- "$1")" "$work/tree/crates/remora_cli/out/remora_cli"
    remora=$work/tree/remora
fi
mkdir "$work/here"
cd "$work/here"
ln -s "$remora" remora
ln -s "$top/examples" examples
failed=0

# Writes each command line that a text shows to N.command, and the lines below it to N.due. A line of an example's comment
# begins with `;   `, one of a page stands alone; an empty line or the end of the block ends what is shown. A block that begins
# with `; NAME.remora: ` is written to that file.
shown() {
    rm -f ./*.command ./*.due
    awk '
        /^; [a-z]+\.remora: / { program = substr($2, 1, length($2) - 1) }
        /^```$/ { program = "" }
        program { print >program; next }
        { sub(/^;   /, "") }
        /^\$ / { file = sprintf("%03d", ++n); print substr($0, 3) >(file ".command"); printf "" >(file ".due"); next }
        /^(;|```)?$/ { file = "" }
        file { print >(file ".due") }' "$1"
}

for text in examples/*.remora "$top/README.md" "$top/docs/TUTORIAL.md"; do
    shown "$text"
    for command in *.command; do
        [ -e "$command" ] || continue
        sh "$command" >printed 2>/dev/null || true
        if ! cmp -s printed "${command%.command}.due"; then
            echo "$text: $(cat "$command") prints $(cat printed)" >&2
            failed=1
        fi
    done
done

# A program, or its data, without its comments and empty lines stands in the table of worked_examples. Data is named as the
# program that it is for, and a program that has data has a line that reads it.
table=$(cat "$top/crates/worked_examples/src/programs.rt")
for text in examples/*.remora examples/*.data; do
    source=$(sed '/^;/d; /^$/d' "$text")
    case $table in
        *"\"$source\""*) ;;
        *)
            echo "$text: worked_examples has another text" >&2
            failed=1
            ;;
    esac
done
for data in examples/*.data; do
    grep -q "^;   \$ .* ${data%.data}.remora < $data\$" "${data%.data}.remora" || {
        echo "$data: no line of ${data%.data}.remora reads it" >&2
        failed=1
    }
done
exit $failed
