#!/bin/sh
# Runs `./remora --explain` on one text for each refusal, 1 to 33 and 40 to 44, and for the other answers that can be shown: the
# examples of docs/REFUSALS.md. It says of each that the answer is the one of its row, that a mark stands under the place, and
# that the row's words follow. It is no part of the gate, and fails where something differs.
#
# usage: bench/explain.sh [PROGRAM]    PROGRAM is a built program, which stands for the repository's own
set -eu
top=$(dirname -- "$(dirname -- "$(readlink -f -- "$0")")")
program=${1:+$(readlink -f -- "$1")}
work=$(mktemp -d)
trap 'rm -rf "$work"' EXIT
cd "$work"
remora=$top/remora
if [ -n "$program" ]; then
    # the launcher in a tree of its own, where this program is the one that is built
    mkdir -p tree/crates/remora_cli/out
    cp "$top/remora" "$top/crates.txt" tree/
    ln -s "$top/docs" tree/docs
    ln -s "$program" tree/crates/remora_cli/out/remora_cli
    remora=$work/tree/remora
fi
tried=0
failed=0

ones() {
    yes 1 | head -n "$1" | tr '\n' ' ' | sed 's/ $//'
}

# The text that row $1 has as its example, $2.
write_text() {
    case $1 in
    1) printf '\377' ;;
    5) printf '%257s' '' | tr ' ' '(' ;;
    12) printf '(main () (array (%s) 1))' "$(ones 65)" ;;
    16) printf '(main ((x (A Int (shape %s)))) 1)' "$(ones 16382)" ;;
    31) printf '%1048577s' '' ;;
    33) ;;
    *) printf '%s' "$2" | sed 's/^[^`]*`//; s/`[^`]*$//' ;;
    esac
}

# Fails with the words $1 and what was printed.
blame() {
    echo "$1" >&2
    sed 's/^/    /' out err >&2
    failed=$((failed + 1))
}

# Calls the launcher with words, which stand behind: a row's name, its answer, what it means and what to do. It is to print the
# answer, and these words, without the marks of links.
call() {
    name=$1 answer=$2 means=$3 advice=$4
    shift 4
    tried=$((tried + 1))
    "$remora" --explain "$@" <data >out 2>err || true
    sed -i '/^remora: .* from the unproved build/d' err
    [ -z "$answer" ] || [ "$(cat out)" = "$answer" ] || blame "$name: the answer is to be $answer"
    links='s/\[[^]]*\](\([^)]*\))/docs\/\1/g'
    grep -qF ": $(printf '%s' "$means" | sed "$links")" err || blame "$name: what it means is not said"
    grep -qxF "what to do: $(printf '%s' "$advice" | sed "$links")" err || blame "$name: what to do is not said"
}

# The mark is to stand under the byte at the place of the text; the texts here are of one line, and ASCII but for a byte.
look_at_mark() {
    column=${2##*:}
    due=$(tail -c "+$column" "$3" | head -c 1 | LC_ALL=C tr '\000-\037\177-\377' '?')
    shown=$(awk '/^ *[0-9]+ [|] / { text = $0 } /^ *[|] / { print substr(text, index($0, "^"), 1) }' err)
    grep -q '^       | .*^$' err || blame "$1: there is no mark"
    [ "$shown" = "$due" ] || blame "$1: the mark stands under $shown"
}

# A row a line: its number, its example, its answer, what it means and what to do, with tabs between them.
rows() {
    awk -v head="$1" '
        /^\|/ { n = split($0, cell, / *\| */) }
        !/^\|/ { table = "" }
        table == head && cell[2] !~ /^-/ { for (i = 2; i < n; i++) printf "%s%s", cell[i], i < n - 1 ? "\t" : "\n" }
        /^\| (N|status) \|/ { table = cell[2] }' "$top/docs/REFUSALS.md"
}

echo '(main ((x (A Int (shape 2)))) (+ x 1))' >takes.remora
rows N >rows
tab=$(printf '\t')
while IFS=$tab read -r number means example answer advice <&3; do
    : >data
    write_text "$number" "$example" >text
    answer=$(printf '%s' "$answer" | tr -d '`')
    case $number in
    32 | 33) call "$number" "$answer" "$means" "$advice" exec text ;;
    4?)
        cp text data
        call "$number" "$answer" "$means" "$advice" run takes.remora
        ;;
    *) call "$number" "$answer" "$means" "$advice" check text ;;
    esac
    look_at_mark "$number" "$answer" text
done 3<rows
numbers=$(cut -f1 rows | tr '\n' ' ')
due=$(seq 1 33 | tr '\n' ' ')$(seq 40 44 | tr '\n' ' ')
[ "$numbers" = "$due" ] || blame "docs/REFUSALS.md has the rows $numbers"

# A code of one block with these instructions, a line each.
code() {
    count=$(($(printf '%s' "$1" | tr -cd ';' | wc -c) + 1))
    printf 'remora-code 1\nparams 0\nblocks 1\nblock %s\n%s\n' "$count" "$(printf '%s' "$1" | tr ';' '\n')"
}

: >data
rows status >rows
while IFS=$tab read -r status answer means advice <&3; do
    answer=$(printf '%s' "$answer" | tr -d '`')
    set -- run text
    case $answer in
    "trap overflow") echo '(main () (+ 9223372036854775807 1))' >text ;;
    "trap zero") echo '(main () (div 1 0))' >text ;;
    "trap size") echo '(main () (frame (0) (A Int (shape 4294967296))))' >text ;;
    "still running")
        echo '(main () (+ 1 2))' >text
        set -- run text --steps 6
        ;;
    "stuck operand") code 'array (1)' >text; set -- exec text ;;
    "stuck kind") code 'const () 1;const () 1;app ((shape)) (shape)' >text; set -- exec text ;;
    "stuck rank") code 'prim +;const () 1;const () 2;app ((shape 1) (shape)) (shape)' >text; set -- exec text ;;
    "stuck shape") code 'prim +;const (2) 1 2;const (3) 1 2 3;app ((shape) (shape)) (shape)' >text; set -- exec text ;;
    "the usage line") answer='usage: remora check FILE, build FILE, run or exec or reduce FILE [--steps N], soak K'; set -- walk text ;;
    nothing)
        [ "$status" -eq 4 ] || continue
        answer=
        set -- run none
        ;;
    *) continue ;;
    esac
    call "$answer" "$answer" "$means" "$advice" "$@"
done 3<rows
echo "$tried answers tried, $failed faults"
[ "$failed" -eq 0 ]
