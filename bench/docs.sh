#!/bin/sh
# Says which files that the documents name are not there. It is no part of the gate, and fails where one is missing. A name that
# begins with src/, specs/ or proofs/ stands for a file of some crate. A name without its ending is left out, and so is one of a
# program that a page has its reader write.
#
# usage: bench/docs.sh
set -eu
cd -- "$(dirname -- "$(dirname -- "$(readlink -f -- "$0")")")"
failed=0
for page in README.md docs/*.md editors/*.md; do
    for name in $(grep -oE '[A-Za-z0-9_./-]+\.(rt|antt|md|sh|remora|data|txt|edit|svg)\b' "$page" | sort -u); do
        case $name in
        http* | *path/to* | /*) continue ;;
        */*) ;;
        *.remora | *.data) continue ;;
        esac
        base=${page%/*}
        [ "$base" != "$page" ] || base=.
        for place in "$name" "$base/$name" "docs/$name" "bench/$name" crates/"$name" crates/*/"$name" crates/*/src/"$name" crates/*/specs/"$name" crates/*/proofs/"$name" \
            crates/*/proofs/*/"$name"; do
            [ ! -e "$place" ] || continue 2
        done
        echo "$page names $name, which is not there" >&2
        failed=1
    done
done
exit $failed
