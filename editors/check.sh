#!/bin/sh
# Says that the words in editors/words are those of the language: of the table of primitives and the resolver's words in the
# sources, in the definitions beside them, and in docs/LANGUAGE.md; and that editors/ has the files that editors/make.sh makes
# of them. It is no part of the gate, and fails where something differs.
#
# usage: editors/check.sh
set -eu
here=$(dirname -- "$(readlink -f -- "$0")")
crates=$here/../crates
language=$here/../docs/LANGUAGE.md
work=$(mktemp -d)
trap 'rm -rf "$work"' EXIT
failed=0

# Compares the words of the kinds $1, in order, with the words on standard input, which come from $2.
same() {
    awk -v kinds=" $1 " '!/^#/ && index(kinds, " " $1 " ") { for (i = 2; i <= NF; i++) print $i }' "$here/words" >"$work/ours"
    if ! diff "$work/ours" - >"$work/differs"; then
        echo "the words of the kind $1 aren't those of $2:" >&2
        sed 's/^/    /' "$work/differs" >&2
        failed=1
    fi
}

# The words that stand in file $1 between the line that begins with $2 and the next empty one: those in quotation marks.
quoted() {
    awk -v head="$2" '
        index($0, head) == 1 { on = 1 }
        /^$/ || /^}/ { on = 0 }
        on { while (match($0, /"[^"]*"/)) { print substr($0, RSTART + 1, RLENGTH - 2); $0 = substr($0, RSTART + RLENGTH) } }' "$1"
}

# The words between the marks of code on standard input, a line each.
coded() {
    grep -o '`[^`]*`' | tr -d '`' | tr ' ' '\n'
}

quoted "$crates/prim_table/src/names.rt" "pub fn prim(" | same primitive "prim_table/src/names.rt"
quoted "$crates/prim_table/specs/Names.antt" "table =" | same primitive "prim_table/specs/Names.antt"
while read -r kinds function; do
    kinds=$(echo "$kinds" | tr , ' ')
    quoted "$crates/name_resolve/src/words.rt" "pub fn $function(" | same "$kinds" "name_resolve/src/words.rt, $function"
    quoted "$crates/name_resolve/specs/Words.antt" "$function x =" | same "$kinds" "name_resolve/specs/Words.antt, $function"
done <<END
top top_word
expression expr_word
atom atom_word
type type_word
base base_word
sort sort_named
index index_word
END

# As many primitives are named as there are.
awk '/^    [A-Z][A-Za-z]*,$/' "$crates/core_syntax/src/primitive.rt" | wc -l | tr -d ' ' >"$work/variants"
awk '$1 == "primitive" { print NF - 1 }' "$here/words" | cmp -s - "$work/variants" || {
    echo "core_syntax/src/primitive.rt has another number of primitives" >&2
    failed=1
}

# The signs of a symbol, and the words of truth values.
awk '/^fn is_sign/ { on = 1 } /^}/ { on = 0 } on' "$crates/sexp_reader/src/bytes.rt" | grep -o "b'.'" | cut -c3 |
    same sign "sexp_reader/src/bytes.rt"
awk '/^fn hash/ { on = 1 } /^}/ { on = 0 } on && /Leaf::Bool/' "$crates/sexp_reader/src/pieces.rt" | grep -o "(b'.' | b'.')" |
    grep -o "b'.'" | sed "s/b'\(.\)'/#\1/" | same literal "sexp_reader/src/pieces.rt"

# The same in the document: the table of primitives, the reserved words, the tokens and the sorts.
awk '/^The table of names has/ { on = 1 } /^Each has the type/ { on = 0 } on && /^\| `/' "$language" | cut -d'|' -f2 | coded |
    same primitive "docs/LANGUAGE.md, the table of names"
reserved=$(sed -n 's/^Reserved as term names are //p' "$language")
echo "${reserved%%; as type names*}" | coded | LC_ALL=C sort >"$work/terms"
awk '/^(top|expression|atom) / { for (i = 2; i <= NF; i++) print $i }' "$here/words" | LC_ALL=C sort | diff - "$work/terms" >&2 || failed=1
types=${reserved#*; as type names }
echo "${types%%; as index names*}" | coded | LC_ALL=C sort >"$work/types"
awk '/^(type|base) / { for (i = 2; i <= NF; i++) print $i }' "$here/words" | LC_ALL=C sort | diff - "$work/types" >&2 || failed=1
index=${reserved#*; as index names }
echo "${index%%. A reserved*}" | coded | same index "docs/LANGUAGE.md, the reserved words"
sed -n 's/^| symbol | letters, digits and \(`[^`]*`\).*/\1/p' "$language" | coded | same sign "docs/LANGUAGE.md, the tokens"
sed -n 's/^| truth value | \([^,]*\),.*/\1/p' "$language" | coded | same literal "docs/LANGUAGE.md, the tokens"
sed -n 's/^S ::= \(.*\)/\1/p' "$language" | tr -d ' ' | tr '|' '\n' | same sort "docs/LANGUAGE.md, the grammar"

# What is made of them.
"$here/make.sh" "$work/made"
(cd "$work/made" && find . -type f) | while read -r file; do
    cmp "$here/$file" "$work/made/$file" >&2 || : >"$work/stale"
done
if [ -e "$work/stale" ]; then
    echo "editors/make.sh makes other files than these" >&2
    failed=1
fi
[ "$failed" -eq 0 ] && echo "the words are the language's, and the files are made of them"
exit $failed
