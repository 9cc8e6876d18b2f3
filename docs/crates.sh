#!/bin/sh
# Draws the crates: writes docs/crates.svg of crates.txt, each crate above those that it stands on, without the lines that follow
# from others. With --check it writes nothing, and says whether the picture and the table of docs/ARCHITECTURE.md are those of
# crates.txt: a line for each crate, with what it stands on in the last column. It is no part of the gate.
#
# usage: docs/crates.sh [--check]
set -eu
docs=$(dirname -- "$(readlink -f -- "$0")")

# The crates, each with what it stands on where no other that it stands on does: a line for each, in the order of crates.txt.
reduced() {
    awk -F: '
        function stands(a, b,    i, n, on) {    # whether a stands on b, by way of others or not
            if ((a, b) in known) return known[a, b]
            known[a, b] = 0
            n = split(below[a], on, " ")
            for (i = 1; i <= n; i++) if (on[i] == b || (on[i] in below && stands(on[i], b))) known[a, b] = 1
            return known[a, b]
        }
        /^[^#]/ { name[++count] = $1; below[$1] = $2 }
        END {
            for (c = 1; c <= count; c++) {
                line = name[c] ":"
                n = split(below[name[c]], on, " ")
                for (i = 1; i <= n; i++) {
                    if (!(on[i] in below)) continue
                    needed = 1
                    for (j = 1; j <= n; j++) if (on[j] in below && j != i && stands(on[j], on[i])) needed = 0
                    if (needed) line = line " " on[i]
                }
                print line
            }
        }' "$docs/../crates.txt"
}

draw() {
    reduced | awk -F: '
        # how many crates stand below on the longest way down
        function level_of(a,    i, n, on, most) {
            if (a in level) return level[a]
            most = 0
            n = split(below[a], on, " ")
            for (i = 1; i <= n; i++) if (level_of(on[i]) >= most) most = level_of(on[i]) + 1
            return level[a] = most
        }
        function put(a, row) { rows[row, ++width[row]] = a }
        function join(a, b) { under[a] = under[a] " " b; over[b] = over[b] " " a }
        # puts the row in the order of the middle of what its members are joined to on one side
        function order(row, side,    i, j, n, on, sum, key, a) {
            for (i = 1; i <= width[row]; i++) {
                a = rows[row, i]
                n = split(side ? under[a] : over[a], on, " ")
                sum = 0
                for (j = 1; j <= n; j++) sum += place(on[j])
                key[a] = n ? sum / n : place(a)
            }
            for (i = 2; i <= width[row]; i++) {
                a = rows[row, i]
                for (j = i - 1; j >= 1 && key[rows[row, j]] > key[a]; j--) rows[row, j + 1] = rows[row, j]
                rows[row, j + 1] = a
            }
            spread(row)
        }
        # how wide a crate or a bend is, with the room around it
        function room(a) { return a ~ /^bend/ ? 12 : length(a) * 8 + 26 }
        # where the members of a row stand: what is left of the width is shared by all
        function spread(row,    i, sum, left) {
            for (i = 1; i <= width[row]; i++) sum += room(rows[row, i])
            left = sum < 1000 ? (1000 - sum) / width[row] : 0
            sum = 0
            for (i = 1; i <= width[row]; i++) {
                middle[rows[row, i]] = sum + (room(rows[row, i]) + left) / 2
                sum += room(rows[row, i]) + left
            }
        }
        function place(a) { return middle[a] }
        function segment(x, y, to_x, to_y) { return sprintf("<path d=\"M%.0f %d L%.0f %d\" stroke=\"#888\"/>", 40 + x, y, 40 + to_x, to_y) }
        function y(row) { return 20 + (top - row) * 62 }
        { name[++count] = $1; below[$1] = $2 }
        END {
            for (c = 1; c <= count; c++) if (level_of(name[c]) > top) top = level_of(name[c])
            for (c = 1; c <= count; c++) { row_of[name[c]] = level[name[c]]; put(name[c], level[name[c]]) }
            for (c = 1; c <= count; c++) {
                n = split(below[name[c]], on, " ")
                for (i = 1; i <= n; i++) {
                    # a line that passes rows has a bend in each
                    from = name[c]
                    for (row = level[name[c]] - 1; row > level[on[i]]; row--) {
                        bend = "bend " name[c] " " on[i] " " row
                        gsub(" ", "/", bend)
                        row_of[bend] = row
                        put(bend, row)
                        join(from, bend)
                        from = bend
                    }
                    join(from, on[i])
                }
            }
            for (row = 0; row <= top; row++) spread(row)
            for (turn = 1; turn <= 12; turn++) {
                for (row = 1; row <= top; row++) order(row, 1)
                for (row = top - 1; row >= 0; row--) order(row, 0)
            }
            printf "<svg xmlns=\"http://www.w3.org/2000/svg\" viewBox=\"0 0 1080 %d\" font-family=\"monospace\" font-size=\"13\">\n", y(0) + 46
            print "<!-- written by docs/crates.sh of crates.txt -->"
            print "<rect width=\"100%\" height=\"100%\" fill=\"white\"/>"
            for (a in under) {
                n = split(under[a], on, " ")
                if (a ~ /^bend/) lines[++many] = segment(place(a), y(row_of[a]), place(a), y(row_of[a]) + 26)
                for (i = 1; i <= n; i++) lines[++many] = segment(place(a), y(row_of[a]) + 26, place(on[i]), y(row_of[on[i]]))
            }
            for (i = 2; i <= many; i++) {       # in one order, whatever the order of an array is
                line = lines[i]
                for (j = i - 1; j >= 1 && lines[j] > line; j--) lines[j + 1] = lines[j]
                lines[j + 1] = line
            }
            for (i = 1; i <= many; i++) print lines[i]
            for (c = 1; c <= count; c++) {
                a = name[c]
                wide = length(a) * 8 + 14
                printf "<rect x=\"%.0f\" y=\"%d\" width=\"%d\" height=\"26\" rx=\"4\" fill=\"#eef3fa\" stroke=\"#446\"/>", 40 + place(a) - wide / 2, y(level[a]), wide
                printf "<text x=\"%.0f\" y=\"%d\" text-anchor=\"middle\">%s</text>\n", 40 + place(a), y(level[a]) + 17, a
            }
            print "</svg>"
        }'
}

if [ "${1-}" != --check ]; then
    draw >"$docs/crates.svg"
    exit
fi
work=$(mktemp -d)
trap 'rm -rf "$work"' EXIT
draw >"$work/crates.svg"
failed=0
cmp "$work/crates.svg" "$docs/crates.svg" >&2 || failed=1
# a crate and, in the order of the alphabet, what it stands on
sorted() {
    awk '{ gsub(/[`:,|]/, " "); n = split($0, on, " "); for (i = 3; i <= n; i++) { a = on[i]; for (j = i - 1; j >= 2 && on[j] > a; j--) on[j + 1] = on[j]; on[j + 1] = a }
        line = on[1]; for (i = 2; i <= n; i++) line = line " " on[i]; print line }' | LC_ALL=C sort
}
reduced | sorted >"$work/due"
awk -F'|' '/^\| `[a-z_]*` \|/ && NF == 5 { print $2, $4 }' "$docs/ARCHITECTURE.md" | sorted >"$work/table"
diff "$work/due" "$work/table" >&2 || failed=1
exit $failed
