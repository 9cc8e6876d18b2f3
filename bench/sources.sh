#!/bin/sh
# Measures `run` on sources of half a mebibyte and of a whole one: read, their names resolved, and refused or run. It is no
# part of the gate, and fails where the time more than doubles by a tenth.
#
# usage: bench/sources.sh [RUNS]
top=$(dirname -- "$(dirname -- "$(readlink -f -- "$0")")")
. "$top/bench/timing.sh"

# A source of at most $2 bytes of the kind $1, and a Lua text of as many bytes and the like shape.
write_source() {
    awk -v kind="$1" -v limit="$2" 'BEGIN {
        if (kind == "deep") {            # sums nested 200 deep, side by side
            for (i = 0; i < 200; i++) { front = front "(+ 1 "; back = back ")" }
            part = front "1" back " "
            printf "(define d Int ("
            for (n = 100; n + length(part) < limit; n += length(part)) printf "%s", part
            printf "))\n(main () 1)\n"
        } else if (kind == "wide") {     # one application to many arguments
            printf "(main () (+"
            for (n = 20; n + 8 < limit; n += 8) printf " (+ 1 2)"
            printf "))\n"
        } else if (kind == "array") {    # one array literal
            count = int((limit - 60) / 2)
            printf "(main () (array (%d)", count
            for (i = 0; i < count; i++) printf " 1"
            printf "))\n"
        } else {                         # many definitions
            for (i = 0; n + 60 < limit; i++) {
                line = sprintf("(define name%d Int %d)\n", i, i)
                n += length(line); printf "%s", line
            }
            printf "(main () 1)\n"
        }
    }'
}
write_lua() {
    awk -v kind="$1" -v limit="$2" 'BEGIN {
        if (kind == "deep") {
            for (i = 0; i < 60; i++) { front = front "(1+"; back = back ")" }
            part = front "1" back
            for (n = 0; n + length(part) + 4 < limit; n += length(part) + 4) printf "x = %s\n", part
        } else if (kind == "wide") {
            printf "x = {"
            for (n = 10; n + 8 < limit; n += 8) printf " (1+ 2),"
            printf "}\n"
        } else if (kind == "array") {
            printf "x = {"
            for (n = 10; n + 2 < limit; n += 2) printf "1,"
            printf "}\n"
        } else {
            for (i = 0; n + 30 < limit; i++) { line = sprintf("name%d = %d\n", i, i); n += length(line); printf "%s", line }
        }
    }'
}

"$remora" --prove >/dev/null
failed=0
for kind in deep wide array definitions; do
    doubling run "$kind" || failed=1
done
exit $failed
